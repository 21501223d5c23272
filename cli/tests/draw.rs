//! The program as people run it: its pictures, its lines, its status.

// the reader of PNG pictures, which stands with the writer's own tests
#[path = "../src/deflate.rs"]
mod deflate;
#[path = "../src/png.rs"]
mod png;
mod shared;

use shared::{drawn, folder, refused, Tones};
use std::fs;
use std::path::Path;

/// The pixels of a .pgm file: width, height, rows.
fn read_pgm(file: &Path) -> (u32, u32, Vec<Vec<u8>>) {
    let bytes = fs::read(file).unwrap();
    let lines: Vec<usize> = bytes.iter().enumerate().filter(|(_, &b)| b == b'\n').map(|(at, _)| at).take(3).collect();
    let head = std::str::from_utf8(&bytes[..lines[2]]).unwrap();
    let words: Vec<&str> = head.split_whitespace().collect();
    assert_eq!((words.len(), words[0], words[3]), (4, "P5", "255"));
    let (width, height) = (words[1].parse().unwrap(), words[2].parse().unwrap());
    let rows: Vec<Vec<u8>> = bytes[lines[2] + 1..].chunks(width as usize).map(<[u8]>::to_vec).collect();
    assert_eq!(rows.iter().map(Vec::len).sum::<usize>(), (width * height) as usize);
    (width, height, rows)
}

#[test]
fn a_still_is_drawn_cropped_to_its_size() {
    let folder = folder("cropped");
    Tones::new(33, 31).save(&folder);
    let said = drawn(&folder, &["draw", "a.still", "-o", "a.png"]);
    assert_eq!(said, "drew 33x31 (3x2 macroblocks), reply 0: a.png\nclipped pixels: 0\n");
    let said = drawn(&folder, &["draw", "a.still", "-o", "a.pgm"]);
    assert_eq!(said, "drew 33x31 (3x2 macroblocks), reply 0: a.pgm\nclipped pixels: 0\n");
    let (width, height, rows) = read_pgm(&folder.join("a.pgm"));
    assert_eq!((width, height), (33, 31));
    let mut first = [128; 33];
    first[16..32].fill(129);
    first[32] = 131; // the average of a column of 129, and 2
    assert_eq!(rows[0], first);
    assert_eq!(png::tests::read_back(&fs::read(folder.join("a.png")).unwrap()), (33, 31, 1, rows));
}

#[test]
fn a_crop_is_the_top_left_of_the_picture() {
    let folder = folder("crop");
    Tones::new(40, 40).save(&folder);
    drawn(&folder, &["draw", "a.still", "-o", "whole.pgm"]);
    let (_, _, whole) = read_pgm(&folder.join("whole.pgm"));
    for (width, height) in [(1, 1), (40, 1), (1, 40), (17, 33), (40, 40)] {
        let crop = format!("{width}x{height}");
        let said = drawn(&folder, &["draw", "a.still", "--crop", &crop, "-o", "part.pgm"]);
        assert_eq!(said, format!("drew {crop} (3x3 macroblocks), reply 0: part.pgm\nclipped pixels: 0\n"));
        let part: Vec<Vec<u8>> = whole[..height].iter().map(|row| row[..width].to_vec()).collect();
        assert_eq!(read_pgm(&folder.join("part.pgm")), (width as u32, height as u32, part));
    }
    for crop in ["41x40", "40x41", "4294967295x4294967295"] {
        refused(&folder, &["draw", "a.still", "--crop", crop, "-o", "no.pgm"], 1);
        assert!(!folder.join("no.pgm").exists());
    }
}

#[test]
fn colours_are_those_of_the_three_planes() {
    let folder = folder("color");
    let mut still = Tones::new(20, 16);
    // the first macroblock red at full strength: Y 81, U 90, V 240; the second as it
    still.coeffs[0] = 64 * (81 - 128);
    for block in 0..4 {
        still.coeffs[272 + 16 * block] = 8 * (90 - 128);
        still.coeffs[336 + 16 * block] = 8 * (240 - 128);
    }
    still.coeffs[400..].fill(0);
    still.save(&folder);
    drawn(&folder, &["draw", "a.still", "--color", "-o", "a.png"]);
    let red: Vec<u8> = [255, 0, 0].repeat(20);
    assert_eq!(png::tests::read_back(&fs::read(folder.join("a.png")).unwrap()), (20, 16, 3, vec![red; 16]));
    drawn(&folder, &["draw", "a.still", "-o", "a.pgm"]);
    assert_eq!(read_pgm(&folder.join("a.pgm")), (20, 16, vec![vec![81; 20]; 16]));
}

/// The picture of a .png file in RGB: its rows of pixels.
fn read_rgb(file: &Path) -> Vec<Vec<[u8; 3]>> {
    let (_, _, pixel, rows) = png::tests::read_back(&fs::read(file).unwrap());
    assert_eq!(pixel, 3);
    rows.iter().map(|row| row.chunks(3).map(|pixel| pixel.try_into().unwrap()).collect()).collect()
}

const MAGENTA: [u8; 3] = [255, 0, 255];

#[test]
fn clipped_pixels_are_counted_and_marked() {
    let folder = folder("clipped");
    let mut still = Tones::new(40, 16);
    still.coeffs.fill(0);
    still.coeffs[0] = -64 * 129; // all 256 of Y in the first macroblock one below 0, and 0 from there on
    still.coeffs[400 + 272 + 16] = 8 * 128; // 16 of U in the second: columns 24 to 31, rows 0 to 7
    still.coeffs[800] = 64 * 255; // Y in the third at 255, which is not past it
    still.save(&folder);
    let said = drawn(&folder, &["draw", "a.still", "-o", "grey.png", "--mark-clipped"]);
    assert_eq!(
        said,
        "drew 40x16 (3x1 macroblocks), reply 0: grey.png\nclipped pixels: 272, of which 256 show in grey\n"
    );
    let grey = |x: usize| [if x < 32 { 0 } else { 255 }; 3];
    for row in read_rgb(&folder.join("grey.png")) {
        assert_eq!(row, (0..40).map(|x| if x < 16 { MAGENTA } else { grey(x) }).collect::<Vec<_>>());
    }
    drawn(&folder, &["draw", "a.still", "-o", "plain.png", "--color"]);
    let said = drawn(&folder, &["draw", "a.still", "-o", "color.png", "--color", "--mark-clipped", "--crop", "30x16"]);
    assert_eq!(
        said,
        "drew 30x16 (3x1 macroblocks), reply 0: color.png\nclipped pixels: 272, of which 268 show in colour\n"
    );
    let plain = read_rgb(&folder.join("plain.png"));
    for (row, pixels) in read_rgb(&folder.join("color.png")).into_iter().enumerate() {
        let marked = |x: usize| x < 16 || x >= 24 && row < 8;
        assert_eq!(pixels, (0..30).map(|x| if marked(x) { MAGENTA } else { plain[row][x] }).collect::<Vec<_>>());
    }
    // without the option the picture is as ever
    drawn(&folder, &["draw", "a.still", "-o", "a.png"]);
    assert_eq!(png::tests::read_back(&fs::read(folder.join("a.png")).unwrap()).2, 1);
}

#[test]
fn a_skipped_macroblock_has_no_clipped_pixels() {
    let folder = folder("skipped");
    let mut still = Tones::new(32, 16);
    still.coeffs.fill(i16::MAX);
    still.modes = vec![0, 0, 1, 4, 0, 1];
    still.save(&folder);
    let said = drawn(&folder, &["draw", "a.still", "-o", "a.png", "--mark-clipped"]);
    assert!(said.ends_with("\nclipped pixels: 0\n"), "{said}");
    assert!(read_rgb(&folder.join("a.png")).iter().flatten().all(|&[r, g, b]| r == g && g == b));
}

#[test]
fn the_clipped_onset_of_the_studio() {
    let folder = folder("studio");
    let still = Path::new(env!("CARGO_MANIFEST_DIR")).join("../examples/studio.still");
    let said = drawn(&folder, &["draw", still.to_str().unwrap(), "-o", "a.png", "--mark-clipped"]);
    assert!(said.ends_with("\nclipped pixels: 959, of which 893 show in grey\n"), "{said}");
    let (_, _, _, plain) = png::tests::read_back(&fs::read(still.with_extension("png")).unwrap());
    let mut marked = 0;
    for (pixels, levels) in read_rgb(&folder.join("a.png")).iter().zip(&plain) {
        for (x, (&pixel, &level)) in pixels.iter().zip(levels).enumerate() {
            if pixel == MAGENTA {
                marked += 1;
                assert!(level == 255 && x < 40 || level == 0, "a clipped {level} in column {x}");
            } else {
                assert_eq!(pixel, [level; 3]);
            }
        }
    }
    assert_eq!(marked, 893);
}

#[test]
fn the_included_rooms_are_as_pictured() {
    let folder = folder("rooms");
    let examples = Path::new(env!("CARGO_MANIFEST_DIR")).join("../examples");
    for room in ["hall", "chapel", "studio"] {
        let still = examples.join(room).with_extension("still");
        drawn(&folder, &["draw", still.to_str().unwrap(), "-o", "room.png"]);
        assert_eq!(fs::read(folder.join("room.png")).unwrap(), fs::read(still.with_extension("png")).unwrap());
    }
}

#[test]
fn a_damaged_still_is_named_by_its_byte() {
    let folder = folder("damaged");
    fs::write(folder.join("a.png"), "an older picture").unwrap();
    let refuse = |still: &Tones, index: usize, byte: &str, at: usize| {
        still.save(&folder);
        let line = refused(&folder, &["draw", "a.still", "-o", "a.png"], 1);
        let place = format!("macroblock {index} (column {}, row {})", index % 3, index / 3);
        assert_eq!(line, format!("zopredil: a.still: {place}: reply 8, {byte} known (byte {at} of the file)\n"));
    };
    for index in 0..6 {
        for (part, byte, says) in [
            (0, 5, "its luma mode is 5, and 0 to 4 are"),
            (1, 4, "its chroma mode is 4, and 0 to 3 are"),
            (2, 2, "its skip byte is 2, and 0 and 1 are"),
            (0, 255, "its luma mode is 255, and 0 to 4 are"),
        ] {
            let mut still = Tones::new(48, 32);
            still.modes[3 * index + part] = byte;
            refuse(&still, index, says, 24 + 3 * index + part);
        }
        let mut still = Tones::new(48, 32);
        still.sub_modes[16 * index + 2] = 10;
        still.save(&folder);
        drawn(&folder, &["draw", "a.still", "-o", "b.png"]); // not looked at
        still.modes[3 * index] = 4;
        let says = "the mode of its sub-block 2 is 10, and 0 to 9 are";
        refuse(&still, index, says, 24 + 18 + 16 * index + 2);
        // the first of several, in the order luma, chroma, skip, sub-blocks
        still.modes[3 * index + 1] = 9;
        refuse(&still, index, "its chroma mode is 9, and 0 to 3 are", 24 + 3 * index + 1);
    }
    assert_eq!(fs::read(folder.join("a.png")).unwrap(), b"an older picture");
}

#[test]
fn every_bad_file_is_refused() {
    let folder = folder("bad");
    let good = Tones::new(33, 16).bytes();
    let refuse = |bytes: &[u8]| {
        fs::write(folder.join("a.still"), bytes).unwrap();
        let line = refused(&folder, &["draw", "a.still", "-o", "a.png"], 1);
        assert!(line.starts_with("zopredil: a.still: "), "{line}");
    };
    for length in [0, 1, 7, 8, 9, 23, 24, 25, 32, 33, 80, 81, 82, good.len() - 1] {
        refuse(&good[..length]);
    }
    refuse(&[&good[..], b"\0"].concat());
    refuse(&[b"ZSTILL2\n", &good[8..]].concat());
    refuse(b"\x89PNG\r\n\x1a\n and so on, and so on");
    let numbers = [0, 1, 2, 4, 32, 49, 1025, 16384, 65536, 0x7FFF_FFFF, 0x8000_0000, 0xFFFF_FFFF];
    for place in 0..4 {
        for number in numbers.iter().filter(|&&number| place != 1 || !(1..=16).contains(&number)) {
            let mut bytes = good.clone();
            bytes[8 + 4 * place..][..4].copy_from_slice(&u32::to_le_bytes(*number));
            if bytes != good {
                refuse(&bytes);
            }
        }
    }
    assert!(!folder.join("a.png").exists());
}

#[test]
fn a_large_size_alone_takes_no_room() {
    let folder = folder("huge");
    let mut bytes = b"ZSTILL1\n".to_vec();
    for size in [16384u32, 16384, 1024, 1024] {
        bytes.extend(size.to_le_bytes());
    }
    fs::write(folder.join("a.still"), &bytes).unwrap();
    let line = refused(&folder, &["draw", "a.still", "-o", "a.png"], 1);
    assert!(line.contains("1024x1024 macroblocks take 858783768 bytes"), "{line}");
}

#[test]
fn wrong_words() {
    let folder = folder("words");
    Tones::new(16, 16).save(&folder);
    refused(&folder, &[], 2);
    refused(&folder, &["draw"], 2);
    refused(&folder, &["draw", "a.still"], 2);
    refused(&folder, &["draw", "a.still", "-o", "a.gif"], 2);
    refused(&folder, &["draw", "a.still", "-o", "a.pgm", "--color"], 2);
    refused(&folder, &["draw", "a.still", "-o", "a.pgm", "--mark-clipped"], 2);
    refused(&folder, &["draw", "a.still", "-o", "a.png", "--crop", "0x5"], 2);
    assert!(drawn(&folder, &["--help"]).contains("draw FILE.still -o PICTURE"));
}

#[test]
fn a_large_still_says_no_more_than_a_small_one() {
    let folder = folder("large");
    let mut still = Tones::new(64 * 16, 64 * 16);
    still.save(&folder);
    drawn(&folder, &["draw", "a.still", "-o", "a.png"]);
    // refused at its end, when all else of it is read and drawn
    still.modes[3 * 4095 + 2] = 7;
    still.save(&folder);
    let line = refused(&folder, &["draw", "a.still", "-o", "b.png"], 1);
    assert!(line.contains("macroblock 4095 (column 63, row 63): reply 8, its skip byte is 7"), "{line}");
    refused(&folder, &["draw", "a.still", "-o", "no/such/folder/b.png"], 1);
}

#[test]
fn the_version_and_the_help() {
    let folder = folder("asked");
    let header = fs::read_to_string(Path::new(env!("CARGO_MANIFEST_DIR")).join("../include/zopredil.h")).unwrap();
    let version = drawn(&folder, &["--version"]);
    let number = version.strip_prefix("zopredil ").unwrap().trim_end();
    assert!(header.contains(&format!("\n#define ZOPREDIL_VERSION \"{number}\"\n")), "{version}");
    let all = drawn(&folder, &["--help"]);
    for command in ["distance", "draw"] {
        let own = drawn(&folder, &[command, "--help"]);
        assert!(own.starts_with(&format!("zopredil {command} ")) && all.contains(own.trim_end()), "{own}");
    }
}
