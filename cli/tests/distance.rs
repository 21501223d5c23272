//! The command `distance`, run: the rooms beside their own pictures, pictures by hand, odd sizes, totals, the difference
//! as a picture, and files that are refused.

mod shared;

use shared::{drawn, folder, names, refused, run, Tones};
use std::fs;
use std::path::Path;

const EXAMPLES: &str = concat!(env!("CARGO_MANIFEST_DIR"), "/../examples");

/// The cells of a line of the table: its name, and six numbers.
fn cells(line: &str) -> Vec<String> {
    let line = line.replace(" %", "%");
    line.split_whitespace().map(str::to_string).collect()
}

/// The Y plane of `a.still` as the program draws it, in the pixels of the room.
fn own_pixels(folder: &Path) -> Vec<u8> {
    drawn(folder, &["draw", "a.still", "-o", "drawn.pgm"]);
    let file = fs::read(folder.join("drawn.pgm")).unwrap();
    let head = file.iter().enumerate().filter(|(_, &byte)| byte == b'\n').map(|(at, _)| at).nth(2).unwrap();
    file[head + 1..].to_vec()
}

fn pgm(width: u32, height: u32, pixels: &[u8]) -> Vec<u8> {
    [format!("P5\n{width} {height}\n255\n").as_bytes(), pixels].concat()
}

#[test]
fn rooms_beside_their_own_pictures() {
    let here = folder("distance_rooms");
    let rooms = [("hall", 320 * 128), ("chapel", 250 * 100), ("studio", 200 * 90)];
    let mut words = vec!["distance".to_string()];
    for (name, pixels) in rooms {
        let (still, picture) = (format!("{EXAMPLES}/{name}.still"), format!("{EXAMPLES}/{name}.png"));
        let said = drawn(&here, &["distance", &still, &picture]);
        let lines: Vec<&str> = said.lines().collect();
        let own = pixels.to_string();
        assert_eq!(cells(lines[1])[1..], ["0", "0.00", "inf", "0", &own, "100.00%"]);
        assert_eq!(cells(lines[2])[1..], cells(lines[1])[1..]);
        assert_eq!(lines.len(), 3);
        words.extend([still, picture]);
    }
    let words: Vec<&str> = words.iter().map(String::as_str).collect();
    let said = drawn(&here, &words);
    assert_eq!(said.lines().count(), 5);
    let all = rooms.iter().map(|(_, pixels)| pixels).sum::<u32>().to_string();
    assert_eq!(cells(said.lines().last().unwrap()), ["all", "0", "0.00", "inf", "0", &all, "100.00%"]);
    assert_eq!(names(&here), [""; 0]);
}

#[test]
fn pixels_by_hand_in_an_odd_size() {
    let here = folder("distance_hand");
    Tones::new(17, 5).save(&here);
    let mut pixels = own_pixels(&here);
    assert_eq!(pixels.len(), 17 * 5);
    // the last pixel 10 brighter, the first 3 darker
    pixels[84] += 10;
    pixels[0] -= 3;
    fs::write(here.join("m.pgm"), pgm(17, 5, &pixels)).unwrap();
    let said = drawn(&here, &["distance", "a.still", "m.pgm"]);
    // 109 / 85 is 1.28: its root is 1.13, and 65025 / 1.28 is 47.05 decibels
    assert_eq!(cells(said.lines().nth(1).unwrap()), ["a.still", "109", "1.13", "47.05", "10", "83", "97.64%"]);
    // beside an equal one: the sums add up, the largest stays
    fs::write(here.join("e.pgm"), pgm(17, 5, &own_pixels(&here))).unwrap();
    let said = drawn(&here, &["distance", "a.still", "m.pgm", "a.still", "e.pgm"]);
    let all = cells(said.lines().last().unwrap());
    assert_eq!([&all[1], &all[4], &all[5], &all[6]], ["109", "10", "168", "98.82%"]);
    // every pixel off by one, as numbers in a P2 file
    let text: Vec<String> = own_pixels(&here).iter().map(|x| (x + 1).to_string()).collect();
    fs::write(here.join("t.pgm"), format!("P2\n# measured\n17 5\n255\n{}\n", text.join(" "))).unwrap();
    let said = drawn(&here, &["distance", "a.still", "t.pgm"]);
    assert_eq!(cells(said.lines().nth(1).unwrap())[1..], ["85", "1.00", "48.13", "1", "0", "0.00%"]);
}

#[test]
fn colours_are_taken_as_grey() {
    let here = folder("distance_colour");
    // without chroma: drawn in colour, each pixel is a grey, stretched from 16..235 to 0..255
    let mut tones = Tones::new(32, 16);
    for c in tones.coeffs.chunks_mut(400) {
        c[272..].fill(0);
    }
    tones.save(&here);
    drawn(&here, &["draw", "a.still", "-o", "rgb.png", "--color"]);
    let said = drawn(&here, &["distance", "a.still", "rgb.png"]);
    let found = cells(said.lines().nth(1).unwrap());
    // 128 and 129 stand for 130 and 132
    assert_eq!([&found[1], &found[4], &found[5]], [&(256 * 4 + 256 * 9).to_string(), "3", "0"]);
}

#[test]
fn the_difference_as_a_picture() {
    let here = folder("distance_picture");
    Tones::new(20, 20).save(&here);
    let mut pixels = own_pixels(&here);
    pixels[5] += 4;
    fs::write(here.join("m.pgm"), pgm(20, 20, &pixels)).unwrap();
    let plain = drawn(&here, &["distance", "a.still", "m.pgm"]);
    let said = drawn(&here, &["distance", "a.still", "m.pgm", "--difference", "d.png"]);
    assert_eq!(said, plain);
    let file = fs::read(here.join("d.png")).unwrap();
    assert!(file.starts_with(b"\x89PNG\r\n\x1a\n"));
    // on standard output the table goes to standard error
    let ran = run(&here, &["distance", "a.still", "m.pgm", "--difference", "-"]);
    assert_eq!((ran.status.code(), ran.stdout, String::from_utf8(ran.stderr).unwrap()), (Some(0), file, plain));
    // a file that is read is not written over
    fs::write(here.join("m.png"), b"P5\n20 20\n255\n").unwrap();
    let before = fs::read(here.join("m.png")).unwrap();
    refused(&here, &["distance", "a.still", "m.png", "--difference", "m.png"], 1);
    assert_eq!(fs::read(here.join("m.png")).unwrap(), before);
    assert_eq!(names(&here), ["a.still", "d.png", "drawn.pgm", "m.pgm", "m.png"]);
}

#[test]
fn other_files_are_one_line() {
    let here = folder("distance_refused");
    Tones::new(17, 5).save(&here);
    let pixels = own_pixels(&here);
    drawn(&here, &["draw", "a.still", "-o", "good.png"]);
    let good = fs::read(here.join("good.png")).unwrap();
    let files: [(&str, Vec<u8>, &str); 8] = [
        ("text.png", b"no picture".to_vec(), "neither a PNG nor a PGM"),
        ("empty.png", Vec::new(), "neither a PNG nor a PGM"),
        ("wide.pgm", pgm(5, 17, &pixels), "5x17 pixels and not 17x5"),
        ("short.pgm", pgm(17, 5, &pixels[1..]), "end early"),
        ("long.pgm", pgm(17, 5, &[&pixels[..], &[0]].concat()), "more pixels"),
        ("deep.pgm", b"P5 17 5 65535 ".to_vec(), "65535"),
        ("cut.png", good[..good.len() - 20].to_vec(), "ends"),
        ("damaged.png", good.iter().enumerate().map(|(i, x)| if i == 45 { x ^ 1 } else { *x }).collect(), "damaged"),
    ];
    for (name, bytes, why) in files {
        fs::write(here.join(name), bytes).unwrap();
        let line = refused(&here, &["distance", "a.still", name], 1);
        assert!(line.contains(name) && line.contains(why), "{line}");
    }
    // a picture of another kind: its head says 16 bits, with the sum that belongs to it
    let mut deep = good.clone();
    deep[24] = 16;
    let crc = crc(&deep[12..29]);
    deep[29..33].copy_from_slice(&crc.to_be_bytes());
    fs::write(here.join("deep.png"), deep).unwrap();
    assert!(refused(&here, &["distance", "a.still", "deep.png"], 1).contains("grey of 16 bits"));
    assert!(refused(&here, &["distance", "a.still", "none.png"], 1).contains("none.png"));
    assert!(refused(&here, &["distance", "good.png", "a.still"], 1).contains("no still"));
    assert!(refused(&here, &["distance", "a.still"], 2).contains("by twos"));
    assert!(refused(&here, &["distance", "a.still", "good.png", "--difference", "d.pgm"], 2).contains("d.pgm"));
}

/// CRC-32, a bit after another.
fn crc(bytes: &[u8]) -> u32 {
    !bytes.iter().fold(!0u32, |crc, &byte| {
        (0..8).fold(crc ^ u32::from(byte), |crc, _| if crc & 1 == 1 { crc >> 1 ^ 0xEDB8_8320 } else { crc >> 1 })
    })
}
