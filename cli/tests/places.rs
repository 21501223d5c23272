//! What the program reads and where it writes: nothing that stood there before is lost.

mod shared;

use shared::{drawn, folder, names, one_line, program, refused, Tones};
use std::ffi::OsStr;
use std::fs::{self, File, OpenOptions, Permissions};
use std::os::unix::ffi::OsStrExt;
use std::os::unix::fs::{symlink, FileTypeExt, PermissionsExt};
use std::path::Path;
use std::process::{Command, Stdio};

#[test]
fn a_still_is_not_written_over() {
    let folder = folder("own");
    Tones::new(32, 32).save(&folder);
    let still = fs::read(folder.join("a.still")).unwrap();
    fs::rename(folder.join("a.still"), folder.join("still.png")).unwrap();
    symlink("still.png", folder.join("link.png")).unwrap();
    symlink("link.png", folder.join("link of a link.png")).unwrap();
    fs::hard_link(folder.join("still.png"), folder.join("hard.png")).unwrap();
    fs::create_dir(folder.join("below")).unwrap();
    let all = ["still.png", "link.png", "link of a link.png", "hard.png", "./below/../still.png"];
    let before = names(&folder);
    for input in all {
        for output in all {
            let line = refused(&folder, &["draw", input, "-o", output], 1);
            assert!(line.contains("is not written over"), "{line}");
        }
    }
    // by standard input, and to standard output behind its end
    for output in all {
        let from = Stdio::from(File::open(folder.join("still.png")).unwrap());
        let ran = program().args(["draw", "-", "-o", output]).current_dir(&folder).stdin(from).output().unwrap();
        one_line(ran, 1);
    }
    let end = OpenOptions::new().append(true).open(folder.join("hard.png")).unwrap();
    let ran = program().args(["draw", "still.png", "-o", "-"]).current_dir(&folder).stdout(end).output().unwrap();
    one_line(ran, 1);
    assert_eq!(fs::read(folder.join("still.png")).unwrap(), still);
    assert_eq!(names(&folder), before);
    // a copy is another file
    fs::copy(folder.join("still.png"), folder.join("copy.png")).unwrap();
    drawn(&folder, &["draw", "still.png", "-o", "copy.png"]);
    assert_eq!(fs::read(folder.join("still.png")).unwrap(), still);
}

/// Runs the program where no file may pass so many blocks of 512 bytes: what a disk that is full says, in other words.
fn on_a_full_disk(folder: &Path, blocks: usize, words: &str) -> String {
    let limited = format!("trap '' XFSZ; ulimit -f {blocks}; exec \"$0\" {words}");
    let ran =
        Command::new("sh").arg("-c").arg(limited).arg(env!("CARGO_BIN_EXE_zopredil")).current_dir(folder).output();
    one_line(ran.unwrap(), 1)
}

#[test]
fn a_full_disk_leaves_the_older_picture() {
    let folder = folder("filled");
    Tones::new(320, 320).save(&folder);
    for (picture, blocks) in [("a.pgm", 0), ("a.pgm", 8), ("a.pgm", 100), ("a.png", 0), ("a.png", 1)] {
        let _ = fs::remove_file(folder.join(picture));
        let words = format!("draw a.still -o {picture}");
        on_a_full_disk(&folder, blocks, &words);
        assert!(!folder.join(picture).exists());
        fs::write(folder.join(picture), "an older picture").unwrap();
        let line = on_a_full_disk(&folder, blocks, &words);
        assert!(line.starts_with(&format!("zopredil: {picture}: ")), "{line}");
        assert_eq!(fs::read(folder.join(picture)).unwrap(), b"an older picture");
    }
    assert_eq!(names(&folder), ["a.pgm", "a.png", "a.still"]);
    drawn(&folder, &["draw", "a.still", "-o", "a.pgm"]);
    assert_eq!(fs::metadata(folder.join("a.pgm")).unwrap().len(), 15 + 320 * 320);
}

#[test]
fn a_link_stays_a_link() {
    let folder = folder("links");
    Tones::new(32, 32).save(&folder);
    fs::create_dir(folder.join("below")).unwrap();
    symlink("below/a.png", folder.join("a.png")).unwrap();
    for _ in 0..2 {
        // where nothing stands yet, and where a picture does
        drawn(&folder, &["draw", "a.still", "-o", "a.png"]);
        assert!(fs::symlink_metadata(folder.join("a.png")).unwrap().is_symlink());
        assert_eq!(&fs::read(folder.join("below/a.png")).unwrap()[..4], b"\x89PNG");
    }
    symlink("round.png", folder.join("round.png")).unwrap();
    refused(&folder, &["draw", "a.still", "-o", "round.png"], 1);
    assert_eq!(names(&folder.join("below")), ["a.png"]);
}

#[test]
fn a_picture_keeps_its_permissions() {
    let folder = folder("permissions");
    Tones::new(32, 32).save(&folder);
    fs::write(folder.join("a.png"), "an older picture").unwrap();
    fs::set_permissions(folder.join("a.png"), Permissions::from_mode(0o640)).unwrap();
    drawn(&folder, &["draw", "a.still", "-o", "a.png"]);
    assert_eq!(fs::metadata(folder.join("a.png")).unwrap().permissions().mode() & 0o777, 0o640);
}

#[test]
fn places_that_are_not_there() {
    let folder = folder("missing");
    refused(&folder, &["draw", "a.still", "-o", "a.png"], 1);
    refused(&folder, &["draw", ".", "-o", "a.png"], 1);
    Tones::new(16, 16).save(&folder);
    refused(&folder, &["draw", "a.still", "-o", "no/such/folder/a.png"], 1);
    refused(&folder, &["draw", "a.still", "-o", "a.still/a.png"], 1);
    fs::create_dir(folder.join("b.png")).unwrap();
    refused(&folder, &["draw", "a.still", "-o", "b.png"], 1);
    // words that are no text
    let word: &OsStr = OsStrExt::from_bytes(b"\xFF.still");
    let words = [OsStr::new("draw"), word, OsStr::new("-o"), OsStr::new("b.png")];
    assert_eq!(program().args(words).output().unwrap().status.code(), Some(1));
}

#[test]
fn a_pipe_at_either_end() {
    let folder = folder("pipes");
    let still = Tones::new(33, 31);
    still.save(&folder);
    drawn(&folder, &["draw", "a.still", "-o", "a.png"]);
    drawn(&folder, &["draw", "a.still", "-o", "a.pgm"]);
    let (png, pgm) = (fs::read(folder.join("a.png")).unwrap(), fs::read(folder.join("a.pgm")).unwrap());
    let piped = |words: &[&str], bytes: &[u8]| {
        use std::io::Write;
        let mut program = program();
        program.args(words).current_dir(&folder).stdin(Stdio::piped()).stdout(Stdio::piped()).stderr(Stdio::piped());
        let mut running = program.spawn().unwrap();
        let mut to = running.stdin.take().unwrap();
        let _ = to.write_all(bytes); // the program may have refused the beginning
        drop(to);
        running.wait_with_output().unwrap()
    };
    let report = "drew 33x31 (3x2 macroblocks), reply 0: standard output\nclipped pixels: 0\n";
    for (words, picture) in [
        (&["draw", "-", "-o", "-"][..], &png),
        (&["draw", "-", "-o", "-", "--format", "png"], &png),
        (&["draw", "-", "--format", "pgm", "-o", "-"], &pgm),
        (&["draw", "a.still", "--format", "pgm", "-o", "-"], &pgm),
    ] {
        let ran = piped(words, &still.bytes());
        assert_eq!((ran.status.code(), &ran.stdout), (Some(0), picture));
        assert_eq!(String::from_utf8_lossy(&ran.stderr), report);
    }
    let ran = piped(&["draw", "-", "-o", "b.png"], &still.bytes());
    assert_eq!((ran.status.code(), ran.stderr.len()), (Some(0), 0));
    assert_eq!(fs::read(folder.join("b.png")).unwrap(), png);
    // a damaged one gives no picture
    let bytes = still.bytes();
    for bad in [&bytes[..bytes.len() - 1], &[&bytes[..], b"\0"].concat(), b"", b"ZSTILL1\n"] {
        let line = one_line(piped(&["draw", "-", "-o", "-"], bad), 1);
        assert!(line.starts_with("zopredil: standard input: "), "{line}");
    }
}

#[cfg(target_os = "linux")]
#[test]
fn devices_are_written_as_they_are() {
    let folder = folder("devices");
    Tones::new(160, 160).save(&folder);
    symlink("/dev/full", folder.join("full.png")).unwrap();
    symlink("/dev/full", folder.join("full.pgm")).unwrap();
    symlink("/dev/null", folder.join("null.png")).unwrap();
    refused(&folder, &["draw", "a.still", "-o", "full.png"], 1);
    refused(&folder, &["draw", "a.still", "-o", "full.pgm"], 1);
    drawn(&folder, &["draw", "a.still", "-o", "null.png"]);
    for device in ["/dev/full", "/dev/null"] {
        assert!(fs::metadata(device).unwrap().file_type().is_char_device());
    }
    // a still from a device's name, and standard output that is full
    let full = || Stdio::from(OpenOptions::new().write(true).open("/dev/full").unwrap());
    let still = || Stdio::from(File::open(folder.join("a.still")).unwrap());
    let draw = |output: &str| {
        let mut program = program();
        program.args(["draw", "/dev/stdin", "-o", output]).current_dir(&folder).stdin(still());
        program
    };
    assert_eq!(draw("a.png").stdout(full()).stderr(full()).status().unwrap().code(), Some(1));
    assert_eq!(draw("a.png").stdout(Stdio::null()).status().unwrap().code(), Some(0));
    assert_eq!(draw("-").stdout(full()).stderr(Stdio::null()).status().unwrap().code(), Some(1));
}
