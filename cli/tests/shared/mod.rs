//! What the tests of the program share: folders of their own, runs of the program, and stills.

#![allow(dead_code)] // each test takes what it needs

use std::fs;
use std::path::{Path, PathBuf};
use std::process::{Command, Output};

/// A folder of a test's own.
pub fn folder(name: &str) -> PathBuf {
    let folder = Path::new(env!("CARGO_TARGET_TMPDIR")).join(name);
    let _ = fs::remove_dir_all(&folder);
    fs::create_dir_all(&folder).unwrap();
    folder
}

pub fn program() -> Command {
    Command::new(env!("CARGO_BIN_EXE_zopredil"))
}

pub fn run(folder: &Path, words: &[&str]) -> Output {
    program().args(words).current_dir(folder).output().unwrap()
}

/// The program draws, and says so.
pub fn drawn(folder: &Path, words: &[&str]) -> String {
    let ran = run(folder, words);
    assert_eq!(String::from_utf8_lossy(&ran.stderr), "");
    assert_eq!(ran.status.code(), Some(0));
    String::from_utf8(ran.stdout).unwrap()
}

/// A refusal has this status, nothing on standard output and one line on standard error, which is returned.
pub fn one_line(ran: Output, status: i32) -> String {
    let line = String::from_utf8(ran.stderr).unwrap();
    assert_eq!((ran.status.code(), ran.stdout.len()), (Some(status), 0), "{line}");
    assert!(line.starts_with("zopredil: ") && line.ends_with('\n') && line.lines().count() == 1, "{line}");
    line
}

/// The program refuses.
pub fn refused(folder: &Path, words: &[&str], status: i32) -> String {
    one_line(run(folder, words), status)
}

/// The names of what stands in a folder, in order.
pub fn names(folder: &Path) -> Vec<String> {
    let listed = fs::read_dir(folder).unwrap();
    let mut names: Vec<String> = listed.map(|entry| entry.unwrap().file_name().into_string().unwrap()).collect();
    names.sort();
    names
}

/// A still whose macroblocks are in DC and get a tone of their own from the first Y2, U and V coefficients.
pub struct Tones {
    pub sizes: [u32; 4],
    pub modes: Vec<u8>,
    pub sub_modes: Vec<u8>,
    pub coeffs: Vec<i16>,
}

impl Tones {
    pub fn new(width: u32, height: u32) -> Tones {
        let (cols, rows) = (width.div_ceil(16), height.div_ceil(16));
        let count = (cols * rows) as usize;
        let mut coeffs = vec![0; 400 * count];
        for (k, c) in coeffs.chunks_mut(400).enumerate() {
            c[0] = 64 * (k % 3) as i16; // 1 level a step
            for block in 0..4 {
                c[272 + 16 * block] = 8 * (k % 5) as i16;
                c[336 + 16 * block] = -8 * (k % 7) as i16;
            }
        }
        Tones { sizes: [width, height, cols, rows], modes: vec![0; 3 * count], sub_modes: vec![0; 16 * count], coeffs }
    }

    pub fn bytes(&self) -> Vec<u8> {
        let mut file = b"ZSTILL1\n".to_vec();
        file.extend(self.sizes.iter().flat_map(|size| size.to_le_bytes()));
        file.extend(&self.modes);
        file.extend(&self.sub_modes);
        file.extend(self.coeffs.iter().flat_map(|c| c.to_le_bytes()));
        file
    }

    pub fn save(&self, folder: &Path) {
        fs::write(folder.join("a.still"), self.bytes()).unwrap();
    }
}
