//! stills FOLDER: draws every NAME.still of a folder and compares the planes with NAME.planes. Each is drawn twice: alone,
//! and given the pixels right of the picture, four copies of the last pixel of each luma row 16 r - 1 of the planes.

use std::path::{Path, PathBuf};
use std::process::ExitCode;
use std::{fs, io};
use zopredil::{still, still_alone, PlanesMut, Still, StillRefused};

/// Bytes before the lists: `ZSTILL1\n` and four sizes.
const HEAD: usize = 24;

/// A still file and the planes that it must give.
struct Case {
    cols: usize,
    rows: usize,
    modes: Vec<u8>,
    sub_modes: Vec<u8>,
    coeffs: Vec<i16>,
    planes: Vec<u8>,
}

impl Case {
    fn read(file: &Path) -> Result<Case, String> {
        let said = |path: &Path, why: io::Error| format!("{}: {why}", path.display());
        let bytes = fs::read(file).map_err(|why| said(file, why))?;
        let beside = file.with_extension("planes");
        let planes = fs::read(&beside).map_err(|why| said(&beside, why))?;
        let size = |k: usize| {
            let four = bytes.get(8 + 4 * k..12 + 4 * k)?;
            Some(u32::from_le_bytes(four.try_into().ok()?) as usize)
        };
        let wrong = || format!("{}: it is no still", file.display());
        let (cols, rows) = size(2).zip(size(3)).ok_or_else(wrong)?;
        let side = 1..=1024;
        if !side.contains(&cols) || !side.contains(&rows) {
            return Err(format!("{}: it says {cols}x{rows} macroblocks, and a side is 1 to 1024", file.display()));
        }
        let count = cols * rows;
        if !bytes.starts_with(b"ZSTILL1\n") || bytes.len() != HEAD + 819 * count {
            return Err(wrong());
        }
        if planes.len() != 384 * count {
            return Err(format!("{}: {} bytes, not {}", beside.display(), planes.len(), 384 * count));
        }
        let (modes, rest) = bytes[HEAD..].split_at(3 * count);
        let (sub_modes, coeffs) = rest.split_at(16 * count);
        let coeffs = coeffs.chunks_exact(2).map(|two| i16::from_le_bytes([two[0], two[1]])).collect();
        Ok(Case { cols, rows, modes: modes.to_vec(), sub_modes: sub_modes.to_vec(), coeffs, planes })
    }

    /// Draws by `draw` and says how the planes differ: nothing where they are equal.
    fn differs(&self, draw: impl FnOnce(&Still<'_>, PlanesMut<'_>) -> Result<u64, StillRefused>) -> Option<String> {
        let count = self.cols * self.rows;
        let mut drawn = vec![!0; 384 * count];
        let (y, uv) = drawn.split_at_mut(256 * count);
        let (u, v) = uv.split_at_mut(64 * count);
        let lent = Still {
            cols: self.cols,
            rows: self.rows,
            modes: &self.modes,
            sub_modes: &self.sub_modes,
            coeffs: &self.coeffs,
        };
        if let Err(refused) = draw(&lent, PlanesMut { y, u, v }) {
            return Some(format!("refused by {}: {refused}", refused.reply.number()));
        }
        let parts = [("Y", 0..256 * count), ("U", 256 * count..320 * count), ("V", 320 * count..384 * count)];
        let differing: Vec<String> = parts
            .into_iter()
            .filter_map(|(name, part)| {
                let pairs = drawn[part.clone()].iter().zip(&self.planes[part]);
                let differing = pairs.filter(|(drawn, given)| drawn != given).count();
                (differing > 0).then(|| format!("{differing} pixels of {name} differ"))
            })
            .collect();
        (!differing.is_empty()).then(|| differing.join(", "))
    }

    fn compare(&self) -> Option<String> {
        let stride = 16 * self.cols;
        let right: Vec<u8> = (1..self.rows).flat_map(|row| [self.planes[16 * row * stride - 1]; 4]).collect();
        let alone = self.differs(still_alone).map(|how| format!("alone: {how}"));
        let with = self.differs(|lent, planes| still(lent, &right, planes)).map(|how| format!("with the right: {how}"));
        alone.or(with)
    }
}

fn stills(folder: &str) -> Result<bool, String> {
    let said = |why: io::Error| format!("{folder}: {why}");
    let listed: Result<Vec<PathBuf>, _> = fs::read_dir(folder).map_err(said)?.map(|e| Ok(e?.path())).collect();
    let mut files = listed.map_err(said)?;
    files.retain(|file| file.extension().is_some_and(|end| end == "still"));
    files.sort();
    if files.is_empty() {
        return Err(format!("there is no .still file in {folder}"));
    }
    let mut differing = 0;
    for file in &files {
        let name = file.file_stem().unwrap_or_default().display();
        let case = Case::read(file)?;
        let (cols, rows) = (case.cols, case.rows);
        let how = case.compare();
        differing += usize::from(how.is_some());
        println!("{name} {cols}x{rows} macroblocks: {}", how.as_deref().unwrap_or("Y, U and V equal"));
    }
    println!("stills {} differing {differing}", files.len());
    Ok(differing == 0)
}

fn main() -> ExitCode {
    let words: Vec<String> = std::env::args().skip(1).collect();
    let done = match &words[..] {
        [folder] => stills(folder),
        _ => Err("it is stills FOLDER".to_string()),
    };
    match done {
        Ok(true) => ExitCode::SUCCESS,
        Ok(false) => ExitCode::FAILURE,
        Err(why) => {
            eprintln!("stills: {why}");
            ExitCode::from(2)
        }
    }
}
