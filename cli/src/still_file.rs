//! The still file, as docs/STILL-FILE.md describes it: `ZSTILL1\n`, four sizes, and for n macroblocks in raster order
//! 3 n bytes of modes, 16 n of sub-block modes and 400 n coefficients.

use crate::progress::Progress;
use std::fmt;
use std::io::{self, ErrorKind, Read};
use zopredil::{ModeByte, Still};

pub const MAGIC: &[u8; 8] = b"ZSTILL1\n";

/// Bytes before the lists.
pub const HEAD: u64 = 24;

/// Bytes of a macroblock: 3 and 16, and 400 numbers.
pub const MACROBLOCK: u64 = 819;

/// The sizes at the head of the file, checked.
#[derive(Debug, Clone, Copy, PartialEq, Eq)]
pub struct Sizes {
    pub width: u32,
    pub height: u32,
    pub cols: u32,
    pub rows: u32,
}

/// A file, read whole. The bytes of its lists are as found: the library says whether they are modes.
#[derive(Debug, PartialEq, Eq)]
pub struct StillFile {
    pub sizes: Sizes,
    pub modes: Vec<u8>,
    pub sub_modes: Vec<u8>,
    pub coeffs: Vec<i16>,
}

impl StillFile {
    /// The still as the library takes it.
    pub fn lent(&self) -> Still<'_> {
        let (cols, rows) = (self.sizes.cols as usize, self.sizes.rows as usize);
        Still { cols, rows, modes: &self.modes, sub_modes: &self.sub_modes, coeffs: &self.coeffs }
    }
}

/// Why a file is no still.
#[derive(Debug)]
pub enum BadStill {
    Magic,
    Head,
    Sides(Sizes),
    NoPixels(Sizes),
    Misfit(Sizes),
    EndsEarly(Sizes),
    GoesOn(Sizes),
    Memory(Sizes),
    Read(io::Error),
}

impl fmt::Display for BadStill {
    fn fmt(&self, f: &mut fmt::Formatter<'_>) -> fmt::Result {
        match self {
            BadStill::Magic => write!(f, "it is no still: it does not begin with ZSTILL1"),
            BadStill::Head => write!(f, "the file ends before its four sizes do"),
            BadStill::Sides(s) => {
                write!(f, "it says {}x{} macroblocks, and a side is 1 to 1024", s.cols, s.rows)
            }
            BadStill::NoPixels(s) => write!(f, "it says {}x{} pixels, which is no picture", s.width, s.height),
            BadStill::Misfit(s) => {
                let fit = |pixels: u32| pixels.div_ceil(16);
                write!(f, "it says {}x{} pixels in {}x{} macroblocks", s.width, s.height, s.cols, s.rows)?;
                write!(f, ", and they take {}x{}", fit(s.width), fit(s.height))
            }
            BadStill::EndsEarly(s) => write!(f, "the file ends early: {}", s.bytes_wanted()),
            BadStill::GoesOn(s) => write!(f, "the file goes on past its end: {}", s.bytes_wanted()),
            BadStill::Memory(s) => write!(f, "there is no memory for {}x{} macroblocks", s.cols, s.rows),
            BadStill::Read(why) => write!(f, "{why}"),
        }
    }
}

impl Sizes {
    /// How many macroblocks.
    pub fn count(&self) -> usize {
        self.cols as usize * self.rows as usize
    }

    /// Bytes of the whole file.
    fn length(&self) -> u64 {
        HEAD + MACROBLOCK * self.count() as u64
    }

    /// Where a byte of a macroblock stands in the file, counted from 0.
    pub fn place(&self, macroblock: usize, byte: ModeByte) -> u64 {
        let (index, modes) = (macroblock as u64, HEAD + 3 * macroblock as u64);
        match byte {
            ModeByte::Luma => modes,
            ModeByte::Chroma => modes + 1,
            ModeByte::Skip => modes + 2,
            ModeByte::SubBlock(k) => HEAD + 3 * self.count() as u64 + 16 * index + k as u64,
        }
    }

    fn bytes_wanted(&self) -> String {
        format!("{}x{} macroblocks take {} bytes", self.cols, self.rows, self.length())
    }

    fn check(self) -> Result<Sizes, BadStill> {
        let side = 1..=1024;
        if !side.contains(&self.cols) || !side.contains(&self.rows) {
            return Err(BadStill::Sides(self));
        }
        if self.width == 0 || self.height == 0 {
            return Err(BadStill::NoPixels(self));
        }
        if self.width.div_ceil(16) != self.cols || self.height.div_ceil(16) != self.rows {
            return Err(BadStill::Misfit(self));
        }
        Ok(self)
    }
}

/// Fills `out`; an end before that is `early`.
fn fill(from: &mut impl Read, out: &mut [u8], early: BadStill) -> Result<(), BadStill> {
    from.read_exact(out).map_err(|why| if why.kind() == ErrorKind::UnexpectedEof { early } else { BadStill::Read(why) })
}

fn number(from: &mut impl Read) -> Result<u32, BadStill> {
    let mut bytes = [0; 4];
    fill(from, &mut bytes, BadStill::Head)?;
    Ok(u32::from_le_bytes(bytes))
}

fn sizes(from: &mut impl Read) -> Result<Sizes, BadStill> {
    let mut magic = [0; 8];
    fill(from, &mut magic, BadStill::Magic)?;
    if magic != *MAGIC {
        return Err(BadStill::Magic);
    }
    Sizes { width: number(from)?, height: number(from)?, cols: number(from)?, rows: number(from)? }.check()
}

/// An empty list with room for `count`.
fn room<T>(count: usize, sizes: Sizes) -> Result<Vec<T>, BadStill> {
    let mut list = Vec::new();
    list.try_reserve_exact(count).map_err(|_| BadStill::Memory(sizes))?;
    Ok(list)
}

fn bytes(from: &mut impl Read, count: usize, sizes: Sizes) -> Result<Vec<u8>, BadStill> {
    let mut list = room(count, sizes)?;
    list.resize(count, 0);
    fill(from, &mut list, BadStill::EndsEarly(sizes))?;
    Ok(list)
}

fn numbers(from: &mut impl Read, count: usize, sizes: Sizes, progress: &mut Progress) -> Result<Vec<i16>, BadStill> {
    let mut list = room(count, sizes)?;
    let mut buffer = [0; 1 << 15];
    while list.len() < count {
        let taken = buffer.len().min(2 * (count - list.len()));
        fill(from, &mut buffer[..taken], BadStill::EndsEarly(sizes))?;
        list.extend(buffer[..taken].chunks_exact(2).map(|two| i16::from_le_bytes([two[0], two[1]])));
        progress.at(list.len(), count);
    }
    Ok(list)
}

/// Reads a still to its end. `length` is that of the file, where it is known: a wrong one is refused before the lists
/// are read.
pub fn read(from: &mut impl Read, length: Option<u64>, progress: &mut Progress) -> Result<StillFile, BadStill> {
    let sizes = sizes(from)?;
    match length {
        Some(length) if length < sizes.length() => return Err(BadStill::EndsEarly(sizes)),
        Some(length) if length > sizes.length() => return Err(BadStill::GoesOn(sizes)),
        _ => {}
    }
    let count = sizes.count();
    progress.begin(count, "reading");
    let modes = bytes(from, 3 * count, sizes)?;
    let sub_modes = bytes(from, 16 * count, sizes)?;
    let coeffs = numbers(from, 400 * count, sizes, progress)?;
    match fill(from, &mut [0], BadStill::EndsEarly(sizes)) {
        Err(BadStill::EndsEarly(_)) => Ok(StillFile { sizes, modes, sub_modes, coeffs }),
        Err(why) => Err(why),
        Ok(()) => Err(BadStill::GoesOn(sizes)),
    }
}

#[cfg(test)]
mod tests {
    use super::*;

    /// A file of 2 by 1 macroblocks whose bytes tell their place.
    fn file(sizes: [u32; 4]) -> Vec<u8> {
        let mut file = MAGIC.to_vec();
        for size in sizes {
            file.extend(size.to_le_bytes());
        }
        file.extend((0..2 * 819).map(|k| (k % 251) as u8));
        file
    }

    fn read_slice(mut file: &[u8], known: bool) -> Result<StillFile, BadStill> {
        let length = known.then_some(file.len() as u64);
        read(&mut file, length, &mut Progress::on(None))
    }

    fn refused(file: &[u8]) -> String {
        let (known, unknown) = (read_slice(file, true).unwrap_err(), read_slice(file, false).unwrap_err());
        assert_eq!(known.to_string(), unknown.to_string());
        assert!(!known.to_string().contains('\n'));
        format!("{known:?}")
    }

    #[test]
    fn every_part_is_in_its_place() {
        let file = file([20, 16, 2, 1]);
        let still = read_slice(&file, true).unwrap();
        assert_eq!(still.sizes, Sizes { width: 20, height: 16, cols: 2, rows: 1 });
        assert_eq!(still.modes, file[24..30]);
        assert_eq!(still.sub_modes, file[30..62]);
        assert_eq!(still.coeffs.len(), 800);
        assert_eq!(still.coeffs[0], i16::from_le_bytes([file[62], file[63]]));
        assert_eq!(still.coeffs[799], i16::from_le_bytes([file[1660], file[1661]]));
        assert_eq!(read_slice(&file, false).unwrap(), still);
    }

    #[test]
    fn a_file_cut_anywhere_is_refused() {
        let file = file([20, 16, 2, 1]);
        for length in 0..file.len() {
            let why = refused(&file[..length]);
            let wanted = match length {
                0..8 => "Magic",
                8..24 => "Head",
                _ => "EndsEarly",
            };
            assert!(why.starts_with(wanted), "{length}: {why}");
        }
    }

    #[test]
    fn bytes_after_the_end_are_refused() {
        let mut file = file([20, 16, 2, 1]);
        file.push(0);
        assert!(refused(&file).starts_with("GoesOn"));
    }

    #[test]
    fn another_beginning_is_refused() {
        for place in 0..8 {
            let mut file = file([20, 16, 2, 1]);
            file[place] ^= 1;
            assert_eq!(refused(&file), "Magic");
        }
    }

    #[test]
    fn sizes_that_cannot_be() {
        let most = u32::MAX;
        for (sizes, wanted) in [
            ([20, 16, 0, 1], "Sides"),
            ([20, 16, 2, 0], "Sides"),
            ([20, 16, 1025, 1], "Sides"),
            ([20, 16, 2, 1025], "Sides"),
            ([20, 16, 1 << 16, 1 << 16], "Sides"),
            ([most, most, most, most], "Sides"),
            ([0, 16, 2, 1], "NoPixels"),
            ([20, 0, 2, 1], "NoPixels"),
            ([33, 16, 2, 1], "Misfit"),
            ([20, 17, 2, 1], "Misfit"),
            ([16, 16, 2, 1], "Misfit"),
            ([most, 16, 2, 1], "Misfit"),
            ([20, most, 2, 1], "Misfit"),
            ([20, 20, 2, 2], "EndsEarly"),
            ([16384, 16384, 1024, 1024], "EndsEarly"),
            ([16, 16, 1, 1], "GoesOn"),
        ] {
            let file = file(sizes);
            let why = read_slice(&file, true).unwrap_err();
            assert!(format!("{why:?}").starts_with(wanted), "{sizes:?}: {why:?}");
            assert!(!why.to_string().contains('\n'));
        }
        for (width, height) in [(17, 1), (32, 16), (17, 16), (32, 1)] {
            assert!(read_slice(&file([width, height, 2, 1]), true).is_ok());
        }
    }

    #[test]
    fn what_the_system_says_is_handed_on() {
        struct Broken;
        impl Read for Broken {
            fn read(&mut self, _: &mut [u8]) -> io::Result<usize> {
                Err(io::Error::other("the disk is gone"))
            }
        }
        for length in [0, 8, 24, 30, 62, 1662] {
            let whole = file([20, 16, 2, 1]);
            let mut from = whole[..length].chain(Broken);
            let why = read(&mut from, None, &mut Progress::on(None)).unwrap_err();
            assert_eq!(why.to_string(), "the disk is gone");
        }
    }
}
