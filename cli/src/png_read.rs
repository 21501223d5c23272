//! The PNG reader: 8 bits a sample, grey or RGB, not interlaced; any filters, any chunks beside. Whatever is wrong is one
//! clear line.

use crate::inflate::{inflate, Wrong};
use crate::png::{crc, Adler, SIGNATURE};

/// A picture as it stands in a file, its rows one after another.
#[derive(Debug, PartialEq, Eq)]
pub struct Pixels {
    pub width: u32,
    pub height: u32,
    /// Bytes a pixel: 1 grey, 3 RGB.
    pub each: usize,
    pub bytes: Vec<u8>,
}

/// A chunk: its name and its bytes.
struct Chunk<'a> {
    name: [u8; 4],
    bytes: &'a [u8],
}

/// The next chunk, and what follows it.
fn chunk(file: &[u8]) -> Result<(Chunk<'_>, &[u8]), String> {
    let short = || "it ends within a chunk".to_string();
    let (length, rest) = file.split_first_chunk::<4>().ok_or_else(short)?;
    let (name, rest) = rest.split_first_chunk::<4>().ok_or_else(short)?;
    let length = u32::from_be_bytes(*length) as usize;
    let bytes = rest.get(..length).ok_or_else(short)?;
    let (sum, after) = rest[length..].split_first_chunk::<4>().ok_or_else(short)?;
    if u32::from_be_bytes(*sum) != crc(name.iter().chain(bytes)) {
        return Err(format!("its chunk {} is damaged", name.escape_ascii()));
    }
    Ok((Chunk { name: *name, bytes }, after))
}

/// The head of a picture: width, height, bytes a pixel.
fn head(file: &[u8]) -> Result<(u32, u32, usize, &[u8]), String> {
    let rest = file.strip_prefix(SIGNATURE).ok_or("it is no PNG file")?;
    let (first, rest) = chunk(rest)?;
    let (b"IHDR", Ok::<&[u8; 13], _>(head)) = (&first.name, first.bytes.try_into()) else {
        return Err("its first chunk is no IHDR".to_string());
    };
    let word = |at: usize| u32::from_be_bytes([head[at], head[at + 1], head[at + 2], head[at + 3]]);
    let each = match (head[8], head[9]) {
        (8, 0) => 1,
        (8, 2) => 3,
        (bits, kind) => {
            let what = match kind {
                0 => "grey",
                2 => "RGB",
                3 => "a palette",
                4 => "grey with alpha",
                6 => "RGB with alpha",
                _ => "an unknown kind of pixel",
            };
            return Err(format!(
                "its pixels are {what} of {bits} bits a sample, and only grey or RGB of 8 bits is read"
            ));
        }
    };
    if head[10] != 0 || head[11] != 0 {
        return Err("its pixels are packed in an unknown way".to_string());
    }
    if head[12] != 0 {
        return Err("it is interlaced, and only PNG files that are not interlaced are read".to_string());
    }
    Ok((word(0), word(4), each, rest))
}

/// Reads a picture of so many pixels; one of another size is refused before it is unpacked.
pub fn read(file: &[u8], width: u32, height: u32) -> Result<Pixels, String> {
    let (w, h, each, mut rest) = head(file)?;
    if (w, h) != (width, height) {
        return Err(format!("it has {w}x{h} pixels and not {width}x{height}"));
    }
    let (mut stream, mut ended) = (Vec::new(), false);
    while !ended {
        if rest.is_empty() {
            return Err("it ends without an IEND chunk".to_string());
        }
        let (next, after) = chunk(rest)?;
        match &next.name {
            b"IDAT" => stream.extend(next.bytes),
            b"IEND" => ended = true,
            // a capital letter first: a chunk that the picture cannot be read without
            name if name[0].is_ascii_uppercase() && name != b"PLTE" => {
                return Err(format!("its chunk {} is unknown", name.escape_ascii()));
            }
            _ => {}
        }
        rest = after;
    }
    if !rest.is_empty() {
        return Err("more follows its IEND chunk".to_string());
    }
    let line = each * width as usize;
    let bytes = unfiltered(&unpacked(&stream, (line + 1) * height as usize)?, line, each)?;
    Ok(Pixels { width, height, each, bytes })
}

/// A zlib stream (RFC 1950) of exactly so many bytes.
fn unpacked(stream: &[u8], length: usize) -> Result<Vec<u8>, String> {
    let (head, rest) = stream.split_first_chunk::<2>().ok_or("it has no pixels")?;
    if head[0] & 15 != 8 || head[1] & 32 != 0 || u16::from_be_bytes(*head) % 31 != 0 {
        return Err("its pixels are packed in an unknown way".to_string());
    }
    let (out, taken) = inflate(rest, length).map_err(|wrong| {
        match wrong {
            Wrong::Short => "its pixels end early",
            Wrong::Long => "it has more pixels than its size says",
            Wrong::Damaged => "its pixels are damaged",
        }
        .to_string()
    })?;
    if out.len() < length {
        return Err("its pixels end early".to_string());
    }
    let mut check = Adler::new();
    out.iter().for_each(|&byte| check.byte(byte));
    if rest.get(taken..) != Some(&check.sum().to_be_bytes()[..]) {
        return Err("its pixels are damaged".to_string());
    }
    Ok(out)
}

/// The rows behind their filters (PNG, section 9): each byte is the sum of what is stored and a guess from the pixels to
/// the left, above, and above left.
fn unfiltered(lines: &[u8], line: usize, each: usize) -> Result<Vec<u8>, String> {
    let mut out: Vec<u8> = Vec::with_capacity(lines.len());
    for stored in lines.chunks_exact(line + 1) {
        let start = out.len();
        for i in 0..line {
            let left = if i < each { 0 } else { out[start + i - each] };
            let above = if start == 0 { 0 } else { out[start - line + i] };
            let corner = if i < each || start == 0 { 0 } else { out[start - line + i - each] };
            let guess = match stored[0] {
                0 => 0,
                1 => left,
                2 => above,
                3 => ((u16::from(left) + u16::from(above)) / 2) as u8,
                4 => paeth(left, above, corner),
                filter => return Err(format!("its filter {filter} is unknown")),
            };
            out.push(stored[1 + i].wrapping_add(guess));
        }
    }
    Ok(out)
}

/// The one of three that is nearest to left + above - corner.
fn paeth(left: u8, above: u8, corner: u8) -> u8 {
    let [a, b, c] = [left, above, corner].map(i16::from);
    let far = |x: i16| (a + b - c - x).abs();
    if far(a) <= far(b) && far(a) <= far(c) {
        left
    } else if far(b) <= far(c) {
        above
    } else {
        corner
    }
}

#[cfg(test)]
mod tests {
    use super::*;
    use crate::png::Png;

    fn written(width: u32, height: u32, color: bool) -> (Vec<u8>, Vec<u8>) {
        let line = if color { 3 * width } else { width };
        let bytes: Vec<u8> = (0..line * height).map(|i| (i * i / 7 + i / line) as u8).collect();
        let mut file = Vec::new();
        let mut png = Png::new(&mut file, width, height, color).unwrap();
        bytes.chunks(line as usize).for_each(|row| png.row(row).unwrap());
        png.end().unwrap();
        (file, bytes)
    }

    #[test]
    fn what_is_written_is_read() {
        for (width, height) in [(1, 1), (16, 16), (37, 5), (5, 300)] {
            for color in [false, true] {
                let (file, bytes) = written(width, height, color);
                let each = if color { 3 } else { 1 };
                assert_eq!(read(&file, width, height), Ok(Pixels { width, height, each, bytes }));
            }
        }
    }

    #[test]
    fn every_damaged_byte_is_refused() {
        let (file, _) = written(12, 7, true);
        for at in 0..file.len() {
            let mut damaged = file.clone();
            damaged[at] ^= 0x10;
            let why = read(&damaged, 12, 7).expect_err("a damaged file");
            assert!(!why.contains('\n'));
            assert!(read(&file[..at], 12, 7).is_err());
        }
        assert!(read(&[&file[..], &[0]].concat(), 12, 7).is_err());
        assert_eq!(read(&file, 7, 12), Err("it has 12x7 pixels and not 7x12".to_string()));
    }

    #[test]
    fn filters_by_hand() {
        // two rows of three grey pixels in each filter, above them 10 20 30
        for (filter, stored, row) in [
            (0, [1, 2, 3], [1, 2, 3]),
            (1, [1, 2, 3], [1, 3, 6]),
            (2, [1, 2, 255], [11, 22, 29]),
            (3, [1, 2, 3], [6, 15, 25]),
            (4, [1, 2, 3], [11, 22, 33]),
        ] {
            let lines = [[0, 10, 20, 30], [filter, stored[0], stored[1], stored[2]]].concat();
            assert_eq!(unfiltered(&lines, 3, 1), Ok([[10, 20, 30], row].concat()), "filter {filter}");
        }
        assert!(unfiltered(&[5, 1], 1, 1).is_err());
        assert_eq!((paeth(10, 20, 10), paeth(20, 10, 10), paeth(1, 9, 5)), (20, 20, 5));
    }
}
