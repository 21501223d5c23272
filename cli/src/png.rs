//! The PNG writer: 8 bits a sample, grey or RGB, not interlaced.
//!
//!     signature   IHDR   IDAT ..   IEND
//!
//! A chunk is its length, its name, its bytes and a CRC-32 of name and bytes. The bytes of all IDAT chunks together are
//! a zlib stream (RFC 1950) of the filtered rows.

use crate::deflate::Deflate;
use std::io::{self, Write};

/// The bytes that a file begins with.
pub const SIGNATURE: &[u8; 8] = b"\x89PNG\r\n\x1a\n";

/// Bytes from which on the stream is cut into another chunk.
const CHUNK: usize = 1 << 16;

/// A picture on its way into `to`.
pub struct Png<W: Write> {
    to: W,
    stream: Deflate,
    check: Adler,
    /// Bytes a pixel: 1 grey, 3 RGB.
    pixel: usize,
    /// The row above the one that is written, black before the first.
    above: Vec<u8>,
}

impl<W: Write> Png<W> {
    pub fn new(mut to: W, width: u32, height: u32, color: bool) -> io::Result<Png<W>> {
        let mut head = [0; 13];
        head[..4].copy_from_slice(&width.to_be_bytes());
        head[4..8].copy_from_slice(&height.to_be_bytes());
        head[8] = 8; // bits a sample
        head[9] = if color { 2 } else { 0 };
        to.write_all(SIGNATURE)?;
        chunk(&mut to, b"IHDR", &head)?;
        let pixel = if color { 3 } else { 1 };
        let mut stream = Deflate::new();
        stream.out.extend([0x78, 0x01]); // zlib's head, before the first whole byte: Deflate, no dictionary
        Ok(Png { to, stream, check: Adler::new(), pixel, above: vec![0; pixel * width as usize] })
    }

    /// The next row. Of the filters Sub (1), less the pixel to the left, and Up (2), less the pixel above, the one that
    /// leaves more zeros is taken.
    pub fn row(&mut self, row: &[u8]) -> io::Result<()> {
        let left = |i: usize| if i < self.pixel { 0 } else { row[i - self.pixel] };
        let sub = || row.iter().enumerate().map(|(i, x)| x.wrapping_sub(left(i)));
        let up = || row.iter().zip(&self.above).map(|(x, above)| x.wrapping_sub(*above));
        let zeros = |differences: &mut dyn Iterator<Item = u8>| differences.filter(|&x| x == 0).count();
        let (stream, check) = (&mut self.stream, &mut self.check);
        let mut put = |byte| {
            stream.byte(byte);
            check.byte(byte);
        };
        if zeros(&mut sub()) > zeros(&mut up()) {
            put(1);
            sub().for_each(put);
        } else {
            put(2);
            up().for_each(put);
        }
        self.above.copy_from_slice(row);
        if self.stream.out.len() >= CHUNK {
            self.flush()?;
        }
        Ok(())
    }

    fn flush(&mut self) -> io::Result<()> {
        chunk(&mut self.to, b"IDAT", &self.stream.out)?;
        self.stream.out.clear();
        Ok(())
    }

    /// Ends the picture after its last row.
    pub fn end(mut self) -> io::Result<()> {
        self.stream.end();
        self.stream.out.extend(self.check.sum().to_be_bytes());
        self.flush()?;
        chunk(&mut self.to, b"IEND", &[])?;
        self.to.flush()
    }
}

fn chunk(to: &mut impl Write, name: &[u8; 4], bytes: &[u8]) -> io::Result<()> {
    let length = u32::try_from(bytes.len()).map_err(io::Error::other)?;
    to.write_all(&length.to_be_bytes())?;
    to.write_all(name)?;
    to.write_all(bytes)?;
    to.write_all(&crc(name.iter().chain(bytes)).to_be_bytes())
}

/// CRC-32 as PNG has it: the polynomial 0xEDB88320, low bit first.
pub fn crc<'a>(bytes: impl Iterator<Item = &'a u8>) -> u32 {
    const TABLE: [u32; 256] = {
        let mut table = [0; 256];
        let mut n = 0;
        while n < 256 {
            let mut c = n as u32;
            let mut k = 0;
            while k < 8 {
                c = if c & 1 == 1 { 0xEDB8_8320 ^ (c >> 1) } else { c >> 1 };
                k += 1;
            }
            table[n] = c;
            n += 1;
        }
        table
    };
    !bytes.fold(!0, |crc, &byte| TABLE[usize::from(crc as u8 ^ byte)] ^ (crc >> 8))
}

/// Adler-32 (RFC 1950): two sums modulo 65,521.
pub struct Adler {
    a: u32,
    b: u32,
}

impl Adler {
    pub fn new() -> Adler {
        Adler { a: 1, b: 0 }
    }

    pub fn byte(&mut self, byte: u8) {
        self.a = (self.a + u32::from(byte)) % 65521;
        self.b = (self.b + self.a) % 65521;
    }

    pub fn sum(&self) -> u32 {
        self.b << 16 | self.a
    }
}

#[cfg(test)]
pub mod tests {
    use super::*;
    use crate::deflate::tests::inflate;

    #[test]
    fn sums_of_known_bytes() {
        assert_eq!(crc(b"IEND".iter()), 0xAE42_6082);
        assert_eq!(crc(b"123456789".iter()), 0xCBF4_3926);
        let mut adler = Adler::new();
        b"Wikipedia".iter().for_each(|&byte| adler.byte(byte));
        assert_eq!(adler.sum(), 0x11E6_0398);
    }

    /// A picture, read back: width, height, bytes a pixel, and its rows.
    pub fn read_back(png: &[u8]) -> (u32, u32, usize, Vec<Vec<u8>>) {
        let word = |at: usize| u32::from_be_bytes(png[at..at + 4].try_into().unwrap());
        assert_eq!(&png[..8], b"\x89PNG\r\n\x1a\n");
        let (mut at, mut head, mut stream, mut ended) = (8, Vec::new(), Vec::new(), false);
        while at < png.len() {
            assert!(!ended, "nothing follows IEND");
            let (length, name) = (word(at) as usize, &png[at + 4..at + 8]);
            let bytes = &png[at + 8..at + 8 + length];
            assert_eq!(word(at + 8 + length), crc(name.iter().chain(bytes)));
            match name {
                b"IHDR" => head = bytes.to_vec(),
                b"IDAT" => stream.extend(bytes),
                b"IEND" => ended = true,
                _ => panic!("an unknown chunk"),
            }
            at += 12 + length;
        }
        assert!(ended);
        let pixel = match head[8..] {
            [8, 0, 0, 0, 0] => 1,
            [8, 2, 0, 0, 0] => 3,
            _ => panic!("another kind of picture"),
        };
        let (width, height) = (word(16), word(20));
        assert_eq!(u16::from_be_bytes([stream[0], stream[1]]) % 31, 0);
        let (filtered, taken) = inflate(&stream[2..]);
        let mut adler = Adler::new();
        filtered.iter().for_each(|&byte| adler.byte(byte));
        assert_eq!(stream[2 + taken..], adler.sum().to_be_bytes());
        let mut rows: Vec<Vec<u8>> = Vec::new();
        for line in filtered.chunks(1 + pixel * width as usize) {
            let mut row = line[1..].to_vec();
            for i in 0..row.len() {
                let before = match line[0] {
                    1 if i >= pixel => row[i - pixel],
                    2 => rows.last().map_or(0, |above| above[i]),
                    _ => 0,
                };
                row[i] = row[i].wrapping_add(before);
            }
            rows.push(row);
        }
        assert_eq!(rows.len(), height as usize);
        (width, height, pixel, rows)
    }

    fn there_and_back(width: u32, rows: &[Vec<u8>], color: bool) -> usize {
        let mut file = Vec::new();
        let mut png = Png::new(&mut file, width, rows.len() as u32, color).unwrap();
        for row in rows {
            png.row(row).unwrap();
        }
        png.end().unwrap();
        assert_eq!(read_back(&file), (width, rows.len() as u32, if color { 3 } else { 1 }, rows.to_vec()));
        file.len()
    }

    /// Bytes that hardly repeat.
    fn noise(count: usize) -> Vec<u8> {
        let mut seed = 1u32;
        let mut next = || {
            seed = seed.wrapping_mul(1664525).wrapping_add(1013904223);
            (seed >> 24) as u8
        };
        (0..count).map(|_| next()).collect()
    }

    #[test]
    fn pictures_come_back() {
        for (width, height) in [(1, 1), (1, 9), (9, 1), (16, 16), (33, 31), (200, 16)] {
            for color in [false, true] {
                let line = width * if color { 3 } else { 1 };
                let noisy = noise(line * height);
                there_and_back(width as u32, &noisy.chunks(line).map(<[u8]>::to_vec).collect::<Vec<_>>(), color);
                there_and_back(width as u32, &vec![vec![129; line]; height], color);
                there_and_back(width as u32, &vec![noise(line); height], color);
            }
        }
    }

    #[test]
    fn a_large_picture_has_several_chunks() {
        let rows: Vec<Vec<u8>> = noise(400 * 500).chunks(400).map(<[u8]>::to_vec).collect();
        assert!(there_and_back(400, &rows, false) > 3 * CHUNK);
    }
}
