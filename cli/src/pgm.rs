//! The PGM reader: grey of 255 levels, its bytes as they are (P5) or as numbers (P2), comments in its head.

use crate::png_read::Pixels;

/// The numbers of a head or of a P2 picture, between blanks and comments.
struct Numbers<'a> {
    rest: &'a [u8],
}

impl Numbers<'_> {
    fn next(&mut self) -> Result<u32, String> {
        loop {
            match self.rest.first() {
                Some(b'#') => {
                    let end = self.rest.iter().position(|&byte| byte == b'\n').unwrap_or(self.rest.len());
                    self.rest = &self.rest[end..];
                }
                Some(byte) if byte.is_ascii_whitespace() => self.rest = &self.rest[1..],
                _ => break,
            }
        }
        let digits = self.rest.iter().take_while(|byte| byte.is_ascii_digit()).count();
        let text = std::str::from_utf8(&self.rest[..digits]).unwrap_or_default();
        self.rest = &self.rest[digits..];
        match text.parse() {
            Ok(number) => Ok(number),
            Err(_) if digits == 0 && self.rest.is_empty() => Err("it ends early".to_string()),
            Err(_) => Err("it has something else where a number is wanted".to_string()),
        }
    }
}

/// Is it a PGM file by its first two bytes?
pub fn begins(file: &[u8]) -> bool {
    file.starts_with(b"P5") || file.starts_with(b"P2")
}

/// Reads a picture of so many pixels.
pub fn read(file: &[u8], width: u32, height: u32) -> Result<Pixels, String> {
    if !begins(file) {
        return Err("it is no PGM file".to_string());
    }
    let mut numbers = Numbers { rest: &file[2..] };
    let (w, h, levels) = (numbers.next()?, numbers.next()?, numbers.next()?);
    if (w, h) != (width, height) {
        return Err(format!("it has {w}x{h} pixels and not {width}x{height}"));
    }
    if levels != 255 {
        return Err(format!("its levels go to {levels}, and only PGM files whose levels go to 255 are read"));
    }
    let count = width as usize * height as usize;
    let bytes = if file.starts_with(b"P5") {
        // one blank stands between the head and the pixels
        let rest = numbers.rest;
        let Some((_, bytes)) = rest.split_first().filter(|(blank, _)| blank.is_ascii_whitespace()) else {
            return Err("it ends early".to_string());
        };
        match bytes.len() {
            n if n < count => return Err("its pixels end early".to_string()),
            n if n > count => return Err("it has more pixels than its size says".to_string()),
            _ => bytes.to_vec(),
        }
    } else {
        let mut bytes = Vec::new();
        for _ in 0..count {
            let level = numbers.next()?;
            bytes.push(u8::try_from(level).map_err(|_| format!("its level {level} is more than 255"))?);
        }
        if numbers.rest.iter().any(|byte| !byte.is_ascii_whitespace()) {
            return Err("it has more pixels than its size says".to_string());
        }
        bytes
    };
    Ok(Pixels { width, height, each: 1, bytes })
}

#[cfg(test)]
mod tests {
    use super::*;

    #[test]
    fn both_kinds() {
        let pixels = Pixels { width: 3, height: 2, each: 1, bytes: vec![0, 10, 255, 35, 32, 9] };
        assert_eq!(read(b"P5\n3 2\n255\n\x00\x0a\xff# \t", 3, 2), Ok(pixels));
        let pixels = Pixels { width: 2, height: 1, each: 1, bytes: vec![7, 255] };
        assert_eq!(read(b"P2 # by hand\n2 1 # size\n255\n7\n255\n", 2, 1), Ok(pixels));
    }

    #[test]
    fn wrong_files_are_one_line() {
        for file in [
            &b"P6\n3 2\n255\n"[..],
            b"P5",
            b"P5\n3 2\n255",
            b"P5\n3 2\n255\n12345",
            b"P5\n3 2\n255\n1234567",
            b"P5\n3 2\n65535\n123456",
            b"P5\n2 3\n255\n123456",
            b"P5\n3 x\n255\n123456",
            b"P5\n3 99999999999\n255\n123456",
            b"P2\n3 2\n255\n1 2 3 4 5",
            b"P2\n3 2\n255\n1 2 3 4 5 256",
            b"P2\n3 2\n255\n1 2 3 4 5 6 7",
        ] {
            let why = read(file, 3, 2).expect_err("a wrong file");
            assert!(!why.is_empty() && !why.contains('\n'), "{why}");
        }
    }
}
