//! Deflate (RFC 1951) in its simplest useful form: one block of fixed codes, in which a repeated byte is a copy at
//! distance 1. Flat parts of a picture become small, the rest is kept at 8 or 9 bits a byte.

/// A stream of one block.
pub struct Deflate {
    /// Whole bytes that are ready.
    pub out: Vec<u8>,
    /// Bits that fill no byte yet, the first one lowest.
    bits: u32,
    count: u32,
    /// The last byte, and how often it came since it was written out.
    last: Option<u8>,
    run: u32,
}

/// The first length of each length code from 257 on, and the extra bits that follow the code (RFC 1951, 3.2.5).
#[rustfmt::skip]
const LENGTHS: [(u32, u32); 29] = [
    (3, 0), (4, 0), (5, 0), (6, 0), (7, 0), (8, 0), (9, 0), (10, 0), (11, 1), (13, 1), (15, 1), (17, 1), (19, 2),
    (23, 2), (27, 2), (31, 2), (35, 3), (43, 3), (51, 3), (59, 3), (67, 4), (83, 4), (99, 4), (115, 4), (131, 5),
    (163, 5), (195, 5), (227, 5), (258, 0),
];

/// The longest copy.
const LONGEST: u32 = 258;

impl Deflate {
    pub fn new() -> Deflate {
        let mut stream = Deflate { out: Vec::new(), bits: 0, count: 0, last: None, run: 0 };
        stream.put(1, 1); // the last block,
        stream.put(1, 2); // of fixed codes
        stream
    }

    /// Bits in the order of their places, the lowest first.
    fn put(&mut self, bits: u32, count: u32) {
        self.bits |= bits << self.count;
        self.count += count;
        while self.count >= 8 {
            self.out.push(self.bits as u8);
            self.bits >>= 8;
            self.count -= 8;
        }
    }

    /// A fixed code (3.2.6), whose highest bit comes first.
    fn symbol(&mut self, symbol: u32) {
        let (code, count) = match symbol {
            0..=143 => (0x30 + symbol, 8),
            144..=255 => (0x190 + symbol - 144, 9),
            256..=279 => (symbol - 256, 7),
            _ => (0xC0 + symbol - 280, 8),
        };
        self.put(code.reverse_bits() >> (32 - count), count);
    }

    /// Writes out the run of the last byte: as a copy, or byte by byte where it is too short for one.
    fn end_run(&mut self) {
        let Some(byte) = self.last else { return };
        if self.run >= 3 {
            let mut found = (257, LENGTHS[0]);
            for (code, length) in (257..).zip(LENGTHS) {
                if length.0 <= self.run {
                    found = (code, length);
                }
            }
            let (code, (first, extra)) = found;
            self.symbol(code);
            self.put(self.run - first, extra);
            self.put(0, 5); // distance 1
        } else {
            for _ in 0..self.run {
                self.symbol(byte.into());
            }
        }
        self.run = 0;
    }

    pub fn byte(&mut self, byte: u8) {
        if self.last == Some(byte) && self.run < LONGEST {
            self.run += 1;
            return;
        }
        self.end_run();
        if self.last == Some(byte) {
            self.run = 1;
        } else {
            self.symbol(byte.into());
            self.last = Some(byte);
        }
    }

    /// Ends the block, filled up to a whole byte.
    pub fn end(&mut self) {
        self.end_run();
        self.symbol(256);
        self.put(0, (8 - self.count) % 8);
    }
}

#[cfg(test)]
pub mod tests {
    use super::*;

    /// Reads one block of fixed codes back: its bytes, and how many bytes of the stream it took.
    pub fn inflate(stream: &[u8]) -> (Vec<u8>, usize) {
        let mut at = 0;
        let mut bit = || {
            at += 1;
            u32::from(stream[(at - 1) / 8] >> ((at - 1) % 8) & 1)
        };
        assert_eq!((bit(), bit(), bit()), (1, 1, 0), "one last block of fixed codes");
        let mut out = Vec::new();
        loop {
            let mut code = 0;
            let mut count = 0;
            let symbol = loop {
                code = 2 * code + bit();
                count += 1;
                match (count, code) {
                    (7, 0..=0x17) => break 256 + code,
                    (8, 0x30..=0xBF) => break code - 0x30,
                    (8, 0xC0..=0xC7) => break 280 + code - 0xC0,
                    (9, 0x190..=0x1FF) => break 144 + code - 0x190,
                    (9.., _) => panic!("no code"),
                    _ => {}
                }
            };
            match symbol {
                0..=255 => out.push(symbol as u8),
                256 => break,
                _ => {
                    let (first, extra) = LENGTHS[symbol as usize - 257];
                    let more: u32 = (0..extra).map(|k| bit() << k).sum();
                    let distance: u32 = (0..5).map(|_| bit()).sum();
                    assert_eq!(distance, 0, "distance 1");
                    let last = *out.last().expect("a byte before the copy");
                    out.extend(std::iter::repeat_n(last, (first + more) as usize));
                }
            }
        }
        (out, at.div_ceil(8))
    }

    fn there_and_back(bytes: &[u8]) -> usize {
        let mut stream = Deflate::new();
        for &byte in bytes {
            stream.byte(byte);
        }
        stream.end();
        assert_eq!(inflate(&stream.out), (bytes.to_vec(), stream.out.len()));
        stream.out.len()
    }

    #[test]
    fn runs_of_each_length() {
        for length in 0..1100 {
            for byte in [0, 143, 144, 255] {
                there_and_back(&vec![byte; length]);
                there_and_back(&[vec![7; 2], vec![byte; length], vec![9]].concat());
            }
        }
    }

    #[test]
    fn every_byte() {
        let all: Vec<u8> = (0..=255).collect();
        there_and_back(&[&all[..], &all].concat());
        let pairs: Vec<u8> = all.iter().flat_map(|&a| [a, a, a, 255 - a]).collect();
        there_and_back(&pairs);
    }

    #[test]
    fn a_flat_picture_is_small() {
        assert!(there_and_back(&[128; 100_000]) < 700);
    }
}
