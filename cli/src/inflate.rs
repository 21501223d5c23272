//! Inflates a Deflate stream (RFC 1951) of known length: stored blocks, and blocks of fixed or own Huffman codes.

/// What is wrong with a stream.
#[derive(Debug, Clone, Copy, PartialEq, Eq)]
pub enum Wrong {
    /// It ends before its last block does.
    Short,
    /// It has more bytes than were asked for.
    Long,
    /// A block or a code that RFC 1951 does not have.
    Damaged,
}

/// The bits of a stream, from the lowest of each byte on.
struct Bits<'a> {
    bytes: &'a [u8],
    next: usize,
    held: u64,
    count: u32,
}

impl Bits<'_> {
    /// At least `n` bits held, or zeros after the stream's end.
    fn fill(&mut self, n: u32) {
        while self.count < n {
            let byte = self.bytes.get(self.next).copied().unwrap_or(0);
            self.held |= u64::from(byte) << self.count;
            self.next += 1;
            self.count += 8;
        }
    }

    fn take(&mut self, n: u32) -> Result<u32, Wrong> {
        self.fill(n);
        let bits = (self.held & ((1 << n) - 1)) as u32;
        self.drop(n)?;
        Ok(bits)
    }

    fn drop(&mut self, n: u32) -> Result<(), Wrong> {
        self.held >>= n;
        self.count -= n;
        // whole bytes that are held were not used yet
        if self.next - self.count as usize / 8 > self.bytes.len() {
            return Err(Wrong::Short);
        }
        Ok(())
    }

    /// Lets the rest of a byte go, and hands back the whole bytes that are held.
    fn next_byte(&mut self) {
        self.next -= self.count as usize / 8;
        self.held = 0;
        self.count = 0;
    }
}

/// The longest code.
const LONGEST: usize = 15;

/// A Huffman code: how many codes there are of each length, and their symbols in the order of the codes.
struct Code {
    counts: [u16; LONGEST + 1],
    symbols: Vec<u16>,
}

impl Code {
    /// From the lengths of the symbols' codes, 0 where a symbol has none. No more codes than there is room for; fewer
    /// only where there is one code of one bit at most.
    fn new(lengths: &[u8]) -> Result<Code, Wrong> {
        let mut counts = [0u16; LONGEST + 1];
        for &length in lengths {
            counts[usize::from(length)] += 1;
        }
        counts[0] = 0;
        let mut room = 1i32;
        for &count in &counts[1..] {
            room = 2 * room - i32::from(count);
            if room < 0 {
                return Err(Wrong::Damaged);
            }
        }
        let used: u16 = counts.iter().sum();
        if room > 0 && (used > 1 || counts[1] != used) {
            return Err(Wrong::Damaged);
        }
        let mut starts = [0u16; LONGEST + 2];
        for length in 1..=LONGEST {
            starts[length + 1] = starts[length] + counts[length];
        }
        let mut symbols = vec![0; usize::from(used)];
        for (symbol, &length) in lengths.iter().enumerate().filter(|(_, &length)| length > 0) {
            let place = &mut starts[usize::from(length)];
            symbols[usize::from(*place)] = symbol as u16;
            *place += 1;
        }
        Ok(Code { counts, symbols })
    }

    /// The next symbol: its code is read from its highest bit on.
    fn symbol(&self, bits: &mut Bits<'_>) -> Result<u16, Wrong> {
        bits.fill(LONGEST as u32);
        let (mut code, mut first, mut before) = (0i32, 0i32, 0i32);
        for length in 1..=LONGEST {
            code |= (bits.held >> (length - 1) & 1) as i32;
            let count = i32::from(self.counts[length]);
            if code - first < count {
                bits.drop(length as u32)?;
                return Ok(self.symbols[(before + code - first) as usize]);
            }
            before += count;
            first = 2 * (first + count);
            code *= 2;
        }
        Err(if bits.next > bits.bytes.len() + 2 { Wrong::Short } else { Wrong::Damaged })
    }
}

/// The codes that a block of kind 1 has.
fn fixed() -> Result<(Code, Code), Wrong> {
    let mut lengths = [8u8; 288];
    lengths[144..256].fill(9);
    lengths[256..280].fill(7);
    Ok((Code::new(&lengths)?, Code::new(&[5; 32])?))
}

/// The codes that a block of kind 2 begins with.
fn own(bits: &mut Bits<'_>) -> Result<(Code, Code), Wrong> {
    const ORDER: [usize; 19] = [16, 17, 18, 0, 8, 7, 9, 6, 10, 5, 11, 4, 12, 3, 13, 2, 14, 1, 15];
    let literals = bits.take(5)? as usize + 257;
    let distances = bits.take(5)? as usize + 1;
    let count = bits.take(4)? as usize + 4;
    if literals > 286 || distances > 30 {
        return Err(Wrong::Damaged);
    }
    let mut lengths = [0u8; 19];
    for &place in &ORDER[..count] {
        lengths[place] = bits.take(3)? as u8;
    }
    let code = Code::new(&lengths)?;
    let mut lengths: Vec<u8> = Vec::with_capacity(literals + distances);
    while lengths.len() < literals + distances {
        let (value, times) = match code.symbol(bits)? {
            16 => (*lengths.last().ok_or(Wrong::Damaged)?, 3 + bits.take(2)?),
            17 => (0, 3 + bits.take(3)?),
            18 => (0, 11 + bits.take(7)?),
            length => (length as u8, 1),
        };
        lengths.extend((0..times).map(|_| value));
    }
    // a repetition that passes the end, and a block that cannot end
    if lengths.len() > literals + distances || lengths[256] == 0 {
        return Err(Wrong::Damaged);
    }
    Ok((Code::new(&lengths[..literals])?, Code::new(&lengths[literals..])?))
}

/// The bytes of a coded block, behind those that are out already.
fn coded(bits: &mut Bits<'_>, out: &mut Vec<u8>, most: usize, codes: (Code, Code)) -> Result<(), Wrong> {
    #[rustfmt::skip]
    const LENGTHS: [(u16, u32); 29] = [
        (3, 0), (4, 0), (5, 0), (6, 0), (7, 0), (8, 0), (9, 0), (10, 0), (11, 1), (13, 1), (15, 1), (17, 1), (19, 2),
        (23, 2), (27, 2), (31, 2), (35, 3), (43, 3), (51, 3), (59, 3), (67, 4), (83, 4), (99, 4), (115, 4), (131, 5),
        (163, 5), (195, 5), (227, 5), (258, 0),
    ];
    #[rustfmt::skip]
    const BACK: [(u16, u32); 30] = [
        (1, 0), (2, 0), (3, 0), (4, 0), (5, 1), (7, 1), (9, 2), (13, 2), (17, 3), (25, 3), (33, 4), (49, 4), (65, 5),
        (97, 5), (129, 6), (193, 6), (257, 7), (385, 7), (513, 8), (769, 8), (1025, 9), (1537, 9), (2049, 10),
        (3073, 10), (4097, 11), (6145, 11), (8193, 12), (12289, 12), (16385, 13), (24577, 13),
    ];
    let (literals, distances) = codes;
    loop {
        match literals.symbol(bits)? {
            256 => return Ok(()),
            byte if byte < 256 => {
                if out.len() == most {
                    return Err(Wrong::Long);
                }
                out.push(byte as u8);
            }
            length => {
                let &(least, more) = LENGTHS.get(usize::from(length) - 257).ok_or(Wrong::Damaged)?;
                let length = usize::from(least) + bits.take(more)? as usize;
                let &(least, more) = BACK.get(usize::from(distances.symbol(bits)?)).ok_or(Wrong::Damaged)?;
                let back = usize::from(least) + bits.take(more)? as usize;
                if back > out.len() {
                    return Err(Wrong::Damaged);
                }
                if length > most - out.len() {
                    return Err(Wrong::Long);
                }
                // the copy may reach into itself
                for _ in 0..length {
                    out.push(out[out.len() - back]);
                }
            }
        }
    }
}

/// Inflates a stream of at most `most` bytes: what it holds, and how many bytes of `stream` it took.
pub fn inflate(stream: &[u8], most: usize) -> Result<(Vec<u8>, usize), Wrong> {
    let mut bits = Bits { bytes: stream, next: 0, held: 0, count: 0 };
    let mut out = Vec::new();
    loop {
        let last = bits.take(1)? == 1;
        match bits.take(2)? {
            0 => {
                bits.next_byte();
                let head = stream.get(bits.next..bits.next + 4).ok_or(Wrong::Short)?;
                let length = u16::from_le_bytes([head[0], head[1]]);
                if u16::from_le_bytes([head[2], head[3]]) != !length {
                    return Err(Wrong::Damaged);
                }
                let length = usize::from(length);
                let bytes = stream.get(bits.next + 4..bits.next + 4 + length).ok_or(Wrong::Short)?;
                if length > most - out.len() {
                    return Err(Wrong::Long);
                }
                out.extend(bytes);
                bits.next += 4 + length;
            }
            1 => coded(&mut bits, &mut out, most, fixed()?)?,
            2 => {
                let codes = own(&mut bits)?;
                coded(&mut bits, &mut out, most, codes)?;
            }
            _ => return Err(Wrong::Damaged),
        }
        if last {
            bits.next_byte();
            return Ok((out, bits.next));
        }
    }
}

#[cfg(test)]
mod tests {
    use super::*;
    use crate::deflate::Deflate;

    /// What a stream holds, and that it is refused one byte shorter and with one byte less room.
    fn holds(stream: &[u8], bytes: &[u8]) {
        assert_eq!(inflate(stream, bytes.len()), Ok((bytes.to_vec(), stream.len())));
        assert_eq!(inflate(&stream[..stream.len() - 1], bytes.len()), Err(Wrong::Short));
        if !bytes.is_empty() {
            assert_eq!(inflate(stream, bytes.len() - 1), Err(Wrong::Long));
        }
    }

    #[test]
    fn stored_fixed_and_own_codes() {
        // by zlib: nothing; three letters stored; the same four times over in fixed codes; small numbers in own codes
        holds(&[0x03, 0x00], b"");
        holds(&[0x01, 3, 0, 0xfc, 0xff, b'a', b'b', b'c'], b"abc");
        holds(&[0x4b, 0x4c, 0x4a, 0x4e, 0x84, 0x21, 0x00], b"abcabcabcabc");
        let numbers: Vec<u8> = (0..60u64).map(|i| (i.pow(5) * 7 / 3 % 11) as u8).collect();
        #[rustfmt::skip]
        holds(
            &[
                0x75, 0xca, 0xc1, 0x11, 0x00, 0x30, 0x08, 0x02, 0x30, 0xa1, 0x07, 0xc2, 0xfe, 0x0b, 0x77, 0x02, 0xf3, 0xce,
                0x30, 0x66, 0x85, 0x18, 0xcf, 0xa8, 0x19, 0xa1, 0xda, 0x8a, 0x35, 0x22, 0x66, 0xee, 0xf0, 0x01,
            ],
            &numbers,
        );
    }

    #[test]
    fn what_the_writer_deflates() {
        let mut bytes = Vec::new();
        for i in 0..50_000u32 {
            bytes.push(if i % 97 < 60 { (i / 251) as u8 } else { (i.wrapping_mul(2_654_435_761) >> 24) as u8 });
        }
        let mut deflate = Deflate::new();
        bytes.iter().for_each(|&byte| deflate.byte(byte));
        deflate.end();
        assert_eq!(inflate(&deflate.out, bytes.len()), Ok((bytes.clone(), deflate.out.len())));
    }

    #[test]
    fn damaged_streams() {
        for stream in [
            &[0x07][..],                                 // a block of kind 3
            &[0x01, 3, 0, 0xfc, 0xfe, b'a', b'b', b'c'], // a stored length that its complement does not fit
            &[0x03, 0x02, 0x00],                         // a copy from before the start
            &[0xfd, 0xff, 0xff, 0xff, 0xff, 0xff],       // too many codes
        ] {
            assert_eq!(inflate(stream, 1000), Err(Wrong::Damaged), "{stream:x?}");
        }
        assert_eq!(inflate(&[], 1000), Err(Wrong::Short));
        // no bytes at all end in a refusal, whatever they are
        let mut seed = 1u32;
        for length in 0..2000usize {
            let bytes: Vec<u8> = (0..length % 61)
                .map(|_| {
                    seed = seed.wrapping_mul(1664525).wrapping_add(1013904223);
                    (seed >> 24) as u8
                })
                .collect();
            if let Ok((out, taken)) = inflate(&bytes, 500) {
                assert!(out.len() <= 500 && taken <= bytes.len());
            }
        }
    }
}
