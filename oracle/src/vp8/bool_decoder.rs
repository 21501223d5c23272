//! Stand-in for the Rust's bool decoder, whose file is not at hand: RFC 6386, section 7, over a window of several bytes.
//!
//! The upper eight bits of the window stand under the range; below them are `bits` more of the partition's, then zeros. A
//! bool fails where the RFC's own loading, two bytes at the start and one more after each eighth shift, would pass the
//! partition's end. That loading always holds at least one bit below the eight, so a bool fails where `bits` would be less
//! than 1.
//!
//! A partition that begins with 255, which no encoder writes, makes the value outgrow its range. What is then shifted
//! above the eight bits is lost, as it is in the RFC's two bytes.

use std::fmt;

#[derive(Debug, Clone, Copy, PartialEq, Eq)]
pub struct BoolDecoderError;

impl fmt::Display for BoolDecoderError {
    fn fmt(&self, f: &mut fmt::Formatter<'_>) -> fmt::Result {
        f.write_str("a bool needs a byte past the end")
    }
}

#[derive(Clone)]
pub struct BoolDecoder<'a> {
    rest: &'a [u8],
    window: u64,
    range: u32,
    bits: i32,
}

impl<'a> BoolDecoder<'a> {
    pub fn new(partition: &'a [u8]) -> Result<BoolDecoder<'a>, BoolDecoderError> {
        let mut decoder = BoolDecoder { rest: partition, window: 0, range: 255, bits: -8 };
        decoder.fill()?;
        Ok(decoder)
    }

    /// A bool whose probability of being 0 is `prob` / 256.
    #[inline]
    pub fn read_bool(&mut self, prob: u8) -> Result<bool, BoolDecoderError> {
        let split = 1 + (((self.range - 1) * u32::from(prob)) >> 8);
        let big_split = u64::from(split) << 56;
        let bit = self.window >= big_split;
        if bit {
            self.range -= split;
            self.window -= big_split;
        } else {
            self.range = split;
        }
        let shift = self.range.leading_zeros() - 24;
        self.range <<= shift;
        self.window <<= shift;
        self.bits -= shift as i32;
        if self.bits < 1 {
            self.fill()?;
        }
        Ok(bit)
    }

    /// Takes in as many bytes as the window holds.
    #[cold]
    fn fill(&mut self) -> Result<(), BoolDecoderError> {
        while self.bits <= 48 {
            let Some((&byte, rest)) = self.rest.split_first() else { break };
            self.rest = rest;
            self.window |= u64::from(byte) << (48 - self.bits);
            self.bits += 8;
        }
        if self.bits < 1 {
            return Err(BoolDecoderError);
        }
        Ok(())
    }
}
