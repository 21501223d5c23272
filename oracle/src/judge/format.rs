//! The format of the sample, which `oracle/README.md` describes: records of a kind byte, input bytes and expected bytes,
//! each of a length that the kind fixes; then kind 0 and the checksum Adler-32 of all bytes before it.

/// A kind of record.
pub struct Kind {
    pub number: u8,
    pub name: &'static str,
    pub input: usize,
    pub expected: usize,
}

const fn kind(number: u8, name: &'static str, input: usize, expected: usize) -> Kind {
    Kind { number, name, input, expected }
}

pub const KINDS: [Kind; 17] = [
    kind(1, "y1_factors", 8, 5),
    kind(2, "dequant_block", 36, 33),
    kind(3, "inverse_wht", 32, 33),
    kind(4, "inverse_wht_dc_only", 2, 33),
    kind(5, "inverse_dct", 32, 33),
    kind(6, "inverse_dct_add_into, plane of at most 64", 122, 65),
    kind(7, "add_residue", 75, 25),
    kind(8, "predict_y16x16", 36, 257),
    kind(9, "predict_uv8x8", 20, 65),
    kind(10, "predict_b4x4", 14, 17),
    kind(11, "macroblock, 400 coefficients", 901, 385),
    kind(12, "gather", 42, 82),
    kind(13, "planes for gather", 2304, 0),
    kind(14, "macroblock, one coefficient and sixteen places", 167, 385),
    kind(15, "inverse_dct_add_into, plane of at most 256", 314, 257),
    kind(16, "wrong lengths", 11, 1),
    kind(17, "right_pixels", 26, 5),
];

/// What every byte of a slice holds that a function is to write, before the call.
pub const FILL: u8 = 0xA5;

/// The planes of a kind 13 record: Y, U and V bytes of six macroblocks.
pub const PLANES: [usize; 3] = [1536, 384, 384];

/// The longest slice of a kind 16 record, in elements.
pub const MOST: usize = 512;

/// Adler-32 (RFC 1950): two sums modulo 65,521.
pub fn checksum(bytes: &[u8]) -> [u8; 4] {
    let (mut a, mut b) = (1u32, 0u32);
    for &byte in bytes {
        a = (a + u32::from(byte)) % 65521;
        b = (b + a) % 65521;
    }
    let ([a0, a1], [b0, b1]) = ((a as u16).to_le_bytes(), (b as u16).to_le_bytes());
    [a0, a1, b0, b1]
}
