//! The data that is tried: coefficients, pixels and neighbour records, random and adversarial.

use crate::random::Random;

/// Coefficients at which something may change: the ends of 16 bits, the bound 8,191 within which the DCT neither wraps
/// nor narrows, the roundings around 0, the largest table factors, powers of two; each with its neighbours.
pub const LIMITS: [i16; 40] = [
    -32768, -32767, -32766, -16385, -16384, -16383, -8200, -8193, -8192, -8191, -8190, -4096, -2049, -2048, -257, -256,
    -9, -8, -5, -4, -3, -1, 0, 1, 3, 4, 5, 8, 157, 255, 284, 2047, 2048, 8190, 8191, 8192, 8193, 16384, 32766, 32767,
];

/// Pixels at which something may change: the ends, the constants of absent edges, the middle; each with its neighbours.
pub const PIXELS: [u8; 13] = [0, 1, 2, 126, 127, 128, 129, 130, 200, 252, 253, 254, 255];

/// Kinds of blocks that [`block`] makes.
pub const BLOCKS: usize = 9;

/// A block of coefficients of a kind below [`BLOCKS`].
pub fn block(r: &mut Random, kind: usize, out: &mut [i16]) {
    match kind {
        // without any rule
        0 => r.shorts(out),
        // limits
        1 => out.fill_with(|| r.of(&LIMITS)),
        // the range within which nothing wraps
        2 => out.fill_with(|| r.below(16383) as i16 - 8191),
        // what a picture has: small, and smaller to the end of the block
        3 => {
            for (i, x) in out.iter_mut().enumerate() {
                let most = 1024 >> (i / 2).min(9);
                *x = r.below(2 * most + 1) as i16 - most as i16;
            }
        }
        // a few coefficients
        4 => {
            out.fill(0);
            for _ in 0..=r.below(3) {
                let (at, x) = (r.below(out.len()), r.short());
                out[at] = x;
            }
        }
        // DC alone
        5 => {
            out.fill(0);
            out[0] = if r.once_in(2) { r.of(&LIMITS) } else { r.short() };
        }
        // one size, either sign: what drives sums to their ends
        6 => {
            let size = r.of(&[8190, 8191, 8192, 16384, 32767]);
            out.fill_with(|| if r.once_in(2) { size } else { -size });
        }
        // one number
        7 => {
            let x = if r.once_in(2) { r.of(&LIMITS) } else { r.short() };
            out.fill(x);
        }
        // nothing
        _ => out.fill(0),
    }
}

/// A block of a kind by chance.
pub fn any_block(r: &mut Random, out: &mut [i16]) {
    let kind = r.below(BLOCKS);
    block(r, kind, out);
}

/// The 400 coefficients of a macroblock: all blocks of one kind, or each of its own.
pub fn coefficients(r: &mut Random, out: &mut [i16]) {
    let one = r.below(2 * BLOCKS);
    for b in out.chunks_mut(16) {
        let kind = if one < BLOCKS { one } else { r.below(BLOCKS) };
        block(r, kind, b);
    }
}

/// Kinds of edges and planes that [`pixels`] makes.
pub const SHADES: usize = 6;

/// Pixels of a kind below [`SHADES`].
pub fn pixels(r: &mut Random, kind: usize, out: &mut [u8]) {
    match kind {
        // without any rule
        0 => r.bytes(out),
        // black and white
        1 => out.fill_with(|| if r.once_in(2) { 0 } else { 255 }),
        // limits
        2 => out.fill_with(|| r.of(&PIXELS)),
        // a ramp
        3 => {
            let (from, step) = (r.byte(), r.byte());
            for (i, x) in out.iter_mut().enumerate() {
                *x = from.wrapping_add(step.wrapping_mul(i as u8));
            }
        }
        // flat
        4 => {
            let x = r.byte();
            out.fill(x);
        }
        // flat, at a limit
        _ => {
            let x = r.of(&PIXELS);
            out.fill(x);
        }
    }
}

/// Pixels of a kind by chance.
pub fn any_pixels(r: &mut Random, out: &mut [u8]) {
    let kind = r.below(SHADES);
    pixels(r, kind, out);
}

/// The ten edges of a neighbour record: where its pixels begin in the 81 bytes, and how many they are. Edge k has mark k.
pub const EDGES: [(usize, usize); 10] =
    [(10, 1), (11, 16), (27, 4), (31, 16), (47, 1), (48, 8), (56, 8), (64, 1), (65, 8), (73, 8)];

/// A neighbour record whose mark k is bit k of `marks`. The bytes of its absent edges are without any rule.
pub fn record(r: &mut Random, marks: usize) -> [u8; 81] {
    let mut record = [0; 81];
    for (k, (at, count)) in EDGES.into_iter().enumerate() {
        record[k] = (marks >> k & 1) as u8;
        any_pixels(r, &mut record[at..at + count]);
    }
    record
}

/// Sixteen sub-block modes: all the same, or each of its own.
pub fn sub_modes(r: &mut Random) -> [u8; 16] {
    let one = r.below(20);
    std::array::from_fn(|_| if one < 10 { one as u8 } else { r.below(10) as u8 })
}
