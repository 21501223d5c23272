//! The coefficient tokens: RFC 6386, section 13, with the tree as the table of 13.2.

use crate::bools::Bools;

const EOB: i8 = 11;

/// `coeff_tree`: the leaf t stands as -t. 0 to 4 are values, 5 to 10 the categories, 11 the end of the block.
const TREE: [i8; 22] = [-EOB, 2, 0, 4, -1, 6, 8, 12, -2, 10, -3, -4, 14, 16, -5, -6, 18, 20, -7, -8, -9, -10];

/// Of each category the first value and the probabilities of the extra bits, the highest first.
const CATEGORIES: [(i16, &[u8]); 6] = [
    (5, &[159]),
    (7, &[165, 145]),
    (11, &[173, 148, 140]),
    (19, &[176, 155, 140, 135]),
    (35, &[180, 157, 141, 134, 130]),
    (67, &[254, 254, 243, 230, 196, 177, 153, 140, 133, 130, 129]),
];

const BANDS: [usize; 16] = [0, 1, 2, 3, 6, 4, 5, 6, 6, 6, 6, 6, 6, 6, 6, 7];
const ZIGZAG: [usize; 16] = [0, 1, 4, 8, 5, 2, 3, 6, 9, 12, 13, 10, 7, 11, 14, 15];

/// When a block counts as one with coefficients for its neighbours.
#[derive(Debug, Clone, Copy, PartialEq, Eq)]
pub enum Rule {
    /// Where some coefficient is not 0: the Rust's rule, and that of `zopredil_tokens`.
    Values,
    /// Where there was a token before the end of the block: the rule of libvpx, libwebp and ffmpeg. The two differ on a
    /// block of coded zeros, which no encoder at hand writes.
    Tokens,
}

/// Planes of `coeff_probs`.
const Y_AFTER_Y2: usize = 0;
const Y2: usize = 1;
const CHROMA: usize = 2;
const Y_WITH_DC: usize = 3;

/// The tokens of a block from position `first` on, into raster order. Returned is how many positions had a token before
/// the end of the block.
pub fn block(
    bools: &mut Bools<'_>,
    probs: &[u8; 1056],
    plane: usize,
    first: usize,
    context: usize,
    out: &mut [i16],
) -> usize {
    let (mut context, mut after_zero) = (context, false);
    for i in first..16 {
        let row = &probs[((8 * plane + BANDS[i]) * 3 + context) * 11..][..11];
        // no end of block after a zero
        let token = bools.tree(&TREE, row, if after_zero { 2 } else { 0 }) as i16;
        if token == i16::from(EOB) {
            return i - first;
        }
        let size = match token {
            0..=4 => token,
            _ => {
                let (base, extra) = CATEGORIES[token as usize - 5];
                base + extra.iter().fold(0, |bits, &prob| 2 * bits + i16::from(bools.bool(prob)))
            }
        };
        let negative = size != 0 && bools.flag();
        out[ZIGZAG[i]] = if negative { -size } else { size };
        after_zero = size == 0;
        context = size.min(2) as usize;
    }
    16 - first
}

/// The flags of a block's neighbours: Y 4, U 2, V 2, Y2 1.
pub type Flags = [bool; 9];

/// What a macroblock's tokens are.
pub struct Read {
    /// Y2 16, Y 256, U 64, V 64, each block in raster order.
    pub coeffs: [i16; 400],
    /// Some block had a token before its end.
    pub some: bool,
}

/// The tokens of a macroblock.
pub fn macroblock(
    bools: &mut Bools<'_>,
    probs: &[u8; 1056],
    with_y2: bool,
    rule: Rule,
    above: &mut Flags,
    left: &mut Flags,
) -> Read {
    let mut read = Read { coeffs: [0; 400], some: false };
    let mut one = |k: usize, plane: usize, a: usize, l: usize| {
        let out = &mut read.coeffs[16 * k..][..16];
        let context = usize::from(above[a]) + usize::from(left[l]);
        let count = block(bools, probs, plane, usize::from(plane == Y_AFTER_Y2), context, out);
        read.some |= count > 0;
        let flag = match rule {
            Rule::Values => out.iter().any(|&x| x != 0),
            Rule::Tokens => count > 0,
        };
        (above[a], left[l]) = (flag, flag);
    };
    if with_y2 {
        one(0, Y2, 8, 8);
    }
    for k in 0..16 {
        one(1 + k, if with_y2 { Y_AFTER_Y2 } else { Y_WITH_DC }, k % 4, k / 4);
    }
    for (start, slot) in [(17, 4), (21, 6)] {
        for k in 0..4 {
            one(start + k, CHROMA, slot + k % 2, slot + k / 2);
        }
    }
    read
}

/// The flags beside a macroblock without tokens: cleared, but that of Y2 only where it would have had a Y2 block.
pub fn clear(flags: &mut Flags, with_y2: bool) {
    flags[..8].fill(false);
    flags[8] &= !with_y2;
}
