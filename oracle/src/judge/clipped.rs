//! How many sums of prediction and residue are below 0 or above 255 before they are clamped. The Rust does not count:
//! the sums are made here, from its own predictions and its own inverse DCT.

use crate::blocks::Blocks;
use vp8::intra_predict::{predict_b4x4, predict_uv8x8, predict_y16x16};
use vp8::inverse_transform::{inverse_dct_4x4, inverse_wht_4x4};
use vp8::macroblock::{IntraBmode, IntraUvMode, IntraYMode};
use vp8::reconstruct::{MbNeighbors, ReconstructedMb};

/// Of a 4x4 block.
pub fn block(prediction: &[u8; 16], coeffs: &[i16; 16]) -> u64 {
    let mut residue = [0; 16];
    inverse_dct_4x4(coeffs, &mut residue);
    let sums = prediction.iter().zip(&residue).map(|(&p, &r)| i32::from(p) + i32::from(r));
    sums.filter(|sum| !(0..=255).contains(sum)).count() as u64
}

/// The 4x4 block of a plane.
pub fn part(plane: &[u8], stride: usize, sub_row: usize, sub_col: usize) -> [u8; 16] {
    std::array::from_fn(|i| plane[(4 * sub_row + i / 4) * stride + 4 * sub_col + i % 4])
}

/// Of a plane that is predicted whole, `n` pixels a side.
fn plane(prediction: &[u8], n: usize, blocks: &[[i16; 16]]) -> u64 {
    let side = n / 4;
    blocks.iter().enumerate().map(|(k, coeffs)| block(&part(prediction, n, k / side, k % side), coeffs)).sum()
}

/// Of the luma plane in a 16x16 mode: the first coefficient of each block is the inverse WHT's.
fn luma_whole(mode: IntraYMode, n: &MbNeighbors, c: &Blocks) -> u64 {
    let mut prediction = [0; 256];
    let corner = n.y_topleft.unwrap_or(127);
    predict_y16x16(&mut prediction, mode, n.y_above.as_ref(), n.y_left.as_ref(), corner).expect("a 16x16 mode");
    let mut first = [0; 16];
    inverse_wht_4x4(&c.y2, &mut first);
    let mut blocks = c.y;
    for (block, dc) in blocks.iter_mut().zip(first) {
        block[0] = dc;
    }
    plane(&prediction, 16, &blocks)
}

/// Of the luma plane in mode B: each sub-block is predicted from finished pixels, which `drawn` has.
fn luma_parts(modes: &[IntraBmode; 16], n: &MbNeighbors, c: &Blocks, drawn: &[u8; 256]) -> u64 {
    let (above, right) = (n.y_above.unwrap_or([127; 16]), n.y_above_right.unwrap_or([127; 4]));
    let left = n.y_left.unwrap_or([129; 16]);
    // lines and places are counted from the pixel above left; right of the macroblock every line has the same four
    let at = |line: usize, x: usize| match (line, x) {
        (_, 17..) => right[x - 17],
        (0, 0) => n.y_topleft.unwrap_or(127),
        (0, _) => above[x - 1],
        (_, 0) => left[line - 1],
        _ => drawn[16 * (line - 1) + x - 1],
    };
    let counts = (0..16).map(|k| {
        let (line, x) = (4 * (k / 4), 4 * (k % 4));
        let above = std::array::from_fn(|i| at(line, x + 1 + i));
        let left = std::array::from_fn(|i| at(line + 1 + i, x));
        let mut prediction = [0; 16];
        predict_b4x4(&mut prediction, modes[k], &above, &left, at(line, x));
        block(&prediction, &c.y[k])
    });
    counts.sum()
}

/// Of a chroma plane, by its edges: top-left, above, left.
fn chroma(
    mode: IntraUvMode,
    (corner, above, left): (Option<u8>, Option<&[u8; 8]>, Option<&[u8; 8]>),
    blocks: &[[i16; 16]; 4],
) -> u64 {
    let mut prediction = [0; 64];
    predict_uv8x8(&mut prediction, mode, above, left, corner.unwrap_or(127));
    plane(&prediction, 8, blocks)
}

/// Of a macroblock that the Rust has drawn; one that is skipped has no sum.
pub fn macroblock(
    y: IntraYMode,
    uv: IntraUvMode,
    skip: bool,
    sub_modes: &[IntraBmode; 16],
    n: &MbNeighbors,
    c: &Blocks,
    drawn: &ReconstructedMb,
) -> u64 {
    if skip {
        return 0;
    }
    let luma = if y == IntraYMode::B { luma_parts(sub_modes, n, c, &drawn.y) } else { luma_whole(y, n, c) };
    let u = chroma(uv, (n.u_topleft, n.u_above.as_ref(), n.u_left.as_ref()), &c.u);
    let v = chroma(uv, (n.v_topleft, n.v_above.as_ref(), n.v_left.as_ref()), &c.v);
    luma + u + v
}
