//! What the two calls that draw a whole still must answer: the Rust's walkers, called macroblock by macroblock in
//! raster order, each on neighbours taken from the planes that were drawn so far. The Rust has neither the calls nor
//! the gathering, so the edges of the picture, the refusals and their order are stated here from the project's papers.

use crate::blocks::Blocks;
use crate::clipped as clipped_sums;
use crate::expected::{walk, B_MODES, OUTSIDE_PICTURE, UNKNOWN_BYTE, UV_MODES, WRONG_LENGTH, Y_MODES};
use vp8::macroblock::{IntraBmode, IntraUvMode, IntraYMode};
use vp8::reconstruct::MbNeighbors;

/// A still as it is lent.
#[derive(Clone, Copy)]
pub struct Still<'a> {
    pub cols: usize,
    pub rows: usize,
    pub modes: &'a [u8],
    pub sub_modes: &'a [u8],
    pub coeffs: &'a [i16],
}

/// Its three planes.
pub struct Planes<'a> {
    pub y: &'a mut [u8],
    pub u: &'a mut [u8],
    pub v: &'a mut [u8],
}

/// The edges of one plane of a macroblock: top-left, above, left.
type Edges<const N: usize> = (Option<u8>, Option<[u8; N]>, Option<[u8; N]>);

/// Of a plane with N pixels a side for each macroblock. Outside the picture nothing is there, but the pixel above left
/// of the first column, below the first row, which is 129.
fn edges<const N: usize>(plane: &[u8], cols: usize, row: usize, col: usize) -> Edges<N> {
    let (top, start) = (N * row, N * col);
    let at = |line: usize, x: usize| plane[line * N * cols + x];
    let corner = (row > 0).then(|| if col > 0 { at(top - 1, start - 1) } else { 129 });
    let above = (row > 0).then(|| std::array::from_fn(|i| at(top - 1, start + i)));
    let left = (col > 0).then(|| std::array::from_fn(|i| at(top + i, start - 1)));
    (corner, above, left)
}

/// The four luma pixels above and to the right: there below the first row, in the last column those that are given, or
/// without any the last pixel of the luma row above.
fn above_right(y: &[u8], cols: usize, row: usize, col: usize, right: Option<&[u8]>) -> Option<[u8; 4]> {
    let at = |x: usize| y[(16 * row - 1) * 16 * cols + x];
    let four = |i: usize| match right {
        _ if col + 1 < cols => at(16 * col + 16 + i),
        Some(right) => right[4 * (row - 1) + i],
        None => at(16 * cols - 1),
    };
    (row > 0).then(|| std::array::from_fn(four))
}

/// The modes of a macroblock by their bytes; nothing where one is unknown.
fn modes(bytes: &[u8], sub_bytes: &[u8]) -> Option<(IntraYMode, IntraUvMode, bool, [IntraBmode; 16])> {
    let y = *Y_MODES.get(usize::from(bytes[0]))?;
    let uv = *UV_MODES.get(usize::from(bytes[1]))?;
    let mut sub_modes = [IntraBmode::Dc; 16];
    if y == IntraYMode::B {
        for (mode, &byte) in sub_modes.iter_mut().zip(sub_bytes) {
            *mode = *B_MODES.get(usize::from(byte))?;
        }
    }
    (bytes[2] < 2).then_some((y, uv, bytes[2] == 1, sub_modes))
}

/// Writes a macroblock of N pixels a side into its plane.
fn put<const N: usize>(plane: &mut [u8], cols: usize, row: usize, col: usize, drawn: &[u8]) {
    for (line, pixels) in drawn.chunks(N).enumerate() {
        plane[(N * row + line) * N * cols + N * col..][..N].copy_from_slice(pixels);
    }
}

/// The answer to a still: with the pixels right of the picture or, where `right` is none, without. A count of another
/// length than 1 is a slice of a wrong length, and is not written; else it is 0 in every refusal before the first
/// macroblock.
pub fn still(still: Still<'_>, right: Option<&[u8]>, planes: Planes<'_>, clipped: &mut [u64]) -> u64 {
    let Still { cols, rows, .. } = still;
    let mut clipped = <&mut [u64; 1]>::try_from(clipped).ok();
    if let Some([total]) = &mut clipped {
        *total = 0;
    }
    let Planes { y, u, v } = planes;
    let side = 1..=1024;
    if !side.contains(&cols) || !side.contains(&rows) {
        return OUTSIDE_PICTURE.into();
    }
    let count = cols * rows;
    let lengths = [still.modes.len(), still.sub_modes.len(), still.coeffs.len(), y.len(), u.len(), v.len()];
    let fit = [3, 16, 400, 256, 64, 64].map(|each| each * count);
    if lengths != fit || right.is_some_and(|right| right.len() != 4 * (rows - 1)) {
        return WRONG_LENGTH.into();
    }
    let Some([total]) = clipped else { return WRONG_LENGTH.into() };
    for index in 0..count {
        let (row, col) = (index / cols, index % cols);
        let (bytes, sub_bytes) = (&still.modes[3 * index..][..3], &still.sub_modes[16 * index..][..16]);
        let Some((y_mode, uv_mode, skip, sub_modes)) = modes(bytes, sub_bytes) else {
            return 256 * index as u64 + u64::from(UNKNOWN_BYTE);
        };
        let (y_topleft, y_above, y_left) = edges(y, cols, row, col);
        let (u_topleft, u_above, u_left) = edges(u, cols, row, col);
        let (v_topleft, v_above, v_left) = edges(v, cols, row, col);
        let y_above_right = above_right(y, cols, row, col, right);
        let neighbors = MbNeighbors {
            y_topleft,
            y_above,
            y_above_right,
            y_left,
            u_topleft,
            u_above,
            u_left,
            v_topleft,
            v_above,
            v_left,
        };
        let coeffs = still.coeffs[400 * index..][..400].try_into().expect("a macroblock has 400 coefficients");
        let blocks = Blocks::of(coeffs);
        let drawn = walk(y_mode, uv_mode, skip, Some(&sub_modes), &neighbors, &blocks);
        let drawn = drawn.expect("the Rust draws what has known modes");
        *total += clipped_sums::macroblock(y_mode, uv_mode, skip, &sub_modes, &neighbors, &blocks, &drawn);
        put::<16>(y, cols, row, col, &drawn.y);
        put::<8>(u, cols, row, col, &drawn.u);
        put::<8>(v, cols, row, col, &drawn.v);
    }
    0
}
