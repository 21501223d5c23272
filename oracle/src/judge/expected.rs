//! What each function of the C interface must answer. The refusals, their order and the gathering are stated here from
//! the project's papers, in unbounded numbers where those say so; everything else is what the Rust returns.
//!
//! A function has the parameters of its C namesake, slices for pointers and lengths, and any lengths are allowed: it
//! returns the reply, and leaves in the slices that it is lent what the C function must leave there.

use crate::blocks::Blocks;
use crate::clipped as clipped_sums;
use vp8::dequant::MbDequantFactors;
use vp8::frame::MbCoeffs;
use vp8::intra_predict;
use vp8::inverse_transform as transform;
use vp8::macroblock::{IntraBmode, IntraUvMode, IntraYMode};
use vp8::reconstruct::{self, MbNeighbors, ReconstructError, ReconstructedMb};

pub const DONE: u32 = 0;
pub const WRONG_LENGTH: u32 = 1;
pub const OUTSIDE_PLANE: u32 = 2;
pub const B_PRED: u32 = 3;
pub const NO_SUB_MODES: u32 = 4;
pub const INDEX_SUM: u32 = 5;
pub const OUTSIDE_PICTURE: u32 = 7;
pub const UNKNOWN_BYTE: u32 = 8;

/// The modes by their numbers.
pub const Y_MODES: [IntraYMode; 5] = [IntraYMode::Dc, IntraYMode::V, IntraYMode::H, IntraYMode::Tm, IntraYMode::B];
pub const UV_MODES: [IntraUvMode; 4] = [IntraUvMode::Dc, IntraUvMode::V, IntraUvMode::H, IntraUvMode::Tm];
pub const B_MODES: [IntraBmode; 10] = [
    IntraBmode::Dc,
    IntraBmode::Tm,
    IntraBmode::Ve,
    IntraBmode::He,
    IntraBmode::Ld,
    IntraBmode::Rd,
    IntraBmode::Vr,
    IntraBmode::Vl,
    IntraBmode::Hd,
    IntraBmode::Hu,
];

// ---- coefficients

pub fn y1_factors(yac_qi: i32, ydc_delta: i32, out: &mut [i16]) -> u32 {
    if out.len() != 2 {
        return WRONG_LENGTH;
    }
    let sum = i64::from(yac_qi) + i64::from(ydc_delta);
    if sum < -0x8000_0000 || sum > 0x7FFF_FFFF {
        out.fill(0);
        return INDEX_SUM;
    }
    let factors = transform::Y1DequantFactors::from_indices(yac_qi, ydc_delta);
    out.copy_from_slice(&[factors.dc, factors.ac]);
    DONE
}

pub fn dequant_block(coeffs: &mut [i16], dc: i16, ac: i16) -> u32 {
    let Ok(coeffs) = coeffs.try_into() else { return WRONG_LENGTH };
    transform::dequant_block(coeffs, dc, ac);
    DONE
}

/// The factors' length comes first, then the five sums in unbounded numbers, then the coefficients' length. In every
/// refusal but the first all factors are 0.
pub fn dequantise(base: i32, deltas: [i32; 5], coeffs: &mut [i16], factors: &mut [i16]) -> u32 {
    if factors.len() != 6 {
        return WRONG_LENGTH;
    }
    factors.fill(0);
    let fits = |delta: i32| i32::try_from(i64::from(base) + i64::from(delta)).is_ok();
    if !deltas.into_iter().all(fits) {
        return INDEX_SUM;
    }
    if coeffs.len() != 400 {
        return WRONG_LENGTH;
    }
    let [ydc, y2dc, y2ac, uvdc, uvac] = deltas;
    let f = MbDequantFactors::from_base_and_deltas(base, ydc, y2dc, y2ac, uvdc, uvac);
    let block = |k: usize| std::array::from_fn(|i| coeffs[16 * k + i]);
    let mut all = MbCoeffs {
        y2: block(0),
        y: std::array::from_fn(|k| block(1 + k)),
        u: std::array::from_fn(|k| block(17 + k)),
        v: std::array::from_fn(|k| block(21 + k)),
    };
    f.dequantize(&mut all);
    let blocks = [all.y2].into_iter().chain(all.y).chain(all.u).chain(all.v);
    for (into, block) in coeffs.chunks_mut(16).zip(blocks) {
        into.copy_from_slice(&block);
    }
    factors.copy_from_slice(&[f.y1_dc, f.y1_ac, f.y2_dc, f.y2_ac, f.uv_dc, f.uv_ac]);
    DONE
}

pub fn inverse_wht(input: &[i16], out: &mut [i16]) -> u32 {
    let (Ok(input), Ok(out)) = (input.try_into(), out.try_into()) else { return WRONG_LENGTH };
    transform::inverse_wht_4x4(input, out);
    DONE
}

pub fn inverse_wht_dc_only(dc: i16, out: &mut [i16]) -> u32 {
    let Ok(out) = out.try_into() else { return WRONG_LENGTH };
    transform::inverse_wht_4x4_dc_only(dc, out);
    DONE
}

pub fn inverse_dct(input: &[i16], out: &mut [i16]) -> u32 {
    let (Ok(input), Ok(out)) = (input.try_into(), out.try_into()) else { return WRONG_LENGTH };
    transform::inverse_dct_4x4(input, out);
    DONE
}

/// The rule for a block in a plane: stride >= 4 sub_col + 4, and (4 sub_row + 3) stride + 4 sub_col + 4 <= length. A
/// product past 128 bits is past every length.
pub fn in_plane(length: usize, stride: usize, sub_row: usize, sub_col: usize) -> bool {
    let (length, stride, row, col) = (length as u128, stride as u128, sub_row as u128, sub_col as u128);
    if stride < 4 * col + 4 {
        return false;
    }
    let last_row = (4 * row + 3).checked_mul(stride);
    last_row.is_some_and(|start| start <= length && start + 4 * col + 4 <= length)
}

pub fn inverse_dct_add_into(
    input: &[i16],
    plane: &mut [u8],
    stride: usize,
    sub_row: usize,
    sub_col: usize,
    clipped: &mut [u64],
) -> u32 {
    let (Ok(input), Ok([clipped])) = (input.try_into(), <&mut [u64; 1]>::try_from(clipped)) else {
        return WRONG_LENGTH;
    };
    *clipped = 0;
    if !in_plane(plane.len(), stride, sub_row, sub_col) {
        return OUTSIDE_PLANE;
    }
    *clipped = clipped_sums::block(&clipped_sums::part(plane, stride, sub_row, sub_col), input);
    transform::inverse_dct_4x4_add_into(input, plane, stride, sub_row, sub_col);
    DONE
}

pub fn add_residue(prediction: &[u8], residue: &[i16], out: &mut [u8]) -> u32 {
    if prediction.len() != residue.len() || prediction.len() != out.len() {
        return WRONG_LENGTH;
    }
    transform::add_residue(prediction, residue, out);
    DONE
}

// ---- prediction

/// An edge lent as a slice: absent where it is empty. A wrong length is an error.
fn edge<const N: usize>(lent: &[u8]) -> Result<Option<&[u8; N]>, ()> {
    if lent.is_empty() {
        return Ok(None);
    }
    lent.try_into().map(Some).map_err(|_| ())
}

pub fn predict_y16x16(mode: u8, above: &[u8], left: &[u8], p: u8, out: &mut [u8]) -> u32 {
    let (Ok(above), Ok(left), Ok(out)) = (edge(above), edge(left), <&mut [u8; 256]>::try_from(out)) else {
        return WRONG_LENGTH;
    };
    let Some(&mode) = Y_MODES.get(usize::from(mode)) else {
        out.fill(0);
        return UNKNOWN_BYTE;
    };
    match intra_predict::predict_y16x16(out, mode, above, left, p) {
        Some(()) => DONE,
        None => {
            out.fill(0);
            B_PRED
        }
    }
}

pub fn predict_uv8x8(mode: u8, above: &[u8], left: &[u8], p: u8, out: &mut [u8]) -> u32 {
    let (Ok(above), Ok(left), Ok(out)) = (edge(above), edge(left), <&mut [u8; 64]>::try_from(out)) else {
        return WRONG_LENGTH;
    };
    let Some(&mode) = UV_MODES.get(usize::from(mode)) else {
        out.fill(0);
        return UNKNOWN_BYTE;
    };
    intra_predict::predict_uv8x8(out, mode, above, left, p);
    DONE
}

pub fn predict_b4x4(mode: u8, above: &[u8], left: &[u8], p: u8, out: &mut [u8]) -> u32 {
    let (Ok(above), Ok(left), Ok(out)) = (above.try_into(), left.try_into(), <&mut [u8; 16]>::try_from(out)) else {
        return WRONG_LENGTH;
    };
    let Some(&mode) = B_MODES.get(usize::from(mode)) else {
        out.fill(0);
        return UNKNOWN_BYTE;
    };
    intra_predict::predict_b4x4(out, mode, above, left, p);
    DONE
}

// ---- a macroblock

/// The Rust's record of 81 bytes whose marks are 0 or 1.
pub fn neighbors(record: &[u8; 81]) -> MbNeighbors {
    fn there<const N: usize>(record: &[u8; 81], mark: usize, at: usize) -> Option<[u8; N]> {
        (record[mark] == 1).then(|| record[at..at + N].try_into().expect("an edge lies in the record"))
    }
    MbNeighbors {
        y_topleft: there(record, 0, 10).map(|[p]| p),
        y_above: there(record, 1, 11),
        y_above_right: there(record, 2, 27),
        y_left: there(record, 3, 31),
        u_topleft: there(record, 4, 47).map(|[p]| p),
        u_above: there(record, 5, 48),
        u_left: there(record, 6, 56),
        v_topleft: there(record, 7, 64).map(|[p]| p),
        v_above: there(record, 8, 65),
        v_left: there(record, 9, 73),
    }
}

/// The Rust's walker for the luma mode.
pub fn walk(
    y: IntraYMode,
    uv: IntraUvMode,
    skip: bool,
    sub_modes: Option<&[IntraBmode; 16]>,
    neighbors: &MbNeighbors,
    c: &Blocks,
) -> Result<ReconstructedMb, ReconstructError> {
    if y == IntraYMode::B {
        reconstruct::decode_keyframe_mb_bpred(sub_modes, uv, skip, neighbors, &c.y, &c.u, &c.v)
    } else {
        reconstruct::decode_keyframe_mb_non_bpred(y, uv, skip, neighbors, &c.y2, &c.y, &c.u, &c.v)
    }
}

pub fn macroblock(
    modes: &[u8],
    sub_modes: &[u8],
    record: &[u8],
    coeffs: &[i16],
    out: &mut [u8],
    clipped: &mut [u64],
) -> u32 {
    let sub_lengths = [0, 16];
    let (Ok(modes), Ok(record), Ok(coeffs), Ok(out), Ok([clipped])) = (
        <&[u8; 3]>::try_from(modes),
        <&[u8; 81]>::try_from(record),
        <&[i16; 400]>::try_from(coeffs),
        <&mut [u8; 384]>::try_from(out),
        <&mut [u64; 1]>::try_from(clipped),
    ) else {
        return WRONG_LENGTH;
    };
    if !sub_lengths.contains(&sub_modes.len()) {
        return WRONG_LENGTH;
    }
    out.fill(0);
    *clipped = 0;
    let [y, uv, skip] = *modes;
    let (Some(&y), Some(&uv)) = (Y_MODES.get(usize::from(y)), UV_MODES.get(usize::from(uv))) else {
        return UNKNOWN_BYTE;
    };
    if skip > 1 || record[..10].iter().any(|&mark| mark > 1) {
        return UNKNOWN_BYTE;
    }
    let mut by_number = [IntraBmode::Dc; 16];
    if y == IntraYMode::B {
        for (mode, &number) in by_number.iter_mut().zip(sub_modes) {
            let Some(&known) = B_MODES.get(usize::from(number)) else { return UNKNOWN_BYTE };
            *mode = known;
        }
    }
    let given = (!sub_modes.is_empty()).then_some(&by_number);
    let (neighbors, blocks) = (neighbors(record), Blocks::of(coeffs));
    match walk(y, uv, skip == 1, given, &neighbors, &blocks) {
        Ok(drawn) => {
            *clipped = clipped_sums::macroblock(y, uv, skip == 1, &by_number, &neighbors, &blocks, &drawn);
            out[..256].copy_from_slice(&drawn.y);
            out[256..320].copy_from_slice(&drawn.u);
            out[320..].copy_from_slice(&drawn.v);
            DONE
        }
        Err(ReconstructError::BPredNotSupported) => B_PRED,
        Err(ReconstructError::MissingSubblockModes) => NO_SUB_MODES,
        Err(other) => panic!("the Rust refused by {other}, which has no number"),
    }
}

/// A shelf: the answer to each of its macroblocks by itself, as many as there are replies, and the sum of their counts.
pub fn shelf(
    modes: &[u8],
    records: &[u8],
    sub_modes: &[u8],
    coeffs: &[i16],
    out: &mut [u8],
    replies: &mut [u8],
    clipped: &mut [u64],
) -> u32 {
    let n = replies.len();
    let lengths = [modes.len(), records.len(), sub_modes.len(), coeffs.len(), out.len(), clipped.len()];
    if lengths != [3 * n, 81 * n, 16 * n, 400 * n, 384 * n, 1] {
        return WRONG_LENGTH;
    }
    clipped[0] = 0;
    for (k, reply) in replies.iter_mut().enumerate() {
        let (modes, sub_modes) = (&modes[3 * k..][..3], &sub_modes[16 * k..][..16]);
        let (record, coeffs) = (&records[81 * k..][..81], &coeffs[400 * k..][..400]);
        let mut count = [0];
        let answered = macroblock(modes, sub_modes, record, coeffs, &mut out[384 * k..][..384], &mut count);
        *reply = u8::try_from(answered).expect("a reply is a byte");
        clipped[0] += count[0];
    }
    DONE
}

// ---- gathering, which the Rust does not have

/// A finished plane with n pixels a side for each macroblock.
struct Plane<'a> {
    pixels: &'a [u8],
    n: usize,
    cols: usize,
}

impl Plane<'_> {
    /// The pixel in line y and place x of the whole picture.
    fn at(&self, y: usize, x: usize) -> u8 {
        self.pixels[y * self.cols * self.n + x]
    }
}

#[allow(clippy::too_many_arguments)] // the parameters of the C function
pub fn gather(
    y: &[u8],
    u: &[u8],
    v: &[u8],
    cols: usize,
    rows: usize,
    col: usize,
    row: usize,
    right: &[u8],
    record: &mut [u8],
) -> u32 {
    if record.len() != 81 || right.len() != 4 {
        return WRONG_LENGTH;
    }
    record.fill(0);
    let side = 1..=1024;
    if !side.contains(&cols) || !side.contains(&rows) || col >= cols || row >= rows {
        return OUTSIDE_PICTURE;
    }
    let count = cols * rows;
    if y.len() != 256 * count || u.len() != 64 * count || v.len() != 64 * count {
        return WRONG_LENGTH;
    }
    let inside_above = row > 0;
    let inside_left = col > 0;
    let inside_right = col + 1 < cols;
    // the marks and the first pixel bytes of the plane's edges: top-left, above, left
    let planes = [(y, 16, [0, 1, 3], [10, 11, 31]), (u, 8, [4, 5, 6], [47, 48, 56]), (v, 8, [7, 8, 9], [64, 65, 73])];
    for (pixels, n, marks, starts) in planes {
        let plane = Plane { pixels, n, cols };
        let (top, start) = (row * n, col * n);
        if inside_above {
            // left of the picture stands the reference decoder's border
            record[marks[0]] = 1;
            record[starts[0]] = if inside_left { plane.at(top - 1, start - 1) } else { 129 };
            record[marks[1]] = 1;
            for i in 0..n {
                record[starts[1] + i] = plane.at(top - 1, start + i);
            }
        }
        if inside_left {
            record[marks[2]] = 1;
            for i in 0..n {
                record[starts[2] + i] = plane.at(top + i, start - 1);
            }
        }
    }
    if inside_above {
        record[2] = 1;
        let plane = Plane { pixels: y, n: 16, cols };
        for i in 0..4 {
            record[27 + i] = if inside_right { plane.at(row * 16 - 1, col * 16 + 16 + i) } else { right[i] };
        }
    }
    DONE
}

/// The last pixel of the line above a macroblock row, four times.
pub fn right_pixels(y: &[u8], cols: usize, rows: usize, row: usize, out: &mut [u8]) -> u32 {
    if out.len() != 4 {
        return WRONG_LENGTH;
    }
    out.fill(0);
    let side = 1..=1024;
    if !side.contains(&cols) || !side.contains(&rows) || row < 1 || row >= rows {
        return OUTSIDE_PICTURE;
    }
    if y.len() != 256 * cols * rows {
        return WRONG_LENGTH;
    }
    out.fill(Plane { pixels: y, n: 16, cols }.at(16 * row - 1, 16 * cols - 1));
    DONE
}
