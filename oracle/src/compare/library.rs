//! The functions of the library, called through the C interface with slices of any length. An empty slice is
//! handed over as a null pointer.

use judge::filter::Strength;
use judge::still::{Planes, Still};
use std::ptr;
use zopredil::raw;

fn start<T>(lent: &[T]) -> *const T {
    if lent.is_empty() {
        ptr::null()
    } else {
        lent.as_ptr()
    }
}

fn start_mut<T>(lent: &mut [T]) -> *mut T {
    if lent.is_empty() {
        ptr::null_mut()
    } else {
        lent.as_mut_ptr()
    }
}

// SAFETY, for every call: a pointer and its length are those of a slice, and a slice that is written is lent alone.

pub fn y1_factors(yac_qi: i32, ydc_delta: i32, out: &mut [i16]) -> u32 {
    unsafe { raw::zopredil_y1_factors(yac_qi, ydc_delta, start_mut(out), out.len()) }
}

pub fn dequant_block(coeffs: &mut [i16], dc: i16, ac: i16) -> u32 {
    unsafe { raw::zopredil_dequant_block(start_mut(coeffs), coeffs.len(), dc, ac) }
}

pub fn dequantise(base: i32, deltas: [i32; 5], coeffs: &mut [i16], factors: &mut [i16]) -> u32 {
    let [ydc, y2dc, y2ac, uvdc, uvac] = deltas;
    let (c, f) = (start_mut(coeffs), start_mut(factors));
    unsafe { raw::zopredil_dequantise(base, ydc, y2dc, y2ac, uvdc, uvac, c, coeffs.len(), f, factors.len()) }
}

pub fn inverse_wht(input: &[i16], out: &mut [i16]) -> u32 {
    unsafe { raw::zopredil_inverse_wht(start(input), input.len(), start_mut(out), out.len()) }
}

pub fn inverse_wht_dc_only(dc: i16, out: &mut [i16]) -> u32 {
    unsafe { raw::zopredil_inverse_wht_dc_only(dc, start_mut(out), out.len()) }
}

pub fn inverse_dct(input: &[i16], out: &mut [i16]) -> u32 {
    unsafe { raw::zopredil_inverse_dct(start(input), input.len(), start_mut(out), out.len()) }
}

pub fn inverse_dct_add_into(
    input: &[i16],
    plane: &mut [u8],
    stride: usize,
    sub_row: usize,
    sub_col: usize,
    clipped: &mut [u64],
) -> u32 {
    let (block, at, len) = (start(input), start_mut(plane), plane.len());
    let (n, n_len) = (start_mut(clipped), clipped.len());
    unsafe { raw::zopredil_inverse_dct_add_into(block, input.len(), at, len, stride, sub_row, sub_col, n, n_len) }
}

pub fn add_residue(prediction: &[u8], residue: &[i16], out: &mut [u8]) -> u32 {
    let (p, r) = (start(prediction), start(residue));
    unsafe { raw::zopredil_add_residue(p, prediction.len(), r, residue.len(), start_mut(out), out.len()) }
}

pub fn predict_y16x16(mode: u8, above: &[u8], left: &[u8], p: u8, out: &mut [u8]) -> u32 {
    let (a, l) = (start(above), start(left));
    unsafe { raw::zopredil_predict_y16x16(mode, a, above.len(), l, left.len(), p, start_mut(out), out.len()) }
}

pub fn predict_uv8x8(mode: u8, above: &[u8], left: &[u8], p: u8, out: &mut [u8]) -> u32 {
    let (a, l) = (start(above), start(left));
    unsafe { raw::zopredil_predict_uv8x8(mode, a, above.len(), l, left.len(), p, start_mut(out), out.len()) }
}

pub fn predict_b4x4(mode: u8, above: &[u8], left: &[u8], p: u8, out: &mut [u8]) -> u32 {
    let (a, l) = (start(above), start(left));
    unsafe { raw::zopredil_predict_b4x4(mode, a, above.len(), l, left.len(), p, start_mut(out), out.len()) }
}

pub fn macroblock(
    modes: &[u8],
    sub_modes: &[u8],
    record: &[u8],
    coeffs: &[i16],
    out: &mut [u8],
    clipped: &mut [u64],
) -> u32 {
    unsafe {
        raw::zopredil_macroblock(
            start(modes),
            modes.len(),
            start(sub_modes),
            sub_modes.len(),
            start(record),
            record.len(),
            start(coeffs),
            coeffs.len(),
            start_mut(out),
            out.len(),
            start_mut(clipped),
            clipped.len(),
        )
    }
}

pub fn shelf(
    modes: &[u8],
    records: &[u8],
    sub_modes: &[u8],
    coeffs: &[i16],
    out: &mut [u8],
    replies: &mut [u8],
    clipped: &mut [u64],
) -> u32 {
    unsafe {
        raw::zopredil_shelf(
            start(modes),
            modes.len(),
            start(records),
            records.len(),
            start(sub_modes),
            sub_modes.len(),
            start(coeffs),
            coeffs.len(),
            start_mut(out),
            out.len(),
            start_mut(replies),
            replies.len(),
            start_mut(clipped),
            clipped.len(),
        )
    }
}

#[allow(clippy::too_many_arguments)] // the parameters of the C function
pub fn gather(
    y: &[u8],
    u: &[u8],
    v: &[u8],
    cols: usize,
    rows: usize,
    col: usize,
    row: usize,
    right: &[u8],
    record: &mut [u8],
) -> u32 {
    unsafe {
        raw::zopredil_gather(
            start(y),
            y.len(),
            start(u),
            u.len(),
            start(v),
            v.len(),
            cols,
            rows,
            col,
            row,
            start(right),
            right.len(),
            start_mut(record),
            record.len(),
        )
    }
}

pub fn right_pixels(y: &[u8], cols: usize, rows: usize, row: usize, out: &mut [u8]) -> u32 {
    unsafe { raw::zopredil_right_pixels(start(y), y.len(), cols, rows, row, start_mut(out), out.len()) }
}

/// `zopredil_still` or, where `right` is none, `zopredil_still_alone`.
#[rustfmt::skip]
pub fn still(given: Still<'_>, right: Option<&[u8]>, planes: Planes<'_>, clipped: &mut [u64]) -> u64 {
    let Still { cols, rows, modes, sub_modes, coeffs } = given;
    let (m, s, c) = (start(modes), start(sub_modes), start(coeffs));
    let (m_len, s_len, c_len) = (modes.len(), sub_modes.len(), coeffs.len());
    let Planes { y, u, v } = planes;
    let (y_len, u_len, v_len) = (y.len(), u.len(), v.len());
    let (y, u, v) = (start_mut(y), start_mut(u), start_mut(v));
    let (n, n_len) = (start_mut(clipped), clipped.len());
    unsafe {
        match right {
            Some(right) => {
                let (r, r_len) = (start(right), right.len());
                raw::zopredil_still(
                    cols, rows, m, m_len, s, s_len, c, c_len, r, r_len, y, y_len, u, u_len, v, v_len, n, n_len,
                )
            }
            None => raw::zopredil_still_alone(
                cols, rows, m, m_len, s, s_len, c, c_len, y, y_len, u, u_len, v, v_len, n, n_len,
            ),
        }
    }
}

pub fn distance(sizes: &[u32], drawn: &[u8], measured: &[u8], reports: &mut [u64], totals: &mut [u64]) -> u32 {
    unsafe {
        raw::zopredil_distance(
            start(sizes),
            sizes.len(),
            start(drawn),
            drawn.len(),
            start(measured),
            measured.len(),
            start_mut(reports),
            reports.len(),
            start_mut(totals),
            totals.len(),
        )
    }
}

pub fn bool_start(partition: &[u8], state: &mut [u64]) -> u32 {
    unsafe { raw::zopredil_bool_start(start(partition), partition.len(), start_mut(state), state.len()) }
}

#[rustfmt::skip]
pub fn tokens(
    partition: &[u8],
    probabilities: &[u8],
    y2: u8,
    above: &mut [u8],
    left: &mut [u8],
    state: &mut [u64],
    coeffs: &mut [i16],
) -> u32 {
    let (src, src_len) = (start(partition), partition.len());
    let (p, p_len) = (start(probabilities), probabilities.len());
    let (a_len, l_len, s_len, c_len) = (above.len(), left.len(), state.len(), coeffs.len());
    let (a, l, s, c) = (start_mut(above), start_mut(left), start_mut(state), start_mut(coeffs));
    unsafe { raw::zopredil_tokens(src, src_len, p, p_len, y2, a, a_len, l, l_len, s, s_len, c, c_len) }
}

#[allow(clippy::too_many_arguments)] // the parameters of the C function
#[rustfmt::skip]
pub fn filter(
    cols: usize, rows: usize, kind: u8, level: u8, sharpness: u8, inner: &[u8], planes: Planes<'_>,
) -> u32 {
    let Planes { y, u, v } = planes;
    let (y_len, u_len, v_len) = (y.len(), u.len(), v.len());
    let (y, u, v) = (start_mut(y), start_mut(u), start_mut(v));
    let (i, i_len) = (start(inner), inner.len());
    unsafe { raw::zopredil_filter(cols, rows, kind, level, sharpness, i, i_len, y, y_len, u, u_len, v, v_len) }
}

#[rustfmt::skip]
pub fn filter_levels(strength: Strength<'_>, planes: Planes<'_>) -> u32 {
    let Strength { cols, rows, kind, sharpness, levels, inner } = strength;
    let Planes { y, u, v } = planes;
    let (y_len, u_len, v_len) = (y.len(), u.len(), v.len());
    let (y, u, v) = (start_mut(y), start_mut(u), start_mut(v));
    let (l, l_len, i, i_len) = (start(levels), levels.len(), start(inner), inner.len());
    unsafe {
        raw::zopredil_filter_levels(
            cols, rows, kind, sharpness, l, l_len, i, i_len, y, y_len, u, u_len, v, v_len,
        )
    }
}
