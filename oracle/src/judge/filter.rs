//! What the two calls that filter a picture must answer: the second loop filter, which is the oracle's own, and the
//! refusals of the project's papers. The Rust has no loop filter.

use crate::expected::{DONE, OUTSIDE_PICTURE, UNKNOWN_BYTE, WRONG_LENGTH};
use crate::still::Planes;

pub const LEVEL_OR_SHARPNESS: u32 = 11;

/// What a picture is filtered with.
#[derive(Clone, Copy, Debug)]
pub struct Strength<'a> {
    pub cols: usize,
    pub rows: usize,
    pub kind: u8,
    pub sharpness: u8,
    pub levels: &'a [u8],
    pub inner: &'a [u8],
}

/// The answer of `zopredil_filter_levels`: the sides, every length, every level and the sharpness, the kind; after each of
/// these the planes are as they came.
pub fn filter_levels(strength: Strength<'_>, planes: Planes<'_>) -> u32 {
    let Strength { cols, rows, kind, sharpness, levels, inner } = strength;
    let side = 1..=1024;
    if !side.contains(&cols) || !side.contains(&rows) {
        return OUTSIDE_PICTURE;
    }
    let Planes { y, u, v } = planes;
    if [levels.len(), inner.len(), y.len(), u.len(), v.len()] != [1, 1, 256, 64, 64].map(|each| each * cols * rows) {
        return WRONG_LENGTH;
    }
    if sharpness > 7 || levels.iter().any(|&level| level > 63) {
        return LEVEL_OR_SHARPNESS;
    }
    if kind > 1 {
        return UNKNOWN_BYTE;
    }
    let inner: Vec<bool> = inner.iter().map(|&byte| byte != 0).collect();
    reader::filter::filter(reader::filter::Planes { y, u, v }, cols, rows, kind == 1, sharpness, levels, &inner);
    DONE
}

/// The answer of `zopredil_filter`: one level for all.
#[allow(clippy::too_many_arguments)] // the parameters of the C function
pub fn filter(cols: usize, rows: usize, kind: u8, level: u8, sharpness: u8, inner: &[u8], planes: Planes<'_>) -> u32 {
    let side = 1..=1024;
    let count = if side.contains(&cols) && side.contains(&rows) { cols * rows } else { 0 };
    let levels = vec![level; count];
    filter_levels(Strength { cols, rows, kind, sharpness, levels: &levels, inner }, planes)
}
