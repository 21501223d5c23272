//! Prediction of pixels from their neighbours (RFC 6386, 12.2 and 12.3).

use crate::call::call;
use crate::reply::{answer, done};
use crate::{IntraBmode, IntraUvMode, IntraYMode, Reply};

/// The pixels of an edge: none where it is absent.
fn edge<const N: usize>(pixels: Option<&[u8; N]>) -> &[u8] {
    pixels.map_or(&[], |pixels| pixels)
}

/// Predicts the 16x16 luma pixels of a macroblock (12.3). `None` is an edge outside the picture; `p` is the pixel above
/// left, which only TM reads. Refused with [`Reply::BPredNotSupported`] in mode B.
///
/// ```
/// use zopredil::{predict_y16x16, IntraYMode, Reply};
///
/// let above = [9; 16];
/// assert_eq!(predict_y16x16(IntraYMode::V, Some(&above), None, 127), Ok([9; 256]));
/// assert_eq!(predict_y16x16(IntraYMode::Dc, None, None, 127), Ok([128; 256]));
/// assert_eq!(predict_y16x16(IntraYMode::B, None, None, 127), Err(Reply::BPredNotSupported));
/// ```
pub fn predict_y16x16(
    mode: IntraYMode,
    above: Option<&[u8; 16]>,
    left: Option<&[u8; 16]>,
    p: u8,
) -> Result<[u8; 256], Reply> {
    let mut out = [0; 256];
    answer(call!(zopredil_predict_y16x16(mode as u8, in edge(above), in edge(left), p, out out)))?;
    Ok(out)
}

/// Predicts the 8x8 pixels of a chroma plane of a macroblock (12.2).
///
/// ```
/// use zopredil::{predict_uv8x8, IntraUvMode};
///
/// let left = [1, 2, 3, 4, 5, 6, 7, 8];
/// assert_eq!(predict_uv8x8(IntraUvMode::H, None, Some(&left), 127)[8..16], [2; 8]);
/// assert_eq!(predict_uv8x8(IntraUvMode::H, None, None, 127), [129; 64]);
/// ```
pub fn predict_uv8x8(mode: IntraUvMode, above: Option<&[u8; 8]>, left: Option<&[u8; 8]>, p: u8) -> [u8; 64] {
    let mut out = [0; 64];
    done(call!(zopredil_predict_uv8x8(mode as u8, in edge(above), in edge(left), p, out out)));
    out
}

/// Predicts a 4x4 luma sub-block (12.3) from the four pixels above and the four above right of it, the four to its left
/// and the pixel above left.
///
/// ```
/// use zopredil::{predict_b4x4, IntraBmode};
///
/// let block = predict_b4x4(IntraBmode::Ld, &[0, 8, 16, 24, 32, 40, 48, 56], &[0; 4], 0);
/// assert_eq!((block[0], block[15]), (8, 54));
/// ```
pub fn predict_b4x4(mode: IntraBmode, above: &[u8; 8], left: &[u8; 4], p: u8) -> [u8; 16] {
    let mut out = [0; 16];
    done(call!(zopredil_predict_b4x4(mode as u8, in above, in left, p, out out)));
    out
}
