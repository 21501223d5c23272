//! The loop filter over a finished picture.

use crate::call::call;
use crate::reply::answer;
use crate::{PlanesMut, Reply};

/// The two loop filters; a frame's header says which is its own.
#[derive(Debug, Clone, Copy, PartialEq, Eq, Hash)]
#[repr(u8)]
pub enum FilterKind {
    /// Reaches three pixels to either side of an edge between macroblocks and two of an inner one (RFC 6386, 15.3 and
    /// 15.4).
    Normal = 0,
    /// Reaches one pixel, and leaves U and V alone (15.2).
    Simple = 1,
}

/// Filters the edges of a finished picture (RFC 6386, section 15) that is `cols` macroblocks wide and `rows` high, each
/// side 1 to 1,024: the macroblocks in raster order, of each the left edge, the inner upright edges, the top edge and the
/// inner level edges. The picture's own border is not filtered. `level` is 0 to 63, and 0 filters nothing; `sharpness` is
/// 0 to 7. `inner` has a byte for each macroblock: 0 where its inner edges are not filtered, which holds where it is not of
/// luma mode B and no block of it has coefficients.
///
/// Prediction uses unfiltered pixels, so the filter runs once the whole picture is drawn.
///
/// Refused with [`Reply::OutsidePicture`] for a side, then with [`Reply::WrongLength`] for any slice, then with
/// [`Reply::LevelOrSharpness`]; the planes then stay as they were.
///
/// ```
/// use zopredil::{filter, FilterKind, PlanesMut, Reply};
///
/// // two macroblocks side by side, grey and a little darker
/// let mut y: Vec<u8> = [[120; 16], [112; 16]].concat().repeat(16);
/// let (mut u, mut v) = ([128; 128], [128; 128]);
/// let planes = PlanesMut { y: &mut y, u: &mut u, v: &mut v };
/// filter(2, 1, FilterKind::Normal, 20, 0, &[0, 0], planes)?;
/// assert_eq!(y[11..21], [120, 120, 119, 118, 117, 115, 114, 113, 112, 112]);
///
/// let planes = PlanesMut { y: &mut y, u: &mut u, v: &mut v };
/// assert_eq!(filter(2, 1, FilterKind::Simple, 64, 0, &[0, 0], planes), Err(Reply::LevelOrSharpness));
/// # Ok::<(), Reply>(())
/// ```
pub fn filter(
    cols: usize,
    rows: usize,
    kind: FilterKind,
    level: u8,
    sharpness: u8,
    inner: &[u8],
    planes: PlanesMut<'_>,
) -> Result<(), Reply> {
    let PlanesMut { y, u, v } = planes;
    answer(call!(zopredil_filter(cols, rows, kind as u8, level, sharpness, in inner, out y, out u, out v)))
}

/// The same with a level for each macroblock, 0 where its own edges are not filtered: frames have more than one where
/// they have segments, or another level for mode B. Refused as [`filter`] is, for any level above 63.
///
/// ```
/// use zopredil::{filter_levels, FilterKind, PlanesMut, Reply};
///
/// // three macroblocks side by side; the edge left of the last is its own, and its level 0
/// let mut y: Vec<u8> = [[120; 16], [112; 16], [120; 16]].concat().repeat(16);
/// let (mut u, mut v) = ([128; 192], [128; 192]);
/// let planes = PlanesMut { y: &mut y, u: &mut u, v: &mut v };
/// filter_levels(3, 1, FilterKind::Simple, 0, &[20, 20, 0], &[0, 0, 0], planes)?;
/// assert_eq!((y[15], y[16], y[31], y[32]), (118, 114, 112, 120));
/// assert_eq!(u, [128; 192]);
/// # Ok::<(), Reply>(())
/// ```
pub fn filter_levels(
    cols: usize,
    rows: usize,
    kind: FilterKind,
    sharpness: u8,
    levels: &[u8],
    inner: &[u8],
    planes: PlanesMut<'_>,
) -> Result<(), Reply> {
    let PlanesMut { y, u, v } = planes;
    answer(call!(zopredil_filter_levels(
        cols, rows, kind as u8, sharpness, in levels, in inner, out y, out u, out v
    )))
}
