//! A whole still: every macroblock of a picture in raster order, each drawn from those before it.

use crate::call::call;
use crate::reply::answer;
use crate::{IntraBmode, IntraUvMode, IntraYMode, Reply};
use std::{error, fmt};

/// A still as it is stored, macroblock after macroblock in raster order. Nothing is asked of its parts: a wrong length or
/// an unknown byte is refused by the call that draws it.
#[derive(Debug, Clone, Copy, PartialEq, Eq)]
pub struct Still<'a> {
    /// The width in macroblocks, 1 to 1,024.
    pub cols: usize,
    /// The height in macroblocks, 1 to 1,024.
    pub rows: usize,
    /// Three bytes a macroblock: the numbers of its luma and its chroma mode, and 1 where its coefficients are skipped,
    /// else 0. [`MbModes::to_bytes`](crate::MbModes::to_bytes) makes them.
    pub modes: &'a [u8],
    /// Sixteen bytes a macroblock: the numbers of its sub-block modes. They are looked at in luma mode B only.
    pub sub_modes: &'a [u8],
    /// 400 dequantised coefficients a macroblock: Y2 16, Y 256, U 64, V 64, each block in raster order. Luma mode B does
    /// not use the first 16.
    pub coeffs: &'a [i16],
}

/// One of the bytes that say how a macroblock is drawn.
#[derive(Debug, Clone, Copy, PartialEq, Eq, Hash)]
pub enum ModeByte {
    /// The number of its luma mode.
    Luma,
    /// The number of its chroma mode.
    Chroma,
    /// Whether its coefficients are skipped.
    Skip,
    /// The number of the mode of one of its sub-blocks, 0 to 15, in luma mode B.
    SubBlock(usize),
}

/// A byte that says nothing, for which a macroblock is refused with [`Reply::UnknownByte`].
#[derive(Debug, Clone, Copy, PartialEq, Eq, Hash)]
pub struct UnknownByte {
    /// Which of the macroblock's bytes it is.
    pub byte: ModeByte,
    /// What it holds.
    pub value: u8,
}

impl fmt::Display for UnknownByte {
    /// What the byte is, what it holds, and what would be known.
    fn fmt(&self, f: &mut fmt::Formatter<'_>) -> fmt::Result {
        let value = self.value;
        match self.byte {
            ModeByte::Luma => write!(f, "its luma mode is {value}, and 0 to 4 are known"),
            ModeByte::Chroma => write!(f, "its chroma mode is {value}, and 0 to 3 are known"),
            ModeByte::Skip => write!(f, "its skip byte is {value}, and 0 and 1 are known"),
            ModeByte::SubBlock(k) => write!(f, "the mode of its sub-block {k} is {value}, and 0 to 9 are known"),
        }
    }
}

impl Still<'_> {
    /// The first byte of a macroblock that says nothing, in the order luma mode, chroma mode, skip byte and, in luma mode
    /// B, sub-block modes: what a still is refused for with [`Reply::UnknownByte`]. None where every byte is known, or
    /// where the lists do not have the macroblock.
    ///
    /// ```
    /// use zopredil::{ModeByte, Still, UnknownByte};
    ///
    /// // the second macroblock is in luma mode B, and its last sub-block is in no mode
    /// let mut sub_modes = [0; 32];
    /// sub_modes[31] = 10;
    /// let still = Still { cols: 2, rows: 1, modes: &[0, 0, 1, 4, 0, 1], sub_modes: &sub_modes, coeffs: &[0; 800] };
    /// assert_eq!(still.unknown_byte(0), None);
    /// assert_eq!(still.unknown_byte(1), Some(UnknownByte { byte: ModeByte::SubBlock(15), value: 10 }));
    /// ```
    pub fn unknown_byte(&self, macroblock: usize) -> Option<UnknownByte> {
        let &[y, uv, skip] = part(self.modes, macroblock)?;
        let mode = IntraYMode::from_number(y);
        let sub_modes = if mode == Some(IntraYMode::B) { &part::<16>(self.sub_modes, macroblock)?[..] } else { &[] };
        let whole = [
            (ModeByte::Luma, y, mode.is_some()),
            (ModeByte::Chroma, uv, IntraUvMode::from_number(uv).is_some()),
            (ModeByte::Skip, skip, skip <= 1),
        ];
        let parts = sub_modes.iter().enumerate();
        let parts = parts.map(|(k, &mode)| (ModeByte::SubBlock(k), mode, IntraBmode::from_number(mode).is_some()));
        let unknown = whole.into_iter().chain(parts).find(|(_, _, known)| !known);
        unknown.map(|(byte, value, _)| UnknownByte { byte, value })
    }
}

/// The bytes of a macroblock in a list that has `N` of each.
fn part<const N: usize>(list: &[u8], macroblock: usize) -> Option<&[u8; N]> {
    list.get(macroblock.checked_mul(N)?..)?.first_chunk()
}

/// The three planes that a still is drawn into, rows unpadded.
#[derive(Debug, PartialEq, Eq)]
pub struct PlanesMut<'a> {
    /// 256 bytes a macroblock: rows of 16 for each column.
    pub y: &'a mut [u8],
    /// 64 bytes a macroblock: rows of 8 for each column.
    pub u: &'a mut [u8],
    /// The same for V.
    pub v: &'a mut [u8],
}

/// Why a still was refused, and where.
#[derive(Debug, Clone, Copy, PartialEq, Eq, Hash)]
pub struct StillRefused {
    /// [`Reply::OutsidePicture`] or [`Reply::WrongLength`], with nothing drawn; or [`Reply::UnknownByte`].
    pub reply: Reply,
    /// The raster index of the macroblock with the unknown byte, which is also how many are finished. 0 in the other
    /// replies.
    pub macroblock: usize,
    /// The clipped sums of the finished macroblocks. 0 in the other replies.
    pub clipped: u64,
}

impl fmt::Display for StillRefused {
    fn fmt(&self, f: &mut fmt::Formatter<'_>) -> fmt::Result {
        match self.reply {
            Reply::UnknownByte => write!(f, "macroblock {}: {}", self.macroblock, self.reply),
            reply => reply.fmt(f),
        }
    }
}

impl error::Error for StillRefused {}

/// The C interface's answer: the raster index times 256, plus the reply; and the clipped sums.
fn still_answer(answered: u64, [clipped]: [u64; 1]) -> Result<u64, StillRefused> {
    let (macroblock, number) = ((answered >> 8) as usize, (answered & 255) as u32);
    match answer(number) {
        Ok(()) => Ok(clipped),
        Err(reply) => Err(StillRefused { reply, macroblock, clipped }),
    }
}

/// Draws a still, given the pixels right of the picture: four for each macroblock row after the first, which its last
/// macroblock takes as the luma pixels above and to the right. The answer is how many sums of prediction and residue, of
/// the three planes together, were below 0 or above 255 before they were clamped. Refused with
/// [`Reply::OutsidePicture`] for its size, then with [`Reply::WrongLength`] for any slice, both before anything is drawn;
/// then with [`Reply::UnknownByte`] at the first macroblock with an unknown byte: the macroblocks before it are finished,
/// all other bytes as they were.
///
/// ```
/// use zopredil::{still, PlanesMut, Reply, Still, StillRefused};
///
/// // two macroblocks, one below the other, skipped: the first in DC, the second in luma mode B, every sub-block in Ld
/// let given = Still {
///     cols: 1,
///     rows: 2,
///     modes: &[0, 0, 1, 4, 0, 1],
///     sub_modes: &[[0; 16], [4; 16]].concat(),
///     coeffs: &[0; 800],
/// };
/// let (mut y, mut u, mut v) = ([0; 512], [0; 128], [0; 128]);
/// let clipped = still(&given, &[90; 4], PlanesMut { y: &mut y, u: &mut u, v: &mut v })?;
/// assert_eq!((y[0], y[256], y[256 + 63], clipped), (128, 128, 90, 0));
///
/// let given = Still { modes: &[0, 0, 1, 5, 0, 1], ..given };
/// let refused = still(&given, &[90; 4], PlanesMut { y: &mut y, u: &mut u, v: &mut v });
/// assert_eq!(refused, Err(StillRefused { reply: Reply::UnknownByte, macroblock: 1, clipped: 0 }));
/// # Ok::<(), StillRefused>(())
/// ```
pub fn still(still: &Still<'_>, right: &[u8], planes: PlanesMut<'_>) -> Result<u64, StillRefused> {
    let mut clipped = [0];
    let Still { cols, rows, modes, sub_modes, coeffs } = *still;
    let PlanesMut { y, u, v } = planes;
    let answered = call!(zopredil_still(
        cols, rows, in modes, in sub_modes, in coeffs, in right, out y, out u, out v, out clipped
    ));
    still_answer(answered, clipped)
}

/// Draws a still that comes without the pixels right of the picture: for each macroblock row after the first they are
/// four copies of the last pixel of the luma row above it, as decoders have them. Refused as [`still`] is.
///
/// ```
/// use zopredil::{still_alone, PlanesMut, Reply, Still, StillRefused};
///
/// let given = Still { cols: 2, rows: 1, modes: &[0, 0, 1, 2, 1, 1], sub_modes: &[0; 32], coeffs: &[0; 800] };
/// let (mut y, mut u, mut v) = ([0; 512], [0; 128], [0; 128]);
/// let clipped = still_alone(&given, PlanesMut { y: &mut y, u: &mut u, v: &mut v })?;
/// assert_eq!((y, u[7], u[8], clipped), ([128; 512], 128, 127, 0));
///
/// // 128 and 200 in every luma pixel of the first macroblock
/// let mut coeffs = [0; 800];
/// coeffs[0] = 64 * 200;
/// let loud = Still { modes: &[0, 0, 0, 2, 1, 1], coeffs: &coeffs, ..given };
/// let clipped = still_alone(&loud, PlanesMut { y: &mut y, u: &mut u, v: &mut v })?;
/// assert_eq!((y, clipped), ([255; 512], 256));
///
/// let refused = still_alone(&given, PlanesMut { y: &mut y[1..], u: &mut u, v: &mut v });
/// assert_eq!(refused, Err(StillRefused { reply: Reply::WrongLength, macroblock: 0, clipped: 0 }));
/// let refused = still_alone(&Still { cols: 1025, ..given }, PlanesMut { y: &mut y, u: &mut u, v: &mut v });
/// assert_eq!(refused, Err(StillRefused { reply: Reply::OutsidePicture, macroblock: 0, clipped: 0 }));
/// # Ok::<(), StillRefused>(())
/// ```
pub fn still_alone(still: &Still<'_>, planes: PlanesMut<'_>) -> Result<u64, StillRefused> {
    let mut clipped = [0];
    let Still { cols, rows, modes, sub_modes, coeffs } = *still;
    let PlanesMut { y, u, v } = planes;
    let answered = call!(zopredil_still_alone(
        cols, rows, in modes, in sub_modes, in coeffs, out y, out u, out v, out clipped
    ));
    still_answer(answered, clipped)
}
