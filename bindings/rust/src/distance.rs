//! How far drawn stills are from measured ones, in whole numbers.

use crate::call::call;
use crate::reply::answer;
use crate::Reply;

/// How far a drawn plane is from a measured one.
#[derive(Debug, Clone, Copy, Default, PartialEq, Eq, Hash)]
pub struct Distance {
    /// The sum of the squared differences of the pixels.
    pub squares: u64,
    /// The largest difference of two pixels, without its sign: at most 255.
    pub largest: u64,
    /// How many pixels are equal.
    pub equal: u64,
}

/// The distances of a list of stills.
#[derive(Debug, Clone, Default, PartialEq, Eq, Hash)]
pub struct Distances {
    /// Of each still in turn.
    pub stills: Vec<Distance>,
    /// Over the list: the sum of the sums, the largest of the largest, the sum of the equal pixels.
    pub total: Distance,
}

impl From<[u64; 3]> for Distance {
    fn from([squares, largest, equal]: [u64; 3]) -> Distance {
        Distance { squares, largest, equal }
    }
}

/// Compares drawn luma planes with measured ones. A size is columns and rows in macroblocks, each 1 to 1,024, and the
/// planes of all stills stand one behind another, 256 pixels a macroblock. Refusals: [`Reply::TooMany`] for more than
/// 4,096 stills; [`Reply::OutsidePicture`] for a size; [`Reply::WrongLength`] for `drawn` or `measured`.
///
/// ```
/// use zopredil::{distance, Distance};
///
/// // two stills of one macroblock: the first one level too bright everywhere, the second off by 7 in a single pixel
/// let measured = [100; 512];
/// let mut drawn = [100; 512];
/// drawn[..256].fill(101);
/// drawn[300] = 93;
///
/// let told = distance(&[[1, 1], [1, 1]], &drawn, &measured)?;
/// assert_eq!(told.stills[0], Distance { squares: 256, largest: 1, equal: 0 });
/// assert_eq!(told.stills[1], Distance { squares: 49, largest: 7, equal: 255 });
/// assert_eq!(told.total, Distance { squares: 305, largest: 7, equal: 255 });
/// # Ok::<(), zopredil::Reply>(())
/// ```
pub fn distance(sizes: &[[u32; 2]], drawn: &[u8], measured: &[u8]) -> Result<Distances, Reply> {
    let sizes: Vec<u32> = sizes.iter().flatten().copied().collect();
    // a list that is refused for its length asks for no room
    let stills = if sizes.len() > 8192 { 0 } else { sizes.len() / 2 };
    let (mut reports, mut total) = (vec![0u64; 3 * stills], [0u64; 3]);
    answer(call!(zopredil_distance(in sizes, in drawn, in measured, out reports, out total)))?;
    let stills = reports.chunks_exact(3).map(|report| Distance::from([report[0], report[1], report[2]])).collect();
    Ok(Distances { stills, total: total.into() })
}
