//! The coefficient tokens of a partition, macroblock after macroblock.

use crate::call::call;
use crate::reply::{answer, done};
use crate::Reply;

/// Which blocks beside a macroblock have coefficients: the flags of its neighbour above, one for each column of blocks,
/// or of its neighbour to the left, one for each row. Outside the picture all are false.
#[derive(Debug, Clone, Copy, Default, PartialEq, Eq, Hash)]
pub struct Contexts {
    /// Luma, four blocks.
    pub y: [bool; 4],
    /// U, two blocks.
    pub u: [bool; 2],
    /// The same for V.
    pub v: [bool; 2],
    /// Y2, that of the last macroblock which had one.
    pub y2: bool,
}

impl Contexts {
    /// Passes by a macroblock that is skipped, and so has no tokens: no block of it has coefficients. `y2` says whether
    /// it would have had a Y2 block, which every luma mode but B has; without one, the Y2 flag stays.
    ///
    /// ```
    /// use zopredil::Contexts;
    ///
    /// let mut above = Contexts { y: [true; 4], u: [true; 2], v: [true; 2], y2: true };
    /// above.skip(false);
    /// assert_eq!(above, Contexts { y2: true, ..Contexts::default() });
    /// above.skip(true);
    /// assert_eq!(above, Contexts::default());
    /// ```
    pub fn skip(&mut self, y2: bool) {
        *self = Contexts { y2: self.y2 && !y2, ..Contexts::default() };
    }

    fn to_bytes(self) -> [u8; 9] {
        let Contexts { y: [a, b, c, d], u: [e, f], v: [g, h], y2 } = self;
        [a, b, c, d, e, f, g, h, y2].map(u8::from)
    }

    fn of_bytes(bytes: [u8; 9]) -> Contexts {
        let [a, b, c, d, e, f, g, h, y2] = bytes.map(|byte| byte == 1);
        Contexts { y: [a, b, c, d], u: [e, f], v: [g, h], y2 }
    }
}

/// A partition of coefficient tokens (RFC 6386, sections 7 and 13) that is read from its start: it borrows the bytes as
/// they are stored, and hands out a macroblock at a time. A clone reads on by itself.
///
/// ```
/// use zopredil::{Contexts, Partition, Reply};
///
/// // a macroblock at even chances throughout: 3 and -1 in the Y2 block, 2 in the first of U
/// let mut partition = Partition::new(&[232, 204, 192, 10, 234, 0, 0]);
/// let (mut above, mut left) = (Contexts::default(), Contexts::default());
/// let coeffs = partition.macroblock(&[128; 1056], true, &mut above, &mut left)?;
/// assert_eq!((coeffs[0], coeffs[1], coeffs[16 + 256 + 1]), (3, -1, 2));
/// assert_eq!(coeffs.iter().filter(|&&x| x != 0).count(), 3);
/// assert_eq!(above, Contexts { y2: true, ..Contexts::default() });
///
/// // that was all of it
/// let refused = partition.macroblock(&[128; 1056], true, &mut above, &mut left);
/// assert_eq!(refused, Err(Reply::PastEnd));
/// # Ok::<(), Reply>(())
/// ```
#[derive(Debug, Clone)]
pub struct Partition<'a> {
    bytes: &'a [u8],
    state: [u64; 4],
}

impl<'a> Partition<'a> {
    /// The partition at its first macroblock. Its bytes may be any, also none: what is missing is refused where it is
    /// read.
    pub fn new(bytes: &'a [u8]) -> Partition<'a> {
        let mut state = [0; 4];
        done(call!(zopredil_bool_start(in bytes, out state)));
        Partition { bytes, state }
    }

    /// The coefficients of the next macroblock as they are stored, before they are dequantised: Y2 16, Y 256, U 64, V 64,
    /// each block in raster order, each within 2,114 of 0. `y2` says whether it has a Y2 block, which every luma mode but
    /// B has; without one the first 16 are zeros. [`dequantise`](crate::dequantise) takes them on.
    ///
    /// `probabilities` are the frame's, by plane, band, context and node of the tree. `above` and `left` are the flags of
    /// the macroblocks beside it, and then its own: a block's flag is true where some coefficient is not 0.
    ///
    /// Refused with [`Reply::ZeroProbability`] for a probability of 0, then with [`Reply::PastEnd`] where a bool needs a
    /// byte past the end; the partition and the flags then stay as they were.
    pub fn macroblock(
        &mut self,
        probabilities: &[u8; 1056],
        y2: bool,
        above: &mut Contexts,
        left: &mut Contexts,
    ) -> Result<[i16; 400], Reply> {
        let (mut a, mut l, mut coeffs) = (above.to_bytes(), left.to_bytes(), [0; 400]);
        let (bytes, state) = (self.bytes, &mut self.state);
        answer(call!(zopredil_tokens(in bytes, in probabilities, y2.into(), out a, out l, out state, out coeffs)))?;
        (*above, *left) = (Contexts::of_bytes(a), Contexts::of_bytes(l));
        Ok(coeffs)
    }
}
