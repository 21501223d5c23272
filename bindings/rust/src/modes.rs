//! The prediction modes (RFC 6386, sections 8 and 11). The number of a mode is its place in the list.

/// The luma mode of a macroblock.
#[derive(Debug, Clone, Copy, PartialEq, Eq, Hash)]
#[repr(u8)]
pub enum IntraYMode {
    /// The average of the edges that are there.
    Dc,
    /// Each row is the row above.
    V,
    /// Each column is the column to the left.
    H,
    /// Left plus above less the pixel above left.
    Tm,
    /// Each 4x4 sub-block by a mode of its own.
    B,
}

/// The chroma mode of a macroblock.
#[derive(Debug, Clone, Copy, PartialEq, Eq, Hash)]
#[repr(u8)]
pub enum IntraUvMode {
    /// The average of the edges that are there.
    Dc,
    /// Each row is the row above.
    V,
    /// Each column is the column to the left.
    H,
    /// Left plus above less the pixel above left.
    Tm,
}

/// The mode of a 4x4 luma sub-block.
#[derive(Debug, Clone, Copy, PartialEq, Eq, Hash)]
#[repr(u8)]
pub enum IntraBmode {
    /// The average of the row above and the column to the left.
    Dc,
    /// Left plus above less the pixel above left.
    Tm,
    /// Each row is the smoothed row above.
    Ve,
    /// Each column is the smoothed column to the left.
    He,
    /// Down to the left, at 45 degrees.
    Ld,
    /// Down to the right, at 45 degrees.
    Rd,
    /// Down and a little to the right.
    Vr,
    /// Down and a little to the left.
    Vl,
    /// To the right and a little down.
    Hd,
    /// To the right and a little up.
    Hu,
}

impl IntraYMode {
    /// Every mode, in the order of the numbers.
    pub const ALL: [IntraYMode; 5] = [IntraYMode::Dc, IntraYMode::V, IntraYMode::H, IntraYMode::Tm, IntraYMode::B];

    /// The mode of a number.
    ///
    /// ```
    /// use zopredil::IntraYMode;
    ///
    /// assert_eq!(IntraYMode::from_number(4), Some(IntraYMode::B));
    /// assert_eq!(IntraYMode::from_number(5), None);
    /// ```
    pub fn from_number(number: u8) -> Option<IntraYMode> {
        IntraYMode::ALL.get(usize::from(number)).copied()
    }
}

impl IntraUvMode {
    /// Every mode, in the order of the numbers.
    pub const ALL: [IntraUvMode; 4] = [IntraUvMode::Dc, IntraUvMode::V, IntraUvMode::H, IntraUvMode::Tm];

    /// The mode of a number.
    ///
    /// ```
    /// use zopredil::IntraUvMode;
    ///
    /// assert_eq!(IntraUvMode::from_number(3), Some(IntraUvMode::Tm));
    /// assert_eq!(IntraUvMode::from_number(4), None);
    /// ```
    pub fn from_number(number: u8) -> Option<IntraUvMode> {
        IntraUvMode::ALL.get(usize::from(number)).copied()
    }
}

impl IntraBmode {
    /// Every mode, in the order of the numbers.
    pub const ALL: [IntraBmode; 10] = [
        IntraBmode::Dc,
        IntraBmode::Tm,
        IntraBmode::Ve,
        IntraBmode::He,
        IntraBmode::Ld,
        IntraBmode::Rd,
        IntraBmode::Vr,
        IntraBmode::Vl,
        IntraBmode::Hd,
        IntraBmode::Hu,
    ];

    /// The mode of a number.
    ///
    /// ```
    /// use zopredil::IntraBmode;
    ///
    /// assert_eq!(IntraBmode::from_number(9), Some(IntraBmode::Hu));
    /// assert_eq!(IntraBmode::from_number(10), None);
    /// ```
    pub fn from_number(number: u8) -> Option<IntraBmode> {
        IntraBmode::ALL.get(usize::from(number)).copied()
    }
}

/// The modes of a macroblock, and whether its coefficients are skipped.
#[derive(Debug, Clone, Copy, PartialEq, Eq, Hash)]
pub struct MbModes {
    /// The luma mode.
    pub y: IntraYMode,
    /// The mode of both chroma planes.
    pub uv: IntraUvMode,
    /// The macroblock is its prediction, whatever its coefficients are.
    pub skip: bool,
}

impl MbModes {
    /// The three bytes of the C interface: luma, chroma, skip.
    ///
    /// ```
    /// use zopredil::{IntraUvMode, IntraYMode, MbModes};
    ///
    /// let modes = MbModes { y: IntraYMode::H, uv: IntraUvMode::Tm, skip: true };
    /// assert_eq!(modes.to_bytes(), [2, 3, 1]);
    /// ```
    pub fn to_bytes(self) -> [u8; 3] {
        [self.y as u8, self.uv as u8, u8::from(self.skip)]
    }
}
