//! The reply numbers of the C interface as an error.

use std::{error, fmt};

/// Why a call was refused. The numbers are those of `include/zopredil.h`; 0, done, is no error, and 6 is not used.
#[derive(Debug, Clone, Copy, PartialEq, Eq, Hash)]
#[repr(u32)]
pub enum Reply {
    /// A slice has the wrong length.
    WrongLength = 1,
    /// A 4x4 block does not lie in its plane.
    OutsidePlane = 2,
    /// Luma mode B where a 16x16 mode is wanted.
    BPredNotSupported = 3,
    /// No sub-block modes where mode B wants them.
    MissingSubblockModes = 4,
    /// A sum of quantiser indices is outside signed 32 bits.
    IndexSum = 5,
    /// The picture's size or the macroblock's place is outside its limits.
    OutsidePicture = 7,
    /// A byte is no mode's number, or a skip or mark byte is neither 0 nor 1.
    UnknownByte = 8,
    /// The bool decoder needs a byte past the end of its partition.
    PastEnd = 9,
    /// A token probability is 0.
    ZeroProbability = 10,
    /// A loop filter level is above 63, or the sharpness above 7.
    LevelOrSharpness = 11,
    /// A list has more stills than 4,096.
    TooMany = 12,
}

impl Reply {
    const ALL: [Reply; 11] = [
        Reply::WrongLength,
        Reply::OutsidePlane,
        Reply::BPredNotSupported,
        Reply::MissingSubblockModes,
        Reply::IndexSum,
        Reply::OutsidePicture,
        Reply::UnknownByte,
        Reply::PastEnd,
        Reply::ZeroProbability,
        Reply::LevelOrSharpness,
        Reply::TooMany,
    ];

    /// The reply's number.
    ///
    /// ```
    /// assert_eq!(zopredil::Reply::OutsidePicture.number(), 7);
    /// ```
    pub fn number(self) -> u32 {
        self as u32
    }

    /// The reply of a number: none for 0, which is no refusal, and for numbers that are not used.
    ///
    /// ```
    /// use zopredil::Reply;
    ///
    /// assert_eq!(Reply::from_number(2), Some(Reply::OutsidePlane));
    /// assert_eq!(Reply::from_number(0), None);
    /// assert_eq!(Reply::from_number(6), None);
    /// ```
    pub fn from_number(number: u32) -> Option<Reply> {
        Reply::ALL.into_iter().find(|reply| reply.number() == number)
    }
}

impl fmt::Display for Reply {
    fn fmt(&self, f: &mut fmt::Formatter<'_>) -> fmt::Result {
        f.write_str(match self {
            Reply::WrongLength => "a slice has the wrong length",
            Reply::OutsidePlane => "a 4x4 block does not lie in its plane",
            Reply::BPredNotSupported => "luma mode B where a 16x16 mode is wanted",
            Reply::MissingSubblockModes => "no sub-block modes where mode B wants them",
            Reply::IndexSum => "a sum of quantiser indices is outside signed 32 bits",
            Reply::OutsidePicture => "the picture's size or the macroblock's place is outside its limits",
            Reply::UnknownByte => "a byte is no mode's number, or a skip or mark byte is neither 0 nor 1",
            Reply::PastEnd => "the bool decoder needs a byte past the end of its partition",
            Reply::ZeroProbability => "a token probability is 0",
            Reply::LevelOrSharpness => "a loop filter level is above 63, or the sharpness above 7",
            Reply::TooMany => "a list has more stills than 4,096",
        })
    }
}

impl error::Error for Reply {}

/// The C interface's answer as a `Result`.
pub(crate) fn answer(number: u32) -> Result<(), Reply> {
    if number == 0 {
        return Ok(());
    }
    match Reply::from_number(number) {
        Some(reply) => Err(reply),
        None => panic!("libzopredil.a replied {number}, which include/zopredil.h does not list"),
    }
}

/// The same where the argument types rule every refusal out.
pub(crate) fn done(number: u32) {
    assert_eq!(number, 0, "libzopredil.a refused a call that it has no reason to refuse");
}
