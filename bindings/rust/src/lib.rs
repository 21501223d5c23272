//! The picture code of VP8 key frames (RFC 6386, sections 7 and 12 to 15): safe functions over `libzopredil.a`, whose
//! code is proved against the RFC.
//!
//! # A still
//!
//! A whole picture, macroblock after macroblock. Two of them side by side, not skipped, in DC: the first is 128 and 100
//! in every luma pixel, the second is predicted from it.
//!
//! ```
//! use zopredil::{still_alone, PlanesMut, Still};
//!
//! let mut coeffs = [0; 800];
//! coeffs[0] = 64 * 100;
//! let still = Still { cols: 2, rows: 1, modes: &[0; 6], sub_modes: &[0; 32], coeffs: &coeffs };
//!
//! let (mut y, mut u, mut v) = ([0; 512], [0; 128], [0; 128]);
//! let clipped = still_alone(&still, PlanesMut { y: &mut y, u: &mut u, v: &mut v })?;
//! assert_eq!((y, u, v), ([228; 512], [128; 128], [128; 128]));
//! assert_eq!(clipped, 0);
//! # Ok::<(), zopredil::StillRefused>(())
//! ```
//!
//! A damaged one is refused with its macroblock, and [`Still::unknown_byte`] says which of its bytes says nothing:
//!
//! ```
//! # use zopredil::{still_alone, PlanesMut, Still};
//! # let (mut y, mut u, mut v) = ([0; 512], [0; 128], [0; 128]);
//! let still = Still { cols: 2, rows: 1, modes: &[0, 0, 1, 0, 7, 1], sub_modes: &[0; 32], coeffs: &[0; 800] };
//! let refused = still_alone(&still, PlanesMut { y: &mut y, u: &mut u, v: &mut v }).unwrap_err();
//! assert_eq!((refused.reply.number(), refused.macroblock), (8, 1));
//! let byte = still.unknown_byte(refused.macroblock).unwrap();
//! assert_eq!(byte.to_string(), "its chroma mode is 7, and 0 to 3 are known");
//! ```
//!
//! # A shelf
//!
//! Loose macroblocks, each drawn from its own neighbours and whatever becomes of the others:
//!
//! ```
//! use zopredil::{shelf, IntraUvMode, IntraYMode, Job, LumaEdges, MbModes, Neighbors, Reply};
//!
//! let modes = MbModes { y: IntraYMode::H, uv: IntraUvMode::Dc, skip: true }.to_bytes();
//! let y = LumaEdges { left: [70; 16], left_there: true, ..LumaEdges::default() };
//! let record = Neighbors { y, ..Neighbors::default() }.to_bytes();
//! let good = Job { modes, record, sub_modes: [0; 16], coeffs: &[0; 400] };
//! let damaged = Job { modes: [9, 0, 1], ..good };
//!
//! let drawn = shelf(&[good, damaged, good]);
//! assert_eq!(drawn.items[0].map(|item| item.y), Ok([70; 256]));
//! assert_eq!(drawn.items[1], Err(Reply::UnknownByte));
//! assert_eq!(drawn.items[2], drawn.items[0]);
//! ```
//!
//! # The parts
//!
//! [`still_alone`] draws a whole still, [`still`] one that comes with the pixels right of the picture. [`gather`] takes
//! the neighbours of a macroblock from the finished planes of a picture, with the four pixels that [`right_pixels`] gives
//! at the picture's right end, and [`macroblock`] draws it. The steps between are here too: [`dequantise`],
//! [`y1_factors`] and [`dequant_block`] (14.1), [`inverse_wht`] (14.3), [`inverse_dct`] (14.4), [`add_residue`] (14.5),
//! [`predict_y16x16`], [`predict_uv8x8`] and [`predict_b4x4`] (12.2 and 12.3).
//!
//! Before them stands a [`Partition`], which hands out the coefficients of stored macroblocks (7 and 13); after them
//! [`filter`] and [`filter_levels`], the loop filter over a finished picture (15).
//!
//! The calls that draw, and [`inverse_dct_add_into`], also say how many sums of prediction and residue were below 0 or
//! above 255 before they were clamped.
//!
//! [`distance`] says how far drawn luma planes are from measured ones.
//!
//! A call that can be refused answers with a [`Reply`], which is an [`Error`](std::error::Error). Where the types rule
//! every refusal out, the function returns its result as it is. [`raw`] has the C functions themselves.
//!
//! # Linking
//!
//! `build.rs` finds the archive: in the folder that the variable `ZOPREDIL_LIB_DIR` names, in `target/host` of the
//! repository that the crate stands in, or where `pkg-config` knows an installed `zopredil`. The crate is used by its path:
//! that of the repository, or the folder that `pkg-config --variable=rustdir zopredil` prints.

#![forbid(unsafe_op_in_unsafe_fn)]
#![deny(missing_docs, clippy::undocumented_unsafe_blocks)]

// A further call is declared in raw.rs and has its safe function in a file of its own, named here.
mod call;
mod distance;
mod filter;
mod macroblock;
mod modes;
mod neighbors;
mod predict;
pub mod raw;
mod reply;
mod shelf;
mod still;
mod tokens;
mod transform;

pub use distance::{distance, Distance, Distances};
pub use filter::{filter, filter_levels, FilterKind};
pub use macroblock::{gather, macroblock, right_pixels, Macroblock};
pub use modes::{IntraBmode, IntraUvMode, IntraYMode, MbModes};
pub use neighbors::{ChromaEdges, LumaEdges, Neighbors};
pub use predict::{predict_b4x4, predict_uv8x8, predict_y16x16};
pub use reply::Reply;
pub use shelf::{shelf, Job, MbPlanes, Shelf};
pub use still::{still, still_alone, ModeByte, PlanesMut, Still, StillRefused, UnknownByte};
pub use tokens::{Contexts, Partition};
pub use transform::{
    add_residue, dequant_block, dequantise, inverse_dct, inverse_dct_add_into, inverse_wht, inverse_wht_dc_only,
    y1_factors, MbDequantFactors, QuantIndices, Y1DequantFactors,
};

/// The library's version, as `ZOPREDIL_VERSION` of `zopredil.h` has it.
pub const VERSION: &str = env!("ZOPREDIL_VERSION");
