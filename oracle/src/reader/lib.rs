//! A second reader of VP8 key frames, and a second loop filter, of the oracle's own: plain, written from RFC 6386, and
//! sharing nothing with the library or with the Rust that the library follows.
//!
//! | Module | RFC 6386 |
//! |---|---|
//! | `bools` | 7: the bool decoder as the listing of 7.3 has it |
//! | `header` | 9 and 19.2: the tag, the coded header, the token partitions |
//! | `modes` | 10 and 11: segment, skip flag and modes of a macroblock |
//! | `tokens` | 13: the token tree as a table, blocks, macroblocks, contexts |
//! | `frame` | all of it: a macroblock after another, with its quantiser factors (14.1) and its filter level (9.6) |
//! | `filter` | 15: the loop filter, in signed numbers |
//! | `files` | where a WebP or an IVF file has its frames |

pub mod bools;
pub mod files;
pub mod filter;
pub mod frame;
pub mod header;
pub mod modes;
mod tables;
pub mod tokens;

pub use tables::DEFAULT_COEFF_PROBS;
