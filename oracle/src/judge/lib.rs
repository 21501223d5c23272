//! What both programs of the oracle stand on: the answers that each function of the C interface must give, the data that
//! is tried, and the format of the sample.

pub mod blocks;
pub mod clipped;
pub mod data;
pub mod expected;
pub mod filter;
pub mod format;
pub mod random;
pub mod still;
pub mod tokens;
