//! The Rust that the library is compared with, as a crate: six of its files, unchanged, with the feature `simd` off.
//! `tools/parts.sh` puts copies of them into `target/rust-src`, so that nothing here can reach the folder they are from.
//!
//! The modules `bool_decoder`, `coded_header` and `frame` are stand-ins. `dct_tokens.rs` reads its bools from the first,
//! which is written for the comparison: what it does at the end of a partition is the comparison's rule and not the
//! Rust's. `macroblock.rs` and `dequant.rs` name it and the second in the functions that read from a bit stream or a
//! header, which nothing here calls. Of `frame` there are the coefficients of a macroblock.

#[rustfmt::skip]
#[path = "../../../target/rust-src/dct_tokens.rs"]
pub mod dct_tokens;
#[rustfmt::skip]
#[path = "../../../target/rust-src/dequant.rs"]
pub mod dequant;
#[rustfmt::skip]
#[path = "../../../target/rust-src/intra_predict.rs"]
pub mod intra_predict;
#[rustfmt::skip]
#[path = "../../../target/rust-src/inverse_transform.rs"]
pub mod inverse_transform;
#[rustfmt::skip]
#[path = "../../../target/rust-src/macroblock.rs"]
pub mod macroblock;
#[rustfmt::skip]
#[path = "../../../target/rust-src/reconstruct.rs"]
pub mod reconstruct;

pub mod bool_decoder;

/// Stand-in: what `dct_tokens.rs`, `macroblock.rs` and `dequant.rs` read of a frame header.
pub mod coded_header {
    /// The probabilities that a frame replaces, by plane, band, context and node.
    pub type TokenProbUpdates = [[[[Option<u8>; 11]; 3]; 8]; 4];

    pub struct QuantIndices {
        pub y_ac_qi: u8,
        pub y_dc_delta: Option<i8>,
        pub y2_dc_delta: Option<i8>,
        pub y2_ac_delta: Option<i8>,
        pub uv_dc_delta: Option<i8>,
        pub uv_ac_delta: Option<i8>,
    }

    pub struct UpdateSegmentation {
        pub update_mb_segmentation_map: bool,
        pub segment_prob: [Option<u8>; 3],
    }

    pub struct Vp8CodedHeader {
        pub color_space: Option<u8>,
        pub segmentation_enabled: bool,
        pub update_segmentation: Option<UpdateSegmentation>,
        pub mb_no_skip_coeff: bool,
        pub prob_skip_false: Option<u8>,
        pub intra_y_mode_prob_update: Option<[u8; 4]>,
        pub intra_uv_mode_prob_update: Option<[u8; 3]>,
    }
}

/// Stand-in: the coefficients of a macroblock, each block in raster order.
pub mod frame {
    #[derive(Clone, Default)]
    pub struct MbCoeffs {
        pub y2: [i16; 16],
        pub y: [[i16; 16]; 16],
        pub u: [[i16; 16]; 4],
        pub v: [[i16; 16]; 4],
    }
}
