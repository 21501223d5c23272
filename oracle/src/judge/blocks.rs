//! A macroblock's coefficients, block by block.

/// The coefficients of a macroblock as the Rust takes them.
pub struct Blocks {
    pub y2: [i16; 16],
    pub y: [[i16; 16]; 16],
    pub u: [[i16; 16]; 4],
    pub v: [[i16; 16]; 4],
}

impl Blocks {
    /// The 400 numbers, Y2 16, Y 256, U 64, V 64, taken apart.
    pub fn of(coeffs: &[i16; 400]) -> Blocks {
        fn blocks<const N: usize>(from: &[i16]) -> [[i16; 16]; N] {
            std::array::from_fn(|b| from[16 * b..16 * b + 16].try_into().expect("a block has sixteen"))
        }
        let [y2] = blocks(coeffs);
        Blocks { y2, y: blocks(&coeffs[16..]), u: blocks(&coeffs[272..]), v: blocks(&coeffs[336..]) }
    }
}
