//! Dequantising, the inverse transforms and the residue sum (RFC 6386, section 14).

use crate::call::call;
use crate::reply::{answer, done};
use crate::Reply;

/// The factors of luma blocks.
#[derive(Debug, Clone, Copy, PartialEq, Eq, Hash)]
pub struct Y1DequantFactors {
    /// The factor of a block's first coefficient.
    pub dc: i16,
    /// The factor of the other fifteen.
    pub ac: i16,
}

/// The factors of luma blocks (14.1): DC of index `yac_qi + ydc_delta`, AC of index `yac_qi`, each clamped to 0..=127.
/// Refused with [`Reply::IndexSum`] where the sum is outside signed 32 bits.
///
/// ```
/// use zopredil::{y1_factors, Reply, Y1DequantFactors};
///
/// assert_eq!(y1_factors(0, 128), Ok(Y1DequantFactors { dc: 157, ac: 4 }));
/// assert_eq!(y1_factors(i32::MAX, 1), Err(Reply::IndexSum));
/// ```
pub fn y1_factors(yac_qi: i32, ydc_delta: i32) -> Result<Y1DequantFactors, Reply> {
    let mut out = [0; 2];
    answer(call!(zopredil_y1_factors(yac_qi, ydc_delta, out out)))?;
    Ok(Y1DequantFactors { dc: out[0], ac: out[1] })
}

/// Dequantises a 4x4 block where it stands (14.1): the first coefficient times `dc`, the others times `ac`, each product
/// cut to signed 16 bits.
///
/// ```
/// let mut block = [2; 16];
/// zopredil::dequant_block(&mut block, 10, 20);
/// assert_eq!(block[..3], [20, 40, 40]);
/// ```
pub fn dequant_block(coeffs: &mut [i16; 16], dc: i16, ac: i16) {
    done(call!(zopredil_dequant_block(out coeffs, dc, ac)));
}

/// The base index of a macroblock and its five deltas (9.6). In a bitstream the index is 0 to 127 and a delta -15 to 15;
/// other numbers are taken as they are.
#[derive(Debug, Clone, Copy, Default, PartialEq, Eq, Hash)]
pub struct QuantIndices {
    /// The base index, which is that of Y1 AC.
    pub yac_qi: i32,
    /// What Y1 DC adds to it.
    pub ydc: i32,
    /// What Y2 DC adds to it.
    pub y2dc: i32,
    /// What Y2 AC adds to it.
    pub y2ac: i32,
    /// What chroma DC adds to it.
    pub uvdc: i32,
    /// What chroma AC adds to it.
    pub uvac: i32,
}

/// The six factors of a macroblock.
#[derive(Debug, Clone, Copy, PartialEq, Eq, Hash)]
pub struct MbDequantFactors {
    /// The DC table's, 4 to 157.
    pub y1_dc: i16,
    /// The AC table's, 4 to 284.
    pub y1_ac: i16,
    /// Twice the DC table's, 8 to 314.
    pub y2_dc: i16,
    /// 155/100 of the AC table's, rounded down and at least 8: 8 to 440.
    pub y2_ac: i16,
    /// The DC table's and at most 132, 4 to 132.
    pub uv_dc: i16,
    /// The AC table's, 4 to 284.
    pub uv_ac: i16,
}

/// The six factors of a macroblock, and its coefficients dequantised by them where they stand (14.1): Y2 16, Y 256, U 64,
/// V 64, the first of each block of 16 times the DC factor and the others times the AC factor, each product cut to signed
/// 16 bits. Each index is `yac_qi` plus its delta, clamped to 0..=127. Refused with [`Reply::IndexSum`] where any of the
/// five sums is outside signed 32 bits; the coefficients are then as they were.
///
/// ```
/// use zopredil::{dequantise, QuantIndices, Reply};
///
/// let mut coeffs = [1; 400];
/// let factors = dequantise(QuantIndices { yac_qi: 127, ydc: -127, ..Default::default() }, &mut coeffs)?;
/// assert_eq!((factors.y1_dc, factors.y1_ac), (4, 284));
/// assert_eq!((factors.y2_dc, factors.y2_ac), (314, 440));
/// assert_eq!((factors.uv_dc, factors.uv_ac), (132, 284));
/// assert_eq!((coeffs[..2].to_vec(), coeffs[16..18].to_vec(), coeffs[272]), (vec![314, 440], vec![4, 284], 132));
/// let far = QuantIndices { yac_qi: i32::MAX, uvac: 1, ..Default::default() };
/// assert_eq!(dequantise(far, &mut coeffs), Err(Reply::IndexSum));
/// # Ok::<(), Reply>(())
/// ```
pub fn dequantise(indices: QuantIndices, coeffs: &mut [i16; 400]) -> Result<MbDequantFactors, Reply> {
    let QuantIndices { yac_qi, ydc, y2dc, y2ac, uvdc, uvac } = indices;
    let mut factors = [0; 6];
    answer(call!(zopredil_dequantise(yac_qi, ydc, y2dc, y2ac, uvdc, uvac, out coeffs, out factors)))?;
    let [y1_dc, y1_ac, y2_dc, y2_ac, uv_dc, uv_ac] = factors;
    Ok(MbDequantFactors { y1_dc, y1_ac, y2_dc, y2_ac, uv_dc, uv_ac })
}

/// The inverse Walsh-Hadamard transform of a Y2 block (14.3): the DC coefficients of the sixteen luma blocks.
///
/// ```
/// let mut y2 = [0; 16];
/// y2[0] = 5;
/// assert_eq!(zopredil::inverse_wht(&y2), [1; 16]);
/// ```
pub fn inverse_wht(input: &[i16; 16]) -> [i16; 16] {
    let mut out = [0; 16];
    done(call!(zopredil_inverse_wht(in input, out out)));
    out
}

/// The inverse WHT of a block whose other fifteen coefficients are 0 (14.3).
///
/// ```
/// assert_eq!(zopredil::inverse_wht_dc_only(-4), [-1; 16]);
/// ```
pub fn inverse_wht_dc_only(dc: i16) -> [i16; 16] {
    let mut out = [0; 16];
    done(call!(zopredil_inverse_wht_dc_only(dc, out out)));
    out
}

/// The inverse DCT of a 4x4 block (14.4): the residue that is added to the prediction.
///
/// ```
/// let mut block = [0; 16];
/// block[1] = 100;
/// assert_eq!(zopredil::inverse_dct(&block)[..4], [16, 7, -7, -16]);
/// ```
pub fn inverse_dct(input: &[i16; 16]) -> [i16; 16] {
    let mut out = [0; 16];
    done(call!(zopredil_inverse_dct(in input, out out)));
    out
}

/// The inverse DCT of a 4x4 block, added to the prediction that stands in a plane (14.4 and 14.5). The block's first
/// pixel is in row `4 * sub_row` and column `4 * sub_col` of rows that are `stride` apart. The answer is how many of the
/// sixteen sums were below 0 or above 255 before they were clamped. Refused with [`Reply::OutsidePlane`] where the block
/// does not lie in the plane, which is then untouched.
///
/// ```
/// use zopredil::{inverse_dct_add_into, Reply};
///
/// let mut plane = [100; 64];
/// let mut block = [0; 16];
/// block[0] = 16;
/// assert_eq!(inverse_dct_add_into(&block, &mut plane, 8, 1, 1), Ok(0));
/// assert_eq!((plane[0], plane[36]), (100, 102));
/// block[0] = 8 * 200;
/// assert_eq!(inverse_dct_add_into(&block, &mut plane, 8, 1, 1), Ok(16));
/// assert_eq!((plane[0], plane[36]), (100, 255));
/// assert_eq!(inverse_dct_add_into(&block, &mut plane, 8, 2, 0), Err(Reply::OutsidePlane));
/// ```
pub fn inverse_dct_add_into(
    input: &[i16; 16],
    plane: &mut [u8],
    stride: usize,
    sub_row: usize,
    sub_col: usize,
) -> Result<u64, Reply> {
    let mut clipped = [0];
    answer(call!(zopredil_inverse_dct_add_into(in input, out plane, stride, sub_row, sub_col, out clipped)))?;
    Ok(clipped[0])
}

/// Adds residues to predictions (14.5), each sum clamped to 0..=255. Refused with [`Reply::WrongLength`] unless the
/// three lengths are equal; nothing is written then.
///
/// ```
/// use zopredil::{add_residue, Reply};
///
/// let mut out = [0; 3];
/// add_residue(&[250, 5, 100], &[10, -10, 1], &mut out)?;
/// assert_eq!(out, [255, 0, 101]);
/// assert_eq!(add_residue(&[1, 2], &[0, 0], &mut out), Err(Reply::WrongLength));
/// # Ok::<(), Reply>(())
/// ```
pub fn add_residue(prediction: &[u8], residue: &[i16], out: &mut [u8]) -> Result<(), Reply> {
    answer(call!(zopredil_add_residue(in prediction, in residue, out out)))
}
