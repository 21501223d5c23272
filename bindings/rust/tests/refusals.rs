//! What each function refuses, by which number, and what it leaves in the slices it was lent. Wrong lengths are tried
//! over the C functions themselves, since the crate's own types rule most of them out.

use zopredil::raw::*;
use zopredil::*;

/// The byte that slices hold before a call, to see what was written.
const MARK: u8 = 0xA5;

#[test]
fn index_sums_outside_32_bits() {
    assert_eq!(y1_factors(i32::MAX, 1), Err(Reply::IndexSum));
    assert_eq!(y1_factors(i32::MIN, -1), Err(Reply::IndexSum));
    assert!(y1_factors(i32::MAX, 0).is_ok());
    assert!(y1_factors(i32::MIN, 0).is_ok());
    let mut out = [-1; 2];
    assert_eq!(unsafe { zopredil_y1_factors(i32::MAX, i32::MAX, out.as_mut_ptr(), 2) }, 5);
    assert_eq!(out, [0, 0]);
}

/// Dequantises a macroblock through the C interface: the reply, and what stands in both slices afterwards.
fn scale(indices: [i32; 6], coeffs: usize, factors: usize) -> (u32, Vec<i16>, Vec<i16>) {
    let (mut c, mut f) = (vec![3; coeffs], vec![-1; factors]);
    let [yac_qi, ydc, y2dc, y2ac, uvdc, uvac] = indices;
    let (at, out) = (c.as_mut_ptr(), f.as_mut_ptr());
    let reply = unsafe { zopredil_dequantise(yac_qi, ydc, y2dc, y2ac, uvdc, uvac, at, coeffs, out, factors) };
    (reply, c, f)
}

#[test]
fn index_sums_of_a_macroblock() {
    for delta in 1..6 {
        for (base, by) in [(i32::MAX, 1), (i32::MIN, -1), (1, i32::MAX), (-1, i32::MIN)] {
            let mut indices = [base, 0, 0, 0, 0, 0];
            indices[delta] = by;
            assert_eq!(scale(indices, 400, 6), (5, vec![3; 400], vec![0; 6]));
            assert_eq!(scale(indices, 399, 6), (5, vec![3; 399], vec![0; 6])); // 5 comes before 1 for coeffs
            assert_eq!(scale(indices, 400, 5), (1, vec![3; 400], vec![-1; 5])); // 1 for factors before 5
        }
    }
    let ends = QuantIndices { yac_qi: i32::MAX, ydc: i32::MIN, ..Default::default() };
    assert!(dequantise(ends, &mut [1; 400]).is_ok());
}

#[test]
fn lengths_of_a_macroblocks_coefficients_and_factors() {
    for coeffs in [0, 1, 16, 384, 399, 401] {
        assert_eq!(scale([0; 6], coeffs, 6), (1, vec![3; coeffs], vec![0; 6]));
    }
    for factors in [0, 1, 2, 5, 7, 400] {
        assert_eq!(scale([0; 6], 400, factors), (1, vec![3; 400], vec![-1; factors]));
    }
}

#[test]
fn blocks_outside_their_plane() {
    let block = [1000; 16];
    let mut plane = [MARK; 256];
    assert_eq!(inverse_dct_add_into(&block, &mut plane[..255], 16, 3, 3), Err(Reply::OutsidePlane));
    assert_eq!(inverse_dct_add_into(&block, &mut plane, 15, 3, 3), Err(Reply::OutsidePlane));
    assert_eq!(inverse_dct_add_into(&block, &mut plane, 0, 0, 0), Err(Reply::OutsidePlane));
    for far in [4, 1 << 60, 1 << 62, usize::MAX] {
        assert_eq!(inverse_dct_add_into(&block, &mut plane, 16, far, 0), Err(Reply::OutsidePlane));
        assert_eq!(inverse_dct_add_into(&block, &mut plane, 16, 0, far), Err(Reply::OutsidePlane));
    }
    assert_eq!(inverse_dct_add_into(&block, &mut plane, usize::MAX, 0, 0), Err(Reply::OutsidePlane));
    assert_eq!(inverse_dct_add_into(&block, &mut [], 16, 0, 0), Err(Reply::OutsidePlane));
    assert_eq!(plane, [MARK; 256]);
    assert!(inverse_dct_add_into(&block, &mut plane, 16, 3, 3).is_ok());
}

#[test]
fn residues_of_other_lengths() {
    let mut out = [MARK; 5];
    for (prediction, residue, lent) in [(4, 4, 5), (4, 5, 4), (5, 4, 4), (0, 0, 1), (0, 1, 0), (1, 0, 0)] {
        let refused = add_residue(&[1; 5][..prediction], &[1; 5][..residue], &mut out[..lent]);
        assert_eq!(refused, Err(Reply::WrongLength));
    }
    assert_eq!(out, [MARK; 5]);
}

#[test]
fn luma_mode_b_is_no_16x16_mode() {
    assert_eq!(predict_y16x16(IntraYMode::B, None, None, 0), Err(Reply::BPredNotSupported));
    let mut out = [MARK; 256];
    let none = std::ptr::null();
    assert_eq!(unsafe { zopredil_predict_y16x16(4, none, 0, none, 0, 0, out.as_mut_ptr(), 256) }, 3);
    assert_eq!(out, [0; 256]);
}

#[test]
fn unknown_modes_of_predictions() {
    let edge = [1; 16];
    for mode in [5, 10, 255] {
        let mut out = [MARK; 256];
        let reply = unsafe {
            zopredil_predict_y16x16(mode, edge.as_ptr(), 16, edge.as_ptr(), 16, 0, out.as_mut_ptr(), out.len())
        };
        assert_eq!((reply, out), (8, [0; 256]));
    }
    for mode in [4, 10, 255] {
        let mut out = [MARK; 64];
        let reply =
            unsafe { zopredil_predict_uv8x8(mode, edge.as_ptr(), 8, edge.as_ptr(), 8, 0, out.as_mut_ptr(), out.len()) };
        assert_eq!((reply, out), (8, [0; 64]));
    }
    for mode in [10, 255] {
        let mut out = [MARK; 16];
        let reply =
            unsafe { zopredil_predict_b4x4(mode, edge.as_ptr(), 8, edge.as_ptr(), 4, 0, out.as_mut_ptr(), out.len()) };
        assert_eq!((reply, out), (8, [0; 16]));
    }
}

/// What a count holds before a call.
const COUNT: u64 = 0xA5A5_A5A5_A5A5;

/// Draws a macroblock through the C interface: the reply, and what stands in the 384 bytes and in the count afterwards.
fn draw(modes: &[u8], sub_modes: &[u8], record: &[u8], coeffs: &[i16]) -> (u32, [u8; 384], u64) {
    let (mut out, mut clipped) = ([MARK; 384], [COUNT]);
    let reply = draw_into(modes, sub_modes, record, coeffs, &mut out, &mut clipped);
    (reply, out, clipped[0])
}

fn draw_into(
    modes: &[u8],
    sub_modes: &[u8],
    record: &[u8],
    coeffs: &[i16],
    out: &mut [u8],
    clipped: &mut [u64],
) -> u32 {
    unsafe {
        zopredil_macroblock(
            modes.as_ptr(),
            modes.len(),
            sub_modes.as_ptr(),
            sub_modes.len(),
            record.as_ptr(),
            record.len(),
            coeffs.as_ptr(),
            coeffs.len(),
            out.as_mut_ptr(),
            out.len(),
            clipped.as_mut_ptr(),
            clipped.len(),
        )
    }
}

#[test]
fn mode_b_without_sub_block_modes() {
    let modes = MbModes { y: IntraYMode::B, uv: IntraUvMode::Dc, skip: false };
    assert_eq!(macroblock(modes, None, &Neighbors::default(), &[1; 400]), Err(Reply::MissingSubblockModes));
    assert_eq!(draw(&[4, 0, 0], &[], &[0; 81], &[1; 400]), (4, [0; 384], 0));
}

#[test]
fn unknown_bytes_of_a_macroblock() {
    let refused = (8, [0; 384], 0);
    for modes in [[5, 0, 0], [0, 4, 0], [0, 0, 2], [255, 255, 255]] {
        assert_eq!(draw(&modes, &[0; 16], &[0; 81], &[0; 400]), refused);
    }
    for mark in 0..10 {
        let mut record = [0; 81];
        record[mark] = 2;
        assert_eq!(draw(&[0, 0, 0], &[], &record, &[0; 400]), refused);
        assert_eq!(draw(&[4, 0, 0], &[], &record, &[0; 400]), refused); // 8 comes before 4
    }
    for block in 0..16 {
        let mut sub_modes = [0; 16];
        sub_modes[block] = 10;
        assert_eq!(draw(&[4, 0, 0], &sub_modes, &[0; 81], &[0; 400]), refused);
        assert_eq!(draw(&[0, 0, 0], &sub_modes, &[0; 81], &[0; 400]).0, 0);
    }
}

#[test]
fn wrong_lengths_of_a_macroblock() {
    let (modes, sub_modes, record, coeffs) = ([0; 4], [0; 17], [0; 82], [0; 401]);
    let refused = (1, [MARK; 384], COUNT);
    for n in [0, 2, 4] {
        assert_eq!(draw(&modes[..n], &[], &record[..81], &coeffs[..400]), refused);
    }
    for n in [1, 15, 17] {
        assert_eq!(draw(&modes[..3], &sub_modes[..n], &record[..81], &coeffs[..400]), refused);
    }
    for n in [0, 80, 82] {
        assert_eq!(draw(&modes[..3], &[], &record[..n], &coeffs[..400]), refused);
    }
    for n in [0, 384, 399, 401] {
        assert_eq!(draw(&modes[..3], &[], &record[..81], &coeffs[..n]), refused);
    }
    assert_eq!(draw(&[9, 9, 9], &[], &[9; 80], &coeffs[..400]), refused); // 1 comes before 8
    assert_eq!(draw(&modes[..3], &[], &record[..81], &coeffs[..400]), (0, [128; 384], 0));
    for (lent, counts) in [(384, 0), (384, 2), (383, 1), (385, 1), (0, 1)] {
        for first in [0, 4, 9] {
            let (mut out, mut clipped) = ([MARK; 385], [COUNT; 2]);
            let (out_part, count_part) = (&mut out[..lent], &mut clipped[..counts]);
            let reply = draw_into(&[first, 0, 0], &[], &record[..81], &coeffs[..400], out_part, count_part);
            assert_eq!((reply, out, clipped), (1, [MARK; 385], [COUNT; 2])); // 1 comes before 8 and 4
        }
    }
}

/// Draws a shelf through the C interface, of lists in which every byte is `byte`, each lent as long as `lengths` says:
/// modes, records, sub-block modes, coefficients, bytes, replies, counts. The reply, and whether all that could be
/// written is as found.
fn shelve(byte: u8, lengths: [usize; 7]) -> (u32, bool) {
    let [modes, records, sub_modes, coeffs, out, replies, counts] = lengths;
    let (bytes, numbers) = (vec![byte; 2000], vec![0; 2000]);
    let (mut pixels, mut answers, mut clipped) = ([MARK; 2000], [MARK; 8], [COUNT; 2]);
    assert!(lengths[..5].iter().all(|&length| length <= 2000) && replies <= 8 && counts <= 2);
    let reply = unsafe {
        zopredil_shelf(
            bytes.as_ptr(),
            modes,
            bytes.as_ptr(),
            records,
            bytes.as_ptr(),
            sub_modes,
            numbers.as_ptr(),
            coeffs,
            pixels.as_mut_ptr(),
            out,
            answers.as_mut_ptr(),
            replies,
            clipped.as_mut_ptr(),
            counts,
        )
    };
    (reply, pixels == [MARK; 2000] && answers == [MARK; 8] && clipped == [COUNT; 2])
}

#[test]
fn wrong_lengths_of_a_shelf() {
    let an_item = [3, 81, 16, 400, 384, 1];
    let of = |count: usize| {
        let [m, r, s, c, o, n] = an_item.map(|each| each * count);
        [m, r, s, c, o, n, 1]
    };
    // 9 is no mode's number, and no skip or mark byte: 1 comes before 8
    for byte in [0, 9] {
        for count in 0..=3 {
            assert_eq!(shelve(byte, of(count)), (0, false));
            for slice in 0..7 {
                let (fit, each) = (of(count)[slice], if slice < 6 { an_item[slice] } else { 1 });
                for length in [Some(0), fit.checked_sub(each), fit.checked_sub(1), Some(fit + 1), Some(fit + each)] {
                    if let Some(length) = length.filter(|&length| length != fit) {
                        let mut lengths = of(count);
                        lengths[slice] = length;
                        assert_eq!(shelve(byte, lengths), (1, true), "{lengths:?}");
                    }
                }
            }
            // every list but one fits another number of items
            for other in (0..=4).filter(|&other| other != count) {
                for slice in 0..6 {
                    let mut lengths = of(other);
                    lengths[slice] = of(count)[slice];
                    assert_eq!(shelve(byte, lengths), (1, true), "{lengths:?}");
                }
            }
        }
    }
}

#[test]
fn wrong_lengths_of_blocks() {
    let input = [1; 17];
    let mut out = [-7; 17];
    for n in [0, 15, 17] {
        unsafe {
            assert_eq!(zopredil_dequant_block(out.as_mut_ptr(), n, 2, 2), 1);
            assert_eq!(zopredil_inverse_wht(input.as_ptr(), n, out.as_mut_ptr(), 16), 1);
            assert_eq!(zopredil_inverse_wht(input.as_ptr(), 16, out.as_mut_ptr(), n), 1);
            assert_eq!(zopredil_inverse_wht_dc_only(5, out.as_mut_ptr(), n), 1);
            assert_eq!(zopredil_inverse_dct(input.as_ptr(), n, out.as_mut_ptr(), 16), 1);
            assert_eq!(zopredil_inverse_dct(input.as_ptr(), 16, out.as_mut_ptr(), n), 1);
        }
    }
    for n in [0, 1, 3] {
        assert_eq!(unsafe { zopredil_y1_factors(0, 0, out.as_mut_ptr(), n) }, 1);
    }
    assert_eq!(out, [-7; 17]);
}

#[test]
fn counts_of_blocks_that_are_refused() {
    let input = [1000; 17];
    let added = |length, sub_row, counts| {
        let (mut plane, mut clipped) = ([MARK; 64], [COUNT; 2]);
        let (block, at, count) = (input.as_ptr(), plane.as_mut_ptr(), clipped.as_mut_ptr());
        let reply = unsafe { zopredil_inverse_dct_add_into(block, length, at, 64, 8, sub_row, 0, count, counts) };
        (reply, plane == [MARK; 64], clipped)
    };
    for length in [0, 15, 17] {
        assert_eq!(added(length, 0, 1), (1, true, [COUNT; 2]));
        assert_eq!(added(length, 2, 1), (1, true, [COUNT; 2])); // 1 comes before 2
    }
    for counts in [0, 2] {
        assert_eq!(added(16, 0, counts), (1, true, [COUNT; 2]));
        assert_eq!(added(16, 2, counts), (1, true, [COUNT; 2]));
    }
    assert_eq!(added(16, 2, 1), (2, true, [0, COUNT]));
    assert_eq!((added(16, 1, 1).0, added(16, 1, 1).2[1]), (0, COUNT));
}

#[test]
fn wrong_lengths_of_predictions() {
    let edge = [1; 17];
    let mut out = [MARK; 257];
    type Predict = unsafe extern "C" fn(u8, *const u8, usize, *const u8, usize, u8, *mut u8, usize) -> u32;
    let mut refuse = |predict: Predict, above, left, lent| {
        let reply = unsafe { predict(0, edge.as_ptr(), above, edge.as_ptr(), left, 0, out.as_mut_ptr(), lent) };
        assert_eq!((reply, out), (1, [MARK; 257]));
    };
    for n in [1, 15, 17] {
        refuse(zopredil_predict_y16x16, n, 16, 256);
        refuse(zopredil_predict_y16x16, 16, n, 256);
    }
    for n in [1, 7, 9] {
        refuse(zopredil_predict_uv8x8, n, 8, 64);
        refuse(zopredil_predict_uv8x8, 8, n, 64);
    }
    for n in [0, 4, 7, 9] {
        refuse(zopredil_predict_b4x4, n, 4, 16);
    }
    for n in [0, 3, 5] {
        refuse(zopredil_predict_b4x4, 8, n, 16);
    }
    for n in [0, 255, 257] {
        refuse(zopredil_predict_y16x16, 16, 16, n);
    }
    for n in [0, 63, 65] {
        refuse(zopredil_predict_uv8x8, 8, 8, n);
    }
    for n in [0, 15, 17] {
        refuse(zopredil_predict_b4x4, 8, 4, n);
    }
}

#[test]
fn places_outside_the_picture() {
    let (y, u, v) = ([0; 256], [0; 64], [0; 64]);
    for (cols, rows, col, row) in
        [(0, 1, 0, 0), (1, 0, 0, 0), (1025, 1, 0, 0), (1, 1025, 0, 0), (1, 1, 1, 0), (1, 1, 0, 1)]
    {
        assert_eq!(gather(&y, &u, &v, cols, rows, col, row, [9; 4]), Err(Reply::OutsidePicture));
    }
    assert_eq!(gather(&y, &u, &v, 1 << 56, 1 << 8, 0, 0, [9; 4]), Err(Reply::OutsidePicture));
    assert_eq!(gather(&y, &u, &v, usize::MAX, usize::MAX, 0, 0, [9; 4]), Err(Reply::OutsidePicture));
    assert_eq!(gather(&y, &u, &v, 1, 1, 0, 0, [9; 4]), Ok(Neighbors::default()));
}

#[test]
fn planes_of_other_lengths() {
    let (y, u) = ([0; 257], [0; 65]);
    for (y_len, u_len, v_len) in [(255, 64, 64), (257, 64, 64), (256, 63, 64), (256, 65, 64), (256, 64, 0)] {
        assert_eq!(gather(&y[..y_len], &u[..u_len], &u[..v_len], 1, 1, 0, 0, [9; 4]), Err(Reply::WrongLength));
    }
    // 7 comes before 1
    assert_eq!(gather(&[], &[], &[], 1, 1, 1, 0, [9; 4]), Err(Reply::OutsidePicture));
}

#[test]
fn records_after_a_refusal() {
    let (y, u, right) = ([9; 256], [9; 64], [9; 5]);
    let gathered = |y_len, cols, right_len, record_len| {
        let mut record = [MARK; 82];
        let reply = unsafe {
            let (y, u, right) = (y.as_ptr(), u.as_ptr(), right.as_ptr());
            zopredil_gather(y, y_len, u, 64, u, 64, cols, 1, 0, 0, right, right_len, record.as_mut_ptr(), record_len)
        };
        (reply, record)
    };
    let mut zeros = [0; 82];
    zeros[81] = MARK;
    assert_eq!(gathered(256, 0, 4, 81), (7, zeros));
    assert_eq!(gathered(255, 1, 4, 81), (1, zeros));
    assert_eq!(gathered(256, 1, 4, 80), (1, [MARK; 82]));
    assert_eq!(gathered(256, 1, 4, 82), (1, [MARK; 82]));
    assert_eq!(gathered(256, 1, 3, 81), (1, [MARK; 82]));
    assert_eq!(gathered(256, 1, 5, 81), (1, [MARK; 82]));
    assert_eq!(gathered(256, 0, 4, 80), (1, [MARK; 82])); // 1 for the record and for right comes before 7
    assert_eq!(gathered(256, 0, 3, 81), (1, [MARK; 82]));
}

#[test]
fn right_pixels_of_no_row() {
    let y = [9; 512];
    for (cols, rows, row) in [(1, 2, 0), (1, 2, 2), (0, 2, 1), (1, 0, 1), (1025, 2, 1), (1, 1025, 1), (1, 1, 1)] {
        assert_eq!(right_pixels(&y, cols, rows, row), Err(Reply::OutsidePicture));
    }
    assert_eq!(right_pixels(&y, usize::MAX, usize::MAX, usize::MAX), Err(Reply::OutsidePicture));
    assert_eq!(right_pixels(&y[..511], 1, 2, 1), Err(Reply::WrongLength));
    assert_eq!(right_pixels(&[], 1, 2, 2), Err(Reply::OutsidePicture)); // 7 comes before 1
    assert_eq!(right_pixels(&y, 1, 2, 1), Ok([9; 4]));
}

#[test]
fn right_pixels_after_a_refusal() {
    let y = [9; 512];
    let given = |y_len, row, out_len| {
        let mut out = [MARK; 5];
        let reply = unsafe { zopredil_right_pixels(y.as_ptr(), y_len, 1, 2, row, out.as_mut_ptr(), out_len) };
        (reply, out)
    };
    assert_eq!(given(512, 1, 4), (0, [9, 9, 9, 9, MARK]));
    assert_eq!(given(512, 0, 4), (7, [0, 0, 0, 0, MARK]));
    assert_eq!(given(511, 1, 4), (1, [0, 0, 0, 0, MARK]));
    assert_eq!(given(512, 1, 3), (1, [MARK; 5]));
    assert_eq!(given(512, 0, 5), (1, [MARK; 5])); // 1 for out comes before 7
}

#[test]
fn replies_have_their_numbers() {
    for number in [1, 2, 3, 4, 5, 7, 8, 9, 10, 11] {
        let reply = Reply::from_number(number).unwrap();
        assert_eq!(reply.number(), number);
        assert!(!reply.to_string().is_empty());
    }
    assert_eq!(Reply::from_number(0), None);
    assert_eq!(Reply::from_number(6), None); // not used
    assert_eq!(Reply::from_number(12), None);
}
