//! The C functions of `libzopredil.a` as `include/zopredil.h` declares them: a slice is a pointer and a length counted
//! in elements, the answer is a reply number, with a macroblock's index before it where a still is drawn. A pointer has
//! as many elements behind it as its length says, and a slice that is written overlaps no other; the functions ask
//! nothing else.

#[rustfmt::skip]
extern "C" {
    /// The two factors of luma blocks; `out` has 2 numbers.
    pub fn zopredil_y1_factors(yac_qi: i32, ydc_delta: i32, out: *mut i16, out_len: usize) -> u32;

    /// Dequantises a block of 16 where it stands.
    pub fn zopredil_dequant_block(coeffs: *mut i16, coeffs_len: usize, dc: i16, ac: i16) -> u32;

    /// The six factors of a macroblock, and its 400 coefficients dequantised where they stand; `factors` has 6 numbers.
    pub fn zopredil_dequantise(
        yac_qi: i32, ydc: i32, y2dc: i32, y2ac: i32, uvdc: i32, uvac: i32,
        coeffs: *mut i16, coeffs_len: usize,
        factors: *mut i16, factors_len: usize,
    ) -> u32;

    /// The inverse WHT of 16 numbers.
    pub fn zopredil_inverse_wht(input: *const i16, input_len: usize, out: *mut i16, out_len: usize) -> u32;

    /// The inverse WHT of a block whose other fifteen coefficients are 0.
    pub fn zopredil_inverse_wht_dc_only(dc: i16, out: *mut i16, out_len: usize) -> u32;

    /// The inverse DCT of 16 numbers.
    pub fn zopredil_inverse_dct(input: *const i16, input_len: usize, out: *mut i16, out_len: usize) -> u32;

    /// The inverse DCT of 16 numbers, added to a 4x4 block of a plane; `clipped` 1.
    pub fn zopredil_inverse_dct_add_into(
        input: *const i16, input_len: usize,
        plane: *mut u8, plane_len: usize,
        stride: usize, sub_row: usize, sub_col: usize,
        clipped: *mut u64, clipped_len: usize,
    ) -> u32;

    /// Adds residues to predictions; three equal lengths.
    pub fn zopredil_add_residue(
        prediction: *const u8, prediction_len: usize,
        residue: *const i16, residue_len: usize,
        out: *mut u8, out_len: usize,
    ) -> u32;

    /// Predicts 16x16 luma pixels; edges of 16 or 0, `out` 256.
    pub fn zopredil_predict_y16x16(
        mode: u8,
        above: *const u8, above_len: usize,
        left: *const u8, left_len: usize,
        p: u8,
        out: *mut u8, out_len: usize,
    ) -> u32;

    /// Predicts 8x8 chroma pixels; edges of 8 or 0, `out` 64.
    pub fn zopredil_predict_uv8x8(
        mode: u8,
        above: *const u8, above_len: usize,
        left: *const u8, left_len: usize,
        p: u8,
        out: *mut u8, out_len: usize,
    ) -> u32;

    /// Predicts a 4x4 luma sub-block; `above` 8, `left` 4, `out` 16.
    pub fn zopredil_predict_b4x4(
        mode: u8,
        above: *const u8, above_len: usize,
        left: *const u8, left_len: usize,
        p: u8,
        out: *mut u8, out_len: usize,
    ) -> u32;

    /// Draws a macroblock; `modes` 3, `sub_modes` 16 or 0, `record` 81, `coeffs` 400, `out` 384, `clipped` 1.
    pub fn zopredil_macroblock(
        modes: *const u8, modes_len: usize,
        sub_modes: *const u8, sub_modes_len: usize,
        record: *const u8, record_len: usize,
        coeffs: *const i16, coeffs_len: usize,
        out: *mut u8, out_len: usize,
        clipped: *mut u64, clipped_len: usize,
    ) -> u32;

    /// Gathers the neighbour record of a macroblock; `right` 4, `record` 81.
    pub fn zopredil_gather(
        y: *const u8, y_len: usize,
        u: *const u8, u_len: usize,
        v: *const u8, v_len: usize,
        cols: usize, rows: usize, col: usize, row: usize,
        right: *const u8, right_len: usize,
        record: *mut u8, record_len: usize,
    ) -> u32;

    /// The four pixels above right of the last column of a macroblock row; `out` 4.
    pub fn zopredil_right_pixels(
        y: *const u8, y_len: usize,
        cols: usize, rows: usize, row: usize,
        out: *mut u8, out_len: usize,
    ) -> u32;

    /// Draws a still; for n macroblocks `modes` 3 n, `sub_modes` 16 n, `coeffs` 400 n, `right` 4 for each row but the
    /// first, `y` 256 n, `u` and `v` 64 n, `clipped` 1. The answer is the raster index times 256 plus the reply.
    pub fn zopredil_still(
        cols: usize, rows: usize,
        modes: *const u8, modes_len: usize,
        sub_modes: *const u8, sub_modes_len: usize,
        coeffs: *const i16, coeffs_len: usize,
        right: *const u8, right_len: usize,
        y: *mut u8, y_len: usize,
        u: *mut u8, u_len: usize,
        v: *mut u8, v_len: usize,
        clipped: *mut u64, clipped_len: usize,
    ) -> u64;

    /// The same without `right`.
    pub fn zopredil_still_alone(
        cols: usize, rows: usize,
        modes: *const u8, modes_len: usize,
        sub_modes: *const u8, sub_modes_len: usize,
        coeffs: *const i16, coeffs_len: usize,
        y: *mut u8, y_len: usize,
        u: *mut u8, u_len: usize,
        v: *mut u8, v_len: usize,
        clipped: *mut u64, clipped_len: usize,
    ) -> u64;

    /// Draws n loose macroblocks; `modes` 3 n, `records` 81 n, `sub_modes` 16 n, `coeffs` 400 n, `out` 384 n,
    /// `replies` n, one for each, `clipped` 1.
    pub fn zopredil_shelf(
        modes: *const u8, modes_len: usize,
        records: *const u8, records_len: usize,
        sub_modes: *const u8, sub_modes_len: usize,
        coeffs: *const i16, coeffs_len: usize,
        out: *mut u8, out_len: usize,
        replies: *mut u8, replies_len: usize,
        clipped: *mut u64, clipped_len: usize,
    ) -> u32;

    /// The distance of n drawn stills from measured ones; `sizes` 2 n, `drawn` and `measured` the pixels of all stills,
    /// `reports` 3 n, `totals` 3.
    pub fn zopredil_distance(
        sizes: *const u32, sizes_len: usize,
        drawn: *const u8, drawn_len: usize,
        measured: *const u8, measured_len: usize,
        reports: *mut u64, reports_len: usize,
        totals: *mut u64, totals_len: usize,
    ) -> u32;

    /// The bool decoder's state at the start of a partition; `state` 4.
    pub fn zopredil_bool_start(partition: *const u8, partition_len: usize, state: *mut u64, state_len: usize) -> u32;

    /// The coefficients of a partition's next macroblock; `probabilities` 1,056, `above` and `left` 9, `state` 4,
    /// `coeffs` 400.
    pub fn zopredil_tokens(
        partition: *const u8, partition_len: usize,
        probabilities: *const u8, probabilities_len: usize,
        y2: u8,
        above: *mut u8, above_len: usize,
        left: *mut u8, left_len: usize,
        state: *mut u64, state_len: usize,
        coeffs: *mut i16, coeffs_len: usize,
    ) -> u32;

    /// Filters a finished picture with one level; for n macroblocks `inner` n, `y` 256 n, `u` and `v` 64 n.
    pub fn zopredil_filter(
        cols: usize, rows: usize, kind: u8, level: u8, sharpness: u8,
        inner: *const u8, inner_len: usize,
        y: *mut u8, y_len: usize,
        u: *mut u8, u_len: usize,
        v: *mut u8, v_len: usize,
    ) -> u32;

    /// The same with a level for each macroblock; `levels` n.
    pub fn zopredil_filter_levels(
        cols: usize, rows: usize, kind: u8, sharpness: u8,
        levels: *const u8, levels_len: usize,
        inner: *const u8, inner_len: usize,
        y: *mut u8, y_len: usize,
        u: *mut u8, u_len: usize,
        v: *mut u8, v_len: usize,
    ) -> u32;
}
