//! Wrong lengths: each slice of each function with every length from 0 to past the right one, alone and together with
//! another wrong length or a wrong byte.

use crate::library;
use crate::tally::{Counts, Pair, Run, Tally};
use crate::transforms::Dequantised;
use judge::expected;
use judge::random::Random;

/// Every length that is tried for a slice whose right length is `right`: all to a little past it, or for a long one those
/// around it, and some that another slice has.
fn around(right: usize) -> Vec<usize> {
    let mut lengths: Vec<usize> =
        if right <= 32 { (0..=right + 8).collect() } else { (right - 8..=right + 8).collect() };
    lengths.extend([0, 1, 2, 3, 4, 8, 15, 16, 17, 64, 81, 256, 384, 400]);
    lengths.sort_unstable();
    lengths.dedup();
    lengths
}

pub fn wrong_lengths(run: &mut Run) {
    let mut r = Random::new(run.seed);
    let mut bytes = [0; 512];
    let mut numbers = [0; 512];
    r.bytes(&mut bytes);
    r.shorts(&mut numbers);
    blocks(&numbers, &bytes, run);
    factors(&numbers, run);
    predictions(&bytes, run);
    macroblocks(&numbers, &bytes, run);
}

fn blocks(numbers: &[i16; 512], bytes: &[u8; 512], run: &mut Run) {
    let mut tally = Tally::new("blocks.lengths");
    let mut pair = Pair::new(512, 0x5AA5);
    let (mut pixels, mut counts) = (Pair::new(512, 0x5A), Counts::new(512));
    for n in around(16) {
        for (q, d) in [(0, 0), (i32::MAX, 1)] {
            let equal = pair.filled(n, |out| library::y1_factors(q, d, out), |out| expected::y1_factors(q, d, out));
            tally.count(equal, || format!("y1_factors {n}"));
        }
        let start = &numbers[..n];
        let equal = pair.holding(start, |c| library::dequant_block(c, 3, 5), |c| expected::dequant_block(c, 3, 5));
        tally.count(equal, || format!("dequant_block {n}"));
        let dc = numbers[0];
        let equal =
            pair.filled(n, |out| library::inverse_wht_dc_only(dc, out), |out| expected::inverse_wht_dc_only(dc, out));
        tally.count(equal, || format!("inverse_wht_dc_only {n}"));
        for m in around(16) {
            let input = &numbers[..m];
            let equal = pair.filled(n, |out| library::inverse_wht(input, out), |out| expected::inverse_wht(input, out));
            tally.count(equal, || format!("inverse_wht {m} {n}"));
            let equal = pair.filled(n, |out| library::inverse_dct(input, out), |out| expected::inverse_dct(input, out));
            tally.count(equal, || format!("inverse_dct {m} {n}"));
            for clipped in around(1) {
                let (by_library, by_rust) = counts.lend(clipped);
                let added = pixels.holding(
                    &bytes[..m],
                    |plane| library::inverse_dct_add_into(start, plane, 4, 0, 0, by_library),
                    |plane| expected::inverse_dct_add_into(start, plane, 4, 0, 0, by_rust),
                );
                tally.count(added && counts.equal(), || format!("inverse_dct_add_into {n} {m} {clipped}"));
            }
        }
    }
    tally.end(run);
}

/// Both slices of `dequantise`, with sums that are right and with one that is refused.
fn factors(numbers: &[i16; 512], run: &mut Run) {
    let mut tally = Tally::new("dequantise.lengths");
    let mut both = Dequantised::new();
    for n in around(400) {
        for m in around(6) {
            for (q, deltas) in [(0, [0; 5]), (i32::MAX, [0, 0, 0, 0, 1])] {
                let equal = both.equal(q, deltas, &numbers[..n], m);
                tally.count(equal, || format!("yac_qi {q} coefficients {n} factors {m}"));
            }
        }
    }
    tally.end(run);
}

fn predictions(bytes: &[u8; 512], run: &mut Run) {
    let mut tally = Tally::new("predictions.lengths");
    let mut pair = Pair::new(512, 0x5A);
    let mut case = |name: &str, library: crate::predictions::Predict, expected: crate::predictions::Predict, right| {
        let (above, left, out) = right;
        for a in around(above) {
            for l in around(left) {
                for n in around(out) {
                    for mode in [0, 3, 4, 9, 10] {
                        let (above, left) = (&bytes[..a], &bytes[100..100 + l]);
                        let equal = pair.filled(
                            n,
                            |out| library(mode, above, left, 7, out),
                            |out| expected(mode, above, left, 7, out),
                        );
                        tally.count(equal, || format!("{name} mode {mode} lengths {a} {l} {n}"));
                    }
                }
            }
        }
    };
    case("predict_y16x16", library::predict_y16x16, expected::predict_y16x16, (16, 16, 256));
    case("predict_uv8x8", library::predict_uv8x8, expected::predict_uv8x8, (8, 8, 64));
    case("predict_b4x4", library::predict_b4x4, expected::predict_b4x4, (8, 4, 16));
    tally.end(run);
}

fn macroblocks(numbers: &[i16; 512], bytes: &[u8; 512], run: &mut Run) {
    let mut tally = Tally::new("macroblock.lengths");
    let (mut pair, mut counts) = (Pair::new(512, 0x5A), Counts::new(512));
    let right = [3, 16, 81, 400, 384, 1];
    let zeros = [0; 512];
    let mut case = |lengths: [usize; 6]| {
        let [m, s, r, c, o, n] = lengths;
        let in_b = [4, 1, 0, 2, 3, 1, 0, 0];
        // no byte wrong, luma mode B, and every byte without any rule
        for (modes, sub_modes, record) in [(&zeros[..], &zeros, &zeros), (&in_b, &zeros, &zeros), (bytes, bytes, bytes)]
        {
            let modes = &modes[..m.min(modes.len())];
            let (sub_modes, record, coeffs) = (&sub_modes[..s], &record[..r], &numbers[..c]);
            let (by_library, by_rust) = counts.lend(n);
            let drawn = pair.filled(
                o,
                |out| library::macroblock(modes, sub_modes, record, coeffs, out, by_library),
                |out| expected::macroblock(modes, sub_modes, record, coeffs, out, by_rust),
            );
            tally.count(drawn && counts.equal(), || format!("lengths {lengths:?} modes {modes:?}"));
        }
    };
    for first in 0..6 {
        for second in 0..6 {
            for x in around(right[first]) {
                for y in around(right[second]) {
                    let mut lengths = right;
                    lengths[first] = x;
                    lengths[second] = y;
                    case(lengths);
                    lengths[1] = 0;
                    case(lengths);
                }
            }
        }
    }
    tally.end(run);
}
