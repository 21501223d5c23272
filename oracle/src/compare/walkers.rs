//! Whole macroblocks.

use crate::library;
use crate::tally::{Counts, Pair, Run, Tally};
use judge::data;
use judge::expected;
use judge::random::Random;

/// Both sides: the pixels, and the clipped sums.
struct Both {
    pair: Pair<u8>,
    counts: Counts,
}

impl Both {
    fn new() -> Both {
        Both { pair: Pair::new(384, 0x5A), counts: Counts::new(1) }
    }

    /// On one macroblock.
    fn equal(&mut self, modes: &[u8], sub_modes: &[u8], record: &[u8], coeffs: &[i16]) -> bool {
        let (by_library, by_rust) = self.counts.lend(1);
        let drawn = self.pair.filled(
            384,
            |out| library::macroblock(modes, sub_modes, record, coeffs, out, by_library),
            |out| expected::macroblock(modes, sub_modes, record, coeffs, out, by_rust),
        );
        drawn && self.counts.equal()
    }
}

pub fn describe(modes: &[u8], sub_modes: &[u8], record: &[u8], coeffs: &[i16]) -> String {
    format!("modes {modes:?} sub-block modes {sub_modes:?} record {record:?} coefficients {coeffs:?}")
}

/// The four 16x16 modes: each luma and chroma mode, skipped or not, each combination of the ten edges. Sub-block modes
/// are given in half of the cases, as bytes without any rule: they are not looked at.
pub fn non_b(run: &mut Run) -> u64 {
    let mut r = Random::new(run.seed);
    let mut tally = Tally::new("macroblock.non_b");
    let mut both = Both::new();
    let mut coeffs = [0; 400];
    let mut sub_modes = [0; 16];
    for k in 0..run.cases(700_000) {
        let modes = [r.below(4) as u8, r.below(4) as u8, u8::from(r.once_in(8))];
        let record = data::record(&mut r, k % 1024);
        data::coefficients(&mut r, &mut coeffs);
        r.bytes(&mut sub_modes);
        let given = &sub_modes[..16 * r.below(2)];
        let equal = both.equal(&modes, given, &record, &coeffs);
        tally.count(equal, || describe(&modes, given, &record, &coeffs));
    }
    tally.end(run)
}

/// Luma mode B, with all sub-blocks of one mode and with mixed modes. The first sixteen coefficients are not used.
pub fn b(run: &mut Run) -> u64 {
    let mut r = Random::new(run.seed);
    let mut tally = Tally::new("macroblock.b");
    let mut both = Both::new();
    let mut coeffs = [0; 400];
    for k in 0..run.cases(700_000) {
        let modes = [4, r.below(4) as u8, u8::from(r.once_in(8))];
        let record = data::record(&mut r, k % 1024);
        data::coefficients(&mut r, &mut coeffs);
        let sub_modes = data::sub_modes(&mut r);
        let equal = both.equal(&modes, &sub_modes, &record, &coeffs);
        tally.count(equal, || describe(&modes, &sub_modes, &record, &coeffs));
    }
    tally.end(run)
}

/// Every byte in the place of each mode, skip byte, mark and sub-block mode; no sub-block modes in mode B; and two
/// wrong things at once, for the order.
pub fn refused(run: &mut Run) {
    let mut r = Random::new(run.seed);
    let mut tally = Tally::new("macroblock.refused");
    let mut both = Both::new();
    let mut coeffs = [0; 400];
    r.shorts(&mut coeffs);
    let mut case = |modes: &[u8; 3], sub_modes: &[u8], record: &[u8; 81]| {
        let equal = both.equal(modes, sub_modes, record, &coeffs);
        tally.count(equal, || describe(modes, sub_modes, record, &coeffs));
    };
    let good = data::record(&mut r, 1023);
    for luma in 0..5 {
        for given in [0, 16] {
            let sub_modes = &data::sub_modes(&mut r)[..given];
            for byte in 0..=255 {
                case(&[byte, 0, 0], sub_modes, &good);
                case(&[luma, byte, 0], sub_modes, &good);
                case(&[luma, 0, byte], sub_modes, &good);
                for mark in 0..10 {
                    let mut record = good;
                    record[mark] = byte;
                    case(&[luma, 0, 0], sub_modes, &record);
                    case(&[luma, byte, 1], sub_modes, &record);
                }
            }
        }
        for place in 0..16 {
            for byte in 0..=255 {
                let mut sub_modes = data::sub_modes(&mut r);
                sub_modes[place] = byte;
                case(&[luma, 3, 0], &sub_modes, &good);
                case(&[luma, 3, 1], &sub_modes, &good);
            }
        }
    }
    tally.end(run);
}
