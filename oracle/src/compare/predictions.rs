//! Prediction of 16x16, 8x8 and 4x4 pixels.

use crate::library;
use crate::tally::{Pair, Run, Tally};
use judge::data;
use judge::expected;
use judge::random::Random;

/// The mark of slices of pixels.
const MARK: u8 = 0x5A;

/// A prediction, as the C interface has all three: mode, above, left, p, out.
pub type Predict = fn(u8, &[u8], &[u8], u8, &mut [u8]) -> u32;

/// A prediction on both sides, with its counts.
struct Both {
    library: Predict,
    expected: Predict,
    pixels: usize,
    pair: Pair<u8>,
    tally: Tally,
}

impl Both {
    fn new(name: &'static str, library: Predict, expected: Predict, pixels: usize) -> Both {
        Both { library, expected, pixels, pair: Pair::new(pixels, MARK), tally: Tally::new(name) }
    }

    fn case(&mut self, mode: u8, above: &[u8], left: &[u8], p: u8) {
        let equal = self.pair.filled(
            self.pixels,
            |out| (self.library)(mode, above, left, p, out),
            |out| (self.expected)(mode, above, left, p, out),
        );
        self.tally.count(equal, || format!("mode {mode} above {above:?} left {left:?} p {p}"));
    }
}

/// An edge of `n` pixels whose sum is `sum`.
fn edge_of_sum(n: usize, sum: usize) -> Vec<u8> {
    (0..n).map(|i| (sum / n + usize::from(i < sum % n)) as u8).collect()
}

/// Blocks of n by n pixels with edges of n. Every sum of the edges in DC; every left, above and p in TM; every byte as a
/// mode; random edges in each mode and each combination of edges that are there.
fn whole(name: &'static str, library: Predict, expected: Predict, n: usize, blocks: usize, run: &mut Run) -> u64 {
    let mut r = Random::new(run.seed);
    let mut both = Both::new(name, library, expected, n * n);
    let most = 255 * n;
    both.case(0, &[], &[], 127);
    for sum in 0..=most {
        both.case(0, &edge_of_sum(n, sum), &[], 0);
        both.case(0, &[], &edge_of_sum(n, sum), 0);
    }
    for sum in 0..=2 * most {
        let above = sum.min(most);
        both.case(0, &edge_of_sum(n, above), &edge_of_sum(n, sum - above), 0);
        both.case(0, &edge_of_sum(n, sum / 2), &edge_of_sum(n, sum - sum / 2), 0);
    }
    let ramp = |from: usize| (from..from + n).map(|x| x as u8).collect::<Vec<u8>>();
    for p in 0..=255 {
        for l in (0..256).step_by(n) {
            let left = ramp(l);
            for a in (0..256).step_by(n * run.step(4)) {
                both.case(3, &ramp(a), &left, p);
            }
        }
    }
    let (mut above, mut left) = (vec![0; n], vec![0; n]);
    for mode in 0..=255 {
        for there in 0..4 {
            data::any_pixels(&mut r, &mut above);
            data::any_pixels(&mut r, &mut left);
            both.case(mode, &above[..n * (there & 1)], &left[..n * (there >> 1)], r.byte());
        }
    }
    for k in 0..run.cases(blocks) {
        let (mode, there) = (k % 4, k / 4 % 4);
        data::any_pixels(&mut r, &mut above);
        data::any_pixels(&mut r, &mut left);
        let p = if r.once_in(2) { r.byte() } else { r.of(&data::PIXELS) };
        both.case(mode as u8, &above[..n * (there & 1)], &left[..n * (there >> 1)], p);
    }
    both.tally.end(run)
}

pub fn predict_y16x16(run: &mut Run) -> u64 {
    whole("predict_y16x16", library::predict_y16x16, expected::predict_y16x16, 16, 1_000_000, run)
}

pub fn predict_uv8x8(run: &mut Run) -> u64 {
    whole("predict_uv8x8", library::predict_uv8x8, expected::predict_uv8x8, 8, 1_000_000, run)
}

/// Every three pixels under avg3 (Ve) and every two under avg2 (Vl); every left, above and p in TM; every byte as a
/// mode; random edges in each mode.
pub fn predict_b4x4(run: &mut Run) -> u64 {
    let mut r = Random::new(run.seed);
    let mut both = Both::new("predict_b4x4", library::predict_b4x4, expected::predict_b4x4, 16);
    for x in 0..=255 {
        for y in 0..=255 {
            for z in (0..=255).step_by(run.step(51)) {
                both.case(2, &[y, z, x, y, z, x, y, z], &[0; 4], x);
            }
            both.case(7, &[x, y, y, x, x, y, y, x], &[0; 4], 0);
        }
    }
    for p in 0..=255 {
        for l in (0..=252).step_by(4) {
            for a in (0..=252).step_by(4 * run.step(16)) {
                both.case(1, &[a, a + 1, a + 2, a + 3, 0, 0, 0, 0], &[l, l + 1, l + 2, l + 3], p);
            }
        }
    }
    let (mut above, mut left) = ([0; 8], [0; 4]);
    for mode in 0..=255 {
        r.bytes(&mut above);
        r.bytes(&mut left);
        both.case(mode, &above, &left, r.byte());
    }
    for k in 0..run.cases(4_000_000) {
        data::any_pixels(&mut r, &mut above);
        data::any_pixels(&mut r, &mut left);
        let p = if r.once_in(2) { r.byte() } else { r.of(&data::PIXELS) };
        both.case((k % 10) as u8, &above, &left, p);
    }
    both.tally.end(run)
}
