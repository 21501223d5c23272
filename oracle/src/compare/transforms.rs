//! Coefficients: factors, dequantising, the inverse transforms and the residue sum.

use crate::library;
use crate::tally::{Counts, Pair, Run, Tally};
use judge::data;
use judge::expected;
use judge::random::Random;

/// The mark of slices of numbers.
const MARK: i16 = 0x5AA5;

/// All numbers of 16 bits, or some of them in a quick run.
fn shorts(run: &Run) -> impl Iterator<Item = i16> {
    (i16::MIN..=i16::MAX).step_by(run.step(61))
}

/// Every index around the tables with every delta around it, every pair of limits, and random pairs.
pub fn y1_factors(run: &mut Run) -> u64 {
    let mut r = Random::new(run.seed);
    let mut tally = Tally::new("y1_factors");
    let mut pair = Pair::new(2, MARK);
    let mut case = |q: i32, d: i32| {
        let equal = pair.filled(2, |out| library::y1_factors(q, d, out), |out| expected::y1_factors(q, d, out));
        tally.count(equal, || format!("yac_qi {q} ydc_delta {d}"));
    };
    for q in (-300..=430).step_by(run.step(7)) {
        for d in -300..=430 {
            case(q, d);
        }
    }
    let limits = index_limits();
    for &q in &limits {
        for &d in &limits {
            case(q, d);
        }
    }
    for _ in 0..run.cases(500_000) {
        case(r.bits() as i32, r.bits() as i32);
    }
    tally.end(run)
}

/// Every coefficient with every factor of the tables and with the ends of 16 bits, and random blocks.
pub fn dequant_block(run: &mut Run) -> u64 {
    let mut r = Random::new(run.seed);
    let mut tally = Tally::new("dequant_block");
    let mut pair = Pair::new(16, MARK);
    let mut case = |block: &[i16; 16], dc: i16, ac: i16| {
        let equal = pair.holding(block, |c| library::dequant_block(c, dc, ac), |c| expected::dequant_block(c, dc, ac));
        tally.count(equal, || format!("{block:?} dc {dc} ac {ac}"));
    };
    let mut factors = Vec::new();
    for q in (0..128).step_by(run.step(9)) {
        let mut both = [0; 2];
        expected::y1_factors(q, 0, &mut both);
        factors.push((both[0], both[1]));
    }
    factors.extend([(0, 0), (1, -1), (-1, 1), (i16::MAX, i16::MIN), (i16::MIN, i16::MAX), (181, 182)]);
    for (dc, ac) in factors {
        for x in shorts(run) {
            case(&std::array::from_fn(|i| x.wrapping_add(i as i16)), dc, ac);
        }
    }
    let mut block = [0; 16];
    for _ in 0..run.cases(1_000_000) {
        data::any_block(&mut r, &mut block);
        case(&block, r.short(), r.short());
    }
    tally.end(run)
}

/// The limits of 32 bits and of the tables, each with its neighbours.
fn index_limits() -> Vec<i32> {
    let around = |x: i32| (-3..=3).map(move |d| x.wrapping_add(d));
    [0, 127, 128, -128, 32767, 65536, 1 << 30, -(1 << 30), i32::MAX, i32::MIN].into_iter().flat_map(around).collect()
}

/// A macroblock dequantised by both sides. The two slices that are lent, coefficients and factors, are parts of one, with
/// marks between them.
pub struct Dequantised {
    pair: Pair<i16>,
    start: Vec<i16>,
}

impl Dequantised {
    pub fn new() -> Dequantised {
        Dequantised { pair: Pair::new(1024, MARK), start: Vec::new() }
    }

    pub fn equal(&mut self, base: i32, deltas: [i32; 5], coeffs: &[i16], factors: usize) -> bool {
        const BETWEEN: usize = 16;
        self.start.clear();
        self.start.extend(coeffs);
        self.start.resize(coeffs.len() + BETWEEN + factors, MARK);
        let n = coeffs.len();
        let parts = |call: fn(i32, [i32; 5], &mut [i16], &mut [i16]) -> u32| {
            move |lent: &mut [i16]| {
                let (c, rest) = lent.split_at_mut(n);
                call(base, deltas, c, &mut rest[BETWEEN..])
            }
        };
        self.pair.holding(&self.start, parts(library::dequantise), parts(expected::dequantise))
    }
}

/// Every index around the tables with every delta around it, in all five places at once; every pair of limits, with the
/// delta in each place by itself; random indices, of a bitstream and of 32 bits, with random coefficients.
pub fn dequantise(run: &mut Run) -> u64 {
    let mut r = Random::new(run.seed);
    let mut tally = Tally::new("dequantise");
    let mut both = Dequantised::new();
    let mut case = |q: i32, deltas: [i32; 5], coeffs: &[i16; 400]| {
        let equal = both.equal(q, deltas, coeffs, 6);
        tally.count(equal, || format!("yac_qi {q} deltas {deltas:?} coefficients {coeffs:?}"));
    };
    let mut coeffs = [0; 400];
    data::coefficients(&mut r, &mut coeffs);
    for q in (-160..=290).step_by(run.step(7)) {
        for d in -300..=300 {
            coeffs[(d + 300) as usize % 400] = r.short();
            case(q, [d; 5], &coeffs);
        }
    }
    let limits = index_limits();
    for &q in &limits {
        for &d in &limits {
            for place in 0..5 {
                let mut deltas = [0; 5];
                deltas[place] = d;
                case(q, deltas, &coeffs);
            }
        }
    }
    for k in 0..run.cases(300_000) {
        data::coefficients(&mut r, &mut coeffs);
        if k % 8 == 0 {
            case(r.bits() as i32, std::array::from_fn(|_| r.bits() as i32), &coeffs);
        } else {
            case(r.below(128) as i32, std::array::from_fn(|_| r.below(31) as i32 - 15), &coeffs);
        }
    }
    tally.end(run)
}

/// A transform of sixteen numbers.
type Transform = fn(&[i16], &mut [i16]) -> u32;

/// Every value of one coefficient in every place, and random blocks.
fn transform(name: &'static str, library: Transform, expected: Transform, blocks: usize, run: &mut Run) -> u64 {
    let mut r = Random::new(run.seed);
    let mut tally = Tally::new(name);
    let mut pair = Pair::new(16, MARK);
    let mut case = |block: &[i16; 16]| {
        let equal = pair.filled(16, |out| library(block, out), |out| expected(block, out));
        tally.count(equal, || format!("{block:?}"));
    };
    for place in 0..16 {
        for x in shorts(run) {
            let mut block = [0; 16];
            block[place] = x;
            case(&block);
        }
    }
    for &x in &data::LIMITS {
        for &y in &data::LIMITS {
            for place in 0..16 {
                let mut block = [x; 16];
                block[place] = y;
                case(&block);
            }
        }
    }
    let mut block = [0; 16];
    for k in 0..run.cases(blocks) {
        data::block(&mut r, k % data::BLOCKS, &mut block);
        case(&block);
    }
    tally.end(run)
}

pub fn inverse_wht(run: &mut Run) -> u64 {
    transform("inverse_wht", library::inverse_wht, expected::inverse_wht, 2_000_000, run)
}

pub fn inverse_dct(run: &mut Run) -> u64 {
    transform("inverse_dct", library::inverse_dct, expected::inverse_dct, 4_000_000, run)
}

/// Every DC, and that the full transform of the library says the same.
pub fn inverse_wht_dc_only(run: &mut Run) -> u64 {
    let mut tally = Tally::new("inverse_wht_dc_only");
    let mut pair = Pair::new(16, MARK);
    for dc in i16::MIN..=i16::MAX {
        let by_rust = |out: &mut [i16]| expected::inverse_wht_dc_only(dc, out);
        let equal = pair.filled(16, |out| library::inverse_wht_dc_only(dc, out), by_rust);
        tally.count(equal, || format!("dc {dc}"));
        let mut block = [0; 16];
        block[0] = dc;
        let equal = pair.filled(16, |out| library::inverse_wht(&block, out), by_rust);
        tally.count(equal, || format!("dc {dc}, full transform"));
    }
    tally.end(run)
}

/// The shortest plane that a block lies in, for numbers that are small.
fn shortest(stride: usize, sub_row: usize, sub_col: usize) -> usize {
    (4 * sub_row + 3) * stride + 4 * sub_col + 4
}

/// Every DC with every pixel, random blocks in random places of random planes, every place around the boundaries of
/// small planes, and numbers that no plane has. The whole plane is compared, so that a refused one is seen untouched.
pub fn inverse_dct_add_into(run: &mut Run) -> u64 {
    let mut r = Random::new(run.seed);
    let mut tally = Tally::new("inverse_dct_add_into");
    let mut refused = Tally::new("inverse_dct_add_into.refused");
    let mut pair = Pair::new(4096, 0x5A);
    let mut counts = Counts::new(1);
    let mut case = |block: &[i16], plane: &[u8], stride: usize, row: usize, col: usize| {
        let (by_library, by_rust) = counts.lend(1);
        let added = pair.holding(
            plane,
            |p| library::inverse_dct_add_into(block, p, stride, row, col, by_library),
            |p| expected::inverse_dct_add_into(block, p, stride, row, col, by_rust),
        );
        let equal = added && counts.equal();
        let accepted = expected::in_plane(plane.len(), stride, row, col) && block.len() == 16;
        let tally = if accepted { &mut tally } else { &mut refused };
        tally.count(equal, || format!("{block:?} length {} stride {stride} row {row} col {col}", plane.len()));
    };
    let shades: [[u8; 16]; 16] = std::array::from_fn(|k| std::array::from_fn(|i| (16 * k + i) as u8));
    for dc in shorts(run) {
        let mut block = [0; 16];
        block[0] = dc;
        for plane in &shades {
            case(&block, plane, 4, 0, 0);
        }
    }
    let mut plane = [0; 4096];
    let mut block = [0; 16];
    for _ in 0..run.cases(2_000_000) {
        let (row, col) = (r.below(5), r.below(8));
        let stride = 4 * col + 4 + if r.once_in(2) { 0 } else { r.below(20) };
        let length = shortest(stride, row, col) + if r.once_in(2) { 0 } else { r.below(100) };
        data::any_pixels(&mut r, &mut plane[..length]);
        data::any_block(&mut r, &mut block);
        case(&block, &plane[..length], stride, row, col);
    }
    // the last block leaves random pixels and coefficients behind for what is refused
    r.bytes(&mut plane);
    r.shorts(&mut block);
    for stride in 0..=40 {
        for row in 0..=5 {
            for col in 0..=9 {
                let need = shortest(stride, row, col);
                for length in [0, 1, need - 4, need - 3, need - 2, need - 1, need, need + 1, need + 4] {
                    case(&block, &plane[..length.min(4096)], stride, row, col);
                    case(&[0; 16], &plane[..length.min(4096)], stride, row, col);
                }
            }
        }
    }
    // numbers whose products wrap at 64 bits, some of them back into the plane
    let huge: Vec<usize> =
        [0, 1, 4, 16, 1 << 31, 1 << 32, 1 << 60, 1 << 61, 1 << 62, 3 << 62, 1 << 63, usize::MAX - 3, usize::MAX]
            .into_iter()
            .flat_map(|x: usize| [x.wrapping_sub(1), x, x.wrapping_add(1)])
            .collect();
    for &stride in &huge {
        for &row in &huge {
            for &col in &huge {
                for length in [0, 16, 256, 4096] {
                    case(&block, &plane[..length], stride, row, col);
                }
            }
        }
    }
    refused.end(run);
    tally.end(run)
}

/// Every prediction with every residue, random slices of every length to 300, and lengths that differ.
pub fn add_residue(run: &mut Run) -> u64 {
    let mut r = Random::new(run.seed);
    let mut tally = Tally::new("add_residue");
    let mut refused = Tally::new("add_residue.refused");
    let mut pair = Pair::new(65536, 0x5A);
    let mut case = |prediction: &[u8], residue: &[i16], out: usize| {
        let equal = pair.filled(
            out,
            |out| library::add_residue(prediction, residue, out),
            |out| expected::add_residue(prediction, residue, out),
        );
        let same = prediction.len() == residue.len() && residue.len() == out;
        let tally = if same { &mut tally } else { &mut refused };
        tally.count(equal, || {
            let lengths = (prediction.len(), residue.len(), out);
            format!("lengths {lengths:?} prediction {:?} residue {:?}", prediction.first(), residue.first())
        });
    };
    let every: Vec<i16> = (i16::MIN..=i16::MAX).collect();
    for pixel in 0..=255 {
        case(&vec![pixel; 65536], &every, 65536);
    }
    let (mut pixels, mut residue) = ([0; 320], [0; 320]);
    for k in 0..run.cases(1_000_000) {
        let n = k % 301;
        data::any_pixels(&mut r, &mut pixels[..n]);
        for sixteen in residue[..n].chunks_mut(16) {
            data::any_block(&mut r, sixteen);
        }
        case(&pixels[..n], &residue[..n], n);
    }
    let lengths = [0, 1, 2, 3, 4, 5, 15, 16, 17, 63, 64, 65, 255, 256, 257];
    for a in lengths {
        for b in lengths {
            for c in lengths {
                case(&pixels[..a], &residue[..b], c);
            }
        }
    }
    refused.end(run);
    tally.end(run)
}
