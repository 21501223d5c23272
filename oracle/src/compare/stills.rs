//! Whole stills, with the pixels right of the picture and without: what is drawn, how many sums were clipped, and of a
//! damaged one that the macroblocks before the wrong one are finished and every other byte is as it was.

use crate::library;
use crate::tally::{around, Counts, Run, Tally};
use judge::data;
use judge::random::Random;
use judge::still::{still, Planes, Still};

/// Three planes.
type Cells = crate::tally::Cells<3>;

fn lend(cells: &mut Cells) -> Planes<'_> {
    let [y, u, v] = cells.lend();
    Planes { y, u, v }
}

/// A still of its own.
struct Owned {
    cols: usize,
    rows: usize,
    modes: Vec<u8>,
    sub_modes: Vec<u8>,
    coeffs: Vec<i16>,
    right: Vec<u8>,
}

impl Owned {
    /// Modes and coefficients of every kind: all macroblocks of luma mode B in one still of four, few coefficients in
    /// one of two. Sub-block bytes of a macroblock that is not of mode B are without any rule.
    fn new(r: &mut Random, cols: usize, rows: usize) -> Owned {
        let count = cols * rows;
        let (all_b, quiet) = (r.once_in(4), r.once_in(2));
        let (mut modes, mut sub_modes) = (Vec::new(), Vec::new());
        for _ in 0..count {
            let luma = if all_b { 4 } else { r.below(5) as u8 };
            modes.extend([luma, r.below(4) as u8, u8::from(r.once_in(6))]);
            let mut sixteen = data::sub_modes(r);
            if luma != 4 {
                r.bytes(&mut sixteen);
            }
            sub_modes.extend(sixteen);
        }
        let mut coeffs = vec![0; 400 * count];
        for c in coeffs.chunks_mut(400) {
            if !quiet || r.once_in(4) {
                data::coefficients(r, c);
            } else {
                for b in c.chunks_mut(16) {
                    data::block(r, 3, b);
                }
            }
        }
        let mut right = vec![0; 4 * (rows - 1)];
        data::any_pixels(r, &mut right);
        Owned { cols, rows, modes, sub_modes, coeffs, right }
    }

    fn lent(&self) -> Still<'_> {
        Still { cols: self.cols, rows: self.rows, modes: &self.modes, sub_modes: &self.sub_modes, coeffs: &self.coeffs }
    }

    fn lengths(&self) -> [usize; 3] {
        [256, 64, 64].map(|each| each * self.cols * self.rows)
    }

    /// Puts an unknown byte into a macroblock: in the place of a mode, of the skip byte or, in luma mode B, of a
    /// sub-block's mode.
    fn damage(&mut self, r: &mut Random, index: usize) {
        let above = |r: &mut Random, most: usize| (most + 1 + r.below(255 - most)) as u8;
        match r.below(4) {
            0 => self.modes[3 * index] = above(r, 4),
            1 => self.modes[3 * index + 1] = above(r, 3),
            2 => self.modes[3 * index + 2] = above(r, 1),
            _ => {
                self.modes[3 * index] = 4;
                self.sub_modes[16 * index..][..16].copy_from_slice(&data::sub_modes(r));
                self.sub_modes[16 * index + r.below(16)] = above(r, 9);
            }
        }
    }
}

/// Both sides of a call on the same planes: the answer that is expected, and whether the library's and all bytes in and
/// around the planes and the count, which has `counts` numbers, are equal to it.
fn both(r: &mut Random, given: Still<'_>, right: Option<&[u8]>, lengths: [usize; 3], counts: usize) -> (u64, bool) {
    let mut by_library = Cells::new(r, lengths);
    let mut expected = by_library.clone();
    let mut clipped = Counts::new(counts);
    let (ours, theirs) = clipped.lend(counts);
    let answers =
        (library::still(given, right, lend(&mut by_library), ours), still(given, right, lend(&mut expected), theirs));
    (answers.1, answers.0 == answers.1 && by_library == expected && clipped.equal())
}

/// A still, with the pixels right of the picture and without. The tallies are of what is drawn and of what is refused.
fn case(r: &mut Random, given: &Owned, drawn: &mut Tally, refused: &mut Tally) {
    for right in [Some(&given.right[..]), None] {
        let (answer, equal) = both(r, given.lent(), right, given.lengths(), 1);
        let tally = if answer == 0 { &mut *drawn } else { &mut *refused };
        tally.count(equal, || {
            let which = if right.is_some() { "still" } else { "still_alone" };
            let (cols, rows, modes, sub_modes) = (given.cols, given.rows, &given.modes, &given.sub_modes);
            format!("{which} {cols}x{rows}, answer {answer}, modes {modes:?}, sub-block modes {sub_modes:?}")
        });
    }
}

/// Stills of at most 6 by 6 macroblocks, long, high and larger ones, whole and damaged, with one wrong macroblock or
/// several. Returned is how many were drawn to their end.
pub fn stills(run: &mut Run) -> u64 {
    let mut r = Random::new(run.seed);
    let mut drawn = Tally::new("still");
    let mut damaged = Tally::new("still.damaged");
    for _ in 0..run.cases(12_000) {
        let (cols, rows) = (1 + r.below(6), 1 + r.below(6));
        let mut given = Owned::new(&mut r, cols, rows);
        case(&mut r, &given, &mut drawn, &mut damaged);
        for _ in 0..=r.below(3) {
            let index = r.below(cols * rows);
            given.damage(&mut r, index);
        }
        case(&mut r, &given, &mut drawn, &mut damaged);
    }
    for (cols, rows) in [(1024, 1), (1, 1024), (1024, 2), (2, 1024), (40, 30), (100, 60)] {
        let mut given = Owned::new(&mut r, cols, rows);
        case(&mut r, &given, &mut drawn, &mut damaged);
        for index in [cols * rows - 1, r.below(cols * rows), 0] {
            given.damage(&mut r, index);
            case(&mut r, &given, &mut drawn, &mut damaged);
        }
    }
    every_byte(&mut r, &mut drawn, &mut damaged);
    damaged.end(run);
    refused(&mut r, run);
    drawn.end(run)
}

/// Every byte in the place of each mode and skip byte of the second macroblock of three, and of its sub-block modes in
/// each luma mode.
fn every_byte(r: &mut Random, drawn: &mut Tally, damaged: &mut Tally) {
    let mut given = Owned::new(r, 3, 1);
    let (modes, sub_modes) = (given.modes.clone(), given.sub_modes.clone());
    for byte in 0..=255 {
        for place in 3..6 {
            given.modes.copy_from_slice(&modes);
            given.modes[place] = byte;
            given.sub_modes[16..32].fill(byte % 10);
            case(r, &given, drawn, damaged);
        }
        for luma in 0..5 {
            for place in 16..32 {
                given.modes.copy_from_slice(&modes);
                given.modes[3] = luma;
                given.sub_modes.copy_from_slice(&sub_modes);
                given.sub_modes[16..32].fill(3);
                given.sub_modes[place] = byte;
                case(r, &given, drawn, damaged);
            }
        }
    }
}

/// Sizes at and past the limits, with products that wrap at 64 bits; lengths around those that fit, two at a time.
fn refused(r: &mut Random, run: &mut Run) {
    let mut tally = Tally::new("still.refused");
    let stock = Owned::new(r, 5, 5);
    let mut bytes = [0; 64];
    r.bytes(&mut bytes);
    let mut case = |size: (usize, usize), lengths: [usize; 8]| {
        let [modes, sub_modes, coeffs, right, y, u, v, clipped] = lengths;
        let given = Still {
            cols: size.0,
            rows: size.1,
            modes: &stock.modes[..modes],
            sub_modes: &stock.sub_modes[..sub_modes],
            coeffs: &stock.coeffs[..coeffs],
        };
        for right in [Some(&bytes[..right]), None] {
            let (answer, equal) = both(r, given, right, [y, u, v], clipped);
            tally.count(equal, || format!("size {size:?} lengths {lengths:?} answer {answer}"));
        }
    };
    let fit =
        |n: usize, right: usize, clipped: usize| [3 * n, 16 * n, 400 * n, right, 256 * n, 64 * n, 64 * n, clipped];
    let sides = [0, 1, 2, 1023, 1024, 1025, 1 << 32, 1 << 56, 1 << 60, (1 << 63) + 1, usize::MAX - 1, usize::MAX];
    for cols in sides {
        for rows in sides {
            for count in [0, 1, 2, 4] {
                for (right, clipped) in [(0, 1), (4, 1), (0, 0), (4, 2)] {
                    case((cols, rows), fit(count, right, clipped));
                }
            }
        }
    }
    for (cols, rows) in [(1, 1), (2, 1), (1, 2), (3, 4)] {
        let right = fit(cols * rows, 4 * (rows - 1), 1);
        around(right, [3, 16, 400, 4, 256, 64, 64, 1], |lengths| case((cols, rows), lengths));
    }
    tally.end(run);
}
