//! The loop filter: pictures of every level, sharpness and kind, against the second filter; and what is refused of it.

use crate::library;
use crate::tally::{around, Run, Tally};
use judge::data;
use judge::filter::{self, Strength};
use judge::random::Random;
use judge::still::Planes;

/// Three planes.
type Cells = crate::tally::Cells<3>;

fn lend(cells: &mut Cells) -> Planes<'_> {
    let [y, u, v] = cells.lend();
    Planes { y, u, v }
}

/// Kinds of pictures that [`plane`] makes.
const KINDS: usize = 6;

/// A plane of `width` pixels a row and `side` pixels a macroblock, of a kind below [`KINDS`]; `reach` is how far
/// neighbouring pixels are apart, or a little more.
fn plane(r: &mut Random, kind: usize, width: usize, side: usize, reach: usize, out: &mut [u8]) {
    let near = |r: &mut Random, x: i32, reach: usize| (x + r.below(2 * reach + 1) as i32 - reach as i32).clamp(0, 255);
    match kind {
        // without any rule, limits, ramps
        0 => data::any_pixels(r, out),
        // each block of four by four of one tone, near its neighbours'
        1 | 2 => {
            let (tone, blocks) = (r.byte().into(), width / 4);
            let tones: Vec<i32> = (0..blocks * (out.len() / width / 4)).map(|_| near(r, tone, 2 * reach)).collect();
            for (i, x) in out.iter_mut().enumerate() {
                let noise = if kind == 1 { 0 } else { reach / 4 };
                *x = near(r, tones[i / width / 4 * blocks + i % width / 4], noise) as u8;
            }
        }
        // each macroblock of one tone, with a little noise
        3 => {
            let (tone, blocks) = (r.byte().into(), width / side);
            let tones: Vec<i32> = (0..blocks * (out.len() / width / side)).map(|_| near(r, tone, 2 * reach)).collect();
            for (i, x) in out.iter_mut().enumerate() {
                *x = near(r, tones[i / width / side * blocks + i % width / side], reach / 3) as u8;
            }
        }
        // a walk along each row, which starts anywhere
        4 => {
            for row in out.chunks_mut(width) {
                let mut tone = r.byte().into();
                for x in row {
                    tone = near(r, tone, reach);
                    *x = tone as u8;
                }
            }
        }
        // the same along each column
        _ => {
            for column in 0..width {
                let mut tone = r.byte().into();
                for x in out.iter_mut().skip(column).step_by(width) {
                    tone = near(r, tone, reach);
                    *x = tone as u8;
                }
            }
        }
    }
}

fn picture(r: &mut Random, cols: usize, rows: usize, level: u8) -> Cells {
    let mut cells = Cells::new(r, [256, 64, 64].map(|each| each * cols * rows));
    let (kind, reach) = (r.below(KINDS), 1 + r.below(2 + usize::from(level)));
    for (plane_of, side) in cells.lend().into_iter().zip([16, 8, 8]) {
        plane(r, kind, side * cols, side, reach, plane_of);
    }
    cells
}

/// Inner bytes: all 0, all 1, or each of its own; where an inner edge is filtered, any byte but 0.
fn inner_bytes(r: &mut Random, count: usize) -> Vec<u8> {
    match r.below(4) {
        0 => vec![0; count],
        1 => vec![1; count],
        2 => (0..count).map(|_| r.below(2) as u8).collect(),
        _ => (0..count).map(|_| if r.once_in(2) { 0 } else { r.byte() }).collect(),
    }
}

/// Both sides of a call on one picture: are the answers equal, and all bytes in and around the planes?
fn equal(
    start: &Cells,
    library: impl FnOnce(Planes<'_>) -> u32,
    expected: impl FnOnce(Planes<'_>) -> u32,
) -> (bool, bool) {
    let (mut ours, mut theirs) = (start.clone(), start.clone());
    let answers = (library(lend(&mut ours)), expected(lend(&mut theirs)));
    (answers.0 == answers.1 && ours == theirs, theirs != *start)
}

/// Pictures of every level, sharpness and kind, long, high and large ones, every inner byte. Returned is how many
/// macroblocks stood in a picture of which some pixel changed.
pub fn filters(run: &mut Run) -> u64 {
    let mut r = Random::new(run.seed);
    let (mut one, mut many) = (Tally::new("filter"), Tally::new("filter_levels"));
    let mut filtered = 0;
    let mut case = |r: &mut Random, cols: usize, rows: usize, kind: u8, level: u8, sharpness: u8, inner: Vec<u8>| {
        let count = cols * rows;
        let start = picture(r, cols, rows, level);
        let (same, moved) = equal(
            &start,
            |planes| library::filter(cols, rows, kind, level, sharpness, &inner, planes),
            |planes| filter::filter(cols, rows, kind, level, sharpness, &inner, planes),
        );
        let told = || format!("{cols}x{rows} kind {kind} level {level} sharpness {sharpness} inner {inner:?}");
        one.count(same, told);
        filtered += if moved { count as u64 } else { 0 };
        // one level for all, near levels with some 0 among them, levels without any rule
        let levels: Vec<u8> = match r.below(4) {
            0 => vec![level; count],
            1 => (0..count).map(|_| if r.once_in(3) { 0 } else { level }).collect(),
            _ => (0..count).map(|_| r.below(64) as u8).collect(),
        };
        let strength = Strength { cols, rows, kind, sharpness, levels: &levels, inner: &inner };
        let (same, moved) = equal(
            &start,
            |planes| library::filter_levels(strength, planes),
            |planes| filter::filter_levels(strength, planes),
        );
        many.count(same, || format!("{strength:?}"));
        filtered += if moved { count as u64 } else { 0 };
    };
    for level in 0..64 {
        for sharpness in 0..8 {
            for kind in 0..2 {
                for _ in 0..run.cases(1_000).max(100) / 100 {
                    let (cols, rows) = (1 + r.below(5), 1 + r.below(5));
                    let inner = inner_bytes(&mut r, cols * rows);
                    case(&mut r, cols, rows, kind, level, sharpness, inner);
                }
            }
        }
    }
    for (cols, rows) in [(1, 40), (40, 1), (2, 30), (30, 2), (33, 17), (1024, 1), (1, 1024), (64, 48)] {
        for kind in 0..2 {
            let (level, sharpness) = (1 + r.below(63) as u8, r.below(8) as u8);
            let inner = inner_bytes(&mut r, cols * rows);
            case(&mut r, cols, rows, kind, level, sharpness, inner);
        }
    }
    for byte in 0..=255 {
        for kind in 0..2 {
            let (level, sharpness) = (1 + r.below(63) as u8, r.below(8) as u8);
            case(&mut r, 2, 2, kind, level, sharpness, vec![0, byte, byte, 1]);
        }
    }
    one.end(run);
    many.end(run);
    refused(&mut r, run);
    filtered
}

/// Every level, sharpness and kind that is refused, sizes at and past the limits, lengths around those that fit; and
/// reasons together, of which the first of the list is given.
fn refused(r: &mut Random, run: &mut Run) {
    let mut tally = Tally::new("filter.refused");
    let mut case = |r: &mut Random, strength: Strength<'_>, lengths: [usize; 3]| {
        let mut start = Cells::new(r, lengths);
        for plane in start.lend() {
            data::any_pixels(r, plane);
        }
        let (same, _) = equal(
            &start,
            |planes| library::filter_levels(strength, planes),
            |planes| filter::filter_levels(strength, planes),
        );
        tally.count(same, || format!("{strength:?} planes {lengths:?}"));
        let Strength { cols, rows, kind, sharpness, levels, inner } = strength;
        let level = levels.first().copied().unwrap_or(5);
        let (same, _) = equal(
            &start,
            |planes| library::filter(cols, rows, kind, level, sharpness, inner, planes),
            |planes| filter::filter(cols, rows, kind, level, sharpness, inner, planes),
        );
        tally.count(same, || format!("one level {level} of {strength:?} planes {lengths:?}"));
    };
    let fit = |count: usize| [256, 64, 64].map(|each| each * count);
    for byte in 0..=255 {
        for (cols, rows) in [(1, 1), (2, 2)] {
            let count = cols * rows;
            for place in 0..count {
                let (mut levels, inner) = (vec![9; count], vec![1; count]);
                levels[place] = byte;
                let strength = Strength { cols, rows, kind: 0, sharpness: 2, levels: &levels, inner: &inner };
                case(r, strength, fit(count));
                case(r, Strength { kind: 2, ..strength }, fit(count));
            }
            let (levels, inner) = (vec![30; count], vec![1; count]);
            let strength = Strength { cols, rows, kind: 0, sharpness: 0, levels: &levels, inner: &inner };
            case(r, Strength { sharpness: byte, ..strength }, fit(count));
            case(r, Strength { kind: byte, ..strength }, fit(count));
            case(r, Strength { kind: byte, sharpness: 8, ..strength }, fit(count));
        }
    }
    let sides = [0, 1, 2, 1023, 1024, 1025, 4096, 1 << 32, usize::MAX];
    for cols in sides {
        for rows in sides {
            for (kind, sharpness, level) in [(0, 0, 9), (2, 0, 9), (0, 8, 64)] {
                // planes of one macroblock: too short for all but 1x1
                let strength = Strength { cols, rows, kind, sharpness, levels: &[level], inner: &[1] };
                case(r, strength, fit(1));
            }
        }
    }
    for (cols, rows) in [(1, 1), (2, 1), (2, 3)] {
        let count = cols * rows;
        let (levels, inner) = (vec![40; count + 1], vec![1; count + 1]);
        around([count, count, 256 * count, 64 * count, 64 * count], [1, 1, 256, 64, 64], |[l, i, y, u, v]| {
            for (kind, sharpness) in [(0, 0), (1, 3), (7, 9)] {
                let strength = Strength { cols, rows, kind, sharpness, levels: &levels[..l], inner: &inner[..i] };
                case(r, strength, [y, u, v]);
            }
        });
    }
    tally.end(run);
}
