//! Shelves of loose macroblocks: each item against the Rust, and against the library's own call on it alone; and of the
//! whole shelf that the count is the sum of its items' and nothing else is written.

use crate::library;
use crate::tally::{around, Cells, Counts, Run, Tally};
use crate::walkers::describe;
use judge::data;
use judge::expected;
use judge::random::Random;

/// The lists of a shelf.
#[derive(Clone)]
struct Lists {
    modes: Vec<u8>,
    records: Vec<u8>,
    sub_modes: Vec<u8>,
    coeffs: Vec<i16>,
}

impl Lists {
    /// Items of every mode, with each combination of edges, one in eight of them skipped, and coefficients of every kind.
    /// Sub-block bytes of an item that is not of mode B are without any rule.
    fn new(r: &mut Random, count: usize) -> Lists {
        let (mut modes, mut records, mut sub_modes) = (Vec::new(), Vec::new(), Vec::new());
        let mut coeffs = vec![0; 400 * count];
        for c in coeffs.chunks_mut(400) {
            let luma = if r.once_in(3) { 4 } else { r.below(4) as u8 };
            modes.extend([luma, r.below(4) as u8, u8::from(r.once_in(8))]);
            let marks = r.below(1024);
            records.extend(data::record(r, marks));
            let mut sixteen = data::sub_modes(r);
            if luma != 4 {
                r.bytes(&mut sixteen);
            }
            sub_modes.extend(sixteen);
            data::coefficients(r, c);
        }
        Lists { modes, records, sub_modes, coeffs }
    }

    fn count(&self) -> usize {
        self.modes.len() / 3
    }

    /// Puts an unknown byte into an item: in the place of a mode, of the skip byte, of a mark or, in luma mode B, of a
    /// sub-block's mode.
    fn damage(&mut self, r: &mut Random, k: usize) {
        let above = |r: &mut Random, most: usize| (most + 1 + r.below(255 - most)) as u8;
        match r.below(5) {
            0 => self.modes[3 * k] = above(r, 4),
            1 => self.modes[3 * k + 1] = above(r, 3),
            2 => self.modes[3 * k + 2] = above(r, 1),
            3 => self.records[81 * k + r.below(10)] = above(r, 1),
            _ => {
                self.modes[3 * k] = 4;
                self.sub_modes[16 * k..][..16].copy_from_slice(&data::sub_modes(r));
                self.sub_modes[16 * k + r.below(16)] = above(r, 9);
            }
        }
    }
}

/// What is compared: items that are drawn, items that are refused, and whole shelves.
struct Tallies {
    drawn: Tally,
    damaged: Tally,
    totals: Tally,
}

impl Tallies {
    fn case(&mut self, r: &mut Random, lists: &Lists) {
        let Lists { modes, records, sub_modes, coeffs } = lists;
        let n = lists.count();
        let mut by_library = Cells::new(r, [384 * n, n]);
        let mut by_rust = by_library.clone();
        let mut counts = Counts::new(1);
        let (ours, theirs) = counts.lend(1);
        let [out, replies] = by_library.lend();
        let [rust_out, rust_replies] = by_rust.lend();
        let answers = (
            library::shelf(modes, records, sub_modes, coeffs, out, replies, ours),
            expected::shelf(modes, records, sub_modes, coeffs, rust_out, rust_replies, theirs),
        );
        let (total, mut sum) = (ours[0], 0);
        for k in 0..n {
            let (modes, sub_modes) = (&modes[3 * k..][..3], &sub_modes[16 * k..][..16]);
            let (record, coeffs) = (&records[81 * k..][..81], &coeffs[400 * k..][..400]);
            let (mut alone, mut count) = ([!0; 384], [!0]);
            let reply = library::macroblock(modes, sub_modes, record, coeffs, &mut alone, &mut count);
            sum += count[0];
            let item = &out[384 * k..][..384];
            let as_rust = item == &rust_out[384 * k..][..384] && replies[k] == rust_replies[k];
            let as_alone = *item == alone && u32::from(replies[k]) == reply;
            let tally = if rust_replies[k] == 0 { &mut self.drawn } else { &mut self.damaged };
            tally.count(as_rust && as_alone, || {
                format!("item {k} of {n}: {}", describe(modes, sub_modes, record, coeffs))
            });
        }
        let equal = answers == (0, 0) && by_library == by_rust && counts.equal() && total == sum;
        self.totals.count(equal, || format!("{n} items, answers {answers:?}, clipped {total}, one by one {sum}"));
    }
}

/// Shelves of at most 40 items, none damaged in one of two and else one or more; long ones; every byte in its place.
/// Returned is how many items were compared.
pub fn shelves(run: &mut Run) -> u64 {
    let mut r = Random::new(run.seed);
    let mut tallies = Tallies {
        drawn: Tally::new("shelf"),
        damaged: Tally::new("shelf.damaged"),
        totals: Tally::new("shelf.totals"),
    };
    for _ in 0..run.cases(25_000) {
        let count = r.below(41);
        let mut lists = Lists::new(&mut r, count);
        if count > 0 && r.once_in(2) {
            for _ in 0..=r.below(count.min(6)) {
                let k = r.below(count);
                lists.damage(&mut r, k);
            }
        }
        tallies.case(&mut r, &lists);
    }
    for count in [1_000, 20_000] {
        let mut lists = Lists::new(&mut r, count);
        tallies.case(&mut r, &lists);
        for k in [0, r.below(count), count - 1] {
            lists.damage(&mut r, k);
        }
        tallies.case(&mut r, &lists);
    }
    every_byte(&mut r, &mut tallies);
    refused(&mut r, run);
    let damaged = tallies.damaged.end(run);
    tallies.totals.end(run);
    tallies.drawn.end(run) + damaged
}

/// Every byte in the place of each mode, skip byte and mark of the second item of three, and of its sub-block modes in
/// each luma mode.
fn every_byte(r: &mut Random, tallies: &mut Tallies) {
    let start = Lists::new(r, 3);
    for byte in 0..=255 {
        for place in 3..6 {
            let mut lists = start.clone();
            lists.sub_modes[16..32].fill(byte % 10);
            lists.modes[place] = byte;
            tallies.case(r, &lists);
        }
        for mark in 81..91 {
            let mut lists = start.clone();
            lists.records[mark] = byte;
            tallies.case(r, &lists);
        }
        for luma in 0..5 {
            for place in 16..32 {
                let mut lists = start.clone();
                lists.modes[3] = luma;
                lists.sub_modes[16..32].fill(3);
                lists.sub_modes[place] = byte;
                tallies.case(r, &lists);
            }
        }
    }
}

/// Lengths around those that fit, two slices at a time.
fn refused(r: &mut Random, run: &mut Run) {
    let mut tally = Tally::new("shelf.refused");
    let mut stock = Lists::new(r, 6);
    stock.damage(r, 1);
    let each: [usize; 7] = [3, 81, 16, 400, 384, 1, 1];
    for count in [0, 1, 2, 5] {
        let mut right = each.map(|each| each * count);
        right[6] = 1;
        around(right, each, |lengths| {
            let equal = lent(r, &stock, lengths);
            tally.count(equal, || format!("lengths {lengths:?}"));
        });
    }
    tally.end(run);
}

/// Both sides on slices of these lengths: are the answers equal, and every byte and count that could be written?
fn lent(r: &mut Random, stock: &Lists, lengths: [usize; 7]) -> bool {
    let [modes, records, sub_modes, coeffs, out, replies, clipped] = lengths;
    let (modes, records) = (&stock.modes[..modes], &stock.records[..records]);
    let (sub_modes, coeffs) = (&stock.sub_modes[..sub_modes], &stock.coeffs[..coeffs]);
    let mut by_library = Cells::new(r, [out, replies]);
    let mut by_rust = by_library.clone();
    let mut counts = Counts::new(clipped);
    let (ours, theirs) = counts.lend(clipped);
    let ([out, replies], [rust_out, rust_replies]) = (by_library.lend(), by_rust.lend());
    let answers = (
        library::shelf(modes, records, sub_modes, coeffs, out, replies, ours),
        expected::shelf(modes, records, sub_modes, coeffs, rust_out, rust_replies, theirs),
    );
    answers.0 == answers.1 && by_library == by_rust && counts.equal()
}
