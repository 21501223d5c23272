//! The coefficient tokens: partitions and probabilities of every kind, read to their end, against the Rust's walk by
//! macroblocks, by blocks, and the second reader; and what is refused of them.

use crate::library;
use crate::tally::{around, Run, Tally};
use judge::random::Random;
use judge::tokens::{self as expected, Place};
use reader::bools::Bools;
use reader::tokens::Rule;
use reader::DEFAULT_COEFF_PROBS;

/// Cells on either side of a lent slice.
const BORDER: usize = 16;

/// A slice that is lent to the library, between two borders.
struct Lent<T> {
    cells: Vec<T>,
    mark: T,
}

impl<T: Copy + PartialEq> Lent<T> {
    fn new(mark: T, held: &[T]) -> Lent<T> {
        let border = vec![mark; BORDER];
        Lent { cells: [&border, held, &border].concat(), mark }
    }

    fn slice(&mut self) -> &mut [T] {
        let end = self.cells.len() - BORDER;
        &mut self.cells[BORDER..end]
    }

    /// Does the slice hold this, and each border what it held?
    fn holds(&self, held: &[T]) -> bool {
        let (before, rest) = self.cells.split_at(BORDER);
        let (inside, after) = rest.split_at(rest.len() - BORDER);
        inside == held && before.iter().chain(after).all(|&x| x == self.mark)
    }
}

// ---- the data

/// Kinds of partitions that [`partition`] makes.
const PARTITIONS: usize = 8;

fn partition(r: &mut Random, kind: usize, length: usize) -> Vec<u8> {
    let mut bytes = vec![0; length];
    match kind {
        // without any rule
        0 | 1 => r.bytes(&mut bytes),
        // zeros, or one byte throughout
        2 => {}
        3 => bytes.fill(r.byte()),
        // mostly zeros, mostly ones
        4 => bytes.fill_with(|| if r.once_in(4) { r.byte() } else { 0 }),
        5 => bytes.fill_with(|| if r.once_in(4) { r.byte() } else { 255 }),
        // limits
        6 => bytes.fill_with(|| r.of(&[0, 1, 2, 127, 128, 129, 253, 254, 255])),
        // begins with 255, as no encoder writes it
        _ => {
            r.bytes(&mut bytes);
            if let Some(first) = bytes.first_mut() {
                *first = 255;
            }
        }
    }
    bytes
}

/// Kinds of probabilities that [`probabilities`] makes.
const TABLES: usize = 6;

fn probabilities(r: &mut Random, kind: usize) -> [u8; 1056] {
    let any = |r: &mut Random| 1 + r.below(255) as u8;
    match kind {
        0 => DEFAULT_COEFF_PROBS,
        1 => std::array::from_fn(|_| any(r)),
        2 => [any(r); 1056],
        3 => std::array::from_fn(|_| if r.once_in(2) { 1 } else { 255 }),
        // by node: the end of the block rare, each other node of its own
        4 => {
            let mut nodes: [u8; 11] = std::array::from_fn(|_| any(r));
            nodes[0] = 1 + r.below(12) as u8;
            std::array::from_fn(|i| nodes[i % 11])
        }
        // large values: zeros and ends rare, then towards the last category
        _ => {
            let nodes = [3, 20, 40, 40, 128, 128, 60, 128, 60, 128, 90];
            std::array::from_fn(|i| nodes[i % 11])
        }
    }
}

fn flags(r: &mut Random) -> [u8; 9] {
    std::array::from_fn(|_| r.below(2) as u8)
}

// ---- the comparison

struct Tallies {
    read: Tally,
    past: Tally,
    /// `decode_block`, a block at a time, and the second reader, against the same answers.
    blocks: Tally,
    reader: Tally,
}

/// A partition that is read by the library and by what is expected of it; the state is the second reader's.
struct Reading<'a> {
    bytes: &'a [u8],
    probabilities: &'a [u8; 1056],
    state: [u64; 4],
    place: Place<'a>,
    second: Bools<'a>,
}

impl<'a> Reading<'a> {
    fn new(bytes: &'a [u8], probabilities: &'a [u8; 1056]) -> Reading<'a> {
        let second = Bools::new(bytes);
        Reading { bytes, probabilities, state: second.state(), place: expected::start(bytes), second }
    }

    /// The partition in a message: its length and its first bytes.
    fn told(&self) -> String {
        let length = self.bytes.len();
        format!("partition of {length}, {:?}", &self.bytes[..length.min(24)])
    }

    /// The next macroblock: whether it was read. The flags go on with what was read.
    fn next(&mut self, y2: u8, above: &mut [u8; 9], left: &mut [u8; 9], tallies: &mut Tallies) -> bool {
        let (before, start) = ((*above, *left, self.state), self.place.clone());
        let (mut a, mut l) = (Lent::new(0x5A, above), Lent::new(0xA5, left));
        let (mut s, mut c) = (Lent::new(!0, &self.state), Lent::new(0x5AA5, &[0x7E7E; 400]));
        let (bytes, probs) = (self.bytes, self.probabilities);
        let reply = library::tokens(bytes, probs, y2, a.slice(), l.slice(), s.slice(), c.slice());
        let mut coeffs = [0x7E7E; 400];
        let right = expected::tokens(probs, y2, above, left, Some(&mut self.place), &mut coeffs);
        self.others(y2, start, &before, right == 0, (&coeffs, above, left), tallies);
        let equal = reply == right && a.holds(above) && l.holds(left) && c.holds(&coeffs) && s.holds(&self.state);
        let tally = if right == 0 { &mut tallies.read } else { &mut tallies.past };
        tally.count(equal, || {
            let (above, left, state) = before;
            let bytes = self.told();
            format!("replies {reply} {right}, y2 {y2} above {above:?} left {left:?} state {state:?} {bytes}")
        });
        right == 0
    }

    /// The same macroblock by the Rust's `decode_block` and by the second reader, whose state goes on.
    fn others(
        &mut self,
        y2: u8,
        start: Place<'_>,
        before: &([u8; 9], [u8; 9], [u64; 4]),
        read: bool,
        answer: (&[i16; 400], &[u8; 9], &[u8; 9]),
        tallies: &mut Tallies,
    ) {
        let flags = |bytes: &[u8; 9]| bytes.map(|byte| byte == 1);
        let right = read.then(|| (*answer.0, flags(answer.1), flags(answer.2)));
        let (mut above, mut left) = (flags(&before.0), flags(&before.1));
        let mut place = start;
        let walked = place.as_mut().and_then(|at| expected::by_blocks(at, self.probabilities, y2 == 1, above, left));
        tallies.blocks.count(walked == right, || format!("y2 {y2} {}", self.told()));
        let mut bools = self.second.clone();
        let second =
            reader::tokens::macroblock(&mut bools, self.probabilities, y2 == 1, Rule::Values, &mut above, &mut left);
        let second = (!bools.past).then_some((second.coeffs, above, left));
        tallies.reader.count(second == right, || format!("y2 {y2} {}", self.told()));
        if read {
            self.second = bools;
            self.state = self.second.state();
        }
    }
}

/// Partitions of every kind, each read macroblock by macroblock until it is at its end, and then once more. Returned is how
/// many macroblocks were read.
pub fn tokens(run: &mut Run) -> u64 {
    let mut r = Random::new(run.seed);
    let mut tallies = Tallies {
        read: Tally::new("tokens"),
        past: Tally::new("tokens.past"),
        blocks: Tally::new("decode_block"),
        reader: Tally::new("tokens.reader"),
    };
    for case in 0..run.cases(100_000) {
        let most = r.of(&[6, 60, 600, 3_000]);
        let length = r.below(most);
        let bytes = partition(&mut r, case % PARTITIONS, length);
        let table = r.below(TABLES);
        let probabilities = probabilities(&mut r, table);
        let mut reading = Reading::new(&bytes, &probabilities);
        let (mut above, mut left) = (flags(&mut r), flags(&mut r));
        for _ in 0..12 {
            if r.once_in(3) {
                (above, left) = (flags(&mut r), flags(&mut r));
            }
            let y2 = r.below(2) as u8;
            if !reading.next(y2, &mut above, &mut left, &mut tallies) {
                // refused again, from the same state
                reading.next(y2, &mut above, &mut left, &mut tallies);
                break;
            }
        }
    }
    cut(&mut r, run, &mut tallies);
    let read = tallies.read.end(run);
    tallies.past.end(run);
    tallies.blocks.end(run);
    tallies.reader.end(run);
    refused(&mut r, run);
    lengths(&mut r, run);
    states(&mut r, run);
    read
}

/// A macroblock from every start of a partition, byte by byte: it is read where all that it needs is there, whatever
/// stands behind.
fn cut(r: &mut Random, run: &mut Run, tallies: &mut Tallies) {
    for _ in 0..run.cases(2_000) {
        let (kind, table) = (r.below(PARTITIONS), r.below(TABLES));
        let whole = partition(r, kind, 160);
        let probabilities = probabilities(r, table);
        let (above, left, y2) = (flags(r), flags(r), r.below(2) as u8);
        for length in 0..=whole.len() {
            let mut other = whole.clone();
            r.bytes(&mut other[length..]);
            for bytes in [&whole[..length], &other] {
                let mut reading = Reading::new(bytes, &probabilities);
                reading.next(y2, &mut above.clone(), &mut left.clone(), tallies);
            }
        }
    }
}

/// A call that both sides answer, with any bytes and lengths, from a partition's start.
#[derive(Clone)]
struct Call {
    bytes: Vec<u8>,
    probabilities: Vec<u8>,
    y2: u8,
    above: Vec<u8>,
    left: Vec<u8>,
    state: usize,
    coeffs: usize,
}

impl Call {
    fn new(r: &mut Random, length: usize) -> Call {
        let table = r.below(TABLES);
        Call {
            bytes: partition(r, 0, length),
            probabilities: probabilities(r, table).to_vec(),
            y2: r.below(2) as u8,
            above: flags(r).to_vec(),
            left: flags(r).to_vec(),
            state: 4,
            coeffs: 400,
        }
    }

    fn count(&self, tally: &mut Tally) {
        let mut state = [7; 16];
        state[..4].copy_from_slice(&Bools::new(&self.bytes).state());
        let held = &state[..self.state];
        let (mut a, mut l) = (Lent::new(0x5A, &self.above), Lent::new(0xA5, &self.left));
        let (mut s, mut c) = (Lent::new(!0, held), Lent::new(0x5AA5, &vec![0x7E7E; self.coeffs]));
        let reply =
            library::tokens(&self.bytes, &self.probabilities, self.y2, a.slice(), l.slice(), s.slice(), c.slice());
        let (mut above, mut left, mut coeffs) = (self.above.clone(), self.left.clone(), vec![0x7E7E; self.coeffs]);
        let mut place = expected::start(&self.bytes);
        let place = (self.state == 4).then_some(&mut place);
        let right = expected::tokens(&self.probabilities, self.y2, &mut above, &mut left, place, &mut coeffs);
        let kept = right == 0 || s.holds(held);
        let equal = reply == right && a.holds(&above) && l.holds(&left) && c.holds(&coeffs) && kept;
        tally.count(equal, || {
            let (p, state, n) = (self.probabilities.len(), self.state, self.coeffs);
            let (y2, above, left) = (self.y2, &self.above, &self.left);
            format!("replies {reply} {right}: y2 {y2} above {above:?} left {left:?} lengths {p} {state} {n}")
        });
    }
}

/// Every byte in the place of `y2` and of each flag, a probability of 0 in each place; and reasons together, of which the
/// first of the list is given.
fn refused(r: &mut Random, run: &mut Run) {
    let mut tally = Tally::new("tokens.refused");
    for byte in 0..=255 {
        let start = Call::new(r, 600);
        Call { y2: byte, ..start.clone() }.count(&mut tally);
        for place in 0..9 {
            let mut call = start.clone();
            call.above[place] = byte;
            call.count(&mut tally);
            let mut call = start.clone();
            call.left[place] = byte;
            call.count(&mut tally);
        }
    }
    for place in 0..1056 {
        let mut call = Call::new(r, 600);
        call.probabilities[place] = 0;
        call.count(&mut tally);
    }
    // each of the reasons alone and with each other, every order of them
    for _ in 0..run.cases(20_000) {
        let length = if r.once_in(2) { 2_000 } else { r.below(4) };
        let mut call = Call::new(r, length);
        if r.once_in(2) {
            call.probabilities[r.below(1056)] = 0;
        }
        if r.once_in(3) {
            call.y2 = r.byte();
        }
        if r.once_in(3) {
            call.above[r.below(9)] = r.byte();
        }
        if r.once_in(3) {
            call.left[r.below(9)] = r.byte();
        }
        if r.once_in(4) {
            call.probabilities.pop();
        }
        call.count(&mut tally);
    }
    tally.end(run);
}

/// Lengths around those that fit, two slices at a time, of calls that would be read and of such as would be refused
/// otherwise; and of the state at a start.
fn lengths(r: &mut Random, run: &mut Run) {
    let mut tally = Tally::new("tokens.lengths");
    let mut starts = Vec::new();
    for length in [0, 1, 600] {
        let call = Call::new(r, length);
        let mut wrong = call.clone();
        wrong.y2 = 2;
        wrong.probabilities[5] = 0;
        starts.extend([call, wrong]);
    }
    around([1056, 9, 9, 4, 400], [11, 1, 1, 1, 16], |[p, a, l, s, c]| {
        for start in &starts {
            let mut call = start.clone();
            call.probabilities.resize(p, 128);
            call.above.resize(a, 0);
            call.left.resize(l, 0);
            (call.state, call.coeffs) = (s, c);
            call.count(&mut tally);
        }
    });
    for length in [0, 1, 2, 3, 4, 9, 300] {
        let bytes = partition(r, 0, length);
        for n in 0..9 {
            let mut state = Lent::new(!0, &vec![5; n]);
            let reply = library::bool_start(&bytes, state.slice());
            let right = if n == 4 { Bools::new(&bytes).state().to_vec() } else { vec![5; n] };
            let equal = reply == u32::from(n != 4) && state.holds(&right);
            tally.count(equal, || format!("bool_start {length} bytes, state of {n}"));
        }
    }
    tally.end(run);
}

/// States of any numbers, against the second reader: one that no start and no read leaves answers 9, from another the next
/// macroblock is read.
fn states(r: &mut Random, run: &mut Run) {
    let mut tally = Tally::new("tokens.states");
    for _ in 0..run.cases(200_000) {
        let (kind, length) = (r.below(PARTITIONS), r.below(200));
        let bytes = partition(r, kind, length);
        let table = r.below(TABLES);
        let probabilities = probabilities(r, table);
        let mut bools = Bools::new(&bytes);
        for _ in 0..r.below(8) {
            bools.literal(r.below(9) as u32);
        }
        let mut state = bools.state();
        for _ in 0..r.below(3) {
            let place = r.below(4);
            state[place] = match r.below(6) {
                0 => r.bits(),
                1 => r.bits() >> r.below(64),
                2 => state[place].wrapping_add(r.bits() % 17).wrapping_sub(8),
                3 => r.of(&[0, 1, 127, 128, 255, 256, 1 << 32, !0]),
                4 => state[place].wrapping_add(256 * r.bits()),
                _ => state[place] ^ 1 << r.below(64),
            };
        }
        let (above, left, y2) = (flags(r), flags(r), r.below(2) as u8);
        let (mut a, mut l) = (Lent::new(0x5A, &above), Lent::new(0xA5, &left));
        let (mut s, mut c) = (Lent::new(!0, &state), Lent::new(0x5AA5, &[0x7E7E; 400]));
        let reply = library::tokens(&bytes, &probabilities, y2, a.slice(), l.slice(), s.slice(), c.slice());
        let read = Bools::resume(&bytes, state).and_then(|mut bools| {
            let (mut above, mut left) = (above.map(|flag| flag == 1), left.map(|flag| flag == 1));
            let read =
                reader::tokens::macroblock(&mut bools, &probabilities, y2 == 1, Rule::Values, &mut above, &mut left);
            (!bools.past).then(|| (0, above.map(u8::from), left.map(u8::from), bools.state(), read.coeffs))
        });
        let right = read.unwrap_or((expected::PAST_END, above, left, state, [0; 400]));
        let equal =
            reply == right.0 && a.holds(&right.1) && l.holds(&right.2) && s.holds(&right.3) && c.holds(&right.4);
        tally.count(equal, || format!("replies {reply} {} to state {state:?} of {length} bytes", right.0));
    }
    tally.end(run);
}
