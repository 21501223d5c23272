//! One comparison, and the counts of many.

use judge::random::Random;

/// A run: how long it is, and what it has found so far.
pub struct Run {
    pub seed: u64,
    pub quick: bool,
    pub differing: u64,
}

impl Run {
    /// How many random cases: all of them, or a hundredth in a quick run.
    pub fn cases(&self, all: usize) -> usize {
        if self.quick {
            all / 100
        } else {
            all
        }
    }

    /// The step of a loop over every case: 1, or in a quick run a larger one.
    pub fn step(&self, quick: usize) -> usize {
        if self.quick {
            quick
        } else {
            1
        }
    }
}

/// Tries lengths around those that fit, two slices at a time: none, an item or an element too few, the right length, an
/// element or an item too many.
pub fn around<const N: usize>(right: [usize; N], each: [usize; N], mut case: impl FnMut([usize; N])) {
    let near = |k: usize| {
        [0, right[k].saturating_sub(each[k]), right[k].saturating_sub(1), right[k], right[k] + 1, right[k] + each[k]]
    };
    for first in 0..N {
        for second in 0..N {
            for x in near(first) {
                for y in near(second) {
                    let mut lengths = right;
                    lengths[first] = x;
                    lengths[second] = y;
                    case(lengths);
                }
            }
        }
    }
}

/// The count of a function's comparisons.
pub struct Tally {
    name: &'static str,
    pub compared: u64,
    differing: u64,
}

impl Tally {
    pub fn new(name: &'static str) -> Tally {
        Tally { name, compared: 0, differing: 0 }
    }

    /// Counts a comparison. The first few that differ are described on standard error.
    pub fn count(&mut self, equal: bool, case: impl FnOnce() -> String) {
        self.compared += 1;
        if !equal {
            self.differing += 1;
            if self.differing <= 3 {
                eprintln!("{} differs: {}", self.name, case());
            }
        }
    }

    /// Prints the function's line.
    pub fn end(self, run: &mut Run) -> u64 {
        println!("{} compared {} differing {}", self.name, self.compared, self.differing);
        run.differing += self.differing;
        self.compared
    }
}

/// Cells on either side of a lent slice, which no call may touch.
const BORDER: usize = 16;

/// A slice lent to the library, between two borders, and the same slice lent to what is expected of it.
pub struct Pair<T> {
    library: Vec<T>,
    expected: Vec<T>,
    mark: T,
}

impl<T: Copy + PartialEq> Pair<T> {
    /// Room for slices of at most `most`. The mark is what stands in the borders, and in a slice that is only written.
    pub fn new(most: usize, mark: T) -> Pair<T> {
        Pair { library: vec![mark; most + 2 * BORDER], expected: vec![mark; most], mark }
    }

    /// Lends a slice of `n` marks to both sides: are the replies equal, and all that stands in the slice and around it?
    pub fn filled(
        &mut self,
        n: usize,
        library: impl FnOnce(&mut [T]) -> u32,
        expected: impl FnOnce(&mut [T]) -> u32,
    ) -> bool {
        self.expected[..n].fill(self.mark);
        self.lend(n, library, expected)
    }

    /// The same with a slice that holds `start`.
    pub fn holding(
        &mut self,
        start: &[T],
        library: impl FnOnce(&mut [T]) -> u32,
        expected: impl FnOnce(&mut [T]) -> u32,
    ) -> bool {
        self.expected[..start.len()].copy_from_slice(start);
        self.lend(start.len(), library, expected)
    }

    fn lend(
        &mut self,
        n: usize,
        library: impl FnOnce(&mut [T]) -> u32,
        expected: impl FnOnce(&mut [T]) -> u32,
    ) -> bool {
        let (before, rest) = self.library[..n + 2 * BORDER].split_at_mut(BORDER);
        let (lent, after) = rest.split_at_mut(n);
        before.fill(self.mark);
        after.fill(self.mark);
        lent.copy_from_slice(&self.expected[..n]);
        let replies = (library(lent), expected(&mut self.expected[..n]));
        let kept = |border: &[T]| border.iter().all(|&x| x == self.mark);
        replies.0 == replies.1 && *lent == self.expected[..n] && kept(before) && kept(after)
    }
}

/// What a count holds before a call.
const COUNT: u64 = 0xA5A5_A5A5_A5A5_A5A5;

/// The count of clipped sums, which some functions write beside another slice: one slice for the library, between two
/// borders, and one for what is expected of it.
pub struct Counts {
    library: Vec<u64>,
    expected: Vec<u64>,
    n: usize,
}

impl Counts {
    /// Room for slices of at most `most`.
    pub fn new(most: usize) -> Counts {
        Counts { library: vec![COUNT; most + 2 * BORDER], expected: vec![COUNT; most + 2 * BORDER], n: 0 }
    }

    /// Two slices of `n` marks: the library's, then the expected one.
    pub fn lend(&mut self, n: usize) -> (&mut [u64], &mut [u64]) {
        self.n = n;
        let [library, expected] = [&mut self.library, &mut self.expected].map(|counts| {
            counts[..n + 2 * BORDER].fill(COUNT);
            &mut counts[BORDER..BORDER + n]
        });
        (library, expected)
    }

    /// Does the same stand in both after the calls, and nothing new around them?
    pub fn equal(&self) -> bool {
        self.library[..self.n + 2 * BORDER] == self.expected[..self.n + 2 * BORDER]
    }
}

/// Several slices of bytes that one call writes, one behind another, each between two borders, all bytes without any
/// rule. A clone is lent to what is expected.
#[derive(Clone, PartialEq)]
pub struct Cells<const N: usize> {
    bytes: Vec<u8>,
    lengths: [usize; N],
}

impl<const N: usize> Cells<N> {
    pub fn new(r: &mut Random, lengths: [usize; N]) -> Cells<N> {
        let mut bytes = vec![0; lengths.iter().sum::<usize>() + 2 * N * BORDER];
        r.bytes(&mut bytes);
        Cells { bytes, lengths }
    }

    pub fn lend(&mut self) -> [&mut [u8]; N] {
        let mut rest = &mut self.bytes[..];
        self.lengths.map(|length| {
            let (cells, after) = std::mem::take(&mut rest).split_at_mut(BORDER + length + BORDER);
            rest = after;
            &mut cells[BORDER..BORDER + length]
        })
    }
}
