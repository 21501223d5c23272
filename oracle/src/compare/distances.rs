//! Distances of lists of stills: against a plain loop over the pixels, and every refusal against the papers.

use crate::library;
use crate::tally::{around, Counts, Run, Tally};
use judge::random::Random;

/// The lists of a call.
#[derive(Clone, Default)]
struct Lists {
    sizes: Vec<u32>,
    drawn: Vec<u8>,
    measured: Vec<u8>,
}

impl Lists {
    /// Stills of these sizes, all pixels 0.
    fn new(sizes: &[u32]) -> Lists {
        let pixels = sizes.chunks_exact(2).map(|size| 256 * size[0] as usize * size[1] as usize).sum();
        Lists { sizes: sizes.to_vec(), drawn: vec![0; pixels], measured: vec![0; pixels] }
    }

    fn stills(&self) -> usize {
        self.sizes.len() / 2
    }
}

/// Sum of squares, largest difference and equal pixels, a pixel after another.
fn plain(drawn: &[u8], measured: &[u8]) -> [u64; 3] {
    let mut found = [0; 3];
    for (&x, &y) in drawn.iter().zip(measured) {
        let apart = u64::from(x.abs_diff(y));
        found[0] += apart * apart;
        found[1] = found[1].max(apart);
        found[2] += u64::from(apart == 0);
    }
    found
}

/// What must be answered and written. Lengths are compared in 128 bits, which no list of `u32` can pass.
fn expected(lists: &Lists, reports: &mut [u64], totals: &mut [u64]) -> u32 {
    if totals.len() != 3 {
        return 1;
    }
    totals.fill(0);
    let Lists { sizes, drawn, measured } = lists;
    if sizes.len() > 8192 {
        return 12;
    }
    if sizes.iter().any(|&side| !(1..=1024).contains(&side)) {
        return 7;
    }
    let pixels = |size: &[u32]| 256 * u128::from(size[0]) * u128::from(size[1]);
    let all: u128 = sizes.chunks_exact(2).map(pixels).sum();
    let fits = |length: usize| length as u128 == all;
    if sizes.len() % 2 != 0 || !fits(drawn.len()) || !fits(measured.len()) || reports.len() != 3 * lists.stills() {
        return 1;
    }
    let mut at = 0;
    for (size, report) in sizes.chunks_exact(2).zip(reports.chunks_exact_mut(3)) {
        let end = at + pixels(size) as usize;
        let found = plain(&drawn[at..end], &measured[at..end]);
        report.copy_from_slice(&found);
        totals[0] += found[0];
        totals[1] = totals[1].max(found[1]);
        totals[2] += found[2];
        at = end;
    }
    0
}

/// One call, with room for so many reported numbers and totals.
fn call(tally: &mut Tally, lists: &Lists, reports: usize, totals: usize) {
    let (mut told, mut sums) = (Counts::new(reports), Counts::new(totals));
    let ((r, r_expected), (t, t_expected)) = (told.lend(reports), sums.lend(totals));
    let Lists { sizes, drawn, measured } = lists;
    let replies = (library::distance(sizes, drawn, measured, r, t), expected(lists, r_expected, t_expected));
    let equal = replies.0 == replies.1 && told.equal() && sums.equal();
    tally.count(equal, || {
        let lengths = (sizes.len(), drawn.len(), measured.len(), reports, totals);
        format!("replies {replies:?}, lengths {lengths:?}, sizes {:?}", &sizes[..sizes.len().min(12)])
    });
}

/// Planes by chance: measured without any rule, or near, or equal but for a few pixels, or equal.
fn fill(r: &mut Random, lists: &mut Lists) {
    r.bytes(&mut lists.drawn);
    match r.below(4) {
        0 => r.bytes(&mut lists.measured),
        1 => {
            let near = |x: &u8, r: &mut Random| x.saturating_add(r.below(5) as u8).saturating_sub(2);
            lists.measured = lists.drawn.iter().map(|x| near(x, r)).collect();
        }
        kind => {
            lists.measured.clone_from(&lists.drawn);
            if kind == 2 && !lists.drawn.is_empty() {
                for _ in 0..r.below(9) {
                    let at = r.below(lists.drawn.len());
                    lists.measured[at] = r.byte();
                }
            }
        }
    }
}

/// Lists of stills by chance, and planes at the ends of what pixels can be. Returns how many stills were compared.
pub fn distances(run: &mut Run) -> u64 {
    let mut tally = Tally::new("distance");
    let mut r = Random::new(run.seed ^ 0xD157_A9CE);
    let mut stills = 0;
    let mut try_lists = |tally: &mut Tally, lists: &Lists| {
        stills += lists.stills() as u64;
        call(tally, lists, 3 * lists.stills(), 3);
    };
    try_lists(&mut tally, &Lists::default());
    for _ in 0..run.cases(20_000) {
        let sizes: Vec<u32> = (0..2 * r.below(7)).map(|_| 1 + r.below(5) as u32).collect();
        let mut lists = Lists::new(&sizes);
        fill(&mut r, &mut lists);
        try_lists(&mut tally, &lists);
    }
    // every pair of pixels, in a still of 16 by 16 macroblocks
    let mut pairs = Lists::new(&[16, 16]);
    for (i, (x, y)) in pairs.drawn.iter_mut().zip(&mut pairs.measured).enumerate() {
        (*x, *y) = ((i >> 8) as u8, i as u8);
    }
    try_lists(&mut tally, &pairs);
    // the farthest that planes can be apart, in sizes around the 255 turns of 64 pixels that are counted in bytes: they
    // are 63.75 macroblocks
    for sizes in [&[1, 1][..], &[63, 1], &[64, 1], &[65, 1], &[255, 1], &[256, 2], &[1024, 1, 1, 1024], &[91, 77, 3, 5]]
    {
        for (x, y) in [(0, 255), (255, 0), (0, 0), (255, 255), (128, 127)] {
            let mut lists = Lists::new(sizes);
            lists.drawn.fill(x);
            lists.measured.fill(y);
            try_lists(&mut tally, &lists);
            // and one pixel that is otherwise, at the ends and somewhere
            let end = lists.drawn.len() - 1;
            for at in [0, end, r.below(end)] {
                let was = std::mem::replace(&mut lists.measured[at], x ^ 1);
                try_lists(&mut tally, &lists);
                lists.measured[at] = was;
            }
        }
    }
    // as many stills as there may be, and a large one
    let mut many = Lists::new(&[1; 8192]);
    fill(&mut r, &mut many);
    try_lists(&mut tally, &many);
    let side = if run.quick { 64 } else { 1024 };
    let mut large = Lists::new(&[side, side]);
    large.drawn.fill(255);
    try_lists(&mut tally, &large);
    r.bytes(&mut large.drawn);
    r.bytes(&mut large.measured);
    try_lists(&mut tally, &large);
    tally.end(run);
    stills
}

/// Every refusal: what is answered, that the reports stay, and that the totals are zeros.
pub fn refused(run: &mut Run) {
    let mut tally = Tally::new("distance.refused");
    let mut r = Random::new(run.seed ^ 0x2EF5);
    // lengths around those that fit, two slices at a time
    let right = Lists::new(&[2, 1, 1, 1, 1, 3]);
    let pixels = right.drawn.len();
    around([6, pixels, pixels, 9, 3], [2, 256, 256, 3, 1], |[sizes, drawn, measured, reports, totals]| {
        let mut lists = right.clone();
        lists.sizes.resize(sizes, 1);
        lists.drawn.resize(drawn, 0);
        lists.measured.resize(measured, 0);
        call(&mut tally, &lists, reports, totals);
    });
    // sides outside their limits, in each place, with lengths that fit and that do not
    for place in 0..6 {
        for side in [0, 1, 1024, 1025, 65536, 1 << 31, u32::MAX] {
            for reports in [9, 8] {
                for totals in [3, 2] {
                    let mut lists = right.clone();
                    lists.sizes[place] = side;
                    call(&mut tally, &lists, reports, totals);
                    // sides whose pixels are 0 modulo 2^32 and 2^64
                    lists.sizes[place ^ 1] = side;
                    call(&mut tally, &lists, reports, totals);
                }
            }
        }
    }
    // 4,096 stills and more, with sides within their limits and outside
    for count in [8190, 8191, 8192, 8193, 8194, 20_000] {
        for side in [1, 0, 1024, 1025, u32::MAX] {
            let mut lists = Lists { sizes: vec![1; count], drawn: Vec::new(), measured: Vec::new() };
            let place = r.below(count);
            lists.sizes[place] = side;
            for totals in [3, 4] {
                call(&mut tally, &lists, 3 * (count / 2), totals);
                call(&mut tally, &lists, 0, totals);
            }
        }
    }
    // the largest list there may be: its planes would have 2^40 pixels each
    let largest = Lists { sizes: vec![1024; 8192], drawn: vec![7; 4096], measured: vec![9; 4096] };
    call(&mut tally, &largest, 3 * 4096, 3);
    tally.end(run);
}
