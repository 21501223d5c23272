//! Gathering and the right-hand pixels, against the rules of the project's papers: the Rust has no counterpart.

use crate::library;
use crate::tally::{Pair, Run, Tally};
use judge::data;
use judge::expected;
use judge::random::Random;

/// Three planes of a picture that is `cols` macroblocks wide and `rows` high.
struct Planes {
    y: Vec<u8>,
    u: Vec<u8>,
    v: Vec<u8>,
}

impl Planes {
    /// Planes of zeros. The system hands out the memory of a large one as it is touched.
    fn new(count: usize) -> Planes {
        Planes { y: vec![0; 256 * count], u: vec![0; 64 * count], v: vec![0; 64 * count] }
    }

    fn fill(&mut self, r: &mut Random) {
        for plane in [&mut self.y, &mut self.u, &mut self.v] {
            data::any_pixels(r, plane);
        }
    }
}

/// Both sides, their counts by what is expected.
struct Both {
    pair: Pair<u8>,
    tally: Tally,
    refused: Tally,
    random: Random,
}

impl Both {
    /// A case with right-hand pixels that are drawn anew.
    fn case(&mut self, planes: (&[u8], &[u8], &[u8]), size: (usize, usize), place: (usize, usize), record: usize) {
        self.case_with(planes, size, place, 4, record);
    }

    fn case_with(
        &mut self,
        (y, u, v): (&[u8], &[u8], &[u8]),
        size: (usize, usize),
        place: (usize, usize),
        right: usize,
        record: usize,
    ) {
        let ((cols, rows), (col, row)) = (size, place);
        let mut pixels = [0; 16];
        self.random.bytes(&mut pixels);
        let right = &pixels[..right];
        let mut reply = 0;
        let equal = self.pair.filled(
            record,
            |record| library::gather(y, u, v, cols, rows, col, row, right, record),
            |record| {
                reply = expected::gather(y, u, v, cols, rows, col, row, right, record);
                reply
            },
        );
        let tally = if reply == expected::DONE { &mut self.tally } else { &mut self.refused };
        tally.count(equal, || {
            let lengths = (y.len(), u.len(), v.len(), right.len(), record);
            format!("size {size:?} place {place:?} lengths {lengths:?}")
        });
    }
}

/// Every place of every picture of at most 7 by 7 macroblocks, of long and high ones, and of the largest; then sizes,
/// places and lengths around every limit.
pub fn gather(run: &mut Run) -> u64 {
    let mut r = Random::new(run.seed);
    let mut both = Both {
        pair: Pair::new(96, 0x5A),
        tally: Tally::new("gather"),
        refused: Tally::new("gather.refused"),
        random: Random::new(run.seed + 1),
    };

    for cols in 1..=7 {
        for rows in 1..=7 {
            let mut planes = Planes::new(cols * rows);
            for _ in 0..run.cases(300) + 1 {
                planes.fill(&mut r);
                for col in 0..cols {
                    for row in 0..rows {
                        both.case((&planes.y, &planes.u, &planes.v), (cols, rows), (col, row), 81);
                    }
                }
            }
        }
    }
    for (cols, rows) in [(1024, 1), (1, 1024), (1024, 2), (2, 1024), (1023, 3), (3, 1023)] {
        let mut planes = Planes::new(cols * rows);
        planes.fill(&mut r);
        r.bytes(&mut planes.y);
        for col in 0..cols {
            for row in 0..rows {
                both.case((&planes.y, &planes.u, &planes.v), (cols, rows), (col, row), 81);
            }
        }
    }
    largest(&mut r, &mut both);
    refusals(&mut r, &mut both);
    both.refused.end(run);
    both.tally.end(run)
}

/// A picture of 1,024 by 1,024: pixels are drawn only around the places that are gathered.
fn largest(r: &mut Random, both: &mut Both) {
    let (cols, rows) = (1024, 1024);
    let mut planes = Planes::new(cols * rows);
    let places = [0, 1, 511, 512, 1022, 1023];
    for col in places {
        for row in places {
            for (plane, n) in [(&mut planes.y, 16usize), (&mut planes.u, 8), (&mut planes.v, 8)] {
                // the lines from the one above to the macroblock's last, from the pixel to its left to four past its right
                for line in (n * row).saturating_sub(1)..n * row + n {
                    let from = (n * col).saturating_sub(1);
                    let to = (n * col + n + 4).min(n * cols);
                    r.bytes(&mut plane[line * n * cols + from..line * n * cols + to]);
                }
            }
            both.case((&planes.y, &planes.u, &planes.v), (cols, rows), (col, row), 81);
        }
    }
}

fn refusals(r: &mut Random, both: &mut Both) {
    let mut planes = Planes::new(30);
    planes.fill(r);
    let (y, u, v) = (&planes.y[..], &planes.u[..], &planes.v[..]);
    // sides and places at the limits, with products that wrap at 64 bits; the planes fit 1 by 1, 2 by 2, or nothing
    let sides = [0, 1, 2, 1023, 1024, 1025, 1 << 32, 1 << 56, 1 << 60, (1 << 63) + 1, usize::MAX - 1, usize::MAX];
    let places = [0, 1, 2, 1023, 1024, 1025, 1 << 32, 1 << 60, usize::MAX];
    for cols in sides {
        for rows in sides {
            for col in places {
                for row in places {
                    for count in [0, 1, 4] {
                        let planes = (&y[..256 * count], &u[..64 * count], &v[..64 * count]);
                        both.case(planes, (cols, rows), (col, row), 81);
                    }
                }
            }
        }
    }
    // lengths around those that fit
    for (cols, rows) in [(1, 1), (2, 1), (1, 2), (3, 2), (5, 4)] {
        let fit = cols * rows;
        let around = |one: usize| {
            [0, 1, one, one * fit - one, one * fit - 1, one * fit, one * fit + 1, one * fit + one, one * 30]
        };
        for y_len in around(256) {
            for u_len in around(64) {
                for v_len in around(64) {
                    let planes = (&y[..y_len], &u[..u_len], &v[..v_len]);
                    both.case(planes, (cols, rows), (cols - 1, rows - 1), 81);
                }
            }
        }
    }
    for record in 0..=96 {
        both.case((&y[..1024], &u[..256], &v[..256]), (2, 2), (1, 1), record);
        both.case((&y[..1024], &u[..256], &v[..256]), (2, 2), (2, 1), record);
        both.case((&y[..1023], &u[..256], &v[..256]), (2, 2), (1, 1), record);
    }
    for right in 0..=16 {
        for record in [80, 81, 82] {
            both.case_with((&y[..1024], &u[..256], &v[..256]), (2, 2), (1, 1), right, record);
            both.case_with((&y[..1024], &u[..256], &v[..256]), (2, 2), (0, 0), right, record);
            both.case_with((&y[..1024], &u[..256], &v[..256]), (2, 2), (2, 1), right, record);
            both.case_with((&y[..1023], &u[..256], &v[..256]), (2, 2), (1, 1), right, record);
        }
    }
}

/// Every row of pictures of at most 7 by 7 macroblocks and of high ones; then sizes, rows and lengths around every limit.
pub fn right_pixels(run: &mut Run) {
    let mut r = Random::new(run.seed);
    let mut pair = Pair::new(32, 0x5A);
    let (mut tally, mut refused) = (Tally::new("right_pixels"), Tally::new("right_pixels.refused"));
    let mut case = |y: &[u8], (cols, rows): (usize, usize), row: usize, out: usize| {
        let mut reply = 0;
        let equal = pair.filled(
            out,
            |out| library::right_pixels(y, cols, rows, row, out),
            |out| {
                reply = expected::right_pixels(y, cols, rows, row, out);
                reply
            },
        );
        let tally = if reply == expected::DONE { &mut tally } else { &mut refused };
        tally.count(equal, || format!("size {:?} row {row} lengths {:?}", (cols, rows), (y.len(), out)));
    };
    for (cols, rows) in (1..=7).flat_map(|cols| (1..=7).map(move |rows| (cols, rows))) {
        let mut y = vec![0; 256 * cols * rows];
        for _ in 0..run.cases(300) + 1 {
            r.bytes(&mut y);
            for row in 0..=rows {
                case(&y, (cols, rows), row, 4);
            }
        }
    }
    for (cols, rows) in [(1, 1024), (2, 1024), (3, 1023), (1024, 2), (1023, 3)] {
        let mut y = vec![0; 256 * cols * rows];
        r.bytes(&mut y);
        for row in 0..=rows {
            case(&y, (cols, rows), row, 4);
        }
    }
    // the largest picture: its last pixels above each row are drawn
    let mut y = vec![0; 256 << 20];
    for row in 1..1024 {
        let end = 16 * row * 16 * 1024;
        r.bytes(&mut y[end - 2..end + 1]);
    }
    for row in 0..=1024 {
        case(&y, (1024, 1024), row, 4);
    }
    let sides = [0, 1, 2, 1023, 1024, 1025, 1 << 32, 1 << 56, 1 << 60, (1 << 63) + 1, usize::MAX - 1, usize::MAX];
    for (cols, rows) in sides.into_iter().flat_map(|cols| sides.map(|rows| (cols, rows))) {
        for row in [0, 1, 2, 1023, 1024, 1025, 1 << 32, 1 << 60, usize::MAX] {
            for length in [0, 256, 512, 1024] {
                case(&y[..length], (cols, rows), row, 4);
            }
        }
    }
    for (cols, rows) in [(1, 2), (2, 2), (3, 2), (5, 4)] {
        for length in (0..256 * cols * rows + 300).step_by(if run.quick { 7 } else { 1 }) {
            case(&y[..length], (cols, rows), rows - 1, 4);
        }
    }
    for out in 0..=32 {
        for (length, row) in [(1024, 1), (1024, 0), (1023, 1)] {
            case(&y[..length], (2, 2), row, out);
        }
    }
    refused.end(run);
    tally.end(run);
}
