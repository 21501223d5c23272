//! distances [--turns N]: bytes a second of `zopredil_distance`, beside C's `memcmp` over the same two planes.
//!
//! The planes are equal, so that `memcmp` reads all of both too, and alike in every size. A turn reads at least 64 MB of
//! each plane, by one call after another; the two functions and the sizes take turns, so that whatever else the machine
//! does meets all of them. Processor time of this thread, the best of N turns. Planes that differ in every pixel are
//! timed as well: the time hangs on the number of pixels alone.

use std::ffi::c_void;
use std::hint::black_box;
use std::process::ExitCode;
use zopredil::{distance, Distances};

/// Columns and rows of the stills.
const SIZES: [[u32; 2]; 6] = [[1, 1], [4, 4], [16, 16], [64, 64], [256, 256], [1024, 256]];

/// Bytes of a plane that a turn reads, at least.
const TURN: usize = 64 << 20;

#[repr(C)]
struct Timespec {
    seconds: i64,
    nanoseconds: i64,
}

extern "C" {
    fn clock_gettime(clock: i32, time: *mut Timespec) -> i32;
    fn memcmp(a: *const c_void, b: *const c_void, n: usize) -> i32;
}

/// The processor time of this thread in nanoseconds.
fn processor_time() -> i64 {
    const CLOCK_THREAD_CPUTIME_ID: i32 = 3;
    let mut time = Timespec { seconds: 0, nanoseconds: 0 };
    // SAFETY: the pointer is that of a local struct of C's layout.
    let failed = unsafe { clock_gettime(CLOCK_THREAD_CPUTIME_ID, &mut time) };
    assert_eq!(failed, 0, "no clock of the thread's processor time");
    1_000_000_000 * time.seconds + time.nanoseconds
}

struct Job {
    size: [u32; 2],
    drawn: Vec<u8>,
    same: Vec<u8>,
    other: Vec<u8>,
}

impl Job {
    fn new(size: [u32; 2]) -> Job {
        let drawn: Vec<u8> =
            (0..256 * size[0] * size[1]).map(|i| (i.wrapping_mul(2_654_435_761) >> 24) as u8).collect();
        Job { size, same: drawn.clone(), other: drawn.iter().map(|x| x ^ 0xA5).collect(), drawn }
    }

    /// Bytes a nanosecond of each plane, of so many calls as make a turn.
    fn time(&self, mut call: impl FnMut(&[u8], &[u8]), with: &[u8]) -> f64 {
        let calls = TURN.div_ceil(self.drawn.len());
        let start = processor_time();
        for _ in 0..calls {
            call(black_box(&self.drawn), black_box(with));
        }
        (calls * self.drawn.len()) as f64 / (processor_time() - start) as f64
    }

    fn told(&self, drawn: &[u8], measured: &[u8]) -> Distances {
        match distance(&[self.size], drawn, measured) {
            Ok(told) => told,
            Err(reply) => panic!("refused: {reply}"),
        }
    }
}

fn bench(turns: usize) {
    let jobs = SIZES.map(Job::new);
    let mut best = [[0f64; 3]; SIZES.len()];
    for _ in 0..turns {
        for (job, best) in jobs.iter().zip(&mut best) {
            let ours = |a: &[u8], b: &[u8]| {
                black_box(job.told(a, b));
            };
            let c = |a: &[u8], b: &[u8]| {
                // SAFETY: both slices have the bytes of the first.
                black_box(unsafe { memcmp(a.as_ptr().cast(), b.as_ptr().cast(), a.len()) });
            };
            let speeds = [job.time(ours, &job.same), job.time(c, &job.same), job.time(ours, &job.other)];
            for (best, speed) in best.iter_mut().zip(speeds) {
                *best = best.max(speed);
            }
        }
    }
    println!("macroblocks   bytes a plane   GB/s   GB/s, all pixels differ   memcmp GB/s   of memcmp");
    for (job, [ours, c, apart]) in jobs.iter().zip(best) {
        let [cols, rows] = job.size;
        let name = format!("{cols}x{rows}");
        let bytes = job.drawn.len();
        println!("{name:>11} {bytes:>15} {ours:>6.2} {apart:>25.2} {c:>13.2} {:>11.2}", ours / c);
    }
}

fn main() -> ExitCode {
    let words: Vec<String> = std::env::args().skip(1).collect();
    let words: Vec<&str> = words.iter().map(String::as_str).collect();
    let turns = match words[..] {
        [] => Ok(15),
        ["--turns", turns] => turns.parse().ok().filter(|&n| n > 0).ok_or(format!("{turns} is no number of turns")),
        _ => Err("it is distances [--turns N]".to_string()),
    };
    match turns {
        Ok(turns) => bench(turns),
        Err(why) => {
            eprintln!("distances: {why}");
            return ExitCode::FAILURE;
        }
    }
    ExitCode::SUCCESS
}
