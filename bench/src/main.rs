//! bench [--turns N]: the walkers of the library and of the Rust on the same macroblocks, in one process, in turn. Each
//! turn draws all macroblocks of a kind by the one and then by the other. Printed are the medians over the turns, in
//! processor time. A turn's ratio is the Rust's time divided by the library's: above 1 the library is faster.
//!
//! bench --count KIND SIDE: draws the macroblocks of a kind once, by `rust` or by `library`, and prints how many they
//! are; `bench/instructions` counts what that takes.
//!
//! Both sides have their input made beforehand, in the form that each takes: for the library bytes and 400 numbers, for
//! the Rust its enums, its record of `Option`s and its arrays of blocks. Both write 384 bytes a macroblock;
//! the library also counts the clipped sums.

mod clock;

use clock::{median, timed};
use judge::blocks::Blocks;
use judge::data;
use judge::expected;
use judge::random::Random;
use std::hint::black_box;
use std::process::ExitCode;
use vp8::macroblock::{IntraBmode, IntraUvMode, IntraYMode};
use vp8::reconstruct::{
    decode_keyframe_mb_bpred, decode_keyframe_mb_non_bpred, MbNeighbors, ReconstructError, ReconstructedMb,
};
use zopredil::raw::zopredil_macroblock;

/// Macroblocks of a kind: some 650 kilobytes on each side.
const COUNT: usize = 512;

/// A macroblock as the library takes it.
struct Given {
    modes: [u8; 3],
    sub_modes: [u8; 16],
    record: [u8; 81],
    coeffs: [i16; 400],
}

/// The same as the Rust takes it.
struct Taken {
    y: IntraYMode,
    uv: IntraUvMode,
    skip: bool,
    sub_modes: [IntraBmode; 16],
    neighbors: MbNeighbors,
    blocks: Blocks,
}

impl Taken {
    fn of(given: &Given) -> Taken {
        let [y, uv, skip] = given.modes;
        Taken {
            y: expected::Y_MODES[usize::from(y)],
            uv: expected::UV_MODES[usize::from(uv)],
            skip: skip == 1,
            sub_modes: given.sub_modes.map(|mode| expected::B_MODES[usize::from(mode)]),
            neighbors: expected::neighbors(&given.record),
            blocks: Blocks::of(&given.coeffs),
        }
    }
}

// ---- the two sides, each under a name that callgrind knows

#[no_mangle]
#[inline(never)]
fn bench_rust(all: &[Taken], out: &mut [ReconstructedMb]) -> Result<(), ReconstructError> {
    for (t, out) in all.iter().zip(out) {
        let b = &t.blocks;
        *out = if t.y == IntraYMode::B {
            decode_keyframe_mb_bpred(Some(&t.sub_modes), t.uv, t.skip, &t.neighbors, &b.y, &b.u, &b.v)?
        } else {
            decode_keyframe_mb_non_bpred(t.y, t.uv, t.skip, &t.neighbors, &b.y2, &b.y, &b.u, &b.v)?
        };
    }
    Ok(())
}

#[no_mangle]
#[inline(never)]
fn bench_library(all: &[Given], out: &mut [[u8; 384]]) -> Result<(), u32> {
    let mut clipped = [0];
    for (g, out) in all.iter().zip(out) {
        // SAFETY: the pointers and the lengths are those of arrays; only out and clipped are written.
        let reply = unsafe {
            zopredil_macroblock(
                g.modes.as_ptr(),
                3,
                g.sub_modes.as_ptr(),
                16,
                g.record.as_ptr(),
                81,
                g.coeffs.as_ptr(),
                400,
                out.as_mut_ptr(),
                384,
                clipped.as_mut_ptr(),
                1,
            )
        };
        if reply != 0 {
            return Err(reply);
        }
    }
    Ok(())
}

// ---- the macroblocks

const KINDS: [&str; 4] = ["decay", "dense", "all_b", "skipped"];

/// A coefficient of at most `most`, not 0.
fn coefficient(r: &mut Random, most: usize) -> i16 {
    let x = r.below(most) as i16 + 1;
    if r.once_in(2) {
        x
    } else {
        -x
    }
}

/// A block with a DC, and with `ac` further coefficients from its start on.
fn block(r: &mut Random, ac: usize, out: &mut [i16]) {
    out[0] = coefficient(r, 400);
    for (i, x) in out.iter_mut().enumerate().skip(1).take(ac) {
        *x = coefficient(r, 200 / i);
    }
}

/// Macroblocks like those of a decay picture: most blocks have no AC coefficient, some nothing at all, a few macroblocks
/// are skipped or of mode B.
fn decay(r: &mut Random, g: &mut Given) {
    g.modes = [if r.once_in(8) { 4 } else { r.below(4) as u8 }, r.below(4) as u8, u8::from(r.once_in(10))];
    for (k, b) in g.coeffs.chunks_mut(16).enumerate() {
        let ac = match (k, r.below(16)) {
            (0, _) => 3,
            (_, 0) => 3,
            (_, 1..=4) => continue,
            _ => 0,
        };
        block(r, ac, b);
    }
}

fn dense(r: &mut Random, g: &mut Given) {
    g.modes = [r.below(4) as u8, r.below(4) as u8, 0];
    for b in g.coeffs.chunks_mut(16) {
        block(r, 15, b);
    }
}

/// Mode B throughout, half of the blocks with DC alone and half with more.
fn all_b(r: &mut Random, g: &mut Given) {
    g.modes = [4, r.below(4) as u8, 0];
    for b in g.coeffs.chunks_mut(16) {
        let ac = if r.once_in(2) { 0 } else { r.below(16) };
        block(r, ac, b);
    }
}

fn skipped(r: &mut Random, g: &mut Given) {
    g.modes = [r.below(5) as u8, r.below(4) as u8, 1];
}

/// The macroblocks of a kind: the inside of a picture and some of its rim, smooth edges, sub-block modes by chance.
fn macroblocks(kind: &str) -> Option<Vec<Given>> {
    let fill = match kind {
        "decay" => decay,
        "dense" => dense,
        "all_b" => all_b,
        "skipped" => skipped,
        _ => return None,
    };
    let mut r = Random::new(12);
    let make = |_| {
        let mut record = [0; 81];
        let tone = 60 + r.below(120) as u8;
        record[10..].fill_with(|| tone + r.below(16) as u8);
        // the first row has nothing above, the first column nothing to its left
        let absent: &[usize] = match r.below(16) {
            0 => &[0, 1, 2, 4, 5, 7, 8],
            1 => &[0, 3, 4, 6, 7, 9],
            _ => &[],
        };
        for mark in 0..10 {
            record[mark] = u8::from(!absent.contains(&mark));
        }
        let mut given = Given { modes: [0; 3], sub_modes: data::sub_modes(&mut r), record, coeffs: [0; 400] };
        fill(&mut r, &mut given);
        given
    };
    Some((0..COUNT).map(make).collect())
}

// ---- the times

/// Both sides' results are equal, or the times would say nothing.
fn equal(rust: &[ReconstructedMb], library: &[[u8; 384]]) -> bool {
    let same = |(r, l): (&ReconstructedMb, &[u8; 384])| l[..256] == r.y && l[256..320] == r.u && l[320..] == r.v;
    rust.iter().zip(library).all(same)
}

fn bench(turns: usize) -> Result<(), String> {
    println!("{COUNT} macroblocks of a kind, medians of {turns} turns, processor time");
    println!("a ratio is the Rust's time divided by the library's: above 1 the library is faster");
    for kind in KINDS {
        let given = macroblocks(kind).ok_or("an unknown kind")?;
        let taken: Vec<Taken> = given.iter().map(Taken::of).collect();
        let mut by_rust = vec![ReconstructedMb::default(); COUNT];
        let mut by_library = vec![[0; 384]; COUNT];
        let (mut rust, mut library) = (Vec::new(), Vec::new());
        for _ in 0..turns {
            rust.push(timed(|| bench_rust(black_box(&taken), black_box(&mut by_rust)).expect("the Rust draws")));
            library.push(timed(|| bench_library(black_box(&given), black_box(&mut by_library)).expect("reply 0")));
        }
        if !equal(&by_rust, &by_library) {
            return Err(format!("the two sides differ on {kind}"));
        }
        let mut ratios: Vec<f64> = rust.iter().zip(&library).map(|(rust, library)| rust / library).collect();
        let million = |times: &mut [f64]| 1e3 * COUNT as f64 / median(times);
        println!(
            "{kind:<8} Rust {:6.2}  library {:6.2} million macroblocks a second  ratio {:.2}",
            million(&mut rust),
            million(&mut library),
            median(&mut ratios)
        );
    }
    Ok(())
}

/// Draws the macroblocks of a kind once.
fn count(kind: &str, side: &str) -> Result<(), String> {
    let given = macroblocks(kind).ok_or_else(|| format!("{kind} is none of {KINDS:?}"))?;
    let taken: Vec<Taken> = given.iter().map(Taken::of).collect();
    match side {
        "rust" => bench_rust(black_box(&taken), &mut vec![ReconstructedMb::default(); COUNT]).expect("the Rust draws"),
        "library" => bench_library(black_box(&given), &mut vec![[0; 384]; COUNT]).expect("reply 0"),
        _ => return Err(format!("{side} is neither rust nor library")),
    }
    println!("{COUNT}");
    Ok(())
}

fn main() -> ExitCode {
    let words: Vec<String> = std::env::args().skip(1).collect();
    let words: Vec<&str> = words.iter().map(String::as_str).collect();
    let done = match words[..] {
        [] => bench(501),
        ["--turns", turns] => match turns.parse() {
            Ok(turns) if turns > 0 => bench(turns),
            _ => Err(format!("{turns} is no number of turns")),
        },
        ["--count", kind, side] => count(kind, side),
        _ => Err("it is bench [--turns N], or bench --count KIND SIDE".to_string()),
    };
    if let Err(why) = done {
        eprintln!("bench: {why}");
        return ExitCode::FAILURE;
    }
    ExitCode::SUCCESS
}
