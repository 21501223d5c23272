//! tokens [--turns N]: the library's reading of tokens and the Rust's `decode_mb_coeffs` on the same partitions, in one
//! process, in turn. Printed are the medians over the turns, in processor time. A turn's ratio is the Rust's time divided
//! by the library's: above 1 the library is faster.
//!
//! tokens --count KIND SIDE: reads the macroblocks of a kind once, by `rust` or by `library`, and prints how many they
//! are, for callgrind.
//!
//! The Rust reads its bools from the oracle's stand-in, a window of 64 bits that is filled some bytes at a time as the
//! library's is; the Rust's own decoder is not at hand. The partitions are random bytes, so how many tokens a block has
//! and how large they are is what the probabilities say.

mod clock;

use clock::{median, timed};
use judge::random::Random;
use std::hint::black_box;
use std::process::ExitCode;
use vp8::bool_decoder::BoolDecoder;
use vp8::dct_tokens::{decode_mb_coeffs, CoeffProbs, MbEntropyCtx, DEFAULT_COEFF_PROBS};
use vp8::frame::MbCoeffs;
use zopredil::raw::{zopredil_bool_start, zopredil_tokens};

/// Macroblocks of a kind, and how many of them a row has.
const COUNT: usize = 512;
const COLS: usize = 32;

/// A partition, its probabilities as each side takes them, and whether each macroblock has a Y2 block.
struct Given {
    bytes: Vec<u8>,
    flat: Vec<u8>,
    table: CoeffProbs,
    y2: Vec<bool>,
}

const KINDS: [&str; 3] = ["dense", "default", "sparse"];

impl Given {
    /// `dense`: some fifteen tokens a block, of every size. `default`: the RFC's probabilities. `sparse`: most blocks
    /// empty, the others with a small value or two, as in a decay picture. One macroblock of eight is of mode B.
    fn new(kind: &str) -> Option<Given> {
        // by node of the tree: end of block, zero, one, small or category, ..
        let nodes = match kind {
            "dense" => Some([4, 60, 100, 160, 128, 128, 160, 128, 128, 128, 200]),
            "sparse" => Some([235, 140, 240, 250, 200, 200, 250, 128, 128, 128, 128]),
            "default" => None,
            _ => return None,
        };
        let mut table = DEFAULT_COEFF_PROBS;
        if let Some(nodes) = nodes {
            table = [[[nodes; 3]; 8]; 4];
        }
        let mut r = Random::new(10);
        let mut bytes = vec![0; 1 << 20];
        r.bytes(&mut bytes);
        bytes[0] = 77;
        let flat = table.iter().flatten().flatten().flatten().copied().collect();
        Some(Given { bytes, flat, table, y2: (0..COUNT).map(|_| !r.once_in(8)).collect() })
    }
}

// ---- the two sides, each under a name that callgrind knows

#[no_mangle]
#[inline(never)]
fn bench_rust(given: &Given, out: &mut [MbCoeffs]) {
    let mut decoder = BoolDecoder::new(&given.bytes).expect("the partition is long enough");
    let (mut above, mut left) = ([MbEntropyCtx::default(); COLS], MbEntropyCtx::default());
    for (k, out) in out.iter_mut().enumerate() {
        if k % COLS == 0 {
            left = MbEntropyCtx::default();
        }
        let above = &mut above[k % COLS];
        *out = decode_mb_coeffs(&mut decoder, given.y2[k], false, &given.table, above, &mut left)
            .expect("the partition is long enough");
    }
}

#[no_mangle]
#[inline(never)]
fn bench_library(given: &Given, out: &mut [[i16; 400]]) {
    let (src, src_len) = (given.bytes.as_ptr(), given.bytes.len());
    let mut state = [0; 4];
    // SAFETY: the pointers and the lengths are those of slices and arrays; only state is written.
    assert_eq!(unsafe { zopredil_bool_start(src, src_len, state.as_mut_ptr(), 4) }, 0);
    let (mut above, mut left) = ([[0; 9]; COLS], [0; 9]);
    for (k, out) in out.iter_mut().enumerate() {
        if k % COLS == 0 {
            left = [0; 9];
        }
        let (probs, above) = (given.flat.as_ptr(), &mut above[k % COLS]);
        // SAFETY: the same; above, left, state and out are written.
        let reply = unsafe {
            zopredil_tokens(
                src,
                src_len,
                probs,
                1056,
                given.y2[k].into(),
                above.as_mut_ptr(),
                9,
                left.as_mut_ptr(),
                9,
                state.as_mut_ptr(),
                4,
                out.as_mut_ptr(),
                400,
            )
        };
        assert_eq!(reply, 0);
    }
}

/// Both sides' results are equal, or the times would say nothing.
fn equal(rust: &[MbCoeffs], library: &[[i16; 400]]) -> bool {
    rust.iter().zip(library).all(|(r, l)| {
        let blocks = [r.y2].into_iter().chain(r.y).chain(r.u).chain(r.v);
        blocks.zip(l.chunks(16)).all(|(rust, library)| rust == *library)
    })
}

fn bench(turns: usize) -> Result<(), String> {
    println!("{COUNT} macroblocks of a kind, medians of {turns} turns, processor time");
    for kind in KINDS {
        let given = Given::new(kind).ok_or("an unknown kind")?;
        let mut by_rust = vec![MbCoeffs::default(); COUNT];
        let mut by_library = vec![[0; 400]; COUNT];
        let (mut rust, mut library) = (Vec::new(), Vec::new());
        for _ in 0..turns {
            rust.push(timed(|| bench_rust(black_box(&given), black_box(&mut by_rust))));
            library.push(timed(|| bench_library(black_box(&given), black_box(&mut by_library))));
        }
        if !equal(&by_rust, &by_library) {
            return Err(format!("the two sides differ on {kind}"));
        }
        let values = by_library.iter().flatten().filter(|&&x| x != 0).count();
        let mut ratios: Vec<f64> = rust.iter().zip(&library).map(|(rust, library)| rust / library).collect();
        let each = |times: &mut [f64]| median(times) / COUNT as f64;
        println!(
            "{kind:<8} {:4} values  Rust {:6.0}  library {:6.0} nanoseconds a macroblock  ratio {:.2}",
            values / COUNT,
            each(&mut rust),
            each(&mut library),
            median(&mut ratios)
        );
    }
    Ok(())
}

/// Reads the macroblocks of a kind once.
fn count(kind: &str, side: &str) -> Result<(), String> {
    let given = Given::new(kind).ok_or_else(|| format!("{kind} is none of {KINDS:?}"))?;
    match side {
        "rust" => bench_rust(black_box(&given), &mut vec![MbCoeffs::default(); COUNT]),
        "library" => bench_library(black_box(&given), &mut vec![[0; 400]; COUNT]),
        _ => return Err(format!("{side} is neither rust nor library")),
    }
    println!("{COUNT}");
    Ok(())
}

fn main() -> ExitCode {
    let words: Vec<String> = std::env::args().skip(1).collect();
    let words: Vec<&str> = words.iter().map(String::as_str).collect();
    let done = match words[..] {
        [] => bench(301),
        ["--turns", turns] => match turns.parse() {
            Ok(turns) if turns > 0 => bench(turns),
            _ => Err(format!("{turns} is no number of turns")),
        },
        ["--count", kind, side] => count(kind, side),
        _ => Err("it is tokens [--turns N], or tokens --count KIND SIDE".to_string()),
    };
    if let Err(why) = done {
        eprintln!("tokens: {why}");
        return ExitCode::FAILURE;
    }
    ExitCode::SUCCESS
}
