//! compare [--quick] [--seed N] [--sample FILE]: compares the library, through its C interface, with the Rust and the
//! project's papers. A line for each function says how many calls were compared and how many differ; the status is 1
//! where any does.

mod distances;
mod filters;
mod gathering;
mod lengths;
mod library;
mod predictions;
mod replay;
mod shelves;
mod stills;
mod tally;
mod tokens;
mod transforms;
mod walkers;

use std::process::ExitCode;
use tally::Run;

struct Words {
    quick: bool,
    seed: u64,
    sample: Option<String>,
}

fn words() -> Result<Words, String> {
    let mut words = Words { quick: false, seed: 1, sample: None };
    let mut given = std::env::args().skip(1);
    while let Some(word) = given.next() {
        match word.as_str() {
            "--quick" => words.quick = true,
            "--seed" => {
                let seed = given.next().ok_or("--seed wants a number")?;
                words.seed = seed.parse().map_err(|_| format!("{seed} is no seed"))?;
            }
            "--sample" => words.sample = Some(given.next().ok_or("--sample wants a file")?),
            _ => return Err(format!("unknown word {word}; it is compare [--quick] [--seed N] [--sample FILE]")),
        }
    }
    Ok(words)
}

fn compare() -> Result<bool, String> {
    let words = words()?;
    let mut run = Run { seed: words.seed, quick: words.quick, differing: 0 };
    println!("seed {}{}", run.seed, if run.quick { ", a quick run" } else { "" });
    transforms::y1_factors(&mut run);
    let mut blocks = 0;
    blocks += transforms::dequant_block(&mut run);
    transforms::dequantise(&mut run);
    blocks += transforms::inverse_wht(&mut run);
    blocks += transforms::inverse_wht_dc_only(&mut run);
    blocks += transforms::inverse_dct(&mut run);
    blocks += transforms::inverse_dct_add_into(&mut run);
    blocks += transforms::add_residue(&mut run);
    blocks += predictions::predict_y16x16(&mut run);
    blocks += predictions::predict_uv8x8(&mut run);
    blocks += predictions::predict_b4x4(&mut run);
    let mut macroblocks = walkers::non_b(&mut run);
    macroblocks += walkers::b(&mut run);
    walkers::refused(&mut run);
    gathering::gather(&mut run);
    gathering::right_pixels(&mut run);
    let stills = stills::stills(&mut run);
    let shelved = shelves::shelves(&mut run);
    let measured = distances::distances(&mut run);
    distances::refused(&mut run);
    let read = tokens::tokens(&mut run);
    let filtered = filters::filters(&mut run);
    lengths::wrong_lengths(&mut run);
    if let Some(file) = words.sample {
        let bytes = std::fs::read(&file).map_err(|why| format!("{file}: {why}"))?;
        replay::sample(&bytes, &mut run);
    }
    print!("in all {blocks} blocks, {macroblocks} macroblocks, {stills} stills, {shelved} macroblocks on shelves; ");
    print!("{measured} measured stills, {read} macroblocks read and {filtered} filtered; ");
    println!("differing {}", run.differing);
    Ok(run.differing == 0)
}

fn main() -> ExitCode {
    match compare() {
        Ok(true) => ExitCode::SUCCESS,
        Ok(false) => ExitCode::FAILURE,
        Err(why) => {
            eprintln!("compare: {why}");
            ExitCode::from(2)
        }
    }
}
