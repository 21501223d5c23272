//! filter [--turns N] FILE.webp..: the loop filter of the library and of libwebp on the same pictures, in one process, in
//! turn. libwebp's time is that of a whole decode with its filter, less that of a whole decode without; the library's is
//! that of `zopredil_filter_levels` on the picture before the filter. Printed are the medians over the turns, in processor
//! time, and the library's time divided by libwebp's: below 1 the library is faster.
//!
//! filter --count FILE.webp SIDE: filters the picture once, by `library`, or decodes it once, `with` the filter or
//! `without`, and prints how many macroblocks it has, for callgrind.
//!
//! Modes, coefficients and levels come from the oracle's second reader, and the picture before the filter from the
//! library. What the library filters must be what libwebp decodes.

mod clock;

use clock::{median, timed};
use reader::frame::Frame;
use reader::tokens::Rule;
use std::hint::black_box;
use std::process::ExitCode;
use zopredil::raw::zopredil_filter_levels;
use zopredil::{still_alone, PlanesMut, Still};

extern "C" {
    #[rustfmt::skip]
    fn webp_decode(
        file: *const u8,
        file_len: usize,
        without_filter: i32,
        y: *mut u8,
        y_len: usize,
        u: *mut u8,
        u_len: usize,
        v: *mut u8,
        v_len: usize,
    ) -> i32;
}

/// Three planes.
#[derive(Clone)]
struct Planes {
    y: Vec<u8>,
    u: Vec<u8>,
    v: Vec<u8>,
}

impl Planes {
    fn new([y, u, v]: [usize; 3]) -> Planes {
        Planes { y: vec![0; y], u: vec![0; u], v: vec![0; v] }
    }
}

/// A file, and the picture of whole macroblocks before the filter.
struct Job {
    file: Vec<u8>,
    frame: Frame,
    levels: Vec<u8>,
    inner: Vec<u8>,
    before: Planes,
}

impl Job {
    fn read(name: &str) -> Result<Job, String> {
        let said = |why: &dyn std::fmt::Display| format!("{name}: {why}");
        let file = std::fs::read(name).map_err(|why| said(&why))?;
        let bytes = reader::files::frame(&file).ok_or_else(|| said(&"it has no frame"))?;
        let frame = Frame::read(bytes, Rule::Tokens).map_err(|why| said(&why))?;
        let Frame { cols, rows, macroblocks, .. } = &frame;
        let modes: Vec<u8> = macroblocks.iter().flat_map(|mb| [mb.luma, mb.chroma, mb.skip.into()]).collect();
        let subs: Vec<u8> = macroblocks.iter().flat_map(|mb| mb.subs).collect();
        let coeffs: Vec<i16> = macroblocks.iter().flat_map(|mb| mb.coeffs).collect();
        let still = Still { cols: *cols, rows: *rows, modes: &modes, sub_modes: &subs, coeffs: &coeffs };
        let mut before = Planes::new([256, 64, 64].map(|each| each * macroblocks.len()));
        let Planes { y, u, v } = &mut before;
        still_alone(&still, PlanesMut { y, u, v }).map_err(|refused| said(&refused))?;
        let levels = macroblocks.iter().map(|mb| mb.level).collect();
        let inner = macroblocks.iter().map(|mb| mb.inner.into()).collect();
        Ok(Job { file, frame, levels, inner, before })
    }

    fn count(&self) -> usize {
        self.levels.len()
    }

    /// Planes for what libwebp decodes: `width` by `height` pixels.
    fn cropped(&self) -> Planes {
        let Frame { width, height, .. } = self.frame;
        let half = width.div_ceil(2) * height.div_ceil(2);
        Planes::new([width * height, half, half])
    }

    /// Is the picture what libwebp decodes, as far as that goes?
    fn equal(&self, ours: &Planes, theirs: &Planes) -> bool {
        let Frame { width, cols, .. } = self.frame;
        let same = |ours: &[u8], stride: usize, theirs: &[u8], width: usize| {
            ours.chunks(stride).zip(theirs.chunks(width)).all(|(ours, theirs)| ours[..width] == *theirs)
        };
        let half = width.div_ceil(2);
        same(&ours.y, 16 * cols, &theirs.y, width)
            && same(&ours.u, 8 * cols, &theirs.u, half)
            && same(&ours.v, 8 * cols, &theirs.v, half)
    }
}

// ---- the sides, each under a name that callgrind knows

#[no_mangle]
#[inline(never)]
fn bench_library(job: &Job, planes: &mut Planes) {
    let (frame, Planes { y, u, v }) = (&job.frame, planes);
    let filter = &frame.header.filter;
    // SAFETY: the pointers and the lengths are those of lists; the planes are written.
    let reply = unsafe {
        zopredil_filter_levels(
            frame.cols,
            frame.rows,
            filter.simple.into(),
            filter.sharpness,
            job.levels.as_ptr(),
            job.levels.len(),
            job.inner.as_ptr(),
            job.inner.len(),
            y.as_mut_ptr(),
            y.len(),
            u.as_mut_ptr(),
            u.len(),
            v.as_mut_ptr(),
            v.len(),
        )
    };
    assert_eq!(reply, 0);
}

fn decode(job: &Job, without_filter: bool, planes: &mut Planes) {
    let Planes { y, u, v } = planes;
    // SAFETY: the same.
    let failed = unsafe {
        webp_decode(
            job.file.as_ptr(),
            job.file.len(),
            without_filter.into(),
            y.as_mut_ptr(),
            y.len(),
            u.as_mut_ptr(),
            u.len(),
            v.as_mut_ptr(),
            v.len(),
        )
    };
    assert_eq!(failed, 0, "libwebp decodes the file");
}

#[no_mangle]
#[inline(never)]
fn bench_with(job: &Job, planes: &mut Planes) {
    decode(job, false, planes);
}

#[no_mangle]
#[inline(never)]
fn bench_without(job: &Job, planes: &mut Planes) {
    decode(job, true, planes);
}

fn bench(turns: usize, files: &[&str]) -> Result<(), String> {
    println!("medians of {turns} turns, processor time, microseconds a picture");
    for name in files {
        let job = Job::read(name)?;
        let (mut ours, mut theirs, mut unfiltered) = (job.before.clone(), job.cropped(), job.cropped());
        let (mut library, mut with, mut without) = (Vec::new(), Vec::new(), Vec::new());
        for _ in 0..turns {
            ours.clone_from(&job.before);
            library.push(timed(|| bench_library(black_box(&job), black_box(&mut ours))));
            with.push(timed(|| bench_with(black_box(&job), black_box(&mut theirs))));
            without.push(timed(|| bench_without(black_box(&job), black_box(&mut unfiltered))));
        }
        if !job.equal(&ours, &theirs) || !job.equal(&job.before, &unfiltered) {
            return Err(format!("{name}: the two sides differ"));
        }
        let micro = |times: &mut [f64]| median(times) / 1e3;
        let (library, with, without) = (micro(&mut library), micro(&mut with), micro(&mut without));
        let kind = if job.frame.header.filter.simple { "simple" } else { "normal" };
        let (width, height, filter) = (job.frame.width, job.frame.height, with - without);
        let file = name.rsplit('/').next().unwrap_or(name);
        println!(
            "{file} {width}x{height} {kind}: libwebp {with:.1} with the filter, {without:.1} without, so {filter:.1}; \
             library {library:.1}; ratio {:.2}",
            library / filter
        );
    }
    Ok(())
}

/// One side, once.
fn count(name: &str, side: &str) -> Result<(), String> {
    let job = Job::read(name)?;
    match side {
        "library" => bench_library(black_box(&job), &mut job.before.clone()),
        "with" => bench_with(black_box(&job), &mut job.cropped()),
        "without" => bench_without(black_box(&job), &mut job.cropped()),
        _ => return Err(format!("{side} is none of library, with, without")),
    }
    println!("{}", job.count());
    Ok(())
}

fn main() -> ExitCode {
    let words: Vec<String> = std::env::args().skip(1).collect();
    let words: Vec<&str> = words.iter().map(String::as_str).collect();
    let done = match &words[..] {
        ["--count", file, side] => count(file, side),
        ["--turns", turns, files @ ..] if !files.is_empty() => match turns.parse() {
            Ok(turns) if turns > 0 => bench(turns, files),
            _ => Err(format!("{turns} is no number of turns")),
        },
        files if !files.is_empty() && !files[0].starts_with("--") => bench(301, files),
        _ => Err("it is filter [--turns N] FILE.webp.., or filter --count FILE.webp SIDE".to_string()),
    };
    if let Err(why) = done {
        eprintln!("filter: {why}");
        return ExitCode::FAILURE;
    }
    ExitCode::SUCCESS
}
