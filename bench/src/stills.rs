//! stills [--turns N]: what the call `zopredil_still_alone` takes by the size of the still.
//!
//! Time: the processor time of this thread, divided by the macroblocks, the median of N turns. A turn draws 4,096
//! macroblocks, the same ones in as many stills as the size makes of them, or one larger still. The sizes take turns,
//! so that whatever else the machine does meets all of them.
//!
//! Memory beyond what is lent: the first call of each size is made on a thread whose stack is a block of ours, painted
//! beforehand. The stack that the call takes is what it painted over, less what a thread takes that calls nothing. Any
//! other memory would have to be touched for the first time by the call, and each page of it would be a page fault of
//! that thread: the stack, the still and the planes have been touched before. On a 64-bit Linux.

use std::ffi::c_void;
use std::hint::black_box;
use std::process::ExitCode;
use std::ptr;
use zopredil::{still_alone, PlanesMut, Still, StillRefused};

/// Columns and rows of the stills.
const SIZES: [(usize, usize); 5] = [(1, 1), (4, 4), (16, 16), (64, 64), (256, 256)];

/// Macroblocks of a turn, at least.
const TURN: usize = 4096;

/// Stills of a size, one behind another, and planes for one of them, all of it touched.
struct Job {
    cols: usize,
    rows: usize,
    modes: Vec<u8>,
    sub_modes: Vec<u8>,
    coeffs: Vec<i16>,
    y: Vec<u8>,
    u: Vec<u8>,
    v: Vec<u8>,
}

impl Job {
    /// Macroblocks like those of a decay picture: most blocks have no AC coefficient, some nothing at all, a few
    /// macroblocks are skipped and one of eight is of mode B.
    fn new(cols: usize, rows: usize) -> Job {
        let one = cols * rows;
        let count = TURN.max(one);
        let mut seed = 1u64;
        let mut below = |n: u64| {
            seed = seed.wrapping_mul(6364136223846793005).wrapping_add(1442695040888963407);
            (seed >> 33) % n
        };
        let mut job = Job {
            cols,
            rows,
            modes: vec![0; 3 * count],
            sub_modes: vec![0; 16 * count],
            coeffs: vec![1; 400 * count],
            y: vec![1; 256 * one],
            u: vec![1; 64 * one],
            v: vec![1; 64 * one],
        };
        for modes in job.modes.chunks_mut(3) {
            let luma = if below(8) == 0 { 4 } else { below(4) };
            modes.copy_from_slice(&[luma as u8, below(4) as u8, u8::from(below(10) == 0)]);
        }
        job.sub_modes.fill_with(|| below(10) as u8);
        for (k, block) in job.coeffs.chunks_mut(16).enumerate() {
            let used = match (k % 25, below(16)) {
                (0, _) | (_, 0) => 4,
                (_, 1..=4) => 0,
                _ => 1,
            };
            for (i, x) in block.iter_mut().enumerate() {
                *x = if i < used { below(201) as i16 - 100 } else { 0 };
            }
        }
        job
    }

    /// Macroblocks of a still.
    fn count(&self) -> usize {
        self.cols * self.rows
    }

    /// How many stills there are.
    fn stills(&self) -> usize {
        self.modes.len() / (3 * self.count())
    }

    /// Draws one of them.
    fn draw(&mut self, which: usize) -> Result<u64, StillRefused> {
        let count = self.count();
        let still = Still {
            cols: self.cols,
            rows: self.rows,
            modes: &self.modes[3 * count * which..][..3 * count],
            sub_modes: &self.sub_modes[16 * count * which..][..16 * count],
            coeffs: &self.coeffs[400 * count * which..][..400 * count],
        };
        still_alone(&still, PlanesMut { y: &mut self.y, u: &mut self.u, v: &mut self.v })
    }
}

// ---- what the system tells

#[repr(C)]
struct Timespec {
    seconds: i64,
    nanoseconds: i64,
}

/// C's `struct rusage`: two times, then fourteen numbers, of which the fifth counts the page faults without a disk.
#[repr(C)]
struct Usage {
    times: [i64; 4],
    numbers: [i64; 14],
}

extern "C" {
    fn clock_gettime(clock: i32, time: *mut Timespec) -> i32;
    fn getrusage(who: i32, usage: *mut Usage) -> i32;
    fn pthread_attr_init(attributes: *mut c_void) -> i32;
    fn pthread_attr_setstack(attributes: *mut c_void, stack: *mut c_void, size: usize) -> i32;
    fn pthread_create(
        thread: *mut usize,
        attributes: *const c_void,
        start: extern "C" fn(*mut c_void) -> *mut c_void,
        given: *mut c_void,
    ) -> i32;
    fn pthread_join(thread: usize, answer: *mut *mut c_void) -> i32;
}

/// The processor time of this thread in nanoseconds.
fn processor_time() -> i64 {
    const CLOCK_THREAD_CPUTIME_ID: i32 = 3;
    let mut time = Timespec { seconds: 0, nanoseconds: 0 };
    // SAFETY: the pointer is that of a local struct of C's layout.
    let failed = unsafe { clock_gettime(CLOCK_THREAD_CPUTIME_ID, &mut time) };
    assert_eq!(failed, 0, "no clock of the thread's processor time");
    1_000_000_000 * time.seconds + time.nanoseconds
}

/// Page faults of this thread so far that needed no disk.
fn page_faults() -> i64 {
    const RUSAGE_THREAD: i32 = 1;
    let mut usage = Usage { times: [0; 4], numbers: [0; 14] };
    // SAFETY: the pointer is that of a local struct of C's layout.
    let failed = unsafe { getrusage(RUSAGE_THREAD, &mut usage) };
    assert_eq!(failed, 0, "no usage of the thread");
    usage.numbers[4]
}

// ---- memory

/// Bytes of the painted stack, and its paint.
const STACK: usize = 1 << 20;
const PAINT: u8 = 0xA5;

/// A page's worth of bytes, so that the stack begins where one does.
#[derive(Clone, Copy)]
#[repr(C, align(4096))]
struct Page([u8; 4096]);

/// What the thread is given, and what it hands back.
struct Errand<'a> {
    job: Option<&'a mut Job>,
    refused: bool,
    faults: i64,
}

extern "C" fn run(given: *mut c_void) -> *mut c_void {
    // SAFETY: the pointer is that of the errand in `on_painted_stack`, which waits for this thread's end.
    let errand = unsafe { &mut *given.cast::<Errand<'_>>() };
    let before = page_faults();
    if let Some(job) = &mut errand.job {
        errand.refused = job.draw(0).is_err();
    }
    errand.faults = page_faults() - before;
    ptr::null_mut()
}

/// Runs an errand on a painted stack: how many bytes of it were painted over, from the deepest one up.
fn on_painted_stack(errand: &mut Errand<'_>) -> usize {
    let mut stack = vec![Page([PAINT; 4096]); STACK / 4096];
    let mut attributes = [0u64; 16]; // room for C's pthread_attr_t, which has at most 64 bytes
    let mut thread = 0;
    // SAFETY: the stack and the errand live until the thread has ended, and nothing else uses them until then.
    unsafe {
        let attributes = attributes.as_mut_ptr().cast();
        assert_eq!(pthread_attr_init(attributes), 0);
        assert_eq!(pthread_attr_setstack(attributes, stack.as_mut_ptr().cast(), STACK), 0);
        assert_eq!(pthread_create(&mut thread, attributes, run, ptr::from_mut(errand).cast()), 0);
        assert_eq!(pthread_join(thread, ptr::null_mut()), 0);
    }
    let bytes = stack.iter().flat_map(|page| page.0);
    STACK - bytes.take_while(|&byte| byte == PAINT).count()
}

/// The stack in bytes and the other memory in pages that the first call of a job takes.
fn memory(job: &mut Job) -> Result<(usize, i64), String> {
    let mut nothing = Errand { job: None, refused: false, faults: 0 };
    let bare = on_painted_stack(&mut nothing);
    let mut errand = Errand { job: Some(job), refused: false, faults: 0 };
    let taken = on_painted_stack(&mut errand);
    if errand.refused {
        return Err("a still was refused".to_string());
    }
    Ok((taken.saturating_sub(bare), errand.faults))
}

// ---- the table

fn median(numbers: &mut [f64]) -> f64 {
    numbers.sort_unstable_by(f64::total_cmp);
    numbers[numbers.len() / 2]
}

fn bench(turns: usize) -> Result<(), String> {
    let mut jobs = SIZES.map(|(cols, rows)| Job::new(cols, rows));
    let mut taken = Vec::new();
    for job in &mut jobs {
        taken.push(memory(job)?);
    }
    let mut times = [const { Vec::new() }; SIZES.len()];
    for _ in 0..turns {
        for (job, times) in jobs.iter_mut().zip(&mut times) {
            let stills = job.stills();
            let start = processor_time();
            for which in 0..stills {
                black_box(&mut *job).draw(which).map_err(|refused| refused.to_string())?;
            }
            times.push((processor_time() - start) as f64 / (stills * job.count()) as f64);
        }
    }
    println!("a still in one call: medians of {turns} turns, processor time; memory beyond the still and its planes");
    println!("macroblocks     size    planes, bytes    ns a macroblock    stack, bytes    other pages");
    for ((job, times), (stack, pages)) in jobs.iter().zip(&mut times).zip(taken) {
        let (count, size) = (job.count(), format!("{}x{}", job.cols, job.rows));
        let (planes, time) = (384 * count, median(times));
        println!("{count:>11} {size:>8} {planes:>16} {time:>18.0} {stack:>15} {pages:>14}");
    }
    Ok(())
}

fn main() -> ExitCode {
    let words: Vec<String> = std::env::args().skip(1).collect();
    let words: Vec<&str> = words.iter().map(String::as_str).collect();
    let done = match words[..] {
        [] => bench(31),
        ["--turns", turns] => match turns.parse() {
            Ok(turns) if turns > 0 => bench(turns),
            _ => Err(format!("{turns} is no number of turns")),
        },
        _ => Err("it is stills [--turns N]".to_string()),
    };
    if let Err(why) = done {
        eprintln!("stills: {why}");
        return ExitCode::FAILURE;
    }
    ExitCode::SUCCESS
}
