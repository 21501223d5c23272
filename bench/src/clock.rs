//! Processor time, and the median of several.

#[repr(C)]
struct Timespec {
    seconds: i64,
    nanoseconds: i64,
}

extern "C" {
    fn clock_gettime(clock: i32, time: *mut Timespec) -> i32;
}

/// The processor time of this thread in nanoseconds, on a 64-bit Linux: wall time would count what else the machine does.
fn processor_time() -> i64 {
    const CLOCK_THREAD_CPUTIME_ID: i32 = 3;
    let mut time = Timespec { seconds: 0, nanoseconds: 0 };
    // SAFETY: the pointer is that of a local struct of C's layout.
    let failed = unsafe { clock_gettime(CLOCK_THREAD_CPUTIME_ID, &mut time) };
    assert_eq!(failed, 0, "no clock of the thread's processor time");
    1_000_000_000 * time.seconds + time.nanoseconds
}

/// The nanoseconds that some work takes.
pub fn timed(work: impl FnOnce()) -> f64 {
    let start = processor_time();
    work();
    (processor_time() - start) as f64
}

pub fn median(numbers: &mut [f64]) -> f64 {
    numbers.sort_unstable_by(f64::total_cmp);
    numbers[numbers.len() / 2]
}
