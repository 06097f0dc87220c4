//! Times in milliseconds, of the processor and not of the clock, so that other work on the machine shows less: of one run, the
//! best of several, or of several things in turn.

use std::hint::black_box;

#[repr(C)]
struct Timespec {
    seconds: i64,
    nanoseconds: i64,
}

/// Linux's number for the time of the calling thread on a processor.
const CLOCK_THREAD_CPUTIME_ID: i32 = 3;

unsafe extern "C" {
    fn clock_gettime(clock: i32, time: *mut Timespec) -> i32;
}

fn now() -> f64 {
    let mut time = Timespec { seconds: 0, nanoseconds: 0 };
    // The C library writes one Timespec.
    let failed = unsafe { clock_gettime(CLOCK_THREAD_CPUTIME_ID, &mut time) };
    assert_eq!(failed, 0, "a clock");
    time.seconds as f64 * 1e3 + time.nanoseconds as f64 / 1e6
}

/// How long one run takes. What it is given is made before, and what it returns is dropped after.
pub fn once<G, T>(given: G, run: impl FnOnce(G) -> T) -> f64 {
    let start = now();
    let made = black_box(run(black_box(given)));
    let time = now() - start;
    drop(made);
    time
}

/// How long a run takes at best, of so many. What a run is given is made anew each time.
pub fn best<G, T>(runs: usize, mut fresh: impl FnMut() -> G, mut run: impl FnMut(G) -> T) -> f64 {
    (0..runs).map(|_| once(fresh(), &mut run)).fold(f64::INFINITY, f64::min)
}

/// The medians of several things, each run in turn, as often as fits into about a second for each: 15 to 401 times.
pub fn medians<const N: usize>(mut runs: [&mut dyn FnMut() -> f64; N]) -> [f64; N] {
    let slowest = runs.iter_mut().map(|run| run()).fold(0.001, f64::max);
    let many = ((1000.0 / slowest) as usize).clamp(15, 401) | 1;
    in_turn(many, runs).map(|of| of[many / 2])
}

/// The times of several things, each run once in turn, so often: those of each by themselves, the least first.
pub fn in_turn<const N: usize>(turns: usize, mut runs: [&mut dyn FnMut() -> f64; N]) -> [Vec<f64>; N] {
    let mut times = [const { Vec::new() }; N];
    for _ in 0..turns {
        for (times, run) in times.iter_mut().zip(&mut runs) {
            times.push(run());
        }
    }
    times.map(|mut of| {
        of.sort_by(f64::total_cmp);
        of
    })
}
