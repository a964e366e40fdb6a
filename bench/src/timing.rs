//! Two pieces of work timed against each other: many rounds, taken alternately, and the medians of them.
use std::env;
use std::time::{Duration, Instant};

/// The processor time of this thread, which what else the machine does adds little to.
fn processor_time() -> Duration {
    #[repr(C)]
    struct Time {
        seconds: i64,
        nanoseconds: i64,
    }
    unsafe extern "C" {
        fn clock_gettime(clock: i32, time: *mut Time) -> i32;
    }
    const THREAD_CPUTIME: i32 = 3;
    let mut time = Time { seconds: 0, nanoseconds: 0 };
    // SAFETY: the struct is that of 64-bit Linux, and is written whole where the call succeeds
    let failed = unsafe { clock_gettime(THREAD_CPUTIME, &mut time) };
    assert_eq!(failed, 0, "this thread has a clock");
    Duration::new(time.seconds as u64, time.nanoseconds as u32)
}

#[derive(Clone, Copy, Debug)]
pub struct Timing {
    /// Medians, in nanoseconds for one call.
    pub first: f64,
    pub second: f64,
    /// The median and the quartiles of the ratios first / second, each of two neighbouring measurements.
    pub ratio: f64,
    pub lower: f64,
    pub upper: f64,
    /// The median of the differences first - second of such two, in nanoseconds.
    pub difference: f64,
}

/// Nanoseconds of processor time for one call, of so many.
fn taken(calls: u32, work: &mut dyn FnMut()) -> f64 {
    let start = processor_time();
    for _ in 0..calls {
        work();
    }
    (processor_time() - start).as_nanos() as f64 / f64::from(calls)
}

/// Nanoseconds of a single call by the clock on the wall, which is quicker to read than the processor's.
fn elapsed(work: &mut dyn FnMut()) -> f64 {
    let start = Instant::now();
    work();
    start.elapsed().as_nanos() as f64
}

fn quantile(values: &mut [f64], share: f64) -> f64 {
    values.sort_by(f64::total_cmp);
    values[((values.len() - 1) as f64 * share).round() as usize]
}

/// How many calls take about `wanted`; trying them warms the caches.
fn calls_for(wanted: Duration, work: &mut dyn FnMut()) -> u32 {
    let mut calls = 1;
    while taken(calls, work) * f64::from(calls) * 2.0 < wanted.as_nanos() as f64 && calls < 1 << 24 {
        calls *= 2;
    }
    calls
}

/// Times both with warm caches: each measurement is of as many calls as take about `measure`, and nothing is cleared.
pub fn race(rounds: usize, measure: Duration, first: &mut dyn FnMut(), second: &mut dyn FnMut()) -> Timing {
    let calls = calls_for(measure, second).min(calls_for(measure, first));
    collect(rounds, &mut || taken(calls, first), &mut || taken(calls, second))
}

/// Times single calls, with `clear` run before each of them.
pub fn race_cold(rounds: usize, clear: &dyn Fn(), first: &mut dyn FnMut(), second: &mut dyn FnMut()) -> Timing {
    let cold = |work: &mut dyn FnMut()| {
        clear();
        elapsed(work)
    };
    collect(rounds, &mut || cold(first), &mut || cold(second))
}

/// Takes the two alternately, beginning a round now with the one and now with the other.
fn collect(rounds: usize, first: &mut dyn FnMut() -> f64, second: &mut dyn FnMut() -> f64) -> Timing {
    let mut times = (Vec::new(), Vec::new());
    for round in 0..rounds {
        if round % 2 == 0 {
            times.0.push(first());
        }
        times.1.push(second());
        if round % 2 == 1 {
            times.0.push(first());
        }
    }
    let pairs = || times.0.iter().zip(&times.1);
    let mut ratios: Vec<f64> = pairs().map(|(first, second)| first / second).collect();
    let mut differences: Vec<f64> = pairs().map(|(first, second)| first - second).collect();
    Timing {
        first: quantile(&mut times.0, 0.5),
        second: quantile(&mut times.1, 0.5),
        ratio: quantile(&mut ratios, 0.5),
        lower: quantile(&mut ratios, 0.25),
        upper: quantile(&mut ratios, 0.75),
        difference: quantile(&mut differences, 0.5),
    }
}

/// What a program that measures is told: how many rounds, and whether its tables are for a page.
pub struct Settings {
    pub rounds: usize,
    pub markdown: bool,
}

pub fn settings() -> Settings {
    let words: Vec<String> = env::args().skip(1).collect();
    let after = words.iter().position(|word| word == "--rounds").and_then(|place| words.get(place + 1));
    let rounds = after.and_then(|text| text.parse().ok()).unwrap_or(200);
    Settings { rounds, markdown: words.iter().any(|word| word == "--markdown") }
}
