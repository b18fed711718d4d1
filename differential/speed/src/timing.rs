//! Times of two sides in alternated rounds, so that a load that comes and goes meets both. It is the time that the
//! processor spent on this thread: what other programs take of a shared machine is not in it.

/// The shortest batch of calls that is timed as one, in nanoseconds.
const BATCH: u64 = 2_000_000;

#[repr(C)]
struct Timespec {
    seconds: i64,
    nanoseconds: i64,
}

extern "C" {
    fn clock_gettime(clock: i32, time: *mut Timespec) -> i32;
}

const CLOCK_THREAD_CPUTIME_ID: i32 = 3;

/// Nanoseconds that the processor has spent on this thread.
pub fn spent() -> u64 {
    let mut time = Timespec { seconds: 0, nanoseconds: 0 };
    assert_eq!(unsafe { clock_gettime(CLOCK_THREAD_CPUTIME_ID, &mut time) }, 0, "the thread's clock");
    time.seconds as u64 * 1_000_000_000 + time.nanoseconds as u64
}

fn nanoseconds(times: u32, call: &mut dyn FnMut()) -> u64 {
    let begun = spent();
    for _ in 0..times {
        call();
    }
    spent() - begun
}

fn calls_a_batch(call: &mut dyn FnMut()) -> u32 {
    let mut times = 1;
    while nanoseconds(times, call) < BATCH && times < 1 << 24 {
        times *= 2;
    }
    times
}

pub fn median(mut numbers: Vec<f64>) -> f64 {
    numbers.sort_unstable_by(f64::total_cmp);
    numbers[numbers.len() / 2]
}

/// The median time of a call of each side, in nanoseconds.
pub fn alternated(rounds: usize, one: &mut dyn FnMut(), other: &mut dyn FnMut()) -> [f64; 2] {
    let times = [calls_a_batch(one), calls_a_batch(other)];
    let mut found = [Vec::new(), Vec::new()];
    for _ in 0..rounds {
        found[0].push(nanoseconds(times[0], one) as f64 / times[0] as f64);
        found[1].push(nanoseconds(times[1], other) as f64 / times[1] as f64);
    }
    found.map(median)
}

pub fn shown(nanoseconds: f64) -> String {
    match nanoseconds {
        n if n < 1e3 => format!("{n:.0} ns"),
        n if n < 1e4 => format!("{:.2} µs", n / 1e3),
        n if n < 1e5 => format!("{:.1} µs", n / 1e3),
        n if n < 1e6 => format!("{:.0} µs", n / 1e3),
        n if n < 1e7 => format!("{:.2} ms", n / 1e6),
        n if n < 1e8 => format!("{:.1} ms", n / 1e6),
        n => format!("{:.0} ms", n / 1e6),
    }
}

/// Ours against the original's: above 1 ours is slower.
pub fn ratio([original, ours]: [f64; 2]) -> String {
    format!("{:.2}", ours / original)
}
