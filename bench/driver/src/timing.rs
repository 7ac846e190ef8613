//! How long pieces of work take that run in turn: the best round of each, since noise only ever adds.

use std::hint::black_box;
use std::time::Instant;

const ROUNDS: usize = 25;
/// How many bytes a round works on, so that a short piece of work is repeated often enough.
const ROUND_BYTES: usize = 16 << 20;

/// A piece of work on a subject that all pieces share.
pub type Work<T> = fn(&mut T) -> u32;

/// The seconds that one call of each takes, of work on `len` bytes.
pub fn race<T, const N: usize>(len: usize, subject: &mut T, works: [Work<T>; N]) -> [f64; N] {
    let times = (ROUND_BYTES / len).clamp(1, 100_000);
    let mut best = [f64::MAX; N];
    for _ in 0..ROUNDS {
        for (best, work) in best.iter_mut().zip(works) {
            *best = best.min(round(times, subject, work));
        }
    }
    best
}

fn round<T>(times: usize, subject: &mut T, work: Work<T>) -> f64 {
    let work = black_box(work);
    let start = Instant::now();
    for _ in 0..times {
        black_box(work(subject));
    }
    start.elapsed().as_secs_f64() / times as f64
}

/// Bytes a second, for a table.
pub fn speed(len: usize, seconds: f64) -> String {
    format!("{:.0} MB/s", len as f64 / seconds / 1e6)
}

/// The seconds that each of n operations takes that are done at once.
pub fn once(n: usize, work: impl FnOnce()) -> f64 {
    let start = Instant::now();
    work();
    start.elapsed().as_secs_f64() / n as f64
}

/// A time, for a table.
pub fn time(seconds: f64) -> String {
    match seconds {
        s if s < 1e-6 => format!("{:.0} ns", s * 1e9),
        s if s < 1e-3 => format!("{:.1} µs", s * 1e6),
        s => format!("{:.2} ms", s * 1e3),
    }
}
