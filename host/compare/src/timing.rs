//! Processor time of calls.

use std::fs;
use std::thread;
use std::time::Instant;

/// Nanoseconds that this thread has run on a processor; where the system does not say, nanoseconds that have passed. The system counts a
/// thread's time when it gives way, and else by ticks of some milliseconds.
fn now(began: Instant) -> u64 {
    thread::yield_now();
    let text = fs::read_to_string("/proc/thread-self/schedstat").unwrap_or_default();
    let first = text.split(' ').next().and_then(|number| number.parse().ok());
    first.unwrap_or(began.elapsed().as_nanos() as u64)
}

/// Seconds of a call.
pub fn timed(began: Instant, call: impl FnOnce()) -> f64 {
    let start = now(began);
    call();
    (now(began) - start) as f64 / 1e9
}

pub fn median(mut seconds: Vec<f64>) -> f64 {
    seconds.sort_by(f64::total_cmp);
    seconds[seconds.len() / 2]
}

/// The middle one of the times of one side, each divided by that of another in the same round.
pub fn ratio(of: &[f64], by: &[f64]) -> f64 {
    median(of.iter().zip(by).map(|(a, b)| a / b).collect())
}

/// Words in one number that depends on each of them and on its place.
pub fn fingerprint(bytes: &[u8]) -> u64 {
    bytes.iter().fold(0, |sum: u64, byte| (sum ^ u64::from(*byte)).wrapping_mul(0x100_0000_01B3))
}
