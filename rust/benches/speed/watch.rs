//! The clock. Other processes may take the processor meanwhile; the system counts how long this one had to wait for it. So
//! a run is measured in short stretches, and one that had to wait for more than a little of its time is left out, and
//! another taken in its place.
use std::sync::atomic::{AtomicU64, Ordering::Relaxed};
use std::time::Instant;

/// A stretch is disturbed if it waited for more than one part in so many of its time.
const PART: u64 = 50;

/// So many are left out at most for each that counts. After that the disturbed ones count too.
const MOST: u64 = 50;

/// How many stretches were left out, and how many counted though they were disturbed, over all runs.
pub static LEFT_OUT: AtomicU64 = AtomicU64::new(0);
pub static DISTURBED: AtomicU64 = AtomicU64::new(0);

/// The nanoseconds that this thread has waited for a processor; 0 where the system does not say.
fn waited() -> u64 {
    let text = std::fs::read_to_string("/proc/thread-self/schedstat").unwrap_or_default();
    let word = text.split(' ').nth(1).and_then(|word| word.parse().ok());
    word.unwrap_or_default()
}

/// The nanoseconds of so many stretches together: each answers those of its parts.
pub fn parts<const N: usize>(many: u64, mut stretch: impl FnMut() -> [u64; N]) -> [u64; N] {
    let mut sums = [0; N];
    let (mut done, mut left_out) = (0, 0);
    while done < many {
        let (before, start) = (waited(), Instant::now());
        let times = stretch();
        let time = start.elapsed().as_nanos() as u64;
        let disturbed = (waited() - before) * PART > time;
        if disturbed && left_out < MOST * many {
            left_out += 1;
            continue;
        }
        DISTURBED.fetch_add(u64::from(disturbed), Relaxed);
        done += 1;
        for (sum, time) in sums.iter_mut().zip(times) {
            *sum += time;
        }
    }
    LEFT_OUT.fetch_add(left_out, Relaxed);
    sums
}

/// The nanoseconds of so many stretches together.
pub fn whole(many: u64, mut stretch: impl FnMut()) -> u64 {
    let [sum] = parts(many, || {
        let start = Instant::now();
        stretch();
        [start.elapsed().as_nanos() as u64]
    });
    sum
}
