//! What is measured: by the clock, or by valgrind, which counts the instructions of `the_work` and of nothing else.
use std::time::Instant;

// A function of its own, so that it can be named to valgrind.
#[inline(never)]
fn the_work(work: impl FnOnce()) {
    work();
}

/// Does the work and says how many nanoseconds it took.
pub fn timed(work: impl FnOnce()) -> u64 {
    let start = Instant::now();
    the_work(work);
    start.elapsed().as_nanos() as u64
}
