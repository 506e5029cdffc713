//! Least times. A busy machine makes some rounds slow and none fast, so of each block of work the least time of several rounds counts.

use std::time::{Duration, Instant};

/// The least time of each block so far, of one side.
pub struct Least(Vec<Duration>);

impl Least {
    pub fn new(blocks: usize) -> Self {
        Least(vec![Duration::MAX; blocks])
    }

    pub fn time<T>(&mut self, block: usize, work: impl FnOnce() -> T) -> T {
        let start = Instant::now();
        let result = work();
        self.0[block] = self.0[block].min(start.elapsed());
        result
    }

    /// The same in time that this thread had a processor: for a block that takes longer than a busy machine lets a thread run at once.
    pub fn time_processor<T>(&mut self, block: usize, work: impl FnOnce() -> T) -> T {
        let start = processor_time();
        let result = work();
        self.0[block] = self.0[block].min(processor_time() - start);
        result
    }

    /// Nanoseconds for one of `count` equal pieces of all blocks together.
    pub fn nanos(&self, count: usize) -> f64 {
        self.0.iter().sum::<Duration>().as_secs_f64() * 1e9 / count as f64
    }
}

#[repr(C)]
struct Timespec {
    seconds: i64,
    nanoseconds: i64,
}

extern "C" {
    fn clock_gettime(clock: i32, time: *mut Timespec) -> i32;
}

/// How long this thread has had a processor.
fn processor_time() -> Duration {
    const CLOCK_THREAD_CPUTIME_ID: i32 = 3;
    let mut time = Timespec {
        seconds: 0,
        nanoseconds: 0,
    };
    // Safety: the time is lent to write
    let failed = unsafe { clock_gettime(CLOCK_THREAD_CPUTIME_ID, &mut time) };
    assert_eq!(failed, 0, "Linux has a clock for each thread");
    Duration::new(time.seconds as u64, time.nanoseconds as u32)
}

/// The number whose logarithm is the mean of those of the values.
pub fn geometric_mean(values: &[f64]) -> f64 {
    (values.iter().map(|value| value.ln()).sum::<f64>() / values.len() as f64).exp()
}
