//! A watch on every call: one that does not return in time ends the program with its own exit code.
//!
//! Time is that of the processor, so that a busy machine does not make a call late.

use std::sync::atomic::{AtomicU64, Ordering};
use std::thread;
use std::time::Duration;

/// The exit code of a worker whose call did not return in time.
pub const LATE: i32 = 124;
/// How long a call may take. What it really takes is printed; this only tells a call that ends from one that does not.
pub const LIMIT: Duration = Duration::from_secs(20);

/// When the call under way started, in nanoseconds that this process had run; 0 if none is under way.
static STARTED: AtomicU64 = AtomicU64::new(0);
/// The most nanoseconds that a call has taken.
static SLOWEST: AtomicU64 = AtomicU64::new(0);

const PROCESS_TIME: i32 = 2;
const THREAD_TIME: i32 = 3;

#[repr(C)]
struct Timespec {
    seconds: i64,
    nanoseconds: i64,
}

extern "C" {
    fn clock_gettime(clock: i32, time: *mut Timespec) -> i32;
}

/// The nanoseconds that this process or this thread has run.
fn time_of(clock: i32) -> u64 {
    let mut time = Timespec {
        seconds: 0,
        nanoseconds: 0,
    };
    // Safety: the function writes the time and nothing else.
    unsafe {
        clock_gettime(clock, &mut time);
    }
    time.seconds as u64 * 1_000_000_000 + time.nanoseconds as u64
}

/// Starts the watch. Needed once.
pub fn start() {
    thread::spawn(|| loop {
        thread::sleep(Duration::from_millis(200));
        let started = STARTED.load(Ordering::Relaxed);
        let now = time_of(PROCESS_TIME);
        if started != 0 && now.saturating_sub(started) > LIMIT.as_nanos() as u64 {
            eprintln!("a call did not return within {} s", LIMIT.as_secs());
            std::process::exit(LATE);
        }
    });
}

/// Makes a call under the watch.
pub fn call<A>(f: impl FnOnce() -> A) -> A {
    STARTED.store(time_of(PROCESS_TIME), Ordering::Relaxed);
    let before = time_of(THREAD_TIME);
    let answer = f();
    SLOWEST.fetch_max(time_of(THREAD_TIME) - before, Ordering::Relaxed);
    STARTED.store(0, Ordering::Relaxed);
    answer
}

/// The most time that a call has taken.
pub fn slowest() -> Duration {
    Duration::from_nanos(SLOWEST.load(Ordering::Relaxed))
}
