//! Times of calls: processor time of the calling thread, so that other work on the machine, which
//! takes the processor away, is not counted. What it does to the caches is.

use std::fmt::{Display, Formatter};
use std::ops::Div;
use std::time::Duration;

/// C's `struct timespec` on 64-bit Linux.
#[repr(C)]
struct TimeSpec {
    seconds: i64,
    nanoseconds: i64,
}

const CLOCK_THREAD_CPUTIME_ID: i32 = 3;

extern "C" {
    fn clock_gettime(clock: i32, time: *mut TimeSpec) -> i32;
}

/// The processor time that this thread has had.
pub fn processor_time() -> Duration {
    let mut time = TimeSpec { seconds: 0, nanoseconds: 0 };
    // SAFETY: the function writes one timespec, to which the pointer leads.
    let result = unsafe { clock_gettime(CLOCK_THREAD_CPUTIME_ID, &mut time) };
    assert!(result == 0, "the thread has a clock");
    Duration::new(time.seconds as u64, time.nanoseconds as u32)
}

/// The times of one side's calls on one input.
#[derive(Default)]
pub struct Times(Vec<Duration>);

impl Times {
    /// Runs and times a call.
    pub fn time<T>(&mut self, call: impl FnOnce() -> T) -> T {
        let start = processor_time();
        let result = call();
        self.0.push(processor_time() - start);
        result
    }

    /// The shortest time.
    pub fn best(&self) -> Milliseconds {
        Milliseconds(*self.0.iter().min().expect("a call was timed"))
    }

    /// The median time.
    pub fn median(&self) -> Milliseconds {
        let mut sorted = self.0.clone();
        sorted.sort();
        Milliseconds(sorted[sorted.len() / 2])
    }
}

/// A time, printed in milliseconds with three digits that count.
#[derive(Clone, Copy)]
pub struct Milliseconds(Duration);

impl Milliseconds {
    fn number(self) -> f64 {
        self.0.as_secs_f64() * 1e3
    }
}

impl Div for Milliseconds {
    type Output = f64;

    fn div(self, other: Milliseconds) -> f64 {
        self.number() / other.number()
    }
}

impl Display for Milliseconds {
    fn fmt(&self, text: &mut Formatter) -> std::fmt::Result {
        let number = self.number();
        let places = (2 - number.log10().floor() as i32).clamp(0, 5) as usize;
        write!(text, "{number:.places$}")
    }
}
