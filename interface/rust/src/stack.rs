//! Threads with enough stack for every question.

use std::cell::Cell;
use std::panic::resume_unwind;
use std::thread::{scope, Builder};

/// For one call. The deepest call measured took 4.5 MB (interface/README.md).
const CALL: usize = 8 << 20;

/// For the work around the calls.
const WORK: usize = 8 << 20;

thread_local! {
    /// Where the stack of a thread of `on_stack` begins; 0 on other threads.
    static BEGIN: Cell<usize> = const { Cell::new(0) };
}

/// Runs the work on a thread with 16 MB of stack and hands back what it answers. Calls inside it, on that thread, need no
/// thread of their own.
pub fn on_stack<R: Send>(work: impl FnOnce() -> R + Send) -> R {
    scope(|threads| {
        let begin = || {
            BEGIN.set(place());
            work()
        };
        let thread = Builder::new().stack_size(CALL + WORK).spawn_scoped(threads, begin);
        match thread.expect("a thread with 16 MB of stack").join() {
            Ok(answer) => answer,
            Err(panic) => resume_unwind(panic),
        }
    })
}

/// Runs the call here if there is room for it, else on a thread of its own.
pub(crate) fn with_room<R: Send>(call: impl FnOnce() -> R + Send) -> R {
    let begin = BEGIN.get();
    if begin != 0 && begin.saturating_sub(place()) <= WORK {
        return call();
    }
    on_stack(call)
}

/// The place on the stack that is reached, which goes down.
#[inline(never)]
fn place() -> usize {
    let here = 0u8;
    std::hint::black_box(&here) as *const u8 as usize
}
