//! A trap in the library ends the run with the question that made it, in hex.

use crate::cases::format::question_words;
use crate::question::Question;
use std::cell::Cell;
use std::ffi::{c_int, c_void};
use std::sync::Once;

#[repr(C)]
struct Action {
    handler: extern "C" fn(c_int),
    mask: [u64; 16],
    flags: c_int,
    restorer: *const c_void,
}

extern "C" {
    fn write(file: c_int, bytes: *const u8, length: usize) -> isize;
    fn sigaction(signal: c_int, new: *const Action, old: *mut Action) -> c_int;
    fn _exit(status: c_int) -> !;
}

const ON_OWN_STACK: c_int = 0x0800_0000;
const SIGNALS: [c_int; 5] = [4, 6, 7, 8, 11];

static WATCH: Once = Once::new();

thread_local! {
    /// What this thread asks just now; a trap is reported on the thread that made it.
    static ASKED: Cell<*const Question> = const { Cell::new(std::ptr::null()) };
}

extern "C" fn report(signal: c_int) {
    let asked = ASKED.get();
    if !asked.is_null() {
        // SAFETY: set for as long as the call lasts, and the call is what trapped. Written past the
        // test harness, which would keep the words to itself.
        unsafe {
            let words = format!("\ntrap by signal {signal} in: {}\n", question_words(&*asked));
            write(2, words.as_ptr(), words.len());
        }
    }
    // SAFETY: nothing is left to be done.
    unsafe { _exit(128 + signal) }
}

/// Runs the call with a trap reported as this question.
pub fn watched<T>(question: &Question, call: impl FnOnce() -> T) -> T {
    WATCH.call_once(|| {
        for signal in SIGNALS {
            let action = Action { handler: report, mask: [0; 16], flags: ON_OWN_STACK, restorer: std::ptr::null() };
            // SAFETY: a handler for traps, which ends the process.
            unsafe { sigaction(signal, &action, std::ptr::null_mut()) };
        }
    });
    ASKED.set(question);
    let result = call();
    ASKED.set(std::ptr::null());
    result
}
