//! The last words of a run that dies: in which call it touched what it was not lent, or did not end.

use std::ffi::{c_int, c_uint, c_void};
use std::sync::atomic::{AtomicU64, Ordering};

extern "C" {
    fn signal(number: c_int, handler: extern "C" fn(c_int)) -> usize;
    fn alarm(seconds: c_uint) -> c_uint;
    fn write(file: c_int, bytes: *const c_void, length: usize) -> isize;
    fn _exit(status: c_int) -> !;
}

// Linux's numbers.
const SIGSEGV: c_int = 11;
const SIGALRM: c_int = 14;
const STDERR: c_int = 2;

/// Many times what the slowest run of calls takes on a busy machine.
const LONGEST: c_uint = 300;

static UNDER_WAY: AtomicU64 = AtomicU64::new(0);

/// From now on a fault, or a run of calls that does not end, says in which call it came.
pub fn begin() {
    // SAFETY: the handler makes no call but write and _exit, which a handler may make.
    unsafe {
        signal(SIGSEGV, last_words);
        signal(SIGALRM, last_words);
    }
}

/// A run of calls begins; it ends before the next begins, or in good time.
pub fn run_of_calls() {
    // SAFETY: an alarm touches no memory.
    unsafe { alarm(LONGEST) };
}

pub fn end() {
    // SAFETY: an alarm touches no memory.
    unsafe { alarm(0) };
}

/// The number of the call that is made next.
pub fn call(number: u64) {
    UNDER_WAY.store(number, Ordering::Relaxed);
}

extern "C" fn last_words(number: c_int) {
    say(match number {
        SIGALRM => b"a call does not end: call ",
        _ => b"a read or write outside what was lent: call ",
    });
    let mut line = *b"00000000000000000000\n";
    let mut left = UNDER_WAY.load(Ordering::Relaxed);
    for byte in line.iter_mut().rev().skip(1) {
        *byte = b'0' + (left % 10) as u8;
        left /= 10;
    }
    say(&line);
    // SAFETY: the run ends here, with what a shell gives for the signal.
    unsafe { _exit(128 + number) }
}

fn say(words: &[u8]) {
    // SAFETY: the words are lent with their own length.
    unsafe { write(STDERR, words.as_ptr().cast(), words.len()) };
}
