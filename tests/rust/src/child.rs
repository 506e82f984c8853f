//! Work done in a child process, whose end the parent sees whatever it is.

use std::ffi::{c_int, c_uint};
use std::io::{self, Write};
use std::panic::{self, AssertUnwindSafe};
use std::process;

extern "C" {
    fn fork() -> c_int;
    fn waitpid(child: c_int, status: *mut c_int, options: c_int) -> c_int;
    fn alarm(seconds: c_uint) -> c_uint;
}

/// How a process ended.
#[derive(Clone, Copy, Debug, PartialEq, Eq)]
pub enum End {
    Exited(i32),
    Signal(i32),
}

/// A byte was read or written that may not be.
pub const SEGMENTATION_FAULT: End = End::Signal(11);

/// Does `work` in a child, which ends with the status that it gives, with 1 after a panic, or by
/// SIGALRM after so many seconds. Other threads are not there in the child.
pub fn in_child(seconds: u32, work: impl FnOnce() -> i32) -> End {
    io::stdout().flush().expect("standard output");
    // SAFETY: the program has no other thread that could hold a lock now.
    let child = unsafe { fork() };
    assert!(child >= 0, "fork");
    if child == 0 {
        // SAFETY: only sets a timer of this process.
        unsafe { alarm(seconds) };
        process::exit(panic::catch_unwind(AssertUnwindSafe(work)).unwrap_or(1));
    }
    let mut status = 0;
    // SAFETY: the child is this process's own, and `status` is a live number.
    let ended = unsafe { waitpid(child, &mut status, 0) };
    assert_eq!(ended, child, "waitpid");
    match status & 0x7F {
        0 => End::Exited(status >> 8 & 0xFF),
        signal => End::Signal(signal),
    }
}
