//! Work in a child process of its own: a fault, a panic or an endless loop there ends the child alone.
use std::io::Write;
use std::panic::{catch_unwind, AssertUnwindSafe};

extern "C" {
    fn fork() -> i32;
    fn waitpid(child: i32, status: *mut i32, options: i32) -> i32;
    fn alarm(seconds: u32) -> u32;
    fn _exit(code: i32) -> !;
}

#[derive(Clone, Copy, PartialEq, Eq, Debug)]
pub enum Ended {
    Fine,
    Panicked,
    /// By this signal: 11 is a byte beyond what was lent, 14 is the end of the time given.
    Signal(i32),
}

/// Does the work in a child process and waits for its end. For programs of one thread.
pub fn apart(seconds: u32, work: impl FnOnce()) -> Ended {
    // What is printed but not out yet would come out twice.
    let _ = std::io::stdout().flush();
    // SAFETY: there is one thread, so nothing that the child needs is locked.
    match unsafe { fork() } {
        // SAFETY: plain system calls; the child ends without the parent's clean-up.
        0 => unsafe {
            alarm(seconds);
            let panicked = catch_unwind(AssertUnwindSafe(work)).is_err();
            _exit(i32::from(panicked))
        },
        child => {
            let mut status = 0;
            // SAFETY: the status is this function's own.
            let waited = unsafe { waitpid(child, &mut status, 0) };
            assert!(child > 0 && waited == child, "no child process");
            match (status & 0x7f, status >> 8) {
                (0, 0) => Ended::Fine,
                (0, _) => Ended::Panicked,
                (signal, _) => Ended::Signal(signal),
            }
        }
    }
}
