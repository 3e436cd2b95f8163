//! What the standard library has no call for: catching an interrupt, and
//! waiting for a descriptor or a time, whichever comes first.

use std::ffi::{c_int, c_ulong};
use std::os::fd::{AsRawFd, BorrowedFd};
use std::sync::atomic::{AtomicBool, Ordering};
use std::time::Duration;

const SIGINT: c_int = 2;
const SIGTERM: c_int = 15;
const POLLIN: i16 = 1;
const POLLERR: i16 = 8;
const POLLHUP: i16 = 16;

#[repr(C)]
struct PollFd {
    fd: c_int,
    events: i16,
    revents: i16,
}

/// What a signal does by default.
const SIG_DFL: usize = 0;

extern "C" {
    fn signal(number: c_int, handler: usize) -> usize;
    fn poll(fds: *mut PollFd, count: c_ulong, milliseconds: c_int) -> c_int;
}

static INTERRUPTED: AtomicBool = AtomicBool::new(false);

extern "C" fn note(number: c_int) {
    INTERRUPTED.store(true, Ordering::Relaxed);
    // SAFETY: `signal` is among the calls that a handler may make.
    unsafe { signal(number, SIG_DFL) };
}

/// From now on an interrupt or a request to terminate is noted, and ends
/// nothing. A second one ends the process, whatever it waits for.
pub fn catch_interrupts() {
    for number in [SIGINT, SIGTERM] {
        // SAFETY: the handler stores to an atomic and calls `signal`, which a
        // handler may do.
        unsafe { signal(number, note as *const () as usize) };
    }
}

/// Whether one has come.
pub fn interrupted() -> bool {
    INTERRUPTED.load(Ordering::Relaxed)
}

/// What a wait found.
#[derive(Clone, Copy, Debug, PartialEq, Eq)]
pub enum Woken {
    /// The time is up, or an interrupt came.
    Nothing,
    /// The input can be read without waiting, if only to find its end.
    Readable,
    /// Nobody reads the output any more.
    Closed,
}

/// Waits for an input, if there is one to wait for, or until nobody reads
/// the output any more, but not longer than this.
pub fn wait(output: BorrowedFd<'_>, input: Option<BorrowedFd<'_>>, time: Duration) -> Woken {
    let polled = |fd: c_int, events| PollFd {
        fd,
        events,
        revents: 0,
    };
    // A negative descriptor is passed over.
    let input = input.map_or(-1, |input| input.as_raw_fd());
    let mut both = [polled(output.as_raw_fd(), 0), polled(input, POLLIN)];
    let milliseconds = c_int::try_from(time.as_millis()).unwrap_or(c_int::MAX);
    // SAFETY: the pointer and the count are those of the array above.
    let found = unsafe { poll(both.as_mut_ptr(), both.len() as c_ulong, milliseconds) };
    let [output, input] = both;
    if found <= 0 {
        Woken::Nothing
    } else if output.revents & (POLLERR | POLLHUP) != 0 {
        Woken::Closed
    } else if input.revents != 0 {
        Woken::Readable
    } else {
        Woken::Nothing
    }
}
