//! A file descriptor that becomes readable at a time, for reactors: a `timerfd` of Linux.
use std::ffi::{c_int, c_long};
use std::io;
use std::os::fd::{AsFd, AsRawFd, BorrowedFd, FromRawFd, OwnedFd, RawFd};
use std::ptr;
use std::time::Duration;

const CLOCK_MONOTONIC: c_int = 1;
const TFD_NONBLOCK: c_int = 0o4000;
const TFD_CLOEXEC: c_int = 0o2_000_000;

#[repr(C)]
#[derive(Default)]
struct Timespec {
    seconds: c_long,
    nanoseconds: c_long,
}

#[repr(C)]
#[derive(Default)]
struct Itimerspec {
    interval: Timespec,
    value: Timespec,
}

unsafe extern "C" {
    fn timerfd_create(clock: c_int, flags: c_int) -> c_int;
    fn timerfd_settime(fd: c_int, flags: c_int, new: *const Itimerspec, old: *mut Itimerspec) -> c_int;
    fn read(fd: c_int, buffer: *mut u64, count: usize) -> isize;
}

/// A file descriptor that becomes readable when a duration has passed, to the nanosecond: for an event loop of epoll, mio, tokio or
/// `io_uring`, whose own waits are whole milliseconds.
///
/// A loop registers it once, sets it to [`World::wait`](crate::World::wait) after each turn in which that has changed, and ticks and turns
/// when it is readable.
#[derive(Debug)]
pub struct Alarm {
    fd: OwnedFd,
}

impl Alarm {
    /// An alarm that is not set.
    ///
    /// # Errors
    ///
    /// Those of `timerfd_create`: no descriptor or memory is left.
    pub fn new() -> io::Result<Alarm> {
        // SAFETY: the call takes numbers.
        let fd = unsafe { timerfd_create(CLOCK_MONOTONIC, TFD_NONBLOCK | TFD_CLOEXEC) };
        if fd < 0 {
            return Err(io::Error::last_os_error());
        }
        // SAFETY: the descriptor is new, and nobody else has it.
        Ok(Alarm { fd: unsafe { OwnedFd::from_raw_fd(fd) } })
    }

    /// Makes the descriptor readable when that long has passed, and not before; never, if it is None. Any thread can.
    ///
    /// # Errors
    ///
    /// Those of `timerfd_settime`, which are none for an alarm.
    pub fn set(&self, wait: Option<Duration>) -> io::Result<()> {
        let mut new = Itimerspec::default();
        if let Some(wait) = wait {
            // Zero would not set it at all.
            let wait = wait.max(Duration::from_nanos(1));
            new.value.seconds = c_long::try_from(wait.as_secs()).unwrap_or(c_long::MAX);
            new.value.nanoseconds = c_long::from(wait.subsec_nanos());
        }
        // SAFETY: the descriptor is open, and the first pointer is of a value that outlives the call.
        let status = unsafe { timerfd_settime(self.fd.as_raw_fd(), 0, &raw const new, ptr::null_mut()) };
        if status < 0 { Err(io::Error::last_os_error()) } else { Ok(()) }
    }

    /// Makes the descriptor unreadable until it is set again, and returns whether it was readable.
    #[allow(clippy::must_use_candidate)]
    pub fn clear(&self) -> bool {
        let mut times = 0;
        // SAFETY: the descriptor is open, and the buffer has the eight bytes.
        unsafe { read(self.fd.as_raw_fd(), &raw mut times, size_of::<u64>()) > 0 }
    }
}

impl AsFd for Alarm {
    fn as_fd(&self) -> BorrowedFd<'_> {
        self.fd.as_fd()
    }
}

impl AsRawFd for Alarm {
    fn as_raw_fd(&self) -> RawFd {
        self.fd.as_raw_fd()
    }
}
