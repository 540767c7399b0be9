//! Why a call was refused.
use core::fmt;

use ertime_sys as sys;

use crate::Start;

/// Why a call was refused. Nothing has changed then, unless the text of the call says otherwise.
#[derive(Clone, Copy, Debug, PartialEq, Eq, Hash)]
#[non_exhaustive]
pub enum Error {
    /// Out of memory.
    NoMemory,
    /// The start time is not a multiple of a millisecond, or outside -2^58 to 2^58 nanoseconds.
    BadStart,
    /// `mono` is not from 0 to below 2^62, or `sys` not between -2^61 and 2^61.
    BadReading,
    /// A number of schedulers, processes, slots, looks or callers is outside its limits.
    BadCount,
    /// The time offset would leave its limits.
    OffsetWide,
    /// There is no such process or scheduler in this world.
    Range,
    /// A timer can't be due at that time.
    BadTime,
    /// No slot that the start looked at can take a timer, or the process can have no further monitor.
    Full,
    /// The process has exited.
    Exited,
    /// Every seat of [`Settings::seats`](crate::Settings::seats) was given out.
    NoSeat,
    /// No scheduler is left that a part could have.
    NoShard,
    /// The world is a part of another one: its clock is that of the [`Hub`](crate::Hub).
    NoClock,
    /// A status that this crate doesn't know: the library is newer.
    Unknown(i32),
}

impl fmt::Display for Error {
    fn fmt(&self, f: &mut fmt::Formatter<'_>) -> fmt::Result {
        match self {
            Error::NoMemory => f.write_str("out of memory"),
            Error::BadStart => f.write_str("the start time is out of range"),
            Error::BadReading => f.write_str("a reading of the clocks is out of range"),
            Error::BadCount => f.write_str("a count of the settings is out of range"),
            Error::OffsetWide => f.write_str("the time offset would be out of range"),
            Error::Range => f.write_str("no such process or scheduler"),
            Error::BadTime => f.write_str("no timer can be due then"),
            Error::Full => f.write_str("no available slot was found, or no further monitor"),
            Error::Exited => f.write_str("the process has exited"),
            Error::NoSeat => f.write_str("every seat was given out"),
            Error::NoShard => f.write_str("no scheduler is left for a part"),
            Error::NoClock => f.write_str("the world is a part, and has no clock"),
            Error::Unknown(status) => write!(f, "unknown status {status}"),
        }
    }
}

impl core::error::Error for Error {}

/// Ok if the call was made.
#[inline]
pub(crate) fn done(status: i32) -> Result<(), Error> {
    Err(match status {
        sys::ERT_OK => return Ok(()),
        sys::ERT_NO_MEMORY => Error::NoMemory,
        sys::ERT_BAD_START => Error::BadStart,
        sys::ERT_BAD_READING => Error::BadReading,
        sys::ERT_BAD_COUNT => Error::BadCount,
        sys::ERT_OFFSET_WIDE => Error::OffsetWide,
        sys::ERT_RANGE => Error::Range,
        sys::ERT_BAD_TIME => Error::BadTime,
        sys::ERT_FULL => Error::Full,
        sys::ERT_EXITED => Error::Exited,
        sys::ERT_NO_SEAT => Error::NoSeat,
        sys::ERT_NO_SHARD => Error::NoShard,
        other => Error::Unknown(other),
    })
}

/// True if the call was made, and false if it returned that there is none.
#[inline]
pub(crate) fn done_or(status: i32, none: i32) -> Result<bool, Error> {
    if status == none { Ok(false) } else { done(status).map(|()| true) }
}

/// A start that was refused: why, and what it was to start, with its message. It turns into an [`Error`] by `?`.
#[non_exhaustive]
pub struct Refused<T> {
    /// Why.
    pub error: Error,
    /// The start, which can be made again.
    pub start: Start<T>,
}

impl<T> fmt::Debug for Refused<T> {
    fn fmt(&self, f: &mut fmt::Formatter<'_>) -> fmt::Result {
        f.debug_struct("Refused").field("error", &self.error).finish_non_exhaustive()
    }
}

impl<T> fmt::Display for Refused<T> {
    fn fmt(&self, f: &mut fmt::Formatter<'_>) -> fmt::Result {
        self.error.fmt(f)
    }
}

impl<T> core::error::Error for Refused<T> {}

impl<T> From<Refused<T>> for Error {
    fn from(refused: Refused<T>) -> Error {
        refused.error
    }
}
