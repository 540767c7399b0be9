//! Messages, and what turns report.
use core::time::Duration;

use ertime_sys as sys;

use crate::{Time, Timer};

/// A message. Kinds may be added; one that this crate doesn't know is left out.
#[derive(Clone, Copy, Debug, PartialEq, Eq, Hash)]
#[non_exhaustive]
pub enum Mail<T> {
    /// A timer expired.
    Timeout {
        /// The timer.
        timer: Timer,
        /// What it was started with.
        message: T,
    },
    /// A bare timer expired.
    Bare {
        /// What it was started with.
        message: T,
    },
    /// A request to cancel was answered.
    CancelDone {
        /// The timer.
        timer: Timer,
        /// How much of its time was left; None if it was not armed.
        left: Option<Duration>,
        /// What the timer was started with, if the request ended it.
        message: Option<T>,
    },
    /// A request to read was answered.
    ReadDone {
        /// The timer.
        timer: Timer,
        /// How much of its time was left; None if it was not armed.
        left: Option<Duration>,
    },
    /// The time offset changed.
    Change {
        /// Who asked to be notified.
        monitor: Monitor,
        /// The time offset, in nanoseconds.
        offset: i64,
    },
}

impl<T> Mail<T> {
    /// What an expired timer was started with, or one that a request cancelled.
    pub fn into_message(self) -> Option<T> {
        match self {
            Mail::Timeout { message, .. } | Mail::Bare { message } => Some(message),
            Mail::CancelDone { message, .. } => message,
            Mail::ReadDone { .. } | Mail::Change { .. } => None,
        }
    }

    /// The timer that the message is of.
    pub fn timer(&self) -> Option<Timer> {
        match *self {
            Mail::Timeout { timer, .. } | Mail::CancelDone { timer, .. } | Mail::ReadDone { timer, .. } => Some(timer),
            Mail::Bare { .. } | Mail::Change { .. } => None,
        }
    }
}

/// A monitor of the time offset, of a process.
#[derive(Clone, Copy, Debug, PartialEq, Eq, Hash, PartialOrd, Ord)]
pub struct Monitor(pub(crate) u32);

/// What a request asks for.
#[derive(Clone, Copy, Debug, PartialEq, Eq, Hash)]
pub enum Request {
    /// To cancel the timer.
    Cancel,
    /// To read what is left of it.
    Read,
}

/// What a tick or a finalization did.
#[derive(Clone, Copy, Debug, PartialEq, Eq, Hash)]
#[non_exhaustive]
pub struct Moved {
    /// Monotonic time after it.
    pub now: Time,
    /// The new time offset, in nanoseconds, if it was set.
    pub shift: Option<i64>,
}

impl From<sys::ert_moved> for Moved {
    fn from(moved: sys::ert_moved) -> Moved {
        Moved { now: Time::from_nanos(moved.now), shift: (moved.shifted != 0).then_some(moved.shift) }
    }
}

/// Whether the time offset can change.
#[derive(Clone, Copy, Debug, PartialEq, Eq, Hash)]
#[non_exhaustive]
pub enum OffsetState {
    /// By a finalization alone.
    Preliminary,
    /// Never.
    Final,
    /// At any check.
    Volatile,
    /// A state that this crate doesn't know: the library is newer.
    Unknown(u32),
}

impl From<u32> for OffsetState {
    fn from(state: u32) -> OffsetState {
        match state {
            sys::ERT_PRELIMINARY => OffsetState::Preliminary,
            sys::ERT_FINAL => OffsetState::Final,
            sys::ERT_VOLATILE => OffsetState::Volatile,
            other => OffsetState::Unknown(other),
        }
    }
}

/// The time offset.
#[derive(Clone, Copy, Debug, PartialEq, Eq, Hash)]
#[non_exhaustive]
pub struct Offset {
    /// System time less monotonic time, in nanoseconds.
    pub nanoseconds: i64,
    /// Whether it can change.
    pub state: OffsetState,
}

impl From<sys::ert_offset> for Offset {
    fn from(offset: sys::ert_offset) -> Offset {
        Offset { nanoseconds: offset.offset, state: offset.state.into() }
    }
}

/// What a turn did.
#[derive(Clone, Copy, Debug, PartialEq, Eq, Hash)]
#[non_exhaustive]
pub struct Turned {
    /// The time to which the wheel has come: that of the last tick, unless there is more.
    pub to: Time,
    /// How many requests were served.
    pub served: u32,
    /// How many timers expired.
    pub expired: u32,
    /// How many messages were put into mailboxes.
    pub put: u32,
    /// How many messages were discarded, since their process had exited.
    pub dropped: u32,
    /// Whether there is more to do: then don't sleep, but make another turn, which goes on with it.
    pub more: bool,
}

/// What an advance did.
#[derive(Clone, Copy, Debug, PartialEq, Eq, Hash)]
#[non_exhaustive]
pub struct Advanced {
    /// The time to which the wheel has come.
    pub to: Time,
    /// How many timers expired.
    pub expired: u32,
}

/// What a delivery did.
#[derive(Clone, Copy, Debug, PartialEq, Eq, Hash)]
#[non_exhaustive]
pub struct Delivered {
    /// How many messages were put into mailboxes.
    pub put: u32,
    /// How many messages were discarded, since their process had exited.
    pub dropped: u32,
}

/// How many slots the wheel of a scheduler has available.
#[derive(Clone, Copy, Debug, PartialEq, Eq, Hash)]
#[non_exhaustive]
pub struct Room {
    /// How many slots can take a timer now.
    pub free: u32,
    /// The earliest time at which a slot that waits for its deadlines can take one again; None if none waits.
    pub ready: Option<Time>,
}
