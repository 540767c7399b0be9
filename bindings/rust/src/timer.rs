//! Timers: what one is started with, and what it is called.
use core::time::Duration;
use ertime_sys as sys;

use crate::{Time, When};

/// A timer of a [`World`](crate::World). It stays the same when the timer is restarted, and never stands for another timer:
/// once its timer has ended, each call answers that it is not armed.
#[derive(Clone, Copy, Debug, PartialEq, Eq, Hash, PartialOrd, Ord)]
pub struct Timer {
    /// Which start of the world it is.
    pub(crate) id: u64,
    /// Where its message lies.
    pub(crate) key: u32,
    pub(crate) world: u32,
}

/// What the library calls a timer, for other threads: by it a [`Seat`](crate::Seat), or another part of the world, cancels and
/// reads the timer without a lock. A restart gives the timer a new name, and then the old one names nothing: let other threads
/// end timers that are never restarted.
#[derive(Clone, Copy, Debug, PartialEq, Eq, Hash, PartialOrd, Ord)]
pub struct Name {
    pub(crate) timer: sys::ert_timer,
    pub(crate) key: u32,
    pub(crate) world: u32,
}

/// What a timer is started with: when it is due, its message, and who gets that.
#[derive(Clone, Copy, Debug, PartialEq, Eq, Hash)]
pub struct Start<T> {
    /// When it is due.
    pub when: When,
    /// What comes when it has expired.
    pub message: T,
    pub(crate) scheduler: Option<u32>,
    pub(crate) process: Option<u32>,
    pub(crate) bare: bool,
}

impl<T> Start<T> {
    /// A timer that is due at that time, or so long after the last tick.
    pub fn new(when: impl Into<When>, message: T) -> Start<T> {
        Start { when: when.into(), message, scheduler: None, process: None, bare: false }
    }

    /// A timer that is due so long after the last tick before its start.
    pub fn after(wait: Duration, message: T) -> Start<T> {
        Start::new(wait, message)
    }

    /// A timer that is due at a monotonic time.
    pub fn at(time: Time, message: T) -> Start<T> {
        Start::new(time, message)
    }

    /// The same timer with its message to that process, which otherwise is the first of the world.
    #[must_use]
    pub fn to(mut self, process: u32) -> Start<T> {
        self.process = Some(process);
        self
    }

    /// The same timer on the wheel of that scheduler, which otherwise is the first of the world.
    #[must_use]
    pub fn on(mut self, scheduler: u32) -> Start<T> {
        self.scheduler = Some(scheduler);
        self
    }

    /// The same timer with a message that comes without it ([`Mail::Bare`](crate::Mail::Bare)).
    #[must_use]
    pub fn bare(mut self) -> Start<T> {
        self.bare = true;
        self
    }
}

/// A timer that was cancelled.
#[derive(Clone, Copy, Debug, PartialEq, Eq, Hash)]
#[non_exhaustive]
pub struct Cancelled<T> {
    /// How much of its time was left: zero if it was due and had not expired.
    pub left: Duration,
    /// Its message.
    pub message: T,
}
