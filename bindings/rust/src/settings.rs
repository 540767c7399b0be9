//! What a world is opened with.
use ertime_sys as sys;

use crate::{Reading, Time};

/// The time warp modes: when the time offset, and so system time, may leap.
#[derive(Clone, Copy, Debug, PartialEq, Eq, Hash)]
#[non_exhaustive]
pub enum Mode {
    /// Never.
    No,
    /// Once, at [`World::finalize`](crate::World::finalize).
    Single,
    /// At any check.
    Multi,
}

impl Mode {
    fn in_c(self) -> u32 {
        match self {
            Mode::No => sys::ERT_NO_WARP,
            Mode::Single => sys::ERT_SINGLE_WARP,
            Mode::Multi => sys::ERT_MULTI_WARP,
        }
    }
}

/// What a world is opened with: begin with [`Settings::new`], and change what you want otherwise.
///
/// ```
/// use ertime::{Reading, Settings};
///
/// let settings = Settings::new(Reading::default()).slots(16_384).processes(2);
/// assert_eq!(settings.looks, 64);
/// ```
#[derive(Clone, Copy, Debug, PartialEq, Eq)]
#[non_exhaustive]
pub struct Settings {
    /// When the time offset may leap. With [`Mode::Multi`] monotonic time and timers go as the `mono` of the readings does,
    /// whatever happens to the system clock.
    pub mode: Mode,
    /// Whether time correction is on. Without it every timer stands still while the system clock, set back, has
    /// not caught up.
    pub correction: bool,
    /// Monotonic time at the opening, a multiple of a millisecond.
    pub start: Time,
    /// How many schedulers there are: each has a timer wheel. One is enough for up to a million timers.
    pub schedulers: u32,
    /// How many processes there are: each has a mailbox. One is enough for most programs.
    pub processes: u32,
    /// Timer slots of each scheduler, 1 to 16,777,216; at most 67,108,864 of all.
    pub slots: u32,
    /// How many slots of its wheel a start searches when no slot is known to be free, 1 or more, at some 2 nanoseconds
    /// each. Unless the search finds one that another thread's cancel has freed, or whose wait has ended, the start is
    /// refused ([`Error::Full`](crate::Error::Full)). Slots that the wheel's own thread has freed are always known.
    pub looks: u32,
    /// How many seats the world can give out, 1,024 at most.
    pub seats: u32,
    /// The reading that the clock opens with.
    pub first: Reading,
}

impl Settings {
    /// The recommended settings, as `ert_settings_init` of C has them: timers go as the monotonic clock does, whatever
    /// happens to the system clock (multi time warp with time correction). One scheduler, one process, 1,024 slots, 64
    /// looks, no seat, and monotonic time from 0.
    #[must_use]
    pub const fn new(first: Reading) -> Settings {
        Settings {
            mode: Mode::Multi,
            correction: true,
            start: Time::from_nanos(0),
            schedulers: 1,
            processes: 1,
            slots: 1_024,
            looks: 64,
            seats: 0,
            first,
        }
    }

    /// The same with so many slots for each scheduler.
    #[must_use]
    pub const fn slots(mut self, slots: u32) -> Settings {
        self.slots = slots;
        self
    }

    /// The same with so many processes.
    #[must_use]
    pub const fn processes(mut self, processes: u32) -> Settings {
        self.processes = processes;
        self
    }

    /// The same with so many schedulers.
    #[must_use]
    pub const fn schedulers(mut self, schedulers: u32) -> Settings {
        self.schedulers = schedulers;
        self
    }

    /// The same with so many seats.
    #[must_use]
    pub const fn seats(mut self, seats: u32) -> Settings {
        self.seats = seats;
        self
    }

    pub(crate) fn in_c(&self, callers: u32) -> sys::ert_settings {
        sys::ert_settings {
            size: u32::try_from(size_of::<sys::ert_settings>()).unwrap_or(0),
            mode: self.mode.in_c(),
            correction: self.correction.into(),
            schedulers: self.schedulers,
            processes: self.processes,
            slots: self.slots,
            callers,
            looks: self.looks,
            start: self.start.as_nanos(),
            first: self.first.in_c(),
        }
    }
}
