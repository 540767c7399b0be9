//! Points in time, readings of the clocks, and when a timer is due.
use core::ops::{Add, AddAssign, Sub};
use core::time::Duration;

use ertime_sys as sys;

const MILLISECOND: i64 = 1_000_000;

/// A duration in nanoseconds, as far as they go.
pub(crate) fn nanos(duration: Duration) -> i64 {
    let whole = i64::try_from(duration.as_secs()).unwrap_or(i64::MAX);
    whole.saturating_mul(1_000_000_000).saturating_add(duration.subsec_nanos().into())
}

/// A point in the monotonic time of a world, in nanoseconds: 0 is when the world was opened, unless [`Settings::start`] says
/// otherwise.
///
/// [`Settings::start`]: crate::Settings::start
#[derive(Clone, Copy, Debug, Default, PartialEq, Eq, Hash, PartialOrd, Ord)]
pub struct Time(i64);

impl Time {
    /// The latest time that there is. No timer can be due then.
    pub const MAX: Time = Time(i64::MAX);

    /// The time that is so many nanoseconds.
    #[must_use]
    pub const fn from_nanos(nanoseconds: i64) -> Time {
        Time(nanoseconds)
    }

    /// The time in nanoseconds.
    #[must_use]
    pub const fn as_nanos(self) -> i64 {
        self.0
    }

    /// How much later it is than an earlier time; zero if it is not later.
    #[must_use]
    pub const fn since(self, earlier: Time) -> Duration {
        if self.0 > earlier.0 { Duration::from_nanos(self.0.abs_diff(earlier.0)) } else { Duration::ZERO }
    }

    /// The time in milliseconds, rounded up, as the library has deadlines.
    pub(crate) const fn in_milliseconds(self) -> i64 {
        let whole = self.0.div_euclid(MILLISECOND);
        if self.0.rem_euclid(MILLISECOND) == 0 { whole } else { whole + 1 }
    }

    /// The time that is so many milliseconds after the start time of a world.
    pub(crate) fn after_start(start: Time, milliseconds: u64) -> Time {
        start + Duration::from_millis(milliseconds)
    }
}

/// A time that is later by a duration; [`Time::MAX`] if there is none.
impl Add<Duration> for Time {
    type Output = Time;

    fn add(self, duration: Duration) -> Time {
        Time(self.0.saturating_add(nanos(duration)))
    }
}

impl AddAssign<Duration> for Time {
    fn add_assign(&mut self, duration: Duration) {
        *self = *self + duration;
    }
}

/// How much later the time is than another; zero if it is not later.
impl Sub for Time {
    type Output = Duration;

    fn sub(self, earlier: Time) -> Duration {
        self.since(earlier)
    }
}

/// When a timer is due. Deadlines are whole milliseconds, rounded up, so that no timer is early.
#[derive(Clone, Copy, Debug, PartialEq, Eq, Hash)]
pub enum When {
    /// So long after the last tick before the call.
    After(Duration),
    /// At a monotonic time.
    At(Time),
}

impl When {
    /// The number that the library takes, and whether it is a time.
    #[inline]
    pub(crate) fn in_c(self) -> (i64, u32) {
        match self {
            When::After(wait) => {
                let rest = i64::from(wait.subsec_nanos().div_ceil(1_000_000));
                let whole = i64::try_from(wait.as_secs()).unwrap_or(i64::MAX);
                (whole.saturating_mul(1_000).saturating_add(rest), 0)
            }
            When::At(time) => (time.in_milliseconds(), 1),
        }
    }
}

impl From<Duration> for When {
    fn from(wait: Duration) -> When {
        When::After(wait)
    }
}

impl From<Time> for When {
    fn from(time: Time) -> When {
        When::At(time)
    }
}

/// A reading of the clocks of the operating system, in nanoseconds. With the feature `std`, [`Clock`] makes them.
///
/// [`Clock`]: crate::Clock
#[derive(Clone, Copy, Debug, Default, PartialEq, Eq, Hash)]
pub struct Reading {
    /// The monotonic clock: from 0 to below 2^62.
    pub mono: i64,
    /// The system clock, since 1970: between -2^61 and 2^61. A program that needs no system time sets it to `mono`.
    pub sys: i64,
}

impl Reading {
    /// A reading for a program that needs no system time: both clocks show the time since some fixed moment.
    #[must_use]
    pub fn monotonic(elapsed: Duration) -> Reading {
        let mono = nanos(elapsed);
        Reading { mono, sys: mono }
    }

    pub(crate) fn in_c(self) -> sys::ert_reading {
        sys::ert_reading { mono: self.mono, sys: self.sys }
    }
}
