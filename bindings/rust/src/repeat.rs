//! Deadlines at a fixed rate.
use core::time::Duration;

use crate::time::nanos;
use crate::{Error, Time};

/// The deadlines of a timer that repeats at a fixed rate: the first, one period after that, two periods, .. whatever the time
/// is when each of its timers is started. So it does not drift.
///
/// ```
/// use ertime::{Reading, Repeat, Settings, Start, Time, World};
/// use std::time::Duration;
///
/// let mut world = World::open(&Settings::new(Reading::default()))?;
/// let period = Duration::from_millis(100);
/// let mut beat = Repeat::new(Time::default() + period, period)?;
/// world.start(Start::at(beat.due(), "beat"))?;
/// // Its message was taken at 350 ms: the deadlines at 200 and 300 are left out.
/// let left_out = beat.skip(Time::default() + Duration::from_millis(350));
/// world.start(Start::at(beat.due(), "beat"))?;
/// assert_eq!((left_out, beat.due().as_nanos()), (2, 400_000_000));
/// # Ok::<(), ertime::Error>(())
/// ```
#[derive(Clone, Copy, Debug, PartialEq, Eq, Hash)]
pub struct Repeat {
    due: Time,
    period: i64,
}

impl Repeat {
    /// The deadlines from the first one on.
    ///
    /// # Errors
    ///
    /// [`Error::BadTime`]: the period is zero.
    pub fn new(first: Time, period: Duration) -> Result<Repeat, Error> {
        if period.is_zero() {
            return Err(Error::BadTime);
        }
        Ok(Repeat { due: first, period: nanos(period) })
    }

    /// The deadline that it is at.
    #[must_use]
    pub const fn due(&self) -> Time {
        self.due
    }

    /// Goes on to the next deadline, whether it has passed or not, and returns it.
    pub fn step(&mut self) -> Time {
        self.due = Time::from_nanos(self.due.as_nanos().saturating_add(self.period));
        self.due
    }

    /// Goes on to the first deadline after `now`, but by one period at least. Returns how many deadlines it left out.
    pub fn skip(&mut self, now: Time) -> u64 {
        let period = self.period.unsigned_abs();
        let late = if now > self.due { now.as_nanos().abs_diff(self.due.as_nanos()) } else { 0 };
        if late > 0 {
            self.due = Time::from_nanos(now.as_nanos().wrapping_sub_unsigned(late % period));
        }
        self.step();
        late / period
    }
}
