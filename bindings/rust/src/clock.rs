//! Readings of the clocks of the operating system, or of a clock that a test moves.
use std::sync::Arc;
use std::sync::atomic::{AtomicU64, Ordering};
use std::time::{Duration, Instant, SystemTime, UNIX_EPOCH};

use crate::time::nanos;
use crate::{Reading, Time};

/// A clock from which readings are made: it begins at zero when it is made.
///
/// Open a world with the clock's first reading, `Settings::new(Reading::default())`: then monotonic time of the world and the
/// clock are the same, and [`Clock::instant`] and [`Clock::time`] convert between them.
///
/// ```
/// use ertime::{Clock, Reading, Settings, Start, World};
/// use std::time::Duration;
///
/// let clock = Clock::moved(); // Clock::new() in a program
/// let mut world = World::open(&Settings::new(Reading::default()))?;
/// world.start(Start::after(Duration::from_secs(3_600), "an hour"))?;
/// clock.advance(Duration::from_secs(3_600));
/// world.tick(clock.read())?;
/// world.turn()?;
/// assert!(world.take(0)?.is_some());
/// # Ok::<(), ertime::Error>(())
/// ```
#[derive(Clone, Debug)]
pub struct Clock {
    begun: Instant,
    /// How far a test has moved it, in nanoseconds; None if it moves by itself.
    moved: Option<Arc<AtomicU64>>,
    /// Whether readings have the system clock.
    system: bool,
}

impl Clock {
    /// The monotonic clock, for a program that needs no system time.
    #[must_use]
    pub fn new() -> Clock {
        Clock { begun: Instant::now(), moved: None, system: false }
    }

    /// The monotonic clock, and the system clock beside it.
    #[must_use]
    pub fn with_system_time() -> Clock {
        Clock { system: true, ..Clock::new() }
    }

    /// A clock that stands still until [`Clock::advance`] moves it, and all clones of it, on.
    #[must_use]
    pub fn moved() -> Clock {
        Clock { moved: Some(Arc::default()), ..Clock::new() }
    }

    /// Moves a clock of [`Clock::moved`] on. Another clock goes on by itself.
    pub fn advance(&self, by: Duration) {
        if let Some(moved) = &self.moved {
            moved.fetch_add(nanos(by).unsigned_abs(), Ordering::SeqCst);
        }
    }

    /// Whether [`Clock::advance`] moves it.
    #[must_use]
    pub fn is_moved(&self) -> bool {
        self.moved.is_some()
    }

    /// The time since it began.
    #[must_use]
    pub fn elapsed(&self) -> Duration {
        match &self.moved {
            Some(moved) => Duration::from_nanos(moved.load(Ordering::SeqCst)),
            None => self.begun.elapsed(),
        }
    }

    /// A reading, for [`World::tick`](crate::World::tick).
    #[must_use]
    pub fn read(&self) -> Reading {
        let mono = nanos(self.elapsed());
        let sys = if self.system { since_1970(SystemTime::now()) } else { mono };
        Reading { mono, sys }
    }

    /// The time since it began, as a time of a world.
    #[must_use]
    pub fn now(&self) -> Time {
        Time::default() + self.elapsed()
    }

    /// The time of the world at an instant; zero if that was before the clock began.
    #[must_use]
    pub fn time(&self, instant: Instant) -> Time {
        Time::default() + instant.saturating_duration_since(self.begun)
    }

    /// The instant of a time of the world.
    #[must_use]
    pub fn instant(&self, time: Time) -> Instant {
        self.begun + time.since(Time::default())
    }
}

impl Default for Clock {
    fn default() -> Clock {
        Clock::new()
    }
}

fn since_1970(time: SystemTime) -> i64 {
    match time.duration_since(UNIX_EPOCH) {
        Ok(after) => nanos(after),
        Err(before) => -nanos(before.duration()),
    }
}
