//! Futures that wait for a time.
use core::fmt;
use core::future::{Future, poll_fn};
use core::pin::Pin;
use core::task::{Context, Poll, ready};
use core::time::Duration;
use std::time::Instant;

use crate::{Error, Repeat, Time, Timer, Timers};

/// A future that is ready when a time has passed, and never before ([`Timers::sleep`]). Its timer is started when it is polled
/// first, and cancelled when it is dropped.
///
/// It ends with [`Error::Full`] if there is no room for its timer, and with [`Error::BadTime`] if no timer can be due then.
#[must_use = "it does nothing unless it is awaited"]
pub struct Sleep {
    timers: Timers,
    due: Time,
    timer: Option<Timer>,
}

impl Sleep {
    pub(crate) fn new(timers: &Timers, due: Time) -> Sleep {
        Sleep { timers: timers.clone(), due, timer: None }
    }

    /// When it is ready.
    #[must_use]
    pub fn deadline(&self) -> Instant {
        self.timers.clock().instant(self.due)
    }

    /// Whether its time has passed.
    #[must_use]
    pub fn is_elapsed(&self) -> bool {
        self.due <= self.timers.clock().now()
    }

    /// Moves it to so long from now, whether it was ready or not: one call for a timeout that traffic restarts.
    pub fn reset(&mut self, wait: Duration) {
        self.reset_to(self.timers.clock().now() + wait);
    }

    /// Moves it to an instant, whether it was ready or not.
    pub fn reset_until(&mut self, instant: Instant) {
        self.reset_to(self.timers.clock().time(instant));
    }

    pub(crate) fn reset_to(&mut self, due: Time) {
        self.due = due;
        let Some(timer) = self.timer else { return };
        if !self.timers.restart(timer, due).unwrap_or(false) {
            // The next poll starts another timer.
            self.timers.cancel(timer);
            self.timer = None;
        }
    }
}

impl Future for Sleep {
    type Output = Result<(), Error>;

    fn poll(mut self: Pin<&mut Self>, context: &mut Context<'_>) -> Poll<Result<(), Error>> {
        let this = &mut *self;
        this.timers.poll(this.due, &mut this.timer, context.waker())
    }
}

impl Drop for Sleep {
    fn drop(&mut self) {
        if let Some(timer) = self.timer {
            self.timers.cancel(timer);
        }
    }
}

impl fmt::Debug for Sleep {
    fn fmt(&self, f: &mut fmt::Formatter<'_>) -> fmt::Result {
        f.debug_struct("Sleep").field("due", &self.due).finish_non_exhaustive()
    }
}

/// What an [`Interval`] does with ticks whose time has passed before it was asked for them.
#[derive(Clone, Copy, Debug, Default, PartialEq, Eq, Hash)]
#[non_exhaustive]
pub enum Missed {
    /// They come one after the other, at once.
    #[default]
    Burst,
    /// They are left out.
    Skip,
}

/// Ticks at a fixed rate ([`Timers::interval`]), which don't drift.
#[derive(Debug)]
#[must_use = "it does nothing unless it is asked for ticks"]
pub struct Interval {
    sleep: Sleep,
    repeat: Repeat,
    missed: Missed,
}

impl Interval {
    pub(crate) fn new(timers: &Timers, first: Time, period: Duration) -> Result<Interval, Error> {
        Ok(Interval { sleep: Sleep::new(timers, first), repeat: Repeat::new(first, period)?, missed: Missed::Burst })
    }

    /// What it does with ticks that were missed: [`Missed::Burst`] unless this says otherwise.
    pub fn missed(mut self, missed: Missed) -> Interval {
        self.missed = missed;
        self
    }

    /// The next tick: the time of its deadline. No tick is lost if the future is dropped before it is ready.
    ///
    /// # Errors
    ///
    /// As of a [`Sleep`].
    pub async fn tick(&mut self) -> Result<Instant, Error> {
        poll_fn(|context| self.poll_tick(context)).await
    }

    /// Polls for the next tick.
    ///
    /// # Errors
    ///
    /// As of a [`Sleep`].
    pub fn poll_tick(&mut self, context: &mut Context<'_>) -> Poll<Result<Instant, Error>> {
        ready!(Pin::new(&mut self.sleep).poll(context))?;
        let due = self.repeat.due();
        match self.missed {
            Missed::Burst => {
                self.repeat.step();
            }
            Missed::Skip => {
                self.repeat.skip(self.sleep.timers.clock().now());
            }
        }
        self.sleep.reset_to(self.repeat.due());
        Poll::Ready(Ok(self.sleep.timers.clock().instant(due)))
    }
}
