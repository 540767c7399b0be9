//! Timers for futures: a world that tasks share, and whoever drives it.
use core::fmt;
use core::future::{Future, poll_fn};
use core::pin::{Pin, pin};
use core::task::{Context, Poll, Waker};
use core::time::Duration;
use std::io;
use std::os::fd::{AsFd, AsRawFd, BorrowedFd, RawFd};
use std::sync::{Arc, Mutex, MutexGuard, PoisonError};
use std::time::Instant;
use std::vec::Vec;

use crate::alarm::Alarm;
use crate::{Clock, Error, Hub, Interval, Mail, Reading, Settings, Sleep, Start, Time, Timer, World};

/// How many timers at most expire in one turn, before others get the lock.
const AT_ONCE: u32 = 1_024;

/// Timers for futures, on a world that all clones of this share.
///
/// Tasks make [`Sleep`]s and [`Interval`]s, on any thread. One task or loop drives them: it waits until the file descriptor of
/// this is readable, and calls [`Timers::turn`]. The descriptor is set to when the next timer is due, to the nanosecond, also by a
/// task that starts an earlier one. The crate `ertime-tokio` does so in a task of tokio; [`Timers::run`] drives them by a clock that a
/// test moves.
#[derive(Clone)]
pub struct Timers(Arc<Shared>);

struct Shared {
    clock: Clock,
    alarm: Alarm,
    state: Mutex<State>,
}

struct State {
    world: World<Waker>,
    /// The clock of the world, if it is a part.
    hub: Option<Arc<Mutex<Hub>>>,
    /// When the alarm becomes readable.
    armed: Option<Time>,
    /// Whom a turn wakes.
    woken: Vec<Waker>,
}

impl Timers {
    /// Timers by the monotonic clock, with room for 16,384 at once.
    ///
    /// # Errors
    ///
    /// As of [`Timers::open`].
    pub fn new() -> io::Result<Timers> {
        Timers::open(16_384, Clock::new())
    }

    /// Timers by a clock, with room for so many at once.
    ///
    /// # Errors
    ///
    /// No memory or no descriptor is left, or the number is outside the limits of [`Settings::slots`].
    pub fn open(slots: u32, clock: Clock) -> io::Result<Timers> {
        let settings = Settings::new(Reading::default()).slots(slots);
        Timers::over(World::open(&settings).map_err(io::Error::other)?, None, clock)
    }

    /// Timers on the part of a world that is divided among threads: each thread drives its own. Whoever turns also ticks the
    /// hub, unless another thread does so at that moment. The hub was opened with `Reading::default()`.
    ///
    /// # Errors
    ///
    /// No memory or no descriptor is left.
    pub fn of_part(part: World<Waker>, hub: Arc<Mutex<Hub>>, clock: Clock) -> io::Result<Timers> {
        Timers::over(part, Some(hub), clock)
    }

    fn over(world: World<Waker>, hub: Option<Arc<Mutex<Hub>>>, clock: Clock) -> io::Result<Timers> {
        let state = Mutex::new(State { world, hub, armed: None, woken: Vec::new() });
        Ok(Timers(Arc::new(Shared { clock, alarm: Alarm::new()?, state })))
    }

    /// The clock.
    #[must_use]
    pub fn clock(&self) -> &Clock {
        &self.0.clock
    }

    /// A future that is ready when that long has passed.
    pub fn sleep(&self, wait: Duration) -> Sleep {
        Sleep::new(self, self.clock().now() + wait)
    }

    /// A future that is ready at an instant.
    pub fn sleep_until(&self, instant: Instant) -> Sleep {
        Sleep::new(self, self.clock().time(instant))
    }

    /// Ticks at a fixed rate: the first at once, the next one period after that.
    ///
    /// # Errors
    ///
    /// [`Error::BadTime`]: the period is zero.
    pub fn interval(&self, period: Duration) -> Result<Interval, Error> {
        Interval::new(self, self.clock().now(), period)
    }

    /// Ends a future when that long has passed: its output, or None if the time has passed first.
    ///
    /// # Errors
    ///
    /// As of a [`Sleep`].
    pub async fn timeout<F: Future>(&self, wait: Duration, future: F) -> Result<Option<F::Output>, Error> {
        let (mut future, mut sleep) = (pin!(future), self.sleep(wait));
        poll_fn(|context| {
            if let Poll::Ready(output) = future.as_mut().poll(context) {
                return Poll::Ready(Ok(Some(output)));
            }
            Pin::new(&mut sleep).poll(context).map_ok(|()| None)
        })
        .await
    }

    /// Takes a reading of the clock, makes a turn, and wakes the tasks whose timers have expired. Returns how long it is until the
    /// next one can be due, if there is one; the alarm is set so.
    ///
    /// # Errors
    ///
    /// [`Error::NoMemory`]: nothing is lost, and the next turn goes on. [`Error::BadReading`]: after 146 years.
    pub fn turn(&self) -> Result<Option<Duration>, Error> {
        let (next, mut woken) = {
            let mut state = self.state();
            self.0.alarm.clear();
            let next = state.turn(self.clock());
            // After an error it is tried again soon.
            let soon = || self.clock().now() + Duration::from_millis(1);
            state.armed = next.unwrap_or_else(|_| Some(soon()));
            self.arm(state.armed);
            (next, core::mem::take(&mut state.woken))
        };
        // A waker may call whatever it wants, so it isn't called under the lock.
        woken.drain(..).for_each(Waker::wake);
        self.state().woken = woken; // its room is used again
        Ok(next?.map(|due| due - self.clock().now()))
    }

    /// Moves a clock of [`Clock::moved`] on, with a turn at each time at which a timer is due, and wakes whom these wake.
    ///
    /// # Errors
    ///
    /// As of [`Timers::turn`].
    pub fn advance(&self, by: Duration) -> Result<(), Error> {
        let to = self.clock().now() + by;
        while let Some(due) = self.next_due()?.filter(|due| *due < to) {
            self.clock().advance(due - self.clock().now());
            self.turn()?;
        }
        self.clock().advance(to - self.clock().now());
        self.turn().map(drop)
    }

    /// Runs a future by a clock that the test moves ([`Clock::moved`]): whenever it waits, the clock is moved to the next timer that is
    /// due. So an hour passes in an instant. The output; None if it waits and no timer is left.
    ///
    /// By a clock that moves by itself the thread sleeps until then.
    ///
    /// # Errors
    ///
    /// As of [`Timers::turn`].
    pub fn run<F: Future>(&self, future: F) -> Result<Option<F::Output>, Error> {
        let mut future = pin!(future);
        let mut context = Context::from_waker(Waker::noop());
        loop {
            if let Poll::Ready(output) = future.as_mut().poll(&mut context) {
                return Ok(Some(output));
            }
            let Some(due) = self.next_due()? else { return Ok(None) };
            let wait = due - self.clock().now();
            if self.clock().is_moved() {
                self.clock().advance(wait);
            } else {
                std::thread::sleep(wait);
            }
            self.turn()?;
        }
    }

    fn next_due(&self) -> Result<Option<Time>, Error> {
        self.state().world.next_due()
    }

    fn state(&self) -> MutexGuard<'_, State> {
        // A panic of a waker leaves nothing half done.
        self.0.state.lock().unwrap_or_else(PoisonError::into_inner)
    }

    fn arm(&self, due: Option<Time>) {
        if !self.clock().is_moved() {
            // It fails for no descriptor of an alarm.
            let _is_set = self.0.alarm.set(due.map(|due| due - self.clock().now()));
        }
    }

    /// Polls a sleep: the timer is started when that is polled first. Ready if its time has passed.
    pub(crate) fn poll(&self, due: Time, timer: &mut Option<Timer>, waker: &Waker) -> Poll<Result<(), Error>> {
        if let Some(timer) = *timer {
            let mut state = self.state();
            let Some(kept) = state.world.message_mut(timer) else { return Poll::Ready(Ok(())) };
            let other = (!kept.will_wake(waker)).then(|| core::mem::replace(kept, waker.clone()));
            drop(state);
            drop(other); // which may call whatever a waker does
            return Poll::Pending;
        }
        if due <= self.clock().now() {
            return Poll::Ready(Ok(()));
        }
        let mut state = self.state();
        match state.world.start(Start::at(due, waker.clone()).bare()) {
            Ok(started) => *timer = Some(started),
            Err(refused) => return Poll::Ready(Err(refused.error)),
        }
        self.expect(&mut state, due);
        Poll::Pending
    }

    /// Sets the alarm, if it would come too late.
    fn expect(&self, state: &mut State, due: Time) {
        if state.armed.is_none_or(|armed| due < armed) {
            state.armed = Some(due);
            self.arm(Some(due));
        }
    }

    /// Moves a timer of a sleep, if it is armed.
    pub(crate) fn restart(&self, timer: Timer, due: Time) -> Result<bool, Error> {
        let mut state = self.state();
        let is_armed = state.world.restart(timer, due)?;
        if is_armed {
            self.expect(&mut state, due);
        }
        Ok(is_armed)
    }

    pub(crate) fn cancel(&self, timer: Timer) {
        let waker = self.state().world.withdraw(timer);
        drop(waker); // which may call whatever a waker does, so not under the lock
    }
}

impl State {
    /// Makes a turn, and puts those aside whom it wakes. Returns when there is more to do.
    fn turn(&mut self, clock: &Clock) -> Result<Option<Time>, Error> {
        match &self.hub {
            None => drop(self.world.tick(clock.read())?),
            Some(hub) => {
                // Whoever has the lock is ticking.
                if let Ok(mut hub) = hub.try_lock() {
                    hub.tick(clock.read())?;
                }
            }
        }
        let turned = self.world.turn_some(AT_ONCE)?;
        let process = self.world.processes().start;
        let wakers = self.world.drain(process)?.filter_map(Mail::into_message);
        self.woken.extend(wakers);
        if turned.more { Ok(Some(clock.now())) } else { self.world.next_due() }
    }
}

impl AsFd for Timers {
    fn as_fd(&self) -> BorrowedFd<'_> {
        self.0.alarm.as_fd()
    }
}

impl AsRawFd for Timers {
    fn as_raw_fd(&self) -> RawFd {
        self.0.alarm.as_raw_fd()
    }
}

impl fmt::Debug for Timers {
    fn fmt(&self, f: &mut fmt::Formatter<'_>) -> fmt::Result {
        f.debug_struct("Timers").field("clock", &self.0.clock).finish_non_exhaustive()
    }
}
