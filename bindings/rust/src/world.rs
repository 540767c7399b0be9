//! A world: one clock with its timers and mailboxes.
use alloc::collections::VecDeque;
use alloc::sync::Arc;
use core::fmt;
use core::ops::Range;
use core::time::Duration;

use ertime_sys as sys;

use crate::calls::Handle;
use crate::notes::{Note, Notes};
use crate::post::{Known, Post};
use crate::{
    Cancelled, Error, Guard, Moved, Name, Offset, OffsetState, Reading, Refused, Settings, Start, Time, Timer, When,
};

/// One clock with its timers and mailboxes, or a part of one that is divided among threads. It is closed when it is dropped,
/// with all messages that were not taken.
///
/// `T` is the type of the timers' messages: what a timer is for, as an index, a reference-counted connection, or a waker. The
/// world owns the message of each timer until that is cancelled or its message is taken.
///
/// A world has numbered schedulers, each with a timer wheel, and numbered processes, each with a mailbox. A start without others
/// takes the first of both, and most programs have no more.
pub struct World<T> {
    pub(crate) handle: Handle,
    pub(crate) post: Post<T>,
    pub(crate) notes: Arc<Notes>,
    pub(crate) schedulers: Range<u32>,
    pub(crate) processes: Range<u32>,
    /// Monotonic time at the opening.
    pub(crate) start: Time,
    /// The timers of requests that were not answered, with the process that gets the answer.
    pub(crate) asked: VecDeque<(u32, sys::ert_timer, Timer)>,
}

impl<T> World<T> {
    /// Opens a world.
    ///
    /// # Errors
    ///
    /// [`Error::BadStart`], [`Error::BadReading`] or [`Error::BadCount`], of the settings; [`Error::NoMemory`].
    pub fn open(settings: &Settings) -> Result<World<T>, Error> {
        // The world's calls are made by one caller more.
        let handle = Handle::open(&settings.in_c(settings.seats.saturating_add(1)))?;
        World::of(handle, Arc::new(Notes::new(1)), 0..settings.schedulers, 0..settings.processes, settings.start)
    }

    pub(crate) fn of(
        handle: Handle,
        notes: Arc<Notes>,
        schedulers: Range<u32>,
        processes: Range<u32>,
        start: Time,
    ) -> Result<World<T>, Error> {
        let post = Post::new(notes.world, processes.clone())?;
        Ok(World { handle, post, notes, schedulers, processes, start, asked: VecDeque::new() })
    }

    /// The numbers of its schedulers.
    #[must_use]
    pub fn schedulers(&self) -> Range<u32> {
        self.schedulers.clone()
    }

    /// The numbers of its processes.
    #[must_use]
    pub fn processes(&self) -> Range<u32> {
        self.processes.clone()
    }

    /// Takes a reading of the clocks of the operating system: monotonic time moves on by it.
    ///
    /// # Errors
    ///
    /// [`Error::BadReading`] or [`Error::OffsetWide`]: the clock is as it was. [`Error::NoClock`]: the world is a part.
    pub fn tick(&mut self, reading: Reading) -> Result<Moved, Error> {
        Ok(self.handle.tick(reading.in_c(), false)?.into())
    }

    /// Takes a reading, as [`World::tick`], and makes a check of the two clocks whenever the last one was.
    ///
    /// # Errors
    ///
    /// As of [`World::tick`].
    pub fn check(&mut self, reading: Reading) -> Result<Moved, Error> {
        Ok(self.handle.tick(reading.in_c(), true)?.into())
    }

    /// Finalizes the time offset, and returns the state before it.
    ///
    /// # Errors
    ///
    /// As of [`World::tick`].
    pub fn finalize(&mut self, reading: Reading) -> Result<(OffsetState, Moved), Error> {
        let (before, moved) = self.handle.finalize(reading.in_c())?;
        Ok((before.into(), moved.into()))
    }

    /// Monotonic time: that of the last tick.
    #[must_use]
    pub fn now(&self) -> Time {
        Time::from_nanos(self.handle.monotonic_time())
    }

    /// System time, in nanoseconds since 1970.
    #[must_use]
    pub fn system_time(&self) -> i64 {
        self.handle.system_time()
    }

    /// The time offset: system time less monotonic time.
    #[must_use]
    pub fn time_offset(&self) -> Offset {
        self.handle.time_offset().into()
    }

    /// Starts a timer.
    ///
    /// A wait counts from the last tick. When a turn finds the timer due it expires, and its message goes to its process. No
    /// memory, as long as there is room for the message ([`World::reserve`]).
    ///
    /// # Errors
    ///
    /// [`Refused`] has the message, and turns into an [`Error`] by `?`. [`Error::Range`]: there is no such scheduler or process.
    /// [`Error::BadTime`]: no timer can be due then. [`Error::Full`]: no slot is available. [`Error::Exited`]: the
    /// process has exited. [`Error::NoMemory`]: for the message.
    pub fn start(&mut self, start: Start<T>) -> Result<Timer, Refused<T>> {
        match self.begin(&start) {
            Ok((key, known)) => Ok(self.post.put(key, known, start.message)),
            Err(error) => Err(Refused { error, start }),
        }
    }

    fn begin(&mut self, start: &Start<T>) -> Result<(u32, Known), Error> {
        self.heed();
        let scheduler = start.scheduler.unwrap_or(self.schedulers.start);
        let process = start.process.unwrap_or(self.processes.start);
        // The library would start a timer for a process that has exited, and cancel it at once.
        let key = self.post.place(process)?;
        let asked = in_c(start.when, key, process, start.bare);
        let name = self.handle.start(scheduler, &asked)?;
        Ok((key, Known { name, process, bare: start.bare }))
    }

    /// Makes room for the messages of so many timers more than there were at once: then starts take no memory until there are
    /// more.
    ///
    /// # Errors
    ///
    /// [`Error::NoMemory`].
    pub fn reserve(&mut self, count: usize) -> Result<(), Error> {
        self.post.reserve(count)
    }

    /// Gives an armed timer a new deadline. It keeps its message and its process, and stays the same [`Timer`]. Returns whether
    /// it was armed: otherwise nothing has changed.
    ///
    /// This is the call for a timeout that traffic restarts: less work than a cancel and a start.
    ///
    /// # Errors
    ///
    /// The timer is as it was, armed or not. [`Error::BadTime`]: no timer can be due then. [`Error::Full`]: its slot was used
    /// 262,143 times, and no other one is available.
    pub fn restart(&mut self, timer: Timer, when: impl Into<When>) -> Result<bool, Error> {
        let Some(known) = self.post.known(timer) else { return Ok(false) };
        let mut name = known.name;
        let start = in_c(when.into(), timer.key, known.process, known.bare);
        let is_armed = self.handle.restart(&mut name, &start)?;
        if is_armed {
            self.post.rename(timer, name);
        }
        Ok(is_armed)
    }

    /// Cancels a timer, and returns its message with the time that was left; None if it is not armed: then its message was taken,
    /// or is under way ([`World::withdraw`]).
    pub fn cancel(&mut self, timer: Timer) -> Option<Cancelled<T>> {
        let left = self.handle.cancel(&self.post.known(timer)?.name)?;
        let message = self.post.remove(timer)?;
        Some(Cancelled { left, message })
    }

    /// Cancels a timer, or takes its message back if it has expired and its message was not taken yet: after this its message
    /// never comes. None if it was taken, or the timer was cancelled.
    ///
    /// So what the message is of can be freed at once, whatever is under way.
    pub fn withdraw(&mut self, timer: Timer) -> Option<T> {
        self.heed();
        self.without(timer)
    }

    fn without(&mut self, timer: Timer) -> Option<T> {
        match self.handle.cancel(&self.post.known(timer)?.name) {
            Some(_) => self.post.remove(timer),
            None => self.post.withdraw(timer),
        }
    }

    /// Acts on the notes of other threads and of guards.
    #[inline]
    pub(crate) fn heed(&mut self) {
        if self.notes.has(self.schedulers.start) {
            self.heed_all();
        }
    }

    #[cold]
    fn heed_all(&mut self) {
        for note in self.notes.take(self.schedulers.start) {
            let message = match note {
                Note::Ended(name) => self.post.named(&name).and_then(|timer| self.post.remove(timer)),
                Note::Released(timer) => self.without(timer),
            };
            drop(message);
        }
    }

    /// What is left of a timer; None if it is not armed.
    #[must_use]
    pub fn left(&self, timer: Timer) -> Option<Duration> {
        self.handle.read(&self.post.known(timer)?.name)
    }

    /// The message of a timer that is armed, or whose message was not taken yet.
    #[must_use]
    pub fn message(&self, timer: Timer) -> Option<&T> {
        self.post.message(timer)
    }

    /// The message of a timer that is armed, or whose message was not taken yet, to be changed.
    pub fn message_mut(&mut self, timer: Timer) -> Option<&mut T> {
        self.post.message_mut(timer)
    }

    /// A guard that cancels the timer when it is dropped.
    pub fn guard(&self, timer: Timer) -> Guard {
        Guard { notes: Some(Arc::clone(&self.notes)), wheel: self.schedulers.start, timer }
    }

    /// What other threads call the timer, until it is restarted; None if it has ended.
    #[must_use]
    pub fn name(&self, timer: Timer) -> Option<Name> {
        self.post.name(timer)
    }

    /// Cancels a timer of whatever part of the world by its name, and returns the time that was left; None if it is not armed.
    /// Its message is dropped by the world or the part that started it.
    pub fn cancel_named(&mut self, name: &Name) -> Option<Duration> {
        if name.world != self.notes.world {
            return None;
        }
        let left = self.handle.cancel(&name.timer)?;
        if self.schedulers.contains(&name.timer.wheel) {
            let message = self.post.named(name).and_then(|timer| self.post.remove(timer));
            drop(message);
        } else {
            self.notes.add(name.timer.wheel, Note::Ended(*name));
        }
        Some(left)
    }

    /// What is left of a timer of whatever part of the world, by its name; None if it is not armed.
    #[must_use]
    pub fn left_named(&self, name: &Name) -> Option<Duration> {
        (name.world == self.notes.world).then(|| self.handle.read(&name.timer))?
    }

    /// Whether a process is alive, of whatever part of the world.
    ///
    /// # Errors
    ///
    /// [`Error::Range`]: there is no such process.
    pub fn is_alive(&self, process: u32) -> Result<bool, Error> {
        self.handle.is_alive(process)
    }

    /// Makes a process exit, and returns whether it was alive before. Its timers are cancelled, and all its messages dropped.
    ///
    /// # Errors
    ///
    /// [`Error::Range`]: there is no such process.
    pub fn exit(&mut self, process: u32) -> Result<bool, Error> {
        let is_first = self.handle.exit(process)?;
        while let Some(timer) = self.post.last_of(process) {
            drop(self.post.remove(timer));
        }
        self.post.exit(process);
        // Nobody learns what these requests answer: what they were to end is ended now.
        let asked = core::mem::take(&mut self.asked);
        let (gone, left) = asked.into_iter().partition(|(reply_to, ..)| *reply_to == process);
        self.asked = left;
        for (_, name, timer) in gone {
            if self.handle.cancel(&name).is_some() {
                drop(self.post.remove(timer));
            }
        }
        Ok(is_first)
    }

    /// Cancels all timers of a process, which lives on, and drops their messages. Returns how many there were. Messages of
    /// timers that have expired come as before.
    ///
    /// # Errors
    ///
    /// [`Error::Range`]: the world has no such process.
    pub fn cancel_all(&mut self, process: u32) -> Result<u64, Error> {
        if !self.post.has(process) {
            return Err(Error::Range);
        }
        let mut cancelled = 0;
        let mut next = self.post.last_of(process);
        while let Some(timer) = next {
            next = self.post.before(timer);
            if self.cancel(timer).is_some() {
                cancelled += 1;
            }
        }
        Ok(cancelled)
    }
}

/// What the library is asked to start, with the number of its message.
#[inline]
fn in_c(when: When, key: u32, process: u32, bare: bool) -> sys::ert_start {
    let (when, absolute) = when.in_c();
    sys::ert_start { when, msg: key.into(), absolute, bare: bare.into(), dest: process }
}

impl<T> fmt::Debug for World<T> {
    fn fmt(&self, f: &mut fmt::Formatter<'_>) -> fmt::Result {
        f.debug_struct("World")
            .field("now", &self.now())
            .field("schedulers", &self.schedulers)
            .field("processes", &self.processes)
            .finish_non_exhaustive()
    }
}
