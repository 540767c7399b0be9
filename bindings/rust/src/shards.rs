//! A world that is divided among threads, and handles of one for further threads.
use alloc::boxed::Box;
use alloc::sync::Arc;
use core::cell::UnsafeCell;
use core::fmt;
use core::time::Duration;

use ertime_sys as sys;

use crate::calls::Handle;
use crate::error::done;
use crate::notes::{Note, Notes};
use crate::{Error, Moved, Name, Offset, OffsetState, Reading, Settings, Time, World};

/// The clock of a world that is divided among threads, and what was given to no part. It is closed when it is dropped.
///
/// Time moves by [`Hub::tick`] alone, for all parts at once. One thread can have the hub; or it lies in a `Mutex`, and
/// whoever wakes ticks if `try_lock` gets it.
pub struct Hub {
    handle: Box<UnsafeCell<sys::ert_hub>>,
    notes: Arc<Notes>,
    start: Time,
    /// How many schedulers are left, and how many processes: parts get the last ones.
    schedulers: u32,
    processes: u32,
}

// SAFETY: a handle may go from one thread to another. What lies behind it is shared with other handles by atomic steps alone.
unsafe impl Send for Hub {}

impl Hub {
    /// Opens a world that is to be divided. Each of its schedulers can go to a part.
    ///
    /// # Errors
    ///
    /// As of [`World::open`]; [`Error::BadCount`] also if the schedulers and the seats of the settings are above 1,024
    /// together, since each part and each seat has a caller of its own.
    pub fn open(settings: &Settings) -> Result<Hub, Error> {
        // One caller for each part, and one for the hub.
        let callers = settings.schedulers.saturating_add(1);
        let given = settings.in_c(callers.saturating_add(settings.seats));
        let handle = Box::new(UnsafeCell::new(sys::ert_hub::INIT));
        // SAFETY: the handle is closed, and both pointers are of values that outlive the call.
        done(unsafe { sys::ert_hub_open(handle.get(), &raw const given) })?;
        let Settings { schedulers, processes, start, .. } = *settings;
        Ok(Hub { handle, notes: Arc::new(Notes::new(schedulers)), start, schedulers, processes })
    }

    /// Gives the last scheduler that is left, and so many of the last processes, to a part for a thread: a world without a clock
    /// of its own, for messages of whatever type.
    ///
    /// # Errors
    ///
    /// [`Error::NoShard`]: no scheduler is left. [`Error::Range`]: not so many processes are left. [`Error::NoMemory`].
    pub fn shard<T>(&mut self, processes: u32) -> Result<World<T>, Error> {
        let of = Box::new(UnsafeCell::new(sys::ert_shard::INIT));
        // SAFETY: the hub's handle is open and this thread's, and the other one is closed.
        done(unsafe { sys::ert_hub_shard(self.handle.get(), of.get(), processes) })?;
        let (scheduler, to) = (self.schedulers - 1, self.processes);
        self.schedulers = scheduler;
        self.processes = to - processes;
        let handle = Handle::Part { of, scheduler };
        World::of(handle, Arc::clone(&self.notes), scheduler..scheduler + 1, self.processes..to, self.start)
    }

    /// A seat for another thread. Its caller is not given out again, not even once it is dropped.
    ///
    /// # Errors
    ///
    /// [`Error::NoSeat`]: each seat of the settings was given out. [`Error::NoMemory`].
    pub fn seat(&mut self) -> Result<Seat, Error> {
        // SAFETY: the hub's handle is open and this thread's, and that of the seat is closed.
        Seat::open(&self.notes, |seat| done(unsafe { sys::ert_hub_seat(self.handle.get(), seat) }))
    }

    /// Takes a reading of the clocks of the operating system: monotonic time moves on by it, for all parts.
    ///
    /// # Errors
    ///
    /// [`Error::BadReading`] or [`Error::OffsetWide`]: the clock is as it was.
    pub fn tick(&mut self, reading: Reading) -> Result<Moved, Error> {
        self.tick_with(reading, false)
    }

    /// Takes a reading, as [`Hub::tick`], and makes a check of the two clocks whenever the last one was.
    ///
    /// # Errors
    ///
    /// As of [`Hub::tick`].
    pub fn check(&mut self, reading: Reading) -> Result<Moved, Error> {
        self.tick_with(reading, true)
    }

    fn tick_with(&mut self, reading: Reading, force: bool) -> Result<Moved, Error> {
        let (reading, mut moved) = (reading.in_c(), sys::ert_moved::default());
        let handle = self.handle.get();
        // SAFETY: the handle is open and this thread's; the other pointers are of values that outlive the call.
        done(unsafe { sys::ert_hub_tick(handle, &raw const reading, force.into(), &raw mut moved) })?;
        Ok(moved.into())
    }

    /// Finalizes the time offset, and returns the state before it.
    ///
    /// # Errors
    ///
    /// As of [`Hub::tick`].
    pub fn finalize(&mut self, reading: Reading) -> Result<(OffsetState, Moved), Error> {
        let (reading, mut before, mut moved) = (reading.in_c(), 0, sys::ert_moved::default());
        let handle = self.handle.get();
        // SAFETY: as of a tick.
        done(unsafe { sys::ert_hub_finalize(handle, &raw const reading, &raw mut before, &raw mut moved) })?;
        Ok((before.into(), moved.into()))
    }

    /// Monotonic time: that of the last tick.
    #[must_use]
    pub fn now(&self) -> Time {
        let mut time = 0;
        // SAFETY: as of a tick.
        let _open = unsafe { sys::ert_hub_monotonic_time(self.handle.get(), &raw mut time) };
        Time::from_nanos(time)
    }

    /// System time, in nanoseconds since 1970.
    #[must_use]
    pub fn system_time(&self) -> i64 {
        let mut time = 0;
        // SAFETY: as of a tick.
        let _open = unsafe { sys::ert_hub_system_time(self.handle.get(), &raw mut time) };
        time
    }

    /// The time offset: system time less monotonic time.
    #[must_use]
    pub fn time_offset(&self) -> Offset {
        let mut offset = sys::ert_offset::default();
        // SAFETY: as of a tick.
        let _open = unsafe { sys::ert_hub_time_offset(self.handle.get(), &raw mut offset) };
        offset.into()
    }

    /// Cancels a timer of whatever part by its name, and returns the time that was left; None if it is not armed. Its message
    /// is dropped by the part that started it.
    pub fn cancel_named(&mut self, name: &Name) -> Option<Duration> {
        // SAFETY: as of a tick.
        ended(&self.notes, name, |left| unsafe { sys::ert_hub_cancel(self.handle.get(), &raw const name.timer, left) })
    }

    /// What is left of a timer of whatever part, by its name; None if it is not armed.
    #[must_use]
    pub fn left_named(&self, name: &Name) -> Option<Duration> {
        // SAFETY: as of a tick.
        left(&self.notes, name, |left| unsafe { sys::ert_hub_read(self.handle.get(), &raw const name.timer, left) })
    }
}

/// What is left of a timer that a call reads or cancels, if it is of this world.
fn left(notes: &Notes, name: &Name, call: impl FnOnce(*mut u64) -> i32) -> Option<Duration> {
    let mut left = 0;
    let is_so = name.world == notes.world && call(&raw mut left) == sys::ERT_OK;
    is_so.then(|| Duration::from_millis(left))
}

/// The same of a call that has cancelled it: the owner of its message learns that.
fn ended(notes: &Notes, name: &Name, call: impl FnOnce(*mut u64) -> i32) -> Option<Duration> {
    let left = left(notes, name, call)?;
    notes.add(name.timer.wheel, Note::Ended(*name));
    Some(left)
}

impl Drop for Hub {
    fn drop(&mut self) {
        // SAFETY: as of a tick.
        let _open = unsafe { sys::ert_hub_close(self.handle.get()) };
    }
}

impl fmt::Debug for Hub {
    fn fmt(&self, f: &mut fmt::Formatter<'_>) -> fmt::Result {
        f.debug_struct("Hub").field("now", &self.now()).finish_non_exhaustive()
    }
}

impl<T> World<T> {
    /// A seat for another thread. Its caller is not given out again, not even once it is dropped.
    ///
    /// # Errors
    ///
    /// [`Error::NoSeat`]: each seat of the settings was given out, or the world is a part: ask the [`Hub`]. [`Error::NoMemory`].
    pub fn seat(&mut self) -> Result<Seat, Error> {
        Seat::open(&self.notes, |seat| self.handle.seat(seat))
    }
}

/// Lets another thread read the time, and cancel and read timers by their names, while others use the world and its other seats,
/// without a lock. It can outlive its world, and is closed when it is dropped.
pub struct Seat {
    handle: Box<UnsafeCell<sys::ert_seat>>,
    notes: Arc<Notes>,
}

// SAFETY: a handle may go from one thread to another. What lies behind it is shared with other handles by atomic steps alone.
unsafe impl Send for Seat {}

impl Seat {
    fn open(notes: &Arc<Notes>, call: impl FnOnce(*mut sys::ert_seat) -> Result<(), Error>) -> Result<Seat, Error> {
        let handle = Box::new(UnsafeCell::new(sys::ert_seat::INIT));
        call(handle.get())?;
        Ok(Seat { handle, notes: Arc::clone(notes) })
    }

    /// Monotonic time: that of the last tick, whichever thread made it.
    #[must_use]
    pub fn now(&self) -> Time {
        let mut time = 0;
        // SAFETY: the handle is open and this thread's; the other pointer is of a value that outlives the call.
        let _open = unsafe { sys::ert_seat_monotonic_time(self.handle.get(), &raw mut time) };
        Time::from_nanos(time)
    }

    /// System time, in nanoseconds since 1970: monotonic time, and the time offset that was read after it.
    #[must_use]
    pub fn system_time(&self) -> i64 {
        let mut time = 0;
        // SAFETY: as of `now`.
        let _open = unsafe { sys::ert_seat_system_time(self.handle.get(), &raw mut time) };
        time
    }

    /// The time offset: system time less monotonic time.
    #[must_use]
    pub fn time_offset(&self) -> Offset {
        let mut offset = sys::ert_offset::default();
        // SAFETY: as of `now`.
        let _open = unsafe { sys::ert_seat_time_offset(self.handle.get(), &raw mut offset) };
        offset.into()
    }

    /// Cancels a timer by its name, and returns the time that was left; None if it is not armed. Its message never comes, and is
    /// dropped by its world, in the next call there. One small allocation, for the note that says so.
    pub fn cancel_named(&mut self, name: &Name) -> Option<Duration> {
        // SAFETY: as of `now`.
        ended(&self.notes, name, |left| unsafe { sys::ert_seat_cancel(self.handle.get(), &raw const name.timer, left) })
    }

    /// What is left of a timer, by its name; None if it is not armed.
    #[must_use]
    pub fn left_named(&self, name: &Name) -> Option<Duration> {
        // SAFETY: as of `now`.
        left(&self.notes, name, |left| unsafe { sys::ert_seat_read(self.handle.get(), &raw const name.timer, left) })
    }

    /// Whether a process is alive.
    ///
    /// # Errors
    ///
    /// [`Error::Range`]: there is no such process.
    pub fn is_alive(&self, process: u32) -> Result<bool, Error> {
        let mut alive = 0;
        // SAFETY: as of `now`.
        done(unsafe { sys::ert_seat_is_alive(self.handle.get(), process, &raw mut alive) })?;
        Ok(alive != 0)
    }
}

impl Drop for Seat {
    fn drop(&mut self) {
        // SAFETY: as of `now`.
        let _open = unsafe { sys::ert_seat_close(self.handle.get()) };
    }
}

impl fmt::Debug for Seat {
    fn fmt(&self, f: &mut fmt::Formatter<'_>) -> fmt::Result {
        f.debug_struct("Seat").field("now", &self.now()).finish_non_exhaustive()
    }
}
