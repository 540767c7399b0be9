//! The messages of timers, which lie beside the world: the library stores the number of each, and each is here until its timer
//! is cancelled or its message is taken.
use alloc::vec::Vec;
use core::ops::Range;

use ertime_sys as sys;

use crate::{Error, Name, Timer};

/// No entry.
const NONE: u32 = u32::MAX;

/// No entry, and there will be none: the process has exited.
const EXITED: u32 = u32::MAX - 1;

/// A timer whose message has not been taken, or a free place.
struct Entry<T> {
    /// Which start it is of; 0 if the place is free.
    id: u64,
    name: sys::ert_timer,
    process: u32,
    /// The entry before it in the list of its process. Of a free place, the next one.
    before: u32,
    /// The entry after it in the list of its process.
    after: u32,
    bare: bool,
    /// None if it was withdrawn, while the library still has its number.
    message: Option<T>,
}

/// What a timer that has not ended is called, and who gets its message.
#[derive(Clone, Copy)]
pub(crate) struct Known {
    pub(crate) name: sys::ert_timer,
    pub(crate) process: u32,
    pub(crate) bare: bool,
}

pub(crate) struct Post<T> {
    entries: Vec<Entry<T>>,
    /// The first free place.
    free: u32,
    /// The last entry of each process.
    last: Vec<u32>,
    processes: Range<u32>,
    /// How many timers were started.
    started: u64,
    world: u32,
}

impl<T> Post<T> {
    pub(crate) fn new(world: u32, processes: Range<u32>) -> Result<Post<T>, Error> {
        let mut last = Vec::new();
        last.try_reserve_exact(processes.len()).map_err(|_| Error::NoMemory)?;
        last.resize(processes.len(), NONE);
        Ok(Post { entries: Vec::new(), free: NONE, last, processes, started: 0, world })
    }

    /// Makes room for so many messages more than there are places.
    pub(crate) fn reserve(&mut self, count: usize) -> Result<(), Error> {
        self.entries.try_reserve(count).map_err(|_| Error::NoMemory)
    }

    /// The place of the next entry, with room for it, if the process can have one.
    pub(crate) fn place(&mut self, process: u32) -> Result<u32, Error> {
        let index = process.checked_sub(self.processes.start).ok_or(Error::Range)?;
        if *self.last.get(index as usize).ok_or(Error::Range)? == EXITED {
            return Err(Error::Exited);
        }
        if self.free != NONE {
            return Ok(self.free);
        }
        self.reserve(1)?;
        u32::try_from(self.entries.len()).ok().filter(|key| *key < EXITED).ok_or(Error::NoMemory)
    }

    /// Puts a message at the place that was just returned.
    pub(crate) fn put(&mut self, key: u32, known: Known, message: T) -> Timer {
        self.started += 1;
        let id = self.started;
        let last = &mut self.last[(known.process - self.processes.start) as usize];
        let before = core::mem::replace(last, key);
        let Known { name, process, bare } = known;
        let entry = Entry { id, name, process, before, after: NONE, bare, message: Some(message) };
        if key == self.free {
            let place = &mut self.entries[key as usize];
            self.free = place.before;
            *place = entry;
        } else {
            self.entries.push(entry);
        }
        if before != NONE {
            self.entries[before as usize].after = key;
        }
        Timer { id, key, world: self.world }
    }

    fn entry(&self, timer: Timer) -> Option<&Entry<T>> {
        let entry = self.entries.get(timer.key as usize)?;
        (timer.world == self.world && entry.id == timer.id).then_some(entry)
    }

    fn entry_mut(&mut self, timer: Timer) -> Option<&mut Entry<T>> {
        let entry = self.entries.get_mut(timer.key as usize)?;
        (timer.world == self.world && entry.id == timer.id).then_some(entry)
    }

    pub(crate) fn known(&self, timer: Timer) -> Option<Known> {
        self.entry(timer).map(|it| Known { name: it.name, process: it.process, bare: it.bare })
    }

    pub(crate) fn name(&self, timer: Timer) -> Option<Name> {
        self.entry(timer).map(|it| Name { timer: it.name, key: timer.key, world: timer.world })
    }

    /// The timer of a name.
    pub(crate) fn named(&self, name: &Name) -> Option<Timer> {
        let entry = self.entries.get(name.key as usize)?;
        let is_it = entry.id != 0 && name.world == self.world && entry.name == name.timer;
        is_it.then_some(Timer { id: entry.id, key: name.key, world: self.world })
    }

    pub(crate) fn rename(&mut self, timer: Timer, name: sys::ert_timer) {
        if let Some(entry) = self.entry_mut(timer) {
            entry.name = name;
        }
    }

    pub(crate) fn message(&self, timer: Timer) -> Option<&T> {
        self.entry(timer)?.message.as_ref()
    }

    pub(crate) fn message_mut(&mut self, timer: Timer) -> Option<&mut T> {
        self.entry_mut(timer)?.message.as_mut()
    }

    /// Takes the message of a timer and leaves its place, since the library still has the number of that.
    pub(crate) fn withdraw(&mut self, timer: Timer) -> Option<T> {
        self.entry_mut(timer)?.message.take()
    }

    /// Takes the message of a timer that the library has let go of.
    pub(crate) fn remove(&mut self, timer: Timer) -> Option<T> {
        self.entry(timer)?;
        self.clear(timer.key)
    }

    /// Takes the message whose number the library returned, with its timer.
    pub(crate) fn arrive(&mut self, number: u64) -> Option<(Timer, T)> {
        let key = u32::try_from(number).ok()?;
        let id = self.entries.get(key as usize)?.id;
        let message = self.clear(key)?;
        Some((Timer { id, key, world: self.world }, message))
    }

    fn clear(&mut self, key: u32) -> Option<T> {
        let free = self.free;
        let entry = self.entries.get_mut(key as usize).filter(|it| it.id != 0)?;
        entry.id = 0;
        let message = entry.message.take();
        let (before, after, process) = (entry.before, entry.after, entry.process);
        entry.before = free;
        self.free = key;
        if before != NONE {
            self.entries[before as usize].after = after;
        }
        if after == NONE {
            self.last[(process - self.processes.start) as usize] = before;
        } else {
            self.entries[after as usize].before = before;
        }
        message
    }

    /// The last timer of a process that was started, and that before one.
    pub(crate) fn last_of(&self, process: u32) -> Option<Timer> {
        let index = process.checked_sub(self.processes.start)?;
        self.at(*self.last.get(index as usize)?)
    }

    pub(crate) fn before(&self, timer: Timer) -> Option<Timer> {
        self.at(self.entry(timer)?.before)
    }

    fn at(&self, key: u32) -> Option<Timer> {
        let entry = self.entries.get(key as usize)?;
        Some(Timer { id: entry.id, key, world: self.world })
    }

    /// Notes that a process has exited. It has no entry.
    pub(crate) fn exit(&mut self, process: u32) {
        if self.has(process) {
            self.last[(process - self.processes.start) as usize] = EXITED;
        }
    }

    /// Whether a process is one of the world.
    pub(crate) fn has(&self, process: u32) -> bool {
        self.processes.contains(&process)
    }
}
