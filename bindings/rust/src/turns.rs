//! Turns of the schedulers, what they have to do next, and the mail.
use core::iter::FusedIterator;
use core::time::Duration;

use ertime_sys as sys;

use crate::{Advanced, Delivered, Error, Mail, Monitor, Request, Room, Time, Timer, Turned, World};

/// How many requests a turn serves: then there may be more.
const AT_ONCE: u32 = 64;

impl<T> World<T> {
    /// Makes a turn of each scheduler: serves its requests, 64 at most, expires what is due, and delivers that. This is the call for
    /// an event loop, after each tick.
    ///
    /// # Errors
    ///
    /// [`Error::NoMemory`]: what was done stays done and is not reported, and the next turn goes on. It never comes if there
    /// is room ([`World::reserve_expired`], [`World::reserve_mail`]).
    pub fn turn(&mut self) -> Result<Turned, Error> {
        self.each(World::turn_of)
    }

    /// Makes a turn of each scheduler in which so many of its timers at most expire and are delivered: [`Turned::more`] says whether
    /// there is more.
    ///
    /// # Errors
    ///
    /// As of [`World::turn`].
    pub fn turn_some(&mut self, most: u32) -> Result<Turned, Error> {
        self.each(|world, scheduler| world.turn_some_of(scheduler, most))
    }

    fn each(&mut self, mut turn: impl FnMut(&mut World<T>, u32) -> Result<Turned, Error>) -> Result<Turned, Error> {
        let mut all = Turned { to: self.now(), served: 0, expired: 0, put: 0, dropped: 0, more: false };
        for scheduler in self.schedulers() {
            let turned = turn(self, scheduler)?;
            all = Turned {
                to: all.to.min(turned.to),
                served: all.served + turned.served,
                expired: all.expired + turned.expired,
                put: all.put + turned.put,
                dropped: all.dropped + turned.dropped,
                more: all.more || turned.more,
            };
        }
        Ok(all)
    }

    /// Makes a turn of one scheduler.
    ///
    /// # Errors
    ///
    /// As of [`World::turn`]; [`Error::Range`]: there is no such scheduler.
    pub fn turn_of(&mut self, scheduler: u32) -> Result<Turned, Error> {
        self.heed();
        let sys::ert_turned { to, served, expired, put, dropped } = self.handle.turn(scheduler)?;
        Ok(Turned { to: Time::after_start(self.start, to), served, expired, put, dropped, more: served >= AT_ONCE })
    }

    /// Makes a turn of one scheduler in which so many timers at most expire and are delivered.
    ///
    /// # Errors
    ///
    /// As of [`World::turn`]; [`Error::Range`]: there is no such scheduler.
    pub fn turn_some_of(&mut self, scheduler: u32, most: u32) -> Result<Turned, Error> {
        self.heed();
        let some = self.handle.turn_some(scheduler, most)?;
        let sys::ert_turned_some { to, served, expired, put, dropped, more } = some;
        let to = Time::after_start(self.start, to);
        Ok(Turned { to, served, expired, put, dropped, more: more != 0 || served >= AT_ONCE })
    }

    /// Expires the due timers of a scheduler, which then wait to be delivered.
    ///
    /// # Errors
    ///
    /// [`Error::NoMemory`]: none has expired. [`Error::Range`]: there is no such scheduler.
    pub fn advance(&mut self, scheduler: u32) -> Result<Advanced, Error> {
        self.heed();
        let advanced = self.handle.advance(scheduler)?;
        Ok(Advanced { to: Time::after_start(self.start, advanced.to), expired: advanced.expired })
    }

    /// Delivers the expired timers of a scheduler, in order of deadline, and then of start.
    ///
    /// # Errors
    ///
    /// [`Error::NoMemory`]: those that were not delivered stay. [`Error::Range`]: there is no such scheduler.
    pub fn deliver(&mut self, scheduler: u32) -> Result<Delivered, Error> {
        let sys::ert_delivered { put, dropped } = self.handle.deliver(scheduler)?;
        Ok(Delivered { put, dropped })
    }

    /// Serves one request of a scheduler, and returns whether there was one.
    ///
    /// # Errors
    ///
    /// [`Error::NoMemory`]: the request stays. [`Error::Range`]: there is no such scheduler.
    pub fn serve(&mut self, scheduler: u32) -> Result<bool, Error> {
        self.handle.serve(scheduler)
    }

    /// The earliest time at which a timer can be due; None if none is armed. After a turn it is later than [`Turned::to`].
    ///
    /// It is a timer's deadline if at most 64 timers stand in the windows of time that come first, and otherwise the beginning of
    /// such a window, of 512 milliseconds or more, where a loop wakes to ask again. A few comparisons, mostly.
    ///
    /// # Errors
    ///
    /// None for now.
    pub fn next_due(&mut self) -> Result<Option<Time>, Error> {
        let mut first = None;
        for scheduler in self.schedulers() {
            if let Some(due) = self.next_due_of(scheduler)? {
                first = Some(first.map_or(due, |it: Time| it.min(due)));
            }
        }
        Ok(first)
    }

    /// The earliest time at which a timer of a scheduler can be due.
    ///
    /// # Errors
    ///
    /// [`Error::Range`]: there is no such scheduler.
    pub fn next_due_of(&mut self, scheduler: u32) -> Result<Option<Time>, Error> {
        self.heed();
        let due = self.handle.next_due(scheduler)?;
        Ok(due.map(|due| Time::after_start(self.start, due)))
    }

    /// How long an event loop may sleep after a turn: until [`World::next_due`], from the last tick on. None if no timer is
    /// armed.
    ///
    /// # Errors
    ///
    /// As of [`World::next_due`].
    pub fn wait(&mut self) -> Result<Option<Duration>, Error> {
        let now = self.now();
        Ok(self.next_due()?.map(|due| due - now))
    }

    /// Lets go of all timers that other threads have cancelled, and returns how many there were: their slots can be used again.
    /// [`World::next_due`] does so for those that are due next.
    ///
    /// # Errors
    ///
    /// None for now.
    pub fn drop_settled(&mut self) -> Result<u64, Error> {
        self.heed();
        let mut dropped = 0;
        for scheduler in self.schedulers() {
            dropped += self.handle.drop_settled(scheduler)?;
        }
        Ok(dropped)
    }

    /// How many slots the wheel of a scheduler has available, by a look at each.
    ///
    /// # Errors
    ///
    /// [`Error::Range`]: there is no such scheduler, or the world is a part.
    pub fn ready(&self, scheduler: u32) -> Result<Room, Error> {
        let (free, ready) = self.handle.ready(scheduler)?;
        Ok(Room { free, ready: (ready != 0).then(|| Time::after_start(self.start, ready)) })
    }

    /// How many timers are on the wheel of a scheduler: those that are armed, and those that other threads cancelled and that
    /// would not be due yet.
    ///
    /// # Errors
    ///
    /// [`Error::Range`]: there is no such scheduler.
    pub fn held(&self, scheduler: u32) -> Result<u64, Error> {
        self.handle.held(scheduler)
    }

    /// How many expired timers of a scheduler wait to be delivered.
    ///
    /// # Errors
    ///
    /// [`Error::Range`]: there is no such scheduler.
    pub fn expired(&self, scheduler: u32) -> Result<u64, Error> {
        self.handle.expired(scheduler)
    }

    /// Makes room for so many expired timers of a scheduler more than wait: until as many were due, an advance needs no memory.
    /// If none waits yet, room for as many as the settings have slots is enough for good.
    ///
    /// # Errors
    ///
    /// [`Error::NoMemory`]; [`Error::Range`]: there is no such scheduler.
    pub fn reserve_expired(&mut self, scheduler: u32, count: usize) -> Result<(), Error> {
        self.handle.reserve_expired(scheduler, count)
    }

    /// Gives back the memory for expired timers of a scheduler that those which wait don't need.
    ///
    /// # Errors
    ///
    /// [`Error::NoMemory`]: nothing has changed. [`Error::Range`]: there is no such scheduler.
    pub fn shrink_expired(&mut self, scheduler: u32) -> Result<(), Error> {
        self.handle.shrink_expired(scheduler)
    }

    /// Takes the first message of a process; None if there is none.
    ///
    /// # Errors
    ///
    /// [`Error::Range`]: there is no such process. [`Error::Exited`]: it has exited.
    pub fn take(&mut self, process: u32) -> Result<Option<Mail<T>>, Error> {
        self.heed();
        let mut mail = sys::ert_mail::default();
        while self.handle.take(process, &mut mail)? {
            if let Some(mail) = self.opened(process, &mail) {
                return Ok(Some(mail));
            }
        }
        Ok(None)
    }

    /// A message of the library, with the message of its timer; None if that was withdrawn, or if the kind is unknown.
    fn opened(&mut self, process: u32, mail: &sys::ert_mail) -> Option<Mail<T>> {
        let left = (mail.has_left != 0).then(|| Duration::from_millis(mail.left));
        match mail.tag {
            sys::ERT_TIMEOUT => {
                let (timer, message) = self.post.arrive(mail.msg)?;
                Some(Mail::Timeout { timer, message })
            }
            sys::ERT_BARE => {
                let (_, message) = self.post.arrive(mail.msg)?;
                Some(Mail::Bare { message })
            }
            sys::ERT_CANCEL_DONE => {
                let timer = self.answered(process, mail.timer)?;
                let message = left.and_then(|_| self.post.remove(timer));
                Some(Mail::CancelDone { timer, left, message })
            }
            sys::ERT_READ_DONE => Some(Mail::ReadDone { timer: self.answered(process, mail.timer)?, left }),
            sys::ERT_CHANGE => Some(Mail::Change { monitor: Monitor(mail.monitor), offset: mail.offset }),
            _ => None,
        }
    }

    /// The timer of the first request that this may be the answer to.
    fn answered(&mut self, process: u32, name: sys::ert_timer) -> Option<Timer> {
        let at = self.asked.iter().position(|it| it.0 == process && it.1 == name)?;
        self.asked.remove(at).map(|(_, _, timer)| timer)
    }

    /// Takes the messages of a process, until there is none. No memory. Messages that the iterator has not come to stay.
    ///
    /// To start timers between messages, call [`World::take`] in a loop instead.
    ///
    /// # Errors
    ///
    /// As of [`World::take`].
    pub fn drain(&mut self, process: u32) -> Result<Drain<'_, T>, Error> {
        self.handle.mail_count(process)?;
        if self.is_alive(process)? { Ok(Drain { world: self, process }) } else { Err(Error::Exited) }
    }

    /// A process that has messages and hasn't exited; None if there is none. Each process has its turn.
    ///
    /// # Errors
    ///
    /// [`Error::NoMemory`]: for the first such call.
    pub fn next_mail(&mut self) -> Result<Option<u32>, Error> {
        self.handle.next_mail()
    }

    /// How many messages are in the mailbox of a process, also of one that has exited, and those that were withdrawn.
    ///
    /// # Errors
    ///
    /// [`Error::Range`]: there is no such process.
    pub fn mail_count(&self, process: u32) -> Result<u64, Error> {
        self.handle.mail_count(process)
    }

    /// Makes room in the mailbox of a process for so many messages more than it has: until as many were put there, turns
    /// need no memory for it.
    ///
    /// # Errors
    ///
    /// [`Error::NoMemory`]; [`Error::Range`]: there is no such process.
    pub fn reserve_mail(&mut self, process: u32, count: usize) -> Result<(), Error> {
        self.handle.reserve_mail(process, count)
    }

    /// Gives back the memory of the mailbox of a process that its messages don't need.
    ///
    /// # Errors
    ///
    /// [`Error::NoMemory`]: nothing has changed. [`Error::Range`]: there is no such process.
    pub fn shrink_mail(&mut self, process: u32) -> Result<(), Error> {
        self.handle.shrink_mail(process)
    }

    /// Asks the scheduler of a timer to cancel or to read it, in one of its next turns. The answer comes to `reply_to`. A
    /// request is of the deadline that the timer has now: if it is restarted before the turn, the answer is that it isn't
    /// armed.
    ///
    /// # Errors
    ///
    /// [`Error::NoMemory`]; [`Error::Range`]: the world has no such process.
    pub fn ask(&mut self, request: Request, timer: Timer, reply_to: u32) -> Result<(), Error> {
        // A timer that is not known is none that the library has.
        let name = self.post.known(timer).map(|it| it.name).unwrap_or_default();
        self.asked.try_reserve(1).map_err(|_| Error::NoMemory)?;
        let kind = match request {
            Request::Cancel => sys::ERT_CANCEL,
            Request::Read => sys::ERT_READ,
        };
        self.handle.ask(&sys::ert_request { kind, timer: name, reply_to, info: 1 })?;
        self.asked.push_back((reply_to, name, timer));
        Ok(())
    }

    /// Makes a monitor of the time offset for a process.
    ///
    /// # Errors
    ///
    /// [`Error::Full`]: the process has 64 monitors. [`Error::NoMemory`]; [`Error::Range`]: there is no such process.
    pub fn monitor(&mut self, process: u32) -> Result<Monitor, Error> {
        self.handle.monitor(process).map(Monitor)
    }

    /// Removes a monitor, and returns whether there was one.
    ///
    /// # Errors
    ///
    /// [`Error::Range`]: there is no such process.
    pub fn demonitor(&mut self, process: u32, monitor: Monitor) -> Result<bool, Error> {
        self.handle.demonitor(process, monitor.0)
    }

    /// Notifies each monitor of a process that doesn't know the time offset yet, and returns how many were notified.
    ///
    /// # Errors
    ///
    /// [`Error::NoMemory`]: nothing has changed. [`Error::Range`]: there is no such process.
    pub fn notify(&mut self, process: u32) -> Result<u32, Error> {
        self.handle.notify(process)
    }
}

/// The messages of a process ([`World::drain`]).
#[derive(Debug)]
pub struct Drain<'a, T> {
    world: &'a mut World<T>,
    process: u32,
}

impl<T> Iterator for Drain<'_, T> {
    type Item = Mail<T>;

    fn next(&mut self) -> Option<Mail<T>> {
        // The process was alive, and can't have exited.
        self.world.take(self.process).ok().flatten()
    }
}

impl<T> FusedIterator for Drain<'_, T> {}
