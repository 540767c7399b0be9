//! The handle behind a world, and its calls: a world of its own, or a part of one that is divided ("shard" in C).
use alloc::boxed::Box;
use core::cell::UnsafeCell;
use core::time::Duration;

use ertime_sys as sys;

use crate::Error;
use crate::error::{done, done_or};

/// The handle of C lies on the heap, since it must not be moved while it is open.
pub(crate) enum Handle {
    Whole(Box<UnsafeCell<sys::ert_world>>),
    Part { of: Box<UnsafeCell<sys::ert_shard>>, scheduler: u32 },
}

// SAFETY: a handle may go from one thread to another. What lies behind it is shared with other handles by atomic steps alone.
unsafe impl Send for Handle {}

/// A call that both kinds of handles have; with a scheduler in brackets it is of that one, which a part must have.
macro_rules! call {
    ($handle:expr, $whole:ident | $part:ident($($arg:expr),*)) => {
        match $handle {
            // SAFETY: the handle is open and used by one thread at a time, since it is not `Sync`; the other pointers are of
            // values that outlive the call.
            Handle::Whole(it) => unsafe { sys::$whole(it.get(), $($arg),*) },
            // SAFETY: as above.
            Handle::Part { of, .. } => unsafe { sys::$part(of.get(), $($arg),*) },
        }
    };
    ($handle:expr, [$number:expr] $whole:ident | $part:ident($($arg:expr),*)) => {
        match $handle {
            // SAFETY: as above.
            Handle::Whole(it) => unsafe { sys::$whole(it.get(), $number, $($arg),*) },
            // SAFETY: as above.
            Handle::Part { of, scheduler } if *scheduler == $number => unsafe { sys::$part(of.get(), $($arg),*) },
            Handle::Part { .. } => sys::ERT_RANGE,
        }
    };
}

impl Handle {
    pub(crate) fn open(settings: &sys::ert_settings) -> Result<Handle, Error> {
        let world = Box::new(UnsafeCell::new(sys::ert_world::INIT));
        // SAFETY: the handle is closed, and both pointers are of values that outlive the call.
        done(unsafe { sys::ert_world_open(world.get(), settings) })?;
        Ok(Handle::Whole(world))
    }

    pub(crate) fn tick(&self, reading: sys::ert_reading, force: bool) -> Result<sys::ert_moved, Error> {
        let Handle::Whole(world) = self else { return Err(Error::NoClock) };
        let mut moved = sys::ert_moved::default();
        // SAFETY: as of `call`.
        done(unsafe { sys::ert_world_tick(world.get(), &raw const reading, force.into(), &raw mut moved) })?;
        Ok(moved)
    }

    pub(crate) fn finalize(&self, reading: sys::ert_reading) -> Result<(u32, sys::ert_moved), Error> {
        let Handle::Whole(world) = self else { return Err(Error::NoClock) };
        let (mut before, mut moved) = (0, sys::ert_moved::default());
        // SAFETY: as of `call`.
        done(unsafe { sys::ert_world_finalize(world.get(), &raw const reading, &raw mut before, &raw mut moved) })?;
        Ok((before, moved))
    }

    pub(crate) fn seat(&self, seat: *mut sys::ert_seat) -> Result<(), Error> {
        let Handle::Whole(world) = self else { return Err(Error::NoSeat) };
        // SAFETY: as of `call`; the seat is a closed handle.
        done(unsafe { sys::ert_seat_open(seat, world.get()) })
    }

    pub(crate) fn monotonic_time(&self) -> i64 {
        let mut time = 0;
        let _open = call!(self, ert_world_monotonic_time | ert_shard_monotonic_time(&raw mut time));
        time
    }

    pub(crate) fn system_time(&self) -> i64 {
        let mut time = 0;
        let _open = call!(self, ert_world_system_time | ert_shard_system_time(&raw mut time));
        time
    }

    pub(crate) fn time_offset(&self) -> sys::ert_offset {
        let mut offset = sys::ert_offset::default();
        let _open = call!(self, ert_world_time_offset | ert_shard_time_offset(&raw mut offset));
        offset
    }

    #[inline]
    pub(crate) fn start(&self, scheduler: u32, start: &sys::ert_start) -> Result<sys::ert_timer, Error> {
        let mut timer = sys::ert_timer::default();
        done(call!(self, [scheduler] ert_world_start | ert_shard_start(start, &raw mut timer)))?;
        Ok(timer)
    }

    #[inline]
    pub(crate) fn restart(&self, timer: &mut sys::ert_timer, start: &sys::ert_start) -> Result<bool, Error> {
        let status = call!(self, ert_world_restart | ert_shard_restart(timer, start));
        done_or(status, sys::ERT_NO_TIMER)
    }

    #[inline]
    pub(crate) fn cancel(&self, timer: &sys::ert_timer) -> Option<Duration> {
        let mut left = 0;
        let status = call!(self, ert_world_cancel | ert_shard_cancel(timer, &raw mut left));
        (status == sys::ERT_OK).then(|| Duration::from_millis(left))
    }

    #[inline]
    pub(crate) fn read(&self, timer: &sys::ert_timer) -> Option<Duration> {
        let mut left = 0;
        let status = call!(self, ert_world_read | ert_shard_read(timer, &raw mut left));
        (status == sys::ERT_OK).then(|| Duration::from_millis(left))
    }

    /// Of a part there is no such call.
    pub(crate) fn ready(&self, scheduler: u32) -> Result<(u32, u64), Error> {
        let Handle::Whole(world) = self else { return Err(Error::Range) };
        let (mut free, mut ready) = (0, 0);
        // SAFETY: as of `call`.
        done(unsafe { sys::ert_world_ready(world.get(), scheduler, &raw mut free, &raw mut ready) })?;
        Ok((free, ready))
    }

    pub(crate) fn held(&self, scheduler: u32) -> Result<u64, Error> {
        let mut held = 0;
        done(call!(self, [scheduler] ert_world_held | ert_shard_held(&raw mut held)))?;
        Ok(held)
    }

    pub(crate) fn expired(&self, scheduler: u32) -> Result<u64, Error> {
        let mut expired = 0;
        done(call!(self, [scheduler] ert_world_expired | ert_shard_expired(&raw mut expired)))?;
        Ok(expired)
    }

    pub(crate) fn mail_count(&self, process: u32) -> Result<u64, Error> {
        let mut count = 0;
        done(call!(self, ert_world_mail_count | ert_shard_mail_count(process, &raw mut count)))?;
        Ok(count)
    }

    #[inline]
    pub(crate) fn is_alive(&self, process: u32) -> Result<bool, Error> {
        let mut alive = 0;
        done(call!(self, ert_world_is_alive | ert_shard_is_alive(process, &raw mut alive)))?;
        Ok(alive != 0)
    }

    pub(crate) fn exit(&self, process: u32) -> Result<bool, Error> {
        let mut first = 0;
        done(call!(self, ert_world_exit | ert_shard_exit(process, &raw mut first)))?;
        Ok(first != 0)
    }

    #[inline]
    pub(crate) fn take(&self, process: u32, mail: &mut sys::ert_mail) -> Result<bool, Error> {
        let status = call!(self, ert_world_take | ert_shard_take(process, mail));
        done_or(status, sys::ERT_EMPTY)
    }

    pub(crate) fn next_mail(&self) -> Result<Option<u32>, Error> {
        let mut process = 0;
        let status = call!(self, ert_world_next_mail | ert_shard_next_mail(&raw mut process));
        Ok(done_or(status, sys::ERT_EMPTY)?.then_some(process))
    }

    pub(crate) fn reserve_mail(&self, process: u32, count: usize) -> Result<(), Error> {
        done(call!(self, ert_world_reserve_mail | ert_shard_reserve_mail(process, count)))
    }

    pub(crate) fn shrink_mail(&self, process: u32) -> Result<(), Error> {
        done(call!(self, ert_world_shrink_mail | ert_shard_shrink_mail(process)))
    }

    pub(crate) fn monitor(&self, process: u32) -> Result<u32, Error> {
        let mut monitor = 0;
        done(call!(self, ert_world_monitor | ert_shard_monitor(process, &raw mut monitor)))?;
        Ok(monitor)
    }

    pub(crate) fn demonitor(&self, process: u32, monitor: u32) -> Result<bool, Error> {
        let status = call!(self, ert_world_demonitor | ert_shard_demonitor(process, monitor));
        done_or(status, sys::ERT_NO_MONITOR)
    }

    pub(crate) fn notify(&self, process: u32) -> Result<u32, Error> {
        let mut sent = 0;
        done(call!(self, ert_world_notify | ert_shard_notify(process, &raw mut sent)))?;
        Ok(sent)
    }

    pub(crate) fn ask(&self, request: &sys::ert_request) -> Result<(), Error> {
        done(call!(self, ert_world_ask | ert_shard_ask(request)))
    }

    pub(crate) fn serve(&self, scheduler: u32) -> Result<bool, Error> {
        let mut served = 0;
        done(call!(self, [scheduler] ert_world_serve | ert_shard_serve(&raw mut served)))?;
        Ok(served != 0)
    }

    pub(crate) fn advance(&self, scheduler: u32) -> Result<sys::ert_advanced, Error> {
        let mut advanced = sys::ert_advanced::default();
        done(call!(self, [scheduler] ert_world_advance | ert_shard_advance(&raw mut advanced)))?;
        Ok(advanced)
    }

    pub(crate) fn deliver(&self, scheduler: u32) -> Result<sys::ert_delivered, Error> {
        let mut delivered = sys::ert_delivered::default();
        done(call!(self, [scheduler] ert_world_deliver | ert_shard_deliver(&raw mut delivered)))?;
        Ok(delivered)
    }

    pub(crate) fn turn(&self, scheduler: u32) -> Result<sys::ert_turned, Error> {
        let mut turned = sys::ert_turned::default();
        done(call!(self, [scheduler] ert_world_turn | ert_shard_turn(&raw mut turned)))?;
        Ok(turned)
    }

    pub(crate) fn turn_some(&self, scheduler: u32, most: u32) -> Result<sys::ert_turned_some, Error> {
        let mut turned = sys::ert_turned_some::default();
        done(call!(self, [scheduler] ert_world_turn_some | ert_shard_turn_some(most, &raw mut turned)))?;
        Ok(turned)
    }

    pub(crate) fn next_due(&self, scheduler: u32) -> Result<Option<u64>, Error> {
        let mut due = 0;
        let status = call!(self, [scheduler] ert_world_next_due | ert_shard_next_due(&raw mut due));
        Ok(done_or(status, sys::ERT_EMPTY)?.then_some(due))
    }

    pub(crate) fn drop_settled(&self, scheduler: u32) -> Result<u64, Error> {
        let mut dropped = 0;
        done(call!(self, [scheduler] ert_world_drop_settled | ert_shard_drop_settled(&raw mut dropped)))?;
        Ok(dropped)
    }

    pub(crate) fn reserve_expired(&self, scheduler: u32, count: usize) -> Result<(), Error> {
        done(call!(self, [scheduler] ert_world_reserve_expired | ert_shard_reserve_expired(count)))
    }

    pub(crate) fn shrink_expired(&self, scheduler: u32) -> Result<(), Error> {
        done(call!(self, [scheduler] ert_world_shrink_expired | ert_shard_shrink_expired()))
    }
}

impl Drop for Handle {
    fn drop(&mut self) {
        let _open = call!(self, ert_world_close | ert_shard_close());
    }
}
