//! The declarations of `ertime.h`, the header of the C library `libertime`: what the crate `ertime` is built on.
//!
//! The header is the reference of each call: it has its statuses, its cost, and what a caller has to guarantee. The build script
//! finds the library, statically where its archive is there; the README of this crate says how.
//!
//! Within one major version no struct changes its size, except that [`ert_settings`] may grow at its end, and statuses and
//! kinds of messages may be added. With the feature `text` the declarations of `ertime_text.h` are there too.
#![no_std]
#![allow(non_camel_case_types)]
#![warn(clippy::pedantic)]

use core::ffi::c_void;

/// Done.
pub const ERT_OK: i32 = 0;
/// The handle is closed.
pub const ERT_CLOSED: i32 = -1;
/// The handle is open already.
pub const ERT_OPEN: i32 = -2;
/// Out of memory.
pub const ERT_NO_MEMORY: i32 = -3;
/// `size` is none that this library knows: not set, or by a different header.
pub const ERT_BAD_SIZE: i32 = -4;
/// There is no such time warp mode.
pub const ERT_BAD_MODE: i32 = -5;
/// The start time is not a multiple of 1,000,000, or outside -2^58 to 2^58.
pub const ERT_BAD_START: i32 = -6;
/// `mono` is negative, or 2^62 (146 years) or more; or `sys` is not between -2^61 and 2^61, that is 1896-12-06 to 2043-01-25.
pub const ERT_BAD_READING: i32 = -7;
/// Schedulers, processes, slots, callers or looks are outside their limits.
pub const ERT_BAD_COUNT: i32 = -8;
/// The time offset would be -2^62 or less, or 2^62 or more.
pub const ERT_OFFSET_WIDE: i32 = -9;
/// There is no such process or scheduler.
pub const ERT_RANGE: i32 = -10;
/// No timer can be due then.
pub const ERT_BAD_TIME: i32 = -11;
/// No slot that the start looked at can take a timer, or the process can have no further monitor.
pub const ERT_FULL: i32 = -12;
/// The timer is not armed.
pub const ERT_NO_TIMER: i32 = -13;
/// There is no message, or no timer.
pub const ERT_EMPTY: i32 = -14;
/// The process has exited.
pub const ERT_EXITED: i32 = -15;
/// There is no such kind of request.
pub const ERT_BAD_KIND: i32 = -16;
/// The process has no such monitor.
pub const ERT_NO_MONITOR: i32 = -17;
/// Every caller but 0 was given a seat.
pub const ERT_NO_SEAT: i32 = -18;
/// No scheduler is left that a shard could have.
pub const ERT_NO_SHARD: i32 = -19;
/// Of a timer: timer, msg.
pub const ERT_TIMEOUT: u32 = 1;
/// Of a bare timer: msg.
pub const ERT_BARE: u32 = 2;
/// The answer to a request to cancel: timer, `has_left`, `left`.
pub const ERT_CANCEL_DONE: u32 = 3;
/// The answer to a request to read: timer, `has_left`, `left`.
pub const ERT_READ_DONE: u32 = 4;
/// The time offset changed: monitor, offset.
pub const ERT_CHANGE: u32 = 5;
/// The time offset never changes.
pub const ERT_NO_WARP: u32 = 0;
/// The time offset changes once, at `ert_world_finalize`.
pub const ERT_SINGLE_WARP: u32 = 1;
/// The time offset may change at any check.
pub const ERT_MULTI_WARP: u32 = 2;
/// The time offset changes at a finalization alone.
pub const ERT_PRELIMINARY: u32 = 0;
/// The time offset never changes any more.
pub const ERT_FINAL: u32 = 1;
/// The time offset may change at any check.
pub const ERT_VOLATILE: u32 = 2;
/// A request to cancel a timer.
pub const ERT_CANCEL: u32 = 0;
/// A request to read a timer.
pub const ERT_READ: u32 = 1;

/// A handle of a world. It begins as `INIT`, and must not be moved while it is open.
#[repr(C)]
#[derive(Debug)]
pub struct ert_world {
    pub at_: *mut c_void,
    pub live_: bool,
}

/// A handle of a seat. It begins as `INIT`, and must not be moved while it is open.
#[repr(C)]
#[derive(Debug)]
pub struct ert_seat {
    pub at_: *mut c_void,
    pub live_: bool,
}

/// A handle of a hub. It begins as `INIT`, and must not be moved while it is open.
#[repr(C)]
#[derive(Debug)]
pub struct ert_hub {
    pub at_: *mut c_void,
    pub live_: bool,
}

/// A handle of a shard. It begins as `INIT`, and must not be moved while it is open.
#[repr(C)]
#[derive(Debug)]
pub struct ert_shard {
    pub at_: *mut c_void,
    pub live_: bool,
}

/// A reading of the clocks of the operating system, in nanoseconds.
#[repr(C)]
#[derive(Clone, Copy, Debug, Default, PartialEq, Eq)]
pub struct ert_reading {
    pub mono: i64,
    pub sys: i64,
}

/// What a world is opened with.
#[repr(C)]
#[derive(Clone, Copy, Debug)]
pub struct ert_settings {
    pub size: u32,
    pub mode: u32,
    pub correction: u32,
    pub schedulers: u32,
    pub processes: u32,
    pub slots: u32,
    pub callers: u32,
    pub looks: u32,
    pub start: i64,
    pub first: ert_reading,
}

/// What a tick or a finalization did.
#[repr(C)]
#[derive(Clone, Copy, Debug, Default)]
pub struct ert_moved {
    pub now: i64,
    pub shift: i64,
    pub shifted: u32,
}

/// The time offset, in nanoseconds, with its state.
#[repr(C)]
#[derive(Clone, Copy, Debug, Default)]
pub struct ert_offset {
    pub offset: i64,
    pub state: u32,
}

/// Names a timer.
#[repr(C)]
#[derive(Clone, Copy, Debug, Default, PartialEq, Eq, Hash, PartialOrd, Ord)]
pub struct ert_timer {
    pub wheel: u32,
    pub slot: u32,
    /// Which use of the slot it is. Neither its value nor its order says anything.
    pub generation: u64,
}

const _: () = assert!(size_of::<ert_timer>() == 16);

/// What a timer is started with. `when` is in milliseconds, after the last tick, or of monotonic time if `absolute` is not 0.
#[repr(C)]
#[derive(Clone, Copy, Debug)]
pub struct ert_start {
    pub when: i64,
    pub msg: u64,
    pub absolute: u32,
    pub bare: u32,
    pub dest: u32,
}

/// How far a wheel was advanced, in milliseconds since the start time, and how many timers expired.
#[repr(C)]
#[derive(Clone, Copy, Debug, Default, PartialEq, Eq)]
pub struct ert_advanced {
    pub to: u64,
    pub expired: u32,
}

/// How many messages were put into mailboxes, and how many were thrown away.
#[repr(C)]
#[derive(Clone, Copy, Debug, Default, PartialEq, Eq)]
pub struct ert_delivered {
    pub put: u32,
    pub dropped: u32,
}

/// What a turn did. `to` is in milliseconds since the start time.
#[repr(C)]
#[derive(Clone, Copy, Debug, Default, PartialEq, Eq)]
pub struct ert_turned {
    pub to: u64,
    pub served: u32,
    pub expired: u32,
    pub put: u32,
    pub dropped: u32,
}

/// What a turn with a bound did. `to` is in milliseconds since the start time.
#[repr(C)]
#[derive(Clone, Copy, Debug, Default)]
pub struct ert_turned_some {
    pub to: u64,
    pub served: u32,
    pub expired: u32,
    pub put: u32,
    pub dropped: u32,
    pub more: u32,
}

/// A message. Fields that do not apply to its kind are 0.
#[repr(C)]
#[derive(Clone, Copy, Debug, Default)]
pub struct ert_mail {
    pub tag: u32,
    pub timer: ert_timer,
    pub has_left: u32,
    pub monitor: u32,
    pub msg: u64,
    pub left: u64,
    pub offset: i64,
}

/// An asynchronous cancel or read of a timer.
#[repr(C)]
#[derive(Clone, Copy, Debug)]
pub struct ert_request {
    pub kind: u32,
    pub timer: ert_timer,
    pub reply_to: u32,
    pub info: u32,
}

macro_rules! closed {
    ($($handle:ident),*) => {
        $(
            impl $handle {
                /// A closed handle, `ERT_INIT` of C.
                pub const INIT: Self = Self { at_: core::ptr::null_mut(), live_: false };
            }
        )*
    };
}
closed!(ert_world, ert_seat, ert_hub, ert_shard);

unsafe extern "C" {
    /// The version of the library that the program runs with, as `ERTIME_VERSION` is that of the header which it was built with.
    pub fn ert_version() -> u32;
    /// Opens a world behind a closed handle.
    pub fn ert_world_open(world: *mut ert_world, settings: *const ert_settings) -> i32;
    /// Closes an open handle, and frees its memory.
    pub fn ert_world_close(world: *mut ert_world) -> i32;
    /// Passes a reading of the clocks of the operating system to the world: monotonic time moves on by it.
    pub fn ert_world_tick(world: *mut ert_world, reading: *const ert_reading, force: u32, moved: *mut ert_moved) -> i32;
    /// Finalizes the time offset (`erlang:system_flag(time_offset, finalize)`).
    pub fn ert_world_finalize(
        world: *mut ert_world,
        reading: *const ert_reading,
        before: *mut u32,
        moved: *mut ert_moved,
    ) -> i32;
    /// Monotonic time, in nanoseconds (`erlang:monotonic_time`).
    pub fn ert_world_monotonic_time(world: *mut ert_world, time: *mut i64) -> i32;
    /// System time, in nanoseconds since 1970 (`erlang:system_time`): monotonic time plus the time offset.
    pub fn ert_world_system_time(world: *mut ert_world, time: *mut i64) -> i32;
    /// The time offset, in nanoseconds, with its state (`erlang:time_offset`).
    pub fn ert_world_time_offset(world: *mut ert_world, offset: *mut ert_offset) -> i32;
    /// Starts a timer on the wheel of a scheduler (`erlang:start_timer`, `erlang:send_after`).
    pub fn ert_world_start(world: *mut ert_world, scheduler: u32, start: *const ert_start, timer: *mut ert_timer) -> i32;
    /// Reports how many slots the wheel of a scheduler has available.
    pub fn ert_world_ready(world: *mut ert_world, scheduler: u32, room: *mut u32, ready: *mut u64) -> i32;
    /// Cancels a timer (`erlang:cancel_timer`).
    pub fn ert_world_cancel(world: *mut ert_world, timer: *const ert_timer, left: *mut u64) -> i32;
    /// Restarts a timer that is armed: it gets a new deadline and a new name (as `uv_timer_again` of libuv).
    pub fn ert_world_restart(world: *mut ert_world, timer: *mut ert_timer, start: *const ert_start) -> i32;
    /// Reads the milliseconds that are left of a timer (`erlang:read_timer`), and changes nothing.
    pub fn ert_world_read(world: *mut ert_world, timer: *const ert_timer, left: *mut u64) -> i32;
    /// Reports how many timers are on the wheel of a scheduler: writes it to `held`.
    pub fn ert_world_held(world: *mut ert_world, scheduler: u32, held: *mut u64) -> i32;
    /// Reports how many expired timers of a scheduler wait to be delivered: writes it to `expired`.
    pub fn ert_world_expired(world: *mut ert_world, scheduler: u32, expired: *mut u64) -> i32;
    /// Reports how many messages are in the mailbox of a process: writes it to `count`.
    pub fn ert_world_mail_count(world: *mut ert_world, process: u32, count: *mut u64) -> i32;
    /// Reports whether a process is alive: writes 1 or 0 to `alive` (`erlang:is_process_alive`).
    pub fn ert_world_is_alive(world: *mut ert_world, process: u32, alive: *mut u32) -> i32;
    /// Makes a process exit, and cancels all timers whose message would go to it.
    pub fn ert_world_exit(world: *mut ert_world, process: u32, first: *mut u32) -> i32;
    /// Cancels all timers whose message would go to a process, and writes how many there were to `cancelled`.
    pub fn ert_world_cancel_all(world: *mut ert_world, process: u32, cancelled: *mut u64) -> i32;
    /// Asks the scheduler of a timer to cancel or to read it (`cancel_timer` and `read_timer`, option `async`).
    pub fn ert_world_ask(world: *mut ert_world, request: *const ert_request) -> i32;
    /// Takes the first message of a process (`receive`), and writes it to `mail`.
    pub fn ert_world_take(world: *mut ert_world, process: u32, mail: *mut ert_mail) -> i32;
    /// Takes the first messages of a process, at most `room`, and writes them to `mails` in their order.
    pub fn ert_world_take_some(
        world: *mut ert_world,
        process: u32,
        mails: *mut ert_mail,
        room: usize,
        count: *mut usize,
    ) -> i32;
    /// Finds a process that has messages and hasn't exited, and writes its number to `process`.
    pub fn ert_world_next_mail(world: *mut ert_world, process: *mut u32) -> i32;
    /// Makes room in the mailbox of a process for `count` messages more than it has.
    pub fn ert_world_reserve_mail(world: *mut ert_world, process: u32, count: usize) -> i32;
    /// Gives back the memory of the mailbox of a process that its messages don't need, which a burst of them took: all of it, if it is empty.
    pub fn ert_world_shrink_mail(world: *mut ert_world, process: u32) -> i32;
    /// Makes a monitor of the time offset for a process (`erlang:monitor(time_offset, clock_service)`), and writes its number.
    pub fn ert_world_monitor(world: *mut ert_world, process: u32, monitor: *mut u32) -> i32;
    /// Removes a monitor (`erlang:demonitor`).
    pub fn ert_world_demonitor(world: *mut ert_world, process: u32, monitor: u32) -> i32;
    /// Notifies the monitors of a process of the time offset: one message `ERT_CHANGE` for each whose last message, or making, had another one.
    pub fn ert_world_notify(world: *mut ert_world, process: u32, told: *mut u32) -> i32;
    /// Serves one request of a scheduler: one that an earlier call could not finish, or the first of its inbox.
    pub fn ert_world_serve(world: *mut ert_world, scheduler: u32, served: *mut u32) -> i32;
    /// Expires every timer of a scheduler's wheel that is due at the current monotonic time.
    pub fn ert_world_advance(world: *mut ert_world, scheduler: u32, advanced: *mut ert_advanced) -> i32;
    /// Delivers the expired timers of a scheduler: each message is put into the mailbox of its process, or discarded if the process has exited.
    pub fn ert_world_deliver(world: *mut ert_world, scheduler: u32, delivered: *mut ert_delivered) -> i32;
    /// Makes a turn of a scheduler: serves its requests, 64 at most, advances its wheel, and delivers what has expired.
    pub fn ert_world_turn(world: *mut ert_world, scheduler: u32, turned: *mut ert_turned) -> i32;
    /// Makes a turn of a scheduler in which at most `most` timers expire and at most `most` expired timers are delivered.
    pub fn ert_world_turn_some(world: *mut ert_world, scheduler: u32, most: u32, turned: *mut ert_turned_some) -> i32;
    /// Returns the earliest time at which a timer of a scheduler can be due, in milliseconds since the start time, as `to` of a turn.
    pub fn ert_world_next_due(world: *mut ert_world, scheduler: u32, due: *mut u64) -> i32;
    /// Drops all timers of a scheduler's wheel that were cancelled through seats, and writes how many there were to `dropped`.
    pub fn ert_world_drop_settled(world: *mut ert_world, scheduler: u32, dropped: *mut u64) -> i32;
    /// Makes room in the list of expired timers of a scheduler for `count` more than wait in it.
    pub fn ert_world_reserve_expired(world: *mut ert_world, scheduler: u32, count: usize) -> i32;
    /// Gives back the memory of the list of expired timers of a scheduler that those which wait don't need, which a burst of timers took: all of it, if none waits.
    pub fn ert_world_shrink_expired(world: *mut ert_world, scheduler: u32) -> i32;
    /// Opens a seat of a world behind a closed handle: its next caller, for the use of one thread at a time.
    pub fn ert_seat_open(seat: *mut ert_seat, world: *mut ert_world) -> i32;
    /// Closes a seat, on any thread, and frees its memory; with the last handle of a closed world also what all of them shared.
    pub fn ert_seat_close(seat: *mut ert_seat) -> i32;
    /// Monotonic time, in nanoseconds, as `ert_world_monotonic_time` returns it.
    pub fn ert_seat_monotonic_time(seat: *mut ert_seat, time: *mut i64) -> i32;
    /// System time, in nanoseconds since 1970, as `ert_world_system_time` returns it.
    pub fn ert_seat_system_time(seat: *mut ert_seat, time: *mut i64) -> i32;
    /// The time offset, in nanoseconds, with its state, as `ert_world_time_offset` returns it.
    pub fn ert_seat_time_offset(seat: *mut ert_seat, offset: *mut ert_offset) -> i32;
    /// Cancels a timer, as `ert_world_cancel` does, whichever thread started it.
    pub fn ert_seat_cancel(seat: *mut ert_seat, timer: *const ert_timer, left: *mut u64) -> i32;
    /// Reads the milliseconds that are left of a timer, as `ert_world_read` does, and changes nothing.
    pub fn ert_seat_read(seat: *mut ert_seat, timer: *const ert_timer, left: *mut u64) -> i32;
    /// Reports whether a process is alive: writes 1 or 0 to `alive`, as `ert_world_is_alive` does.
    pub fn ert_seat_is_alive(seat: *mut ert_seat, process: u32, alive: *mut u32) -> i32;

    /// Opens a world that is to be divided among threads, and its hub behind a closed handle.
    pub fn ert_hub_open(hub: *mut ert_hub, settings: *const ert_settings) -> i32;
    /// Closes a hub, on any thread, and frees its memory; with the last handle of a world also what all of them share.
    pub fn ert_hub_close(hub: *mut ert_hub) -> i32;
    /// Opens a seat behind a closed handle, for the next caller after those of the schedulers.
    pub fn ert_hub_seat(hub: *mut ert_hub, seat: *mut ert_seat) -> i32;
    /// Opens a shard behind a closed handle, with the last scheduler that the hub has left, and the last `processes` of its processes.
    pub fn ert_hub_shard(hub: *mut ert_hub, shard: *mut ert_shard, processes: u32) -> i32;
    /// Passes a reading of the clocks of the operating system to the hub: monotonic time moves on by it for the hub and for all shards, as by `ert_world_tick`.
    pub fn ert_hub_tick(hub: *mut ert_hub, reading: *const ert_reading, force: u32, moved: *mut ert_moved) -> i32;
    /// Finalizes the time offset, as `ert_world_finalize` does.
    pub fn ert_hub_finalize(hub: *mut ert_hub, reading: *const ert_reading, before: *mut u32, moved: *mut ert_moved) -> i32;
    /// Monotonic time, in nanoseconds, as `ert_world_monotonic_time` returns it.
    pub fn ert_hub_monotonic_time(hub: *mut ert_hub, time: *mut i64) -> i32;
    /// System time, in nanoseconds since 1970, as `ert_world_system_time` returns it.
    pub fn ert_hub_system_time(hub: *mut ert_hub, time: *mut i64) -> i32;
    /// The time offset, in nanoseconds, with its state, as `ert_world_time_offset` returns it.
    pub fn ert_hub_time_offset(hub: *mut ert_hub, offset: *mut ert_offset) -> i32;
    /// Cancels a timer of whatever shard, beside all threads, as `ert_seat_cancel` does: the wheel doesn't notice.
    pub fn ert_hub_cancel(hub: *mut ert_hub, timer: *const ert_timer, left: *mut u64) -> i32;
    /// Reads the milliseconds that are left of a timer of whatever shard, as `ert_seat_read` does, and changes nothing.
    pub fn ert_hub_read(hub: *mut ert_hub, timer: *const ert_timer, left: *mut u64) -> i32;

    /// Closes a shard, on any thread, and frees its memory; with the last handle of a world also what all of them share.
    pub fn ert_shard_close(shard: *mut ert_shard) -> i32;
    /// Reports which processes a shard has: writes the first of them to `from`, and the first after them to `to`.
    pub fn ert_shard_processes(shard: *mut ert_shard, from: *mut u32, to: *mut u32) -> i32;
    /// Monotonic time, in nanoseconds: that of the last tick, whichever thread made it.
    pub fn ert_shard_monotonic_time(shard: *mut ert_shard, time: *mut i64) -> i32;
    /// System time, in nanoseconds since 1970, as `ert_seat_system_time` returns it: a tick may come between its two loads.
    pub fn ert_shard_system_time(shard: *mut ert_shard, time: *mut i64) -> i32;
    /// The time offset, in nanoseconds, with its state: both are of one moment.
    pub fn ert_shard_time_offset(shard: *mut ert_shard, offset: *mut ert_offset) -> i32;
    /// Starts a timer on the wheel of a shard, for a process of the shard, as `ert_world_start` does.
    pub fn ert_shard_start(shard: *mut ert_shard, start: *const ert_start, timer: *mut ert_timer) -> i32;
    /// Restarts a timer that is armed, whichever shard started it: it gets a new deadline and a new name, as of `ert_world_restart`.
    pub fn ert_shard_restart(shard: *mut ert_shard, timer: *mut ert_timer, start: *const ert_start) -> i32;
    /// Cancels a timer, whichever shard started it.
    pub fn ert_shard_cancel(shard: *mut ert_shard, timer: *const ert_timer, left: *mut u64) -> i32;
    /// Reads the milliseconds that are left of a timer, whichever shard started it, and changes nothing.
    pub fn ert_shard_read(shard: *mut ert_shard, timer: *const ert_timer, left: *mut u64) -> i32;
    /// Reports how many timers are on the wheel of the shard: writes it to `held`.
    pub fn ert_shard_held(shard: *mut ert_shard, held: *mut u64) -> i32;
    /// Reports how many expired timers of the shard wait to be delivered: writes it to `expired`.
    pub fn ert_shard_expired(shard: *mut ert_shard, expired: *mut u64) -> i32;
    /// Reports how many messages are in the mailbox of a process of the shard: writes it to `count`.
    pub fn ert_shard_mail_count(shard: *mut ert_shard, process: u32, count: *mut u64) -> i32;
    /// Reports whether a process of whatever shard is alive: writes 1 or 0 to `alive`. 0 is final.
    pub fn ert_shard_is_alive(shard: *mut ert_shard, process: u32, alive: *mut u32) -> i32;
    /// Makes a process of the shard exit, and cancels all timers whose message would go to it: they are all of this shard.
    pub fn ert_shard_exit(shard: *mut ert_shard, process: u32, first: *mut u32) -> i32;
    /// Takes the first message of a process of the shard, as `ert_world_take` does, and writes it to `mail`.
    pub fn ert_shard_take(shard: *mut ert_shard, process: u32, mail: *mut ert_mail) -> i32;
    /// Takes the first messages of a process of the shard, at most `room`, as `ert_world_take_some` does, and writes them to `mails` in their order and how many there are to `count`.
    pub fn ert_shard_take_some(
        shard: *mut ert_shard,
        process: u32,
        mails: *mut ert_mail,
        room: usize,
        count: *mut usize,
    ) -> i32;
    /// Finds a process of the shard that has messages and hasn't exited, as `ert_world_next_mail` does, and writes its number to `process`.
    pub fn ert_shard_next_mail(shard: *mut ert_shard, process: *mut u32) -> i32;
    /// Makes room in the mailbox of a process of the shard for `count` messages more than it has, as `ert_world_reserve_mail` does: until `count` were put there, `ert_shard_deliver` and `ert_shard_serve` need no memory for it.
    pub fn ert_shard_reserve_mail(shard: *mut ert_shard, process: u32, count: usize) -> i32;
    /// Gives back the memory of the mailbox of a process of the shard that its messages don't need, as `ert_world_shrink_mail` does.
    pub fn ert_shard_shrink_mail(shard: *mut ert_shard, process: u32) -> i32;
    /// Requests that the scheduler of the shard cancels or reads a timer, as `ert_world_ask` does, and sends the answer to a process of the shard.
    pub fn ert_shard_ask(shard: *mut ert_shard, request: *const ert_request) -> i32;
    /// Serves one request of the shard, as `ert_world_serve` does, and writes 1 to `served`, or 0 if there was none.
    pub fn ert_shard_serve(shard: *mut ert_shard, served: *mut u32) -> i32;
    /// Makes a monitor of the time offset for a process of the shard, as `ert_world_monitor` does, and writes its number.
    pub fn ert_shard_monitor(shard: *mut ert_shard, process: u32, monitor: *mut u32) -> i32;
    /// Removes a monitor of a process of the shard, as `ert_world_demonitor` does.
    pub fn ert_shard_demonitor(shard: *mut ert_shard, process: u32, monitor: u32) -> i32;
    /// Notifies the monitors of a process of the shard of the time offset, as `ert_world_notify` does, and writes how many messages were sent to `sent`.
    pub fn ert_shard_notify(shard: *mut ert_shard, process: u32, told: *mut u32) -> i32;
    /// Expires every timer of the shard that is due at the current monotonic time, as `ert_world_advance` does.
    pub fn ert_shard_advance(shard: *mut ert_shard, advanced: *mut ert_advanced) -> i32;
    /// Delivers the expired timers of the shard, as `ert_world_deliver` does, and writes how many messages were put and discarded to `delivered`.
    pub fn ert_shard_deliver(shard: *mut ert_shard, delivered: *mut ert_delivered) -> i32;
    /// Makes a turn of the shard: serves at most 64 of its requests, advances its wheel, and delivers what has expired.
    pub fn ert_shard_turn(shard: *mut ert_shard, turned: *mut ert_turned) -> i32;
    /// Makes a turn of the shard in which at most `most` timers expire and at most `most` expired timers are delivered, as `ert_world_turn_some` does.
    pub fn ert_shard_turn_some(shard: *mut ert_shard, most: u32, turned: *mut ert_turned_some) -> i32;
    /// Returns the earliest time at which a timer of the shard can be due, in milliseconds since the start time, as `to` of a turn.
    pub fn ert_shard_next_due(shard: *mut ert_shard, due: *mut u64) -> i32;
    /// Drops all timers of the shard's wheel that other threads cancelled, and writes how many there were to `dropped`, as `ert_world_drop_settled` does.
    pub fn ert_shard_drop_settled(shard: *mut ert_shard, dropped: *mut u64) -> i32;
    /// Makes room in the list of expired timers of the shard for `count` more than wait in it, as `ert_world_reserve_expired` does: until `count` were due, `ert_shard_advance` needs no memory.
    pub fn ert_shard_reserve_expired(shard: *mut ert_shard, count: usize) -> i32;
    /// Gives back the memory of the list of expired timers of the shard that those which wait don't need, as `ert_world_shrink_expired` does.
    pub fn ert_shard_shrink_expired(shard: *mut ert_shard) -> i32;
}

/// The scenario was run, or the history is legal.
#[cfg(feature = "text")]
pub const ERT_TEXT_DONE: u32 = 0;
/// The text is a history, and an entry of it is not legal.
#[cfg(feature = "text")]
pub const ERT_TEXT_ILLEGAL: u32 = 1;
/// The text is no scenario, or no history.
#[cfg(feature = "text")]
pub const ERT_TEXT_REFUSED: u32 = 3;
/// Memory ran out.
#[cfg(feature = "text")]
pub const ERT_TEXT_NO_MEMORY: u32 = 7;
/// The text has more than [`ERT_TEXT_MOST`] bytes.
#[cfg(feature = "text")]
pub const ERT_TEXT_TOO_LONG: u32 = 8;
/// The most bytes that a scenario or a history may have.
#[cfg(feature = "text")]
pub const ERT_TEXT_MOST: usize = 16_777_216;

/// How many bytes the two texts of an answer have, whether they fitted their buffers or not.
#[cfg(feature = "text")]
#[repr(C)]
#[derive(Clone, Copy, Debug, Default)]
pub struct ert_told {
    pub output: usize,
    pub errors: usize,
}

#[cfg(feature = "text")]
unsafe extern "C" {
    /// Runs a scenario, as `ertime run` does.
    pub fn ert_run(
        scenario: *const u8,
        length: usize,
        output: *mut u8,
        output_room: usize,
        errors: *mut u8,
        errors_room: usize,
        told: *mut ert_told,
    ) -> u32;
    /// Judges a history, as `ertaudit` does.
    pub fn ert_judge(
        history: *const u8,
        length: usize,
        output: *mut u8,
        output_room: usize,
        errors: *mut u8,
        errors_room: usize,
        told: *mut ert_told,
    ) -> u32;
}
