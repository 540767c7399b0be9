#![doc = include_str!("../README.md")]

use std::io;

use ertime::Timers;
use tokio::io::Interest;
use tokio::io::unix::AsyncFd;
use tokio::task::JoinHandle;

/// Timers by the monotonic clock, with room for 16,384 at once, driven by a task of the runtime that this is called in.
///
/// # Errors
///
/// As of [`Timers::new`] and of [`drive`].
///
/// # Panics
///
/// As of [`drive`].
pub fn timers() -> io::Result<Timers> {
    let timers = Timers::new()?;
    drive(&timers)?;
    Ok(timers)
}

/// Drives timers by a task of the runtime that this is called in, until the runtime ends or the task is aborted. It wakes when a
/// timer is due, to the nanosecond, and costs nothing before.
///
/// Timers by a clock that a test moves need no task: [`Timers::advance`] and [`Timers::run`] drive them.
///
/// # Errors
///
/// The runtime can't register the descriptor of the timers.
///
/// # Panics
///
/// It is called outside of a runtime, or in one that was built without I/O.
pub fn drive(timers: &Timers) -> io::Result<JoinHandle<()>> {
    let alarm = AsyncFd::with_interest(timers.clone(), Interest::READABLE)?;
    Ok(tokio::spawn(async move {
        // It ends with the driver of the runtime.
        while let Ok(mut readable) = alarm.readable().await {
            // First, since a turn may set the alarm to a time that has passed.
            readable.clear_ready();
            // After an error the alarm is set to a millisecond later, and the turn after that goes on.
            let _next = alarm.get_ref().turn();
        }
    }))
}
