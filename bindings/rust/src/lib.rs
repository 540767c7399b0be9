#![cfg_attr(feature = "std", doc = include_str!("../README.md"))]
#![cfg_attr(not(feature = "std"), doc = "Timers and clocks for event loops: begin with [`World`].")]
#![no_std]

extern crate alloc;
#[cfg(feature = "std")]
extern crate std;

#[cfg(all(feature = "std", target_os = "linux", target_pointer_width = "64"))]
mod alarm;
mod calls;
#[cfg(feature = "std")]
mod clock;
mod error;
mod guard;
mod mail;
mod notes;
mod post;
mod repeat;
mod settings;
mod shards;
#[cfg(all(feature = "std", target_os = "linux", target_pointer_width = "64"))]
mod sleep;
#[cfg(feature = "text")]
pub mod text;
mod time;
mod timer;
#[cfg(all(feature = "std", target_os = "linux", target_pointer_width = "64"))]
mod timers;
mod turns;
mod world;

#[cfg(all(feature = "std", target_os = "linux", target_pointer_width = "64"))]
pub use alarm::Alarm;
#[cfg(feature = "std")]
pub use clock::Clock;
pub use error::{Error, Refused};
pub use guard::Guard;
pub use mail::{Advanced, Delivered, Mail, Monitor, Moved, Offset, OffsetState, Request, Room, Turned};
pub use repeat::Repeat;
pub use settings::{Mode, Settings};
pub use shards::{Hub, Seat};
#[cfg(all(feature = "std", target_os = "linux", target_pointer_width = "64"))]
pub use sleep::{Interval, Missed, Sleep};
pub use time::{Reading, Time, When};
pub use timer::{Cancelled, Name, Start, Timer};
#[cfg(all(feature = "std", target_os = "linux", target_pointer_width = "64"))]
pub use timers::Timers;
pub use turns::Drain;
pub use world::World;

/// The version of the library: 1,000,000 times the major, 1,000 times the minor, and the patch number.
#[must_use]
pub fn version() -> u32 {
    // SAFETY: the call takes nothing and changes nothing.
    unsafe { ertime_sys::ert_version() }
}

// A handle goes from thread to thread, and one thread at a time has it. This does not compile if one of them is not `Send`, or
// if one is `Sync`: then both implementations are its, and `IS` is ambiguous.
const _: () = {
    const fn crosses<T: Send>() {}
    trait Unshared<Why> {
        const IS: () = ();
    }
    impl<T> Unshared<()> for T {}
    impl<T: Sync> Unshared<u8> for T {}
    crosses::<World<u64>>();
    crosses::<Hub>();
    crosses::<Seat>();
    let () = <World<u64> as Unshared<_>>::IS;
    let () = <Hub as Unshared<_>>::IS;
    let () = <Seat as Unshared<_>>::IS;
};
