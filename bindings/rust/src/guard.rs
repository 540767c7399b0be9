//! A timer that is cancelled when its guard is dropped.
use alloc::sync::Arc;
use core::fmt;

use crate::Timer;
use crate::notes::{Note, Notes};

/// Cancels its timer when it is dropped, on whatever thread.
///
/// It borrows nothing: it leaves a note, without a lock, and the world acts on it by its next start, turn, take or
/// `next_due`. From the drop on the timer's message never comes, even if the timer had expired and its message waited in a mailbox;
/// the message is dropped on the thread of the world.
///
/// ```
/// use ertime::{Reading, Settings, Start, World};
/// use std::time::Duration;
///
/// let mut world = World::open(&Settings::new(Reading::default()))?;
/// let timer = world.start(Start::after(Duration::from_secs(60), "idle"))?;
/// let guard = world.guard(timer);
/// drop(guard); // the connection ends
/// assert_eq!(world.next_due()?, None);
/// # Ok::<(), ertime::Error>(())
/// ```
#[must_use = "the timer is cancelled when its guard is dropped"]
pub struct Guard {
    pub(crate) notes: Option<Arc<Notes>>,
    pub(crate) wheel: u32,
    pub(crate) timer: Timer,
}

impl Guard {
    /// The timer.
    #[must_use]
    pub fn timer(&self) -> Timer {
        self.timer
    }

    /// Lets go of the timer, which goes on.
    #[must_use]
    pub fn disarm(mut self) -> Timer {
        self.notes = None;
        self.timer
    }
}

impl Drop for Guard {
    fn drop(&mut self) {
        if let Some(notes) = &self.notes {
            notes.add(self.wheel, Note::Released(self.timer));
        }
    }
}

impl fmt::Debug for Guard {
    fn fmt(&self, f: &mut fmt::Formatter<'_>) -> fmt::Result {
        f.debug_struct("Guard").field("timer", &self.timer).finish_non_exhaustive()
    }
}
