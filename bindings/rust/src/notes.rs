//! What other threads, and guards, tell the owner of a world: that a timer has ended, or is not wanted any more.
use alloc::boxed::Box;
use core::ptr;
use core::sync::atomic::{AtomicPtr, AtomicU32, Ordering};

use crate::{Name, Timer};

pub(crate) enum Note {
    /// Another thread has ended the timer: its message never comes.
    Ended(Name),
    /// A guard of the timer was dropped.
    Released(Timer),
}

struct Node {
    note: Note,
    next: *mut Node,
}

/// A stack of notes to which any thread adds, without a lock, and which its owner takes as a whole.
struct Stack(AtomicPtr<Node>);

/// The notes of a world: one stack for all of it, or one for each part.
pub(crate) struct Notes {
    stacks: Box<[Stack]>,
    /// Tells this world from others.
    pub(crate) world: u32,
}

static WORLDS: AtomicU32 = AtomicU32::new(0);

impl Notes {
    pub(crate) fn new(stacks: u32) -> Notes {
        Notes {
            stacks: (0..stacks).map(|_| Stack(AtomicPtr::new(ptr::null_mut()))).collect(),
            world: WORLDS.fetch_add(1, Ordering::Relaxed),
        }
    }

    /// The stack of a wheel: its own, if there are several.
    #[inline]
    fn stack(&self, wheel: u32) -> Option<&Stack> {
        self.stacks.get(wheel as usize).or_else(|| self.stacks.first())
    }

    pub(crate) fn add(&self, wheel: u32, note: Note) {
        let Some(Stack(head)) = self.stack(wheel) else { return };
        let added = Box::into_raw(Box::new(Node { note, next: ptr::null_mut() }));
        let mut next = head.load(Ordering::Relaxed);
        loop {
            // SAFETY: the node is on no stack yet, so nobody else has it.
            unsafe { (*added).next = next };
            match head.compare_exchange_weak(next, added, Ordering::Release, Ordering::Relaxed) {
                Ok(_) => return,
                Err(other) => next = other,
            }
        }
    }

    /// Whether a wheel has notes.
    #[inline]
    pub(crate) fn has(&self, wheel: u32) -> bool {
        self.stack(wheel).is_some_and(|Stack(head)| !head.load(Ordering::Relaxed).is_null())
    }

    /// Takes all notes of a wheel.
    pub(crate) fn take(&self, wheel: u32) -> Taken {
        match self.stack(wheel) {
            Some(Stack(head)) => Taken(head.swap(ptr::null_mut(), Ordering::Acquire)),
            None => Taken(ptr::null_mut()),
        }
    }
}

impl Drop for Notes {
    fn drop(&mut self) {
        for Stack(head) in &mut self.stacks {
            drop(Taken(*head.get_mut()));
        }
    }
}

/// Notes that were taken from their stack.
pub(crate) struct Taken(*mut Node);

impl Iterator for Taken {
    type Item = Note;

    fn next(&mut self) -> Option<Note> {
        if self.0.is_null() {
            return None;
        }
        // SAFETY: the node came from a box, and was taken off its stack with all that follow, by this thread alone.
        let node = unsafe { Box::from_raw(self.0) };
        self.0 = node.next;
        Some(node.note)
    }
}

impl Drop for Taken {
    fn drop(&mut self) {
        for _note in self {}
    }
}
