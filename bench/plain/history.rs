//! The open changes: the last 64, as a ring ("Open changes").
use super::rules::{Space, Standing};

/// A change, with what it takes to make it again and to take it back.
#[derive(Clone, Copy)]
pub enum Change {
    Entered(Space),
    Withdrawn { place: u8, space: Space },
    Marked { place: u8, before: Standing, after: Standing },
}

const KEPT: u8 = 64;

#[derive(Clone, Copy)]
pub struct History {
    changes: [Change; KEPT as usize],
    /// Where the next change goes: the undoable ones lie before it, the latest nearest, the redoable ones from it on.
    next: u8,
    pub undoable: u8,
    pub redoable: u8,
}

impl History {
    pub const EMPTY: History =
        History { changes: [Change::Entered(Space::NONE); KEPT as usize], next: 0, undoable: 0, redoable: 0 };

    /// Forgets all changes.
    pub fn clear(&mut self) {
        self.undoable = 0;
        self.redoable = 0;
    }

    /// Notes a change as the latest: the oldest of 64 is overwritten, and nothing is left to redo.
    pub fn note(&mut self, change: Change) {
        self.changes[usize::from(self.next)] = change;
        self.next = (self.next + 1) % KEPT;
        self.undoable = (self.undoable + 1).min(KEPT);
        self.redoable = 0;
    }

    /// The latest change not undone, which is now undone.
    pub fn undone(&mut self) -> Option<Change> {
        self.undoable = self.undoable.checked_sub(1)?;
        self.redoable += 1;
        self.next = (self.next + KEPT - 1) % KEPT;
        Some(self.changes[usize::from(self.next)])
    }

    /// The change last undone, which is undone no longer.
    pub fn redone(&mut self) -> Option<Change> {
        self.redoable = self.redoable.checked_sub(1)?;
        self.undoable += 1;
        let change = self.changes[usize::from(self.next)];
        self.next = (self.next + 1) % KEPT;
        Some(change)
    }
}
