//! The handles of a guest.

use crate::faults::{Fault, planted};
use crate::streams::Side;

/// What a handle stands for.
#[derive(Clone, Copy, Debug, PartialEq, Eq)]
pub enum Entry {
    End {
        stream: u32,
        side: Side,
    },
    /// A waitable set, by its place among those of the guest.
    Set(u32),
    /// An error context, by its place among those of the store.
    Context(u32),
}

/// Handles from 1 on; the one that was freed last is given first.
#[derive(Clone, Debug, Default)]
pub struct Table {
    entries: Vec<Option<Entry>>,
    freed: Vec<u32>,
}

impl Table {
    pub fn get(&self, handle: u32) -> Option<Entry> {
        *self.entries.get((handle as usize).wrapping_sub(1))?
    }

    /// How many handles were ever there at once: none is above that.
    pub fn len(&self) -> u32 {
        self.entries.len() as u32
    }

    pub fn is_empty(&self) -> bool {
        self.entries.is_empty()
    }

    pub fn insert(&mut self, entry: Entry) -> u32 {
        let freed = if planted(Fault::GivesOldestHandle) && !self.freed.is_empty() {
            Some(self.freed.remove(0))
        } else {
            self.freed.pop()
        };
        if let Some(handle) = freed {
            self.entries[handle as usize - 1] = Some(entry);
            return handle;
        }
        self.entries.push(Some(entry));
        self.entries.len() as u32
    }

    /// Frees a handle that stands for something.
    pub fn remove(&mut self, handle: u32) {
        self.entries[handle as usize - 1] = None;
        self.freed.push(handle);
    }

    /// All handles that stand for something.
    pub fn handles(&self) -> impl Iterator<Item = (u32, Entry)> {
        (1..).zip(&self.entries).filter_map(|(handle, entry)| Some((handle, (*entry)?)))
    }
}
