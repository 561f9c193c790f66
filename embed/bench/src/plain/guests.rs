//! A guest: its memory, handles and waitable sets, and how much it may have.

use super::status::Status;
use super::tables::{Slab, Table};
use std::cmp::Reverse;

const MESSAGE: u64 = 4096;

/// How much a guest may have at once.
#[derive(Clone, Copy, Debug)]
pub struct GuestLimits {
    pub handles: u32,
    pub ends: u32,
    pub bytes: u64,
}

impl Default for GuestLimits {
    fn default() -> GuestLimits {
        GuestLimits {
            handles: u32::MAX,
            ends: u32::MAX,
            bytes: u64::MAX,
        }
    }
}

/// How many members a waitable set has, and those that have something to be told: the least handle last.
#[derive(Default)]
pub struct Set {
    pub members: usize,
    ready: Vec<u32>,
}

impl Set {
    /// A member more, and room for it to be ready, so that this takes no memory.
    pub fn join(&mut self) -> Result<(), Status> {
        self.ready.try_reserve(self.members + 1 - self.ready.len())?;
        self.members += 1;
        Ok(())
    }

    pub fn leave(&mut self, handle: u32) {
        self.note(handle, false);
        self.members -= 1;
    }

    /// A member has something to be told from now on, or not.
    pub fn note(&mut self, handle: u32, is_ready: bool) {
        let place = self
            .ready
            .binary_search_by_key(&Reverse(handle), |&other| Reverse(other));
        match (place, is_ready) {
            (Err(place), true) => self.ready.insert(place, handle),
            (Ok(place), false) => {
                self.ready.remove(place);
            }
            _ => {}
        }
    }

    pub fn least(&self) -> Option<u32> {
        self.ready.last().copied()
    }
}

#[derive(Default)]
pub struct Guest {
    pub memory: Vec<u8>,
    pub table: Table,
    pub sets: Slab<Set>,
    pub limits: GuestLimits,
    /// Its handles of ends.
    pub ends: u32,
    /// Its handles of error contexts.
    pub contexts: u32,
}

impl Guest {
    /// Whether so many handles more are above its limits.
    pub fn is_past(&self, count: u32) -> bool {
        u64::from(self.table.len()) + u64::from(count) > u64::from(self.limits.handles)
    }

    /// The same of handles of ends.
    pub fn is_past_ends(&self, count: u32) -> bool {
        self.is_past(count) || u64::from(self.ends) + u64::from(count) > u64::from(self.limits.ends)
    }

    /// The same of a handle of an error context.
    pub fn is_past_context(&self) -> bool {
        self.is_past(1) || MESSAGE * (u64::from(self.contexts) + 1) > self.limits.bytes
    }

    /// Whether bytes of a region lie past the memory's end; no bytes lie nowhere.
    pub fn is_outside(&self, address: u32, len: usize) -> bool {
        len > 0 && self.memory.len() < address as usize + len
    }
}
