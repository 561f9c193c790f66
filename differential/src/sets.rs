//! Waitable sets.

use crate::faults::{Fault, planted};
use std::collections::BTreeSet;

/// The ends in a set, by their handles.
#[derive(Clone, Debug, Default)]
pub struct WaitableSet {
    members: BTreeSet<u32>,
    /// All members that are to be told something are among these.
    noted: BTreeSet<u32>,
}

impl WaitableSet {
    pub fn is_empty(&self) -> bool {
        self.members.is_empty()
    }

    pub fn join(&mut self, handle: u32) {
        self.members.insert(handle);
        self.noted.insert(handle);
    }

    pub fn leave(&mut self, handle: u32) {
        self.members.remove(&handle);
        self.noted.remove(&handle);
    }

    /// A member may be told something from now on.
    pub fn note(&mut self, handle: u32) {
        self.noted.insert(handle);
    }

    /// The member with the least handle that is ready.
    pub fn first(&mut self, is_ready: impl Fn(u32) -> bool) -> Option<u32> {
        if planted(Fault::PollsGreatestMember) {
            return self.members.iter().rev().copied().find(|handle| is_ready(*handle));
        }
        loop {
            let handle = *self.noted.first()?;
            if is_ready(handle) {
                return Some(handle);
            }
            self.noted.pop_first();
        }
    }
}
