//! How much each guest may have at once, as `strm.h` says it.

use crate::archive::{Answer, Words, over};
use crate::calls::Call;
use crate::model::of;
use crate::sys;
use crate::words::status_of;
use plain::codes::Refusal;
use plain::store::Store;
use plain::tables::Entry;
use std::collections::HashMap;

/// What the store keeps for a handle of an error context.
const BYTES_OF_CONTEXT: u64 = 4096;

/// How much a guest may have.
#[derive(Clone, Copy, Debug, PartialEq, Eq)]
pub struct GuestLimits {
    pub handles: u32,
    pub ends: u32,
    pub bytes: u64,
}

const UNBOUNDED: GuestLimits = GuestLimits { handles: u32::MAX, ends: u32::MAX, bytes: u64::MAX };

/// The limits that were set, by guest.
#[derive(Default)]
pub struct Limits {
    set: HashMap<u32, GuestLimits>,
}

impl Limits {
    /// What a call answers that sets or tells them.
    pub fn answer(&mut self, store: &Store, call: &Call, before: Words, seen: &Answer) -> Option<Answer> {
        let (Call::SetGuestLimits { guest, .. } | Call::GuestLimits { guest }) = *call else { return None };
        if guest as usize >= store.guests.len() {
            return Some(of(status_of(Refusal::UnknownGuest), before));
        }
        Some(match *call {
            Call::SetGuestLimits { .. } if seen.status == sys::OUT_OF_MEMORY => of(seen.status, before),
            Call::SetGuestLimits { limits, .. } => {
                self.set.insert(guest, limits);
                of(0, before)
            }
            _ => {
                let GuestLimits { handles, ends, bytes } = *self.set.get(&guest).unwrap_or(&UNBOUNDED);
                of(0, over(before, [bytes, handles.into(), ends.into()]))
            }
        })
    }

    /// Whether a call would give a guest more than it may have.
    pub fn is_past(&self, store: &Store, call: &Call) -> bool {
        match *call {
            Call::New { guest, .. } => self.by_ends(store, guest, 2),
            Call::NewBetween { writer, reader, .. } if writer == reader => self.by_ends(store, writer, 2),
            Call::NewBetween { writer, reader, .. } => {
                self.by_ends(store, writer, 1) || self.by_ends(store, reader, 1)
            }
            Call::Transfer { guest, to, .. } => guest != to && self.by_ends(store, to, 1),
            Call::Lower { guest, .. } => self.by_ends(store, guest, 1),
            Call::SetNew { guest } => self.by_handles(store, guest, 1),
            Call::ContextNew { guest, .. }
            | Call::ContextLower { guest, .. }
            | Call::ContextTransfer { to: guest, .. } => self.by_context(store, guest),
            _ => false,
        }
    }

    fn by_handles(&self, store: &Store, guest: u32, more: usize) -> bool {
        self.limits_of(guest)
            .is_some_and(|limits| count(store, guest, |_| true) + more > limits.handles as usize)
    }

    fn by_ends(&self, store: &Store, guest: u32, more: usize) -> bool {
        let ends = |limits: GuestLimits| {
            count(store, guest, |entry| matches!(entry, Entry::End { .. })) + more > limits.ends as usize
        };
        self.by_handles(store, guest, more) || self.limits_of(guest).is_some_and(ends)
    }

    fn by_context(&self, store: &Store, guest: u32) -> bool {
        let bytes = |limits: GuestLimits| {
            let contexts = count(store, guest, |entry| matches!(entry, Entry::Context(_))) as u64;
            BYTES_OF_CONTEXT * (contexts + 1) > limits.bytes
        };
        self.by_handles(store, guest, 1) || self.limits_of(guest).is_some_and(bytes)
    }

    fn limits_of(&self, guest: u32) -> Option<GuestLimits> {
        self.set.get(&guest).copied()
    }
}

// How many handles of a guest stand for what is meant. Limits are set of guests that are there.
fn count(store: &Store, guest: u32, is_meant: impl Fn(Entry) -> bool) -> usize {
    let table = &store.guests[guest as usize].table;
    table.handles().filter(|(_, entry)| is_meant(*entry)).count()
}
