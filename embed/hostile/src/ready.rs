//! Which guest is ready, as `strm.h` has it.

use crate::archive::{Answer, Words, over};
use crate::calls::Call;
use crate::model::of;
use crate::sys;
use plain::store::Store;
use plain::tables::Entry;

/// Whether a store counts the ends that are to be told something.
#[derive(Default)]
pub struct Readiness {
    is_counted: bool,
}

impl Readiness {
    /// What a call answers that asks for the next guest that is ready. Memory may run out until it was answered once of
    /// a store with guests: nothing is counted before, and nothing is to be counted where there are none.
    pub fn answer(&mut self, store: &Store, call: &Call, before: Words, seen: &Answer) -> Option<Answer> {
        let Call::NextReadyGuest { from } = *call else { return None };
        if seen.status == sys::OUT_OF_MEMORY && !self.is_counted {
            return Some(of(sys::OUT_OF_MEMORY, before));
        }
        self.is_counted |= !store.guests.is_empty();
        let ready = (from..store.guests.len() as u32).find(|guest| is_ready(store, *guest));
        Some(of(0, over(before, [ready.unwrap_or(sys::NO_GUEST).into()])))
    }
}

// Whether a guest has an end that is to be told something. Each of its handles is asked.
fn is_ready(store: &Store, guest: u32) -> bool {
    store.guests[guest as usize].table.handles().any(|(_, entry)| match entry {
        Entry::End { stream, side } => store.streams[stream as usize].report(side).is_some(),
        _ => false,
    })
}
