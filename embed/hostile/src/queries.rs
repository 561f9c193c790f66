//! What a store tells of itself, which changes nothing.

use crate::archive::{Answer, Words, over};
use crate::calls::Call;
use crate::model::of;
use crate::sys;
use crate::words::{NO_EVENT, event_word, side_word, status_of, type_at, type_word};
use plain::codes::{Refusal, StoreError};
use plain::payload::TransmitIndex;
use plain::store::{Reply, Store};
use plain::streams::{Owner, Side};
use plain::tables::Entry;

/// What is told, if the call asks for such.
pub fn queried(store: &Store, call: &Call, before: Words) -> Option<Answer> {
    Some(match *call {
        Call::Moved { stream } => match store.streams.get(stream as usize) {
            Some(found) => of(0, over(before, [found.moved, 0])),
            None => of(sys::UNKNOWN_STREAM, before),
        },
        Call::TransmitIndex { stream } => match store.streams.get(stream as usize) {
            Some(found) if found.is_live() => of(0, over(before, [type_word(&found.ty)])),
            _ => of(sys::UNKNOWN_STREAM, before),
        },
        Call::FindBadItem { side, guest, ty, handle, address, count } => match type_at(ty) {
            Some(ty) => match (Asked { side, guest, ty, handle, address, count }).bad_item(store) {
                Some(item) => of(0, over(before, item.map(u64::from))),
                None => of(sys::NO_BAD_ITEM, before),
            },
            None => of(sys::UNKNOWN_PAYLOAD, before),
        },
        Call::HandleInfo { guest, handle } => match info(store, guest, handle) {
            Ok(words) => of(0, words),
            Err(refusal) => of(status_of(refusal), before),
        },
        Call::NextHandle { guest, after } => match next(store, guest, after) {
            Ok(words) => of(0, words),
            Err(refusal) => of(status_of(refusal), before),
        },
        Call::HandleCount { guest } => match store.guests.get(guest as usize) {
            Some(found) => of(0, over(before, [found.table.handles().count() as u64])),
            None => of(status_of(Refusal::UnknownGuest), before),
        },
        Call::MemoryAt { guest } => match store.guests.get(guest as usize) {
            Some(found) => of(0, over(before, [0, found.memory.len() as u64])),
            None => of(status_of(Refusal::UnknownGuest), before),
        },
        Call::MemoryRead { guest, address, len } => match store.dump(guest, address, len) {
            Ok(Reply::Bytes(bytes)) => Answer { status: 0, words: before, bytes: bytes.to_vec() },
            Ok(_) => return None,
            Err(refusal) => {
                let bytes = vec![before[0] as u8; len as usize];
                Answer { status: status_of(refusal), words: before, bytes }
            }
        },
        _ => return None,
    })
}

// A handle's number, and what it is of; of an end its type, side and stream, what it is to be told, and who has
// the other one.
fn handle_words(store: &Store, handle: u32, entry: Entry) -> Words {
    let bare = |kind: u32| [0, handle.into(), kind.into(), 0, 0, NO_EVENT, 0, 0, 0];
    let Entry::End { stream, side } = entry else {
        return bare(if matches!(entry, Entry::Set(_)) {
            sys::KIND_WAITABLE_SET
        } else {
            sys::KIND_ERROR_CONTEXT
        });
    };
    let found = &store.streams[stream as usize];
    let (other, other_guest, other_handle) = match found[side.other()].owner {
        Owner::Guest { guest, handle } => (sys::OTHER_GUEST, guest, handle),
        Owner::Loose => (sys::OTHER_LOOSE, 0, 0),
        Owner::Gone | Owner::Host(_) => (sys::OTHER_GONE, 0, 0),
    };
    let [other, other_guest, other_handle] = [other, other_guest, other_handle].map(u64::from);
    let [_, handle, kind, ..] = bare(sys::KIND_END);
    let event = event_word(found.report(side));
    let (ty, side) = (type_word(&found.ty), side_word(side).into());
    [ty, handle, kind, side, stream.into(), event, other, other_guest, other_handle]
}

fn info(store: &Store, guest: u32, handle: u32) -> Result<Words, Refusal> {
    let holder = store.guests.get(guest as usize).ok_or(Refusal::UnknownGuest)?;
    let entry = holder.table.get(handle).ok_or(Refusal::UnknownHandle)?;
    Ok(handle_words(store, handle, entry))
}

fn next(store: &Store, guest: u32, after: u32) -> Result<Words, Refusal> {
    let holder = store.guests.get(guest as usize).ok_or(Refusal::UnknownGuest)?;
    let next = holder.table.handles().find(|(handle, _)| *handle > after);
    let none = [0, 0, 0, 0, 0, NO_EVENT, 0, 0, 0];
    Ok(next.map_or(none, |(handle, entry)| handle_words(store, handle, entry)))
}

// A read or write.
struct Asked {
    side: Side,
    guest: u32,
    ty: TransmitIndex,
    handle: u32,
    address: u32,
    count: u32,
}

impl Asked {
    // Whether it would stop at an item, were it of so many.
    fn stops(&self, store: &Store, count: u32) -> bool {
        let Asked { side, guest, ty, handle, address, .. } = *self;
        let done = store.clone().operate(side, guest, ty, handle, address, count);
        matches!(done, Err(StoreError::Stopped(_)))
    }

    // The guest that writes the first item that is none, its handle, and the item's place in the write.
    fn bad_item(&self, store: &Store) -> Option<[u32; 3]> {
        if !self.stops(store, self.count) {
            return None;
        }
        // The least count that stops is one more than the place among those that are left.
        let (mut good, mut bad) = (0, if self.ty.is_future() { 1 } else { self.count });
        while bad - good > 1 {
            let middle = good + (bad - good) / 2;
            if self.stops(store, middle) { bad = middle } else { good = middle }
        }
        let Entry::End { stream, .. } = store.guests.get(self.guest as usize)?.table.get(self.handle)? else {
            return None;
        };
        let end = &store.streams[stream as usize][Side::Write];
        let Owner::Guest { guest, handle } = end.owner else { return None };
        let moved = end.operation.map_or(0, |operation| operation.moved);
        Some([guest, handle, moved + good])
    }
}
