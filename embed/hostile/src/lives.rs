//! Guests that begin under the number of one that has ended, as `strm.h` has it.

use crate::calls::Call;
use crate::lent::{SIZE_LIMIT, UNWRITTEN};
use plain::codes::Refusal;
use plain::store::{Guest, Reply, Store};

/// Whether a call would begin a guest under a number whose guest has something.
pub fn is_in_use(store: &Store, call: &Call) -> bool {
    let (Call::BeginGuest { guest, .. } | Call::BeginGuestAt { guest, .. }) = *call else { return false };
    store.guests.get(guest as usize).is_some_and(Guest::is_used)
}

/// A guest that has nothing gets a memory of so many bytes as they stand in a new block.
pub fn begin_at<'s>(store: &'s mut Store, guest: u32, size: u64) -> Result<Reply<'s>, Refusal> {
    let found = store.guests.get_mut(guest as usize).ok_or(Refusal::UnknownGuest)?;
    if size >= SIZE_LIMIT {
        return Err(Refusal::MemoryTooBig);
    }
    *found = Guest { memory: vec![UNWRITTEN; size as usize], is_lent: true, ..Guest::default() };
    Ok(Reply::Done)
}
