//! Memories that an engine lends: the blocks in which they lie, and what is answered where they grow.

use crate::archive::{Answer, Words};
use crate::calls::Call;
use crate::model::of;
use crate::sys;
use crate::words::status_of;
use plain::codes::Refusal;
use plain::store::{Guest, Store};
use std::sync::OnceLock;

/// The most bytes of a memory that is lent, and how many of a block lie behind its end at first.
pub const ROOM: u32 = 16 * 1024;

/// A memory has fewer bytes.
pub const SIZE_LIMIT: u64 = 1 << 32;

/// What stands in a block before it is written, and once it is no guest's any more.
pub const UNWRITTEN: u8 = 0x5a;
const GONE: u8 = 0xa5;

/// A block of the engine's, of whose bytes the first are a guest's memory.
pub struct Block {
    at: *mut [u8],
}

impl Block {
    pub fn new() -> Block {
        Block { at: Box::into_raw(vec![UNWRITTEN; ROOM as usize].into_boxed_slice()) }
    }

    pub fn at(&self) -> *mut u8 {
        self.at.cast()
    }

    /// Where its bytes go on behind so many.
    pub fn behind(&self, len: usize) -> *mut u8 {
        // SAFETY: no more are asked for than there are.
        unsafe { self.at().add(len) }
    }

    /// Begins with so many bytes of another.
    pub fn begin_with(&self, other: &Block, len: usize) {
        // SAFETY: both blocks have so many, and are two.
        unsafe { std::ptr::copy_nonoverlapping(other.at(), self.at(), len) }
    }

    /// Has nothing of the memory any more, for whoever looks there.
    pub fn give_up(&self) {
        // SAFETY: it has so many bytes.
        unsafe { self.at().write_bytes(GONE, ROOM as usize) }
    }

    /// Whether nobody wrote there since.
    pub fn is_given_up(&self) -> bool {
        // SAFETY: nobody else has them meanwhile.
        unsafe { &*self.at }.iter().all(|byte| *byte == GONE)
    }
}

impl Drop for Block {
    fn drop(&mut self) {
        // SAFETY: it was made of a box.
        drop(unsafe { Box::from_raw(self.at) })
    }
}

/// Where 2^32 zeros lie that nobody touches, so that none of their pages is there.
pub fn wide() -> *mut u8 {
    static AT: OnceLock<usize> = OnceLock::new();
    let zeros = || vec![0u8; SIZE_LIMIT as usize].leak().as_mut_ptr().expose_provenance();
    std::ptr::with_exposed_provenance_mut(*AT.get_or_init(zeros))
}

/// A guest with a memory of so many bytes as they stand in a new block.
pub fn add(store: &mut Store, size: u64) -> Result<u32, Refusal> {
    if size >= SIZE_LIMIT {
        return Err(Refusal::MemoryTooBig);
    }
    let memory = vec![UNWRITTEN; size as usize];
    store.guests.push(Guest { memory, is_lent: true, ..Guest::default() });
    Ok(store.guests.len() as u32 - 1)
}

/// What a call answers that tells of a growth, and what it does.
pub fn answer(store: &mut Store, call: &Call, before: Words) -> Option<Answer> {
    let (guest, size) = match *call {
        Call::MemoryGrown { guest, more } => {
            let found = store.guests.get(guest as usize);
            (guest, found.map_or(0, |found| found.memory.len() as u64) + u64::from(more))
        }
        Call::MemoryMoved { guest, size } => (guest, size),
        _ => return None,
    };
    let status = status_of_growth(store, guest, size);
    if status == 0 {
        store.guests[guest as usize].memory.resize(size as usize, UNWRITTEN);
    }
    Some(of(status, before))
}

// Whether a guest's memory may have so many bytes.
fn status_of_growth(store: &Store, guest: u32, size: u64) -> u32 {
    let Some(found) = store.guests.get(guest as usize) else { return status_of(Refusal::UnknownGuest) };
    if size >= SIZE_LIMIT {
        return status_of(Refusal::MemoryTooBig);
    }
    if !found.is_lent {
        return sys::NOT_LENT;
    }
    if size < found.memory.len() as u64 {
        return sys::SHORTER;
    }
    0
}
