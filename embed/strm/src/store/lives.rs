//! Guests that end, and guests that begin under the number of one that has ended.

use crate::errors::done;
use crate::{Error, Guest, Memory, Refusal, Store};
use core::ptr::NonNull;
use strm_sys as sys;

/// Guests that end, and guests that begin under the number of one that has ended.
impl Store {
    /// Ends a guest, as one that trapped or writes a bad item: each of its ends, by rising handle, is cancelled (what
    /// was moved stays moved) and dropped, and whoever has the other end is told so; the reader of a future that never
    /// gets its value is told [`Code::Dropped`](crate::Code::Dropped), with 0. Then its waitable sets, its error
    /// contexts and its memory go: a [`Memory`] that was given is dropped, and bytes that were lent are the host's
    /// again. Tasks that wait at the ends, or for a set, of either guest are woken.
    ///
    /// The number stays that of a guest which has nothing, until one begins under it; the limits that were set of the
    /// number stay. Its handles are none any more: an [`Owned`](crate::Owned) end is refused from then on, and a name of
    /// one that was kept else, as an [`End`](crate::End), may be that of an end of the next guest's.
    ///
    /// # Errors
    ///
    /// Refused: `UnknownGuest`.
    ///
    /// ```
    /// # use strm::Code;
    /// # let (mut store, one, other, pair) = strm::example()?;
    /// store.end_guest(one)?;
    /// assert_eq!(store.take_event(other, pair.read)?, Some(Code::Dropped(0)));
    /// store.begin_guest(one, 64)?;
    /// assert_eq!(store.memory(one)?, [0; 64]);
    /// # Ok::<(), strm::Error>(())
    /// ```
    pub fn end_guest(&mut self, guest: Guest) -> Result<(), Error> {
        let ends = self.waited_ends(guest);
        // SAFETY: above.
        done(unsafe { sys::strm_end_guest(self.at(), guest.0) })?;
        *self.ended.entry(guest).or_default() += 1;
        self.rooms.remove(&guest);
        // The store has none of its bytes any more.
        self.memories.remove(&guest);
        self.ended_with(guest, ends);
        Ok(())
    }

    /// Begins a guest under the number of one that has nothing, as one that has ended, with a memory of so many zero
    /// bytes of the store's own.
    ///
    /// # Errors
    ///
    /// Refused, in this order: `UnknownGuest`, `MemoryTooBig`. [`Error::InUse`], between the two, of a guest that has
    /// not ended, or has begun again. [`Error::OutOfMemory`] where memory is short.
    ///
    /// ```
    /// # use strm::{Error, Handle, Payload};
    /// # let (mut store, guest, _, _) = strm::example()?;
    /// assert_eq!(store.begin_guest(guest, 64), Err(Error::InUse));
    /// store.end_guest(guest)?;
    /// store.begin_guest(guest, 64)?;
    /// assert_eq!(store.stream_new(guest, Payload::U8)?.read, Handle(1)); // its handles begin with 1 again
    /// # Ok::<(), Error>(())
    /// ```
    pub fn begin_guest(&mut self, guest: Guest, size: u32) -> Result<(), Error> {
        // SAFETY: above.
        done(unsafe { sys::strm_begin_guest(self.at(), guest.0, size) })
    }

    /// The same with a memory that the host gives, as by [`Store::add_guest_with`].
    ///
    /// # Errors
    ///
    /// As of [`Store::begin_guest_at`]; the memory is dropped then.
    ///
    /// ```
    /// # use strm::{Error, Memory};
    /// # let (mut store, guest, _, _) = strm::example()?;
    /// store.end_guest(guest)?;
    /// store.begin_guest_with(guest, Memory::from(vec![7]))?;
    /// assert_eq!(store.memory(guest)?, [7]);
    /// # Ok::<(), Error>(())
    /// ```
    pub fn begin_guest_with(&mut self, guest: Guest, memory: Memory) -> Result<(), Error> {
        // SAFETY: the bytes are the memory's own, which the store keeps until it gave them up.
        unsafe { self.begin_guest_at(guest, memory.at(), memory.len()) }?;
        self.memories.insert(guest, memory);
        Ok(())
    }

    /// The same with bytes that the host lends: none of them is touched, copied or freed by this call.
    ///
    /// # Errors
    ///
    /// Refused, in this order: `UnknownGuest`, `MemoryTooBig` (4,294,967,296 bytes or more). [`Error::InUse`], between
    /// the two, of a guest that has not ended, or has begun again.
    ///
    /// # Safety
    ///
    /// What [`Store::add_guest_at`] asks of the bytes.
    pub unsafe fn begin_guest_at(
        &mut self,
        guest: Guest,
        bytes: NonNull<u8>,
        len: usize,
    ) -> Result<(), Error> {
        // SAFETY: above, and the caller's.
        done(unsafe { sys::strm_begin_guest_at(self.at(), guest.0, bytes.as_ptr(), len) })
    }

    // How many guests had a number before the one that has it now.
    pub(crate) fn life(&self, guest: Guest) -> u64 {
        self.ended.get(&guest).copied().unwrap_or(0)
    }

    // Calls of a guest that had the number when so many had ended: where it has ended too, its handles are none.
    pub(crate) fn in_life<R>(
        &mut self,
        guest: Guest,
        life: u64,
        calls: impl FnOnce(&mut Store) -> Result<R, Error>,
    ) -> Result<R, Error> {
        if self.life(guest) == life {
            calls(self)
        } else {
            Err(Error::Refused(Refusal::UnknownHandle))
        }
    }
}
