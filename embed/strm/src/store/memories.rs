//! Guests and their memories.

use crate::errors::{done, wrote};
use crate::{Error, Guest, Memory, Store};
use core::ptr::NonNull;
use strm_sys as sys;

/// Guests and their memories.
impl Store {
    /// A guest with a memory of so many zero bytes of the store's own: 268,435,456 of all guests together at most.
    ///
    /// # Errors
    ///
    /// Refused, in this order: `MemoryTooBig`, `Full`. [`Error::OutOfMemory`] where memory is short.
    ///
    /// ```
    /// # use strm::{Error, Refusal};
    /// # let (mut store, _, _, _) = strm::example()?;
    /// let guest = store.add_guest(64)?;
    /// assert_eq!(store.memory(guest)?, [0; 64]);
    /// assert_eq!(store.add_guest(u32::MAX), Err(Error::Refused(Refusal::MemoryTooBig)));
    /// # Ok::<(), Error>(())
    /// ```
    pub fn add_guest(&mut self, size: u32) -> Result<Guest, Error> {
        // SAFETY: above.
        wrote(|out| unsafe { sys::strm_add_guest(self.at(), size, out) }).map(Guest)
    }

    /// A guest whose memory the host gives: fewer than 4,294,967,296 bytes, and no limit on those of all guests.
    /// None of them is touched or copied.
    ///
    /// # Errors
    ///
    /// As of [`Store::add_guest_at`]; the memory is dropped then.
    ///
    /// ```
    /// # use strm::Memory;
    /// # let (mut store, _, _, _) = strm::example()?;
    /// let guest = store.add_guest_with(Memory::mapped(65536, 1 << 30)?)?;
    /// store.memory_mut(guest)?[0] = 7;
    /// assert_eq!(store.grow_memory(guest, 65536)?, 65536);
    /// assert_eq!((store.memory(guest)?.len(), store.memory(guest)?[0]), (131072, 7));
    /// # Ok::<(), strm::Error>(())
    /// ```
    pub fn add_guest_with(&mut self, memory: Memory) -> Result<Guest, Error> {
        // SAFETY: the bytes are the memory's own, which the store keeps until it gave them up.
        let guest = unsafe { self.add_guest_at(memory.at(), memory.len()) }?;
        self.memories.insert(guest, memory);
        Ok(guest)
    }

    /// The memory that the host gave for a guest has so many zero bytes more behind its end: where it lies, if
    /// it was mapped with room for them, and else at another place. Answers how many bytes it had.
    ///
    /// # Errors
    ///
    /// As of [`Store::memory_grown`]; [`Error::NotLent`] too where [`Store::memory_moved`] or that call told of
    /// other bytes since. [`Error::OutOfMemory`] where there is none for the longer memory.
    ///
    /// ```
    /// # use strm::{Error, Memory};
    /// # let (mut store, own, _, _) = strm::example()?;
    /// let guest = store.add_guest_with(Memory::from(vec![7u8; 3]))?;
    /// assert_eq!(store.grow_memory(guest, 2)?, 3);
    /// assert_eq!(store.memory(guest)?, [7, 7, 7, 0, 0]);
    /// assert_eq!(store.grow_memory(own, 2), Err(Error::NotLent));
    /// # Ok::<(), Error>(())
    /// ```
    pub fn grow_memory(&mut self, guest: Guest, more: usize) -> Result<usize, Error> {
        let place = self.bare_place(guest)?;
        let (_, len) = place;
        // One of which the store was told otherwise since is not the memory that it was given.
        let given = self
            .memories
            .get(&guest)
            .filter(|memory| (memory.at().as_ptr(), memory.len()) == place);
        let memory = given.ok_or(Error::NotLent)?;
        match memory.behind(more) {
            // SAFETY: the zeros lie behind the end of the bytes that the store has, which are this memory's.
            Some(at) => unsafe { self.memory_grown(guest, at, more) }?,
            None => {
                let longer = memory.longer(more)?;
                // SAFETY: it begins with the bytes that the store has, and those go only once it moved.
                unsafe { self.memory_moved(guest, longer.at(), longer.len()) }?;
                self.memories.insert(guest, longer);
                return Ok(len);
            }
        }
        if let Some(memory) = self.memories.get_mut(&guest) {
            memory.grew(more);
        }
        Ok(len)
    }

    /// A guest whose memory is bytes that the host lends: none of them is touched, copied or freed by this
    /// call, and there is no limit on those of all guests.
    ///
    /// # Errors
    ///
    /// Refused, in this order: `MemoryTooBig` (4,294,967,296 bytes or more), `Full`. [`Error::OutOfMemory`]
    /// where memory is short.
    ///
    /// # Safety
    ///
    /// From this call on until the guest has ended, the store is dropped, or told by [`Store::memory_moved`] that they
    /// moved, the bytes may be read and written, and stay where they are; no other guest's memory has one of them; and
    /// nobody else reads or writes them while a call is made, or while the memory is borrowed of the store.
    pub unsafe fn add_guest_at(&mut self, bytes: NonNull<u8>, len: usize) -> Result<Guest, Error> {
        // SAFETY: above, and the caller's.
        wrote(|out| unsafe { sys::strm_add_guest_at(self.at(), bytes.as_ptr(), len, out) }).map(Guest)
    }

    /// A memory that the host lent has so many bytes more, which lie directly behind its end. Reads and writes
    /// that wait go on.
    ///
    /// # Errors
    ///
    /// Refused, in this order: `UnknownGuest`, `MemoryTooBig` (4,294,967,296 bytes or more in all).
    /// [`Error::NotLent`] of a memory of the store's own.
    ///
    /// # Safety
    ///
    /// What [`Store::add_guest_at`] asks of the bytes; and `more` is where the memory ends, as
    /// [`Store::memory_at`] tells it.
    pub unsafe fn memory_grown(&mut self, guest: Guest, more: NonNull<u8>, len: usize) -> Result<(), Error> {
        // SAFETY: above, and the caller's.
        done(unsafe { sys::strm_memory_grown(self.at(), guest.0, more.as_ptr(), len) })
    }

    /// A memory that the host lent goes on in these bytes, at another place. Reads and writes that wait go on
    /// there, and those where it was are the host's again.
    ///
    /// # Errors
    ///
    /// Refused, in this order: `UnknownGuest`, `MemoryTooBig` (4,294,967,296 bytes or more). [`Error::NotLent`]
    /// of a memory of the store's own, [`Error::Shorter`] where the memory has more bytes.
    ///
    /// # Safety
    ///
    /// What [`Store::add_guest_at`] asks of the bytes; and they begin with all that the memory has.
    pub unsafe fn memory_moved(&mut self, guest: Guest, bytes: NonNull<u8>, len: usize) -> Result<(), Error> {
        // SAFETY: above, and the caller's.
        done(unsafe { sys::strm_memory_moved(self.at(), guest.0, bytes.as_ptr(), len) })
    }

    // Where a guest's memory lies, and how many bytes it has, as the archive tells it.
    fn bare_place(&self, guest: Guest) -> Result<(*mut u8, usize), Error> {
        let (mut at, mut len) = (core::ptr::null_mut(), 0);
        // SAFETY: above.
        done(unsafe { sys::strm_memory_at(self.at(), guest.0, &mut at, &mut len) })?;
        Ok((at, len))
    }

    // The same. Of no bytes it is an address that a slice may have, which that of the archive need not be.
    fn place(&self, guest: Guest) -> Result<(*mut u8, usize), Error> {
        let (at, len) = self.bare_place(guest)?;
        Ok(if len == 0 {
            (NonNull::dangling().as_ptr(), 0)
        } else {
            (at, len)
        })
    }

    /// A guest's memory.
    ///
    /// # Errors
    ///
    /// Refused: `UnknownGuest`.
    ///
    /// ```
    /// # let (store, guest, _, _) = strm::example()?;
    /// assert_eq!(store.memory(guest)?, [0; 65536]);
    /// # Ok::<(), strm::Error>(())
    /// ```
    pub fn memory(&self, guest: Guest) -> Result<&[u8], Error> {
        let (at, len) = self.place(guest)?;
        // SAFETY: the bytes are the guest's, in one block that stays where it is until the store is given up
        // or, by `&mut self`, it moves or its guest ends, and calls by `&self` write none of them; none have an
        // address that is not null.
        Ok(unsafe { core::slice::from_raw_parts(at, len) })
    }

    /// A guest's memory, to read and write in place. The borrow rules out calls while it lasts.
    ///
    /// # Errors
    ///
    /// Refused: `UnknownGuest`.
    ///
    /// ```
    /// # let (mut store, guest, _, _) = strm::example()?;
    /// store.memory_mut(guest)?[3] = 7;
    /// assert_eq!(store.memory(guest)?[..4], [0, 0, 0, 7]);
    /// # Ok::<(), strm::Error>(())
    /// ```
    pub fn memory_mut(&mut self, guest: Guest) -> Result<&mut [u8], Error> {
        let (at, len) = self.place(guest)?;
        // SAFETY: the bytes are the guest's, in one block that stays where it is until the store is given up,
        // it moves or its guest ends, and `&mut self` leaves them to this borrow; none have an address that is
        // not null.
        Ok(unsafe { core::slice::from_raw_parts_mut(at, len) })
    }

    /// The memories of two different guests, to read and write in place.
    ///
    /// # Errors
    ///
    /// Refused: `UnknownGuest`. [`Error::SameGuest`] of a guest and itself.
    ///
    /// ```
    /// # let (mut store, a, b, _) = strm::example()?;
    /// store.memory_write(a, 0, b"abc")?;
    /// let (from, to) = store.memories_mut(a, b)?;
    /// to[..3].copy_from_slice(&from[..3]);
    /// assert_eq!(&store.memory(b)?[..3], b"abc");
    /// assert_eq!(store.memories_mut(a, a), Err(strm::Error::SameGuest));
    /// # Ok::<(), strm::Error>(())
    /// ```
    pub fn memories_mut(&mut self, a: Guest, b: Guest) -> Result<(&mut [u8], &mut [u8]), Error> {
        let ((a_at, a_len), (b_at, b_len)) = (self.place(a)?, self.place(b)?);
        if a == b {
            return Err(Error::SameGuest);
        }
        // SAFETY: the bytes are two guests', each in a block of its own that stays where it is until the store is
        // given up, it moves or its guest ends, and `&mut self` leaves them to these borrows; none have an address
        // that is not null.
        Ok(unsafe {
            (
                core::slice::from_raw_parts_mut(a_at, a_len),
                core::slice::from_raw_parts_mut(b_at, b_len),
            )
        })
    }

    /// Where a guest's memory lies, and how many bytes it has: the same until the guest ends, the store is dropped, or
    /// the memory grows; of no bytes a dangling address. It is for a runtime whose guests use their memory in place. A
    /// write there while a call is made, or while the memory is borrowed, is undefined.
    ///
    /// # Errors
    ///
    /// Refused: `UnknownGuest`.
    ///
    /// ```
    /// # let (mut store, guest, _, _) = strm::example()?;
    /// let (at, len) = store.memory_at(guest)?;
    /// assert_eq!((at, len), (store.memory(guest)?.as_ptr().cast_mut(), 65536));
    /// # Ok::<(), strm::Error>(())
    /// ```
    pub fn memory_at(&mut self, guest: Guest) -> Result<(*mut u8, usize), Error> {
        self.place(guest)
    }

    /// Copies bytes into a guest's memory, from an address on.
    ///
    /// # Errors
    ///
    /// Refused, in this order: `UnknownGuest`, `OutOfBounds`.
    ///
    /// ```
    /// # use strm::{Error, Refusal};
    /// # let (mut store, guest, _, _) = strm::example()?;
    /// store.memory_write(guest, 0, b"all or nothing")?;
    /// assert_eq!(store.memory_write(guest, 65530, b"all or nothing"), Err(Error::Refused(Refusal::OutOfBounds)));
    /// # Ok::<(), Error>(())
    /// ```
    pub fn memory_write(&mut self, guest: Guest, address: u32, bytes: &[u8]) -> Result<(), Error> {
        // SAFETY: above.
        done(unsafe { sys::strm_memory_write(self.at(), guest.0, address, bytes.as_ptr(), bytes.len()) })
    }

    /// Copies bytes of a guest's memory out, from an address on.
    ///
    /// # Errors
    ///
    /// Refused, in this order: `UnknownGuest`, `OutOfBounds`.
    ///
    /// ```
    /// # let (mut store, guest, _, _) = strm::example()?;
    /// store.memory_write(guest, 8, b"abc")?;
    /// let mut bytes = [0; 2];
    /// store.memory_read(guest, 9, &mut bytes)?;
    /// assert_eq!(&bytes, b"bc");
    /// # Ok::<(), strm::Error>(())
    /// ```
    pub fn memory_read(&self, guest: Guest, address: u32, out: &mut [u8]) -> Result<(), Error> {
        // SAFETY: above.
        done(unsafe { sys::strm_memory_read(self.at(), guest.0, address, out.as_mut_ptr(), out.len()) })
    }
}
