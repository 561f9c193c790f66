//! Room for items in guests' memories.

use crate::rooms::Room;
use crate::{Error, Guest, Refusal, Store};
use core::ops::Range;

/// Room for items in guests' memories.
impl Store {
    /// A guest of the runtime's own, whose memory is all room for the items of its owned ends: so many zero bytes.
    /// A stream of other items than integers needs two, one for each of its ends.
    ///
    /// # Errors
    ///
    /// Those of [`Store::add_guest`].
    ///
    /// ```
    /// # use strm::{Limits, Payload, Store};
    /// let mut store = Store::new(0, Limits::default())?;
    /// let host = store.add_host(65536)?;
    /// assert_eq!(store.memory(host)?.len(), 65536);
    /// # Ok::<(), strm::Error>(())
    /// ```
    pub fn add_host(&mut self, size: u32) -> Result<Guest, Error> {
        let guest = self.add_guest(size)?;
        self.add_room(guest, 0..size)?;
        Ok(guest)
    }

    /// From now on these bytes of a guest's memory are room for the items of its [owned](crate::Owned) ends, which
    /// take what they need and give it back. The guest leaves them alone, and they were no room before.
    ///
    /// # Errors
    ///
    /// Refused, in this order: `UnknownGuest`, `OutOfBounds`.
    ///
    /// ```
    /// # use strm::{Error, Refusal};
    /// # let (mut store, guest, _, _) = strm::example()?;
    /// store.add_room(guest, 1024..65536)?;
    /// assert_eq!(store.add_room(guest, 0..65537), Err(Error::Refused(Refusal::OutOfBounds)));
    /// # Ok::<(), Error>(())
    /// ```
    pub fn add_room(&mut self, guest: Guest, bytes: Range<u32>) -> Result<(), Error> {
        if bytes.end as usize > self.memory(guest)?.len() {
            return Err(Error::Refused(Refusal::OutOfBounds));
        }
        self.rooms.entry(guest).or_default().add(bytes);
        Ok(())
    }

    pub(crate) fn take_room(&mut self, guest: Guest, len: u32) -> Result<Room, Error> {
        let address = match len {
            0 => 0,
            _ => self
                .rooms
                .get_mut(&guest)
                .and_then(|rooms| rooms.take(len))
                .ok_or(Error::NoRoom)?,
        };
        Ok(Room { guest, address, len })
    }

    pub(crate) fn give_room(&mut self, room: Room) {
        if let (Some(rooms), true) = (self.rooms.get_mut(&room.guest), room.len > 0) {
            rooms.give(room.address, room.len);
        }
    }
}
