//! Which guest is ready.

use crate::errors::wrote;
use crate::{Error, Guest, Store};
use strm_sys as sys;

/// Which guest is ready, for a scheduler of many.
impl Store {
    /// The least guest, from a number on, that has an end which is to be told something; none where there is none. It
    /// is level-triggered: a guest is told as long as that is so, whoever asked before, so no wakeup is lost. From 0
    /// on, and then from behind each guest, all that are ready are told, and no guest is looked at in vain.
    ///
    /// The first call makes the counts that this takes: it goes over all streams, and takes 8 to 17 bytes for each
    /// guest and 24 for each stream. From then on a guest that is added and a stream that is made take as many, and a
    /// call on an end lists its stream: the next call of this one goes over the streams that are listed, each once. A
    /// store of which nobody asks it keeps none; the tasks of [owned ends](crate::Owned) are woken without it.
    ///
    /// # Errors
    ///
    /// [`Error::OutOfMemory`], of the first call alone: nothing is counted then, and the next one tries again.
    ///
    /// ```
    /// # use strm::{Error, Guest, Handle, HandleInfo, Payload, Store};
    /// # let (mut store, one, other, pair) = strm::example()?;
    /// // Whoever is ready has a turn, in which it is told all that it is to be told.
    /// fn turn(store: &mut Store, guest: Guest) -> Result<(), Error> {
    ///     let mut after = Handle(0);
    ///     while let Some((handle, is)) = store.next_handle(guest, after)? {
    ///         if matches!(is, HandleInfo::End(end) if end.event.is_some()) {
    ///             store.take_event(guest, handle)?;
    ///         }
    ///         after = handle;
    ///     }
    ///     Ok(())
    /// }
    ///
    /// store.stream_write(one, Payload::U8, pair.write, 0, 3)?;
    /// store.stream_read(other, Payload::U8, pair.read, 0, 8)?;
    /// assert_eq!(store.next_ready_guest(0)?, Some(one)); // its write came to three items
    /// let mut from = 0;
    /// while let Some(guest) = store.next_ready_guest(from)? {
    ///     turn(&mut store, guest)?;
    ///     from = guest.0 + 1;
    /// }
    /// assert_eq!(store.next_ready_guest(0)?, None);
    /// # Ok::<(), Error>(())
    /// ```
    #[inline]
    pub fn next_ready_guest(&mut self, from: u32) -> Result<Option<Guest>, Error> {
        // SAFETY: above.
        let guest = wrote(|out| unsafe { sys::strm_next_ready_guest(self.at(), from, out) })?;
        Ok((guest != sys::NO_GUEST).then_some(Guest(guest)))
    }
}
