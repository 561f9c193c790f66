//! Waitable sets.

use crate::errors::{done, wrote};
use crate::{Code, Error, Guest, Handle, Member, Store, WaitableSet};
use strm_sys as sys;

/// Waitable sets.
impl Store {
    /// A new set. Answers its handle. `canon waitable-set.new`.
    ///
    /// # Errors
    ///
    /// Refused, in this order: `UnknownGuest`, `IndexOverflow`, `HandleLimit`, `Full`. Before all of these
    /// [`Error::GuestLimit`]. [`Error::OutOfMemory`] where memory is short.
    ///
    /// ```
    /// # use strm::{Code, Error, Payload, Refusal, Type, WaitableSet};
    /// # let (mut store, writer, reader, pair) = strm::example()?;
    /// assert_eq!(store.set_new(writer)?, WaitableSet(2));
    /// # Ok::<(), strm::Error>(())
    /// ```
    #[inline]
    pub fn set_new(&mut self, guest: Guest) -> Result<WaitableSet, Error> {
        // SAFETY: above.
        wrote(|out| unsafe { sys::strm_set_new(self.at(), guest.0, out) }).map(WaitableSet)
    }

    /// An end joins a set, and leaves the one that it was in; of [`WaitableSet::NONE`] it leaves that alone.
    /// `canon waitable.join`.
    ///
    /// # Errors
    ///
    /// Refused, in this order: `UnknownGuest`, `UnknownHandle`, `WrongKind`. [`Error::OutOfMemory`] where memory is short.
    ///
    /// ```
    /// # use strm::{Code, Error, Payload, Refusal, Type, WaitableSet};
    /// # let (mut store, writer, reader, pair) = strm::example()?;
    /// let set = store.set_new(writer)?;
    /// store.set_join(writer, set, pair.write)?;
    /// store.set_join(writer, WaitableSet::NONE, pair.write)?;
    /// # Ok::<(), strm::Error>(())
    /// ```
    #[inline]
    pub fn set_join(&mut self, guest: Guest, set: WaitableSet, handle: Handle) -> Result<(), Error> {
        // SAFETY: above.
        let answer = done(unsafe { sys::strm_set_join(self.at(), guest.0, set.0, handle.0) });
        self.set_changed(guest, answer)
    }

    /// Tells the member of the least handle that has something to be told. `canon waitable-set.poll`.
    ///
    /// # Errors
    ///
    /// Refused, in this order: `UnknownGuest`, `UnknownHandle`, `WrongKind`.
    ///
    /// ```
    /// # use strm::{Code, Error, Payload, Refusal, Type, WaitableSet};
    /// # let (mut store, writer, reader, pair) = strm::example()?;
    /// let set = store.set_new(writer)?;
    /// store.set_join(writer, set, pair.write)?;
    /// assert_eq!(store.set_poll(writer, set)?, None);
    /// let _ = store.stream_write(writer, Payload::U8, pair.write, 0, 3)?;
    /// let _ = store.stream_read(reader, Payload::U8, pair.read, 0, 8)?;
    /// let told = store.set_poll(writer, set)?.unwrap();
    /// assert_eq!((told.handle, told.code), (pair.write, Code::Completed(3)));
    /// # Ok::<(), strm::Error>(())
    /// ```
    #[inline]
    pub fn set_poll(&mut self, guest: Guest, set: WaitableSet) -> Result<Option<Member>, Error> {
        // SAFETY: above.
        let told = wrote(|out| unsafe { sys::strm_set_poll(self.at(), guest.0, set.0, out) })?;
        let Some(code) = Code::told(told.code) else {
            return Ok(None);
        };
        let handle = Handle(told.handle);
        self.taken(guest, handle, Ok(Some(Member { handle, code })))
    }

    /// Gives up a set without members. `canon waitable-set.drop`.
    ///
    /// # Errors
    ///
    /// Refused, in this order: `UnknownGuest`, `UnknownHandle`, `WrongKind`, `SetNotEmpty`.
    ///
    /// ```
    /// # use strm::{Code, Error, Payload, Refusal, Type, WaitableSet};
    /// # let (mut store, writer, reader, pair) = strm::example()?;
    /// let set = store.set_new(writer)?;
    /// store.set_join(writer, set, pair.write)?;
    /// assert_eq!(store.set_drop(writer, set), Err(Error::Refused(Refusal::SetNotEmpty)));
    /// # Ok::<(), strm::Error>(())
    /// ```
    #[inline]
    pub fn set_drop(&mut self, guest: Guest, set: WaitableSet) -> Result<(), Error> {
        // SAFETY: above.
        let answer = done(unsafe { sys::strm_set_drop(self.at(), guest.0, set.0) });
        self.set_changed(guest, answer)
    }
}
