//! Streams.

use super::Named;
use crate::errors::{code, done, event, operated, wrote};
use crate::{BadItem, Code, Error, Guest, Handle, Pair, Payload, Side, Store, Type};
use strm_sys as sys;

impl Store {
    // The item at which a read or write stopped just now; of a future the count is not looked at.
    #[cold]
    pub(super) fn find_bad_item(&self, end: Named, address: u32, count: u32) -> BadItem {
        let (side, ty) = (end.side.word(), end.ty.word());
        let (Guest(guest), Handle(handle)) = (end.guest, end.handle);
        let mut out = sys::BadItem::default();
        // SAFETY: above.
        let status =
            unsafe { sys::strm_find_bad_item(self.at(), side, guest, ty, handle, address, count, &mut out) };
        debug_assert_eq!(status, 0);
        BadItem {
            guest: Guest(out.guest),
            handle: Handle(out.handle),
            index: out.index,
        }
    }
}

/// Streams.
impl Store {
    /// A stream whose two ends the guest gets. `canon stream.new`.
    ///
    /// # Errors
    ///
    /// Refused, in this order: `UnknownGuest`, `IndexOverflow`, `HandleLimit`, `Full`. Before all of these
    /// [`Error::GuestLimit`]. [`Error::OutOfMemory`] where memory is short.
    ///
    /// ```
    /// # use strm::{Code, Error, Handle, Payload, Refusal, Type};
    /// # let (mut store, writer, reader, pair) = strm::example()?;
    /// let pair = store.stream_new(reader, Payload::U32)?;
    /// assert_eq!((pair.read, pair.write), (Handle(2), Handle(3)));
    /// # Ok::<(), strm::Error>(())
    /// ```
    #[inline]
    pub fn stream_new(&mut self, guest: Guest, payload: Payload) -> Result<Pair, Error> {
        // SAFETY: above.
        wrote(|out| unsafe { sys::strm_stream_new(self.at(), guest.0, payload.word(), out) }).map(Pair::from)
    }

    /// Writes items that lie from an address of the guest's memory on. Those of a write that waits stay where
    /// they are until they move. `canon stream.write`.
    ///
    /// # Errors
    ///
    /// Refused, in this order: `UnknownGuest`, `StreamOpTooBig`, `OutOfBounds`, `NotAligned`, `UnknownHandle`,
    /// `WrongKind`, `WrongType`, `ConcurrentFutureStreamOp`, `WriteToDroppedStream`, `IntraComponent`. Behind
    /// them [`Error::BadItem`].
    ///
    /// ```
    /// # use strm::{Code, Error, Handle, Payload, Refusal, Type};
    /// # let (mut store, writer, reader, pair) = strm::example()?;
    /// let code = store.stream_write(writer, Payload::U8, pair.write, 0, 3)?;
    /// assert_eq!(code, Code::Blocked);
    /// assert_eq!(
    ///     store.stream_write(writer, Payload::U8, pair.write, 0, 3),
    ///     Err(Error::Refused(Refusal::ConcurrentFutureStreamOp))
    /// );
    /// # Ok::<(), strm::Error>(())
    /// ```
    #[inline]
    pub fn stream_write(
        &mut self,
        guest: Guest,
        payload: Payload,
        handle: Handle,
        address: u32,
        count: u32,
    ) -> Result<Code, Error> {
        let end = Named {
            guest,
            handle,
            ty: Type::Stream(payload),
            side: Side::Writing,
        };
        let answer = operated(
            // SAFETY: above.
            |out| unsafe {
                sys::strm_stream_write(self.at(), guest.0, payload.word(), handle.0, address, count, out)
            },
            || self.find_bad_item(end, address, count),
        );
        self.called(guest, handle, answer)
    }

    /// Reads items to an address of the guest's memory on. `canon stream.read`.
    ///
    /// # Errors
    ///
    /// Refused, in this order: `UnknownGuest`, `StreamOpTooBig`, `OutOfBounds`, `NotAligned`, `UnknownHandle`,
    /// `WrongKind`, `WrongType`, `ConcurrentFutureStreamOp`, `ReadFromDroppedStream`, `IntraComponent`. Behind
    /// them [`Error::BadItem`].
    ///
    /// ```
    /// # use strm::{BadItem, Code, Error, Handle, Payload, Refusal, Type};
    /// # let (mut store, writer, reader, pair) = strm::example()?;
    /// let _ = store.stream_write(writer, Payload::U8, pair.write, 0, 3)?;
    /// assert_eq!(store.stream_read(reader, Payload::U8, pair.read, 0, 2)?, Code::Completed(2));
    ///
    /// // A bad item of the writer's stops the read, which tells whose it is.
    /// let chars = store.new_between(writer, reader, Type::Stream(Payload::CHAR))?;
    /// store.put_items(writer, 0, &[0xd800u32])?;
    /// let _ = store.stream_write(writer, Payload::CHAR, chars.write, 0, 1)?;
    /// let item = BadItem { guest: writer, handle: chars.write, index: 0 };
    /// assert_eq!(store.stream_read(reader, Payload::CHAR, chars.read, 0, 1), Err(Error::BadItem(item)));
    /// # Ok::<(), strm::Error>(())
    /// ```
    #[inline]
    pub fn stream_read(
        &mut self,
        guest: Guest,
        payload: Payload,
        handle: Handle,
        address: u32,
        count: u32,
    ) -> Result<Code, Error> {
        let end = Named {
            guest,
            handle,
            ty: Type::Stream(payload),
            side: Side::Reading,
        };
        let answer = operated(
            // SAFETY: above.
            |out| unsafe {
                sys::strm_stream_read(self.at(), guest.0, payload.word(), handle.0, address, count, out)
            },
            || self.find_bad_item(end, address, count),
        );
        self.called(guest, handle, answer)
    }

    /// Cancels the write that waits. `canon stream.cancel-write`.
    ///
    /// # Errors
    ///
    /// Refused, in this order: `UnknownGuest`, `UnknownHandle`, `WrongKind`, `WrongType`, `WrongEnd`,
    /// `NoPending`.
    ///
    /// ```
    /// # use strm::{Code, Error, Handle, Payload, Refusal, Type};
    /// # let (mut store, writer, reader, pair) = strm::example()?;
    /// let _ = store.stream_write(writer, Payload::U8, pair.write, 0, 3)?;
    /// assert_eq!(store.stream_cancel_write(writer, Payload::U8, pair.write)?, Code::Cancelled(0));
    /// # Ok::<(), strm::Error>(())
    /// ```
    #[inline]
    pub fn stream_cancel_write(
        &mut self,
        guest: Guest,
        payload: Payload,
        handle: Handle,
    ) -> Result<Code, Error> {
        // SAFETY: above.
        let answer = code(|out| unsafe {
            sys::strm_stream_cancel_write(self.at(), guest.0, payload.word(), handle.0, out)
        });
        self.taken(guest, handle, answer)
    }

    /// Cancels the read that waits. `canon stream.cancel-read`.
    ///
    /// # Errors
    ///
    /// Refused, in this order: `UnknownGuest`, `UnknownHandle`, `WrongKind`, `WrongType`, `WrongEnd`,
    /// `NoPending`.
    ///
    /// ```
    /// # use strm::{Code, Error, Handle, Payload, Refusal, Type};
    /// # let (mut store, writer, reader, pair) = strm::example()?;
    /// assert_eq!(
    ///     store.stream_cancel_read(reader, Payload::U8, pair.read),
    ///     Err(Error::Refused(Refusal::NoPending))
    /// );
    /// # Ok::<(), strm::Error>(())
    /// ```
    #[inline]
    pub fn stream_cancel_read(
        &mut self,
        guest: Guest,
        payload: Payload,
        handle: Handle,
    ) -> Result<Code, Error> {
        // SAFETY: above.
        let answer = code(|out| unsafe {
            sys::strm_stream_cancel_read(self.at(), guest.0, payload.word(), handle.0, out)
        });
        self.taken(guest, handle, answer)
    }

    /// Drops the write end. `canon stream.drop-writable`.
    ///
    /// # Errors
    ///
    /// Refused, in this order: `UnknownGuest`, `UnknownHandle`, `WrongKind`, `WrongType`, `WrongEnd`, `Busy`.
    ///
    /// ```
    /// # use strm::{Code, Error, Handle, Payload, Refusal, Type};
    /// # let (mut store, writer, reader, pair) = strm::example()?;
    /// store.stream_drop_writable(writer, Payload::U8, pair.write)?;
    /// assert_eq!(store.stream_read(reader, Payload::U8, pair.read, 0, 1)?, Code::Dropped(0));
    /// # Ok::<(), strm::Error>(())
    /// ```
    #[inline]
    pub fn stream_drop_writable(
        &mut self,
        guest: Guest,
        payload: Payload,
        handle: Handle,
    ) -> Result<(), Error> {
        let end = self.waited(guest, handle);
        // SAFETY: above.
        let answer =
            done(unsafe { sys::strm_stream_drop_writable(self.at(), guest.0, payload.word(), handle.0) });
        self.gone(end, answer)
    }

    /// Drops the read end. `canon stream.drop-readable`.
    ///
    /// # Errors
    ///
    /// Refused, in this order: `UnknownGuest`, `UnknownHandle`, `WrongKind`, `WrongType`, `WrongEnd`, `Busy`.
    ///
    /// ```
    /// # use strm::{Code, Error, Handle, Payload, Refusal, Type};
    /// # let (mut store, writer, reader, pair) = strm::example()?;
    /// store.stream_drop_readable(reader, Payload::U8, pair.read)?;
    /// assert_eq!(store.stream_write(writer, Payload::U8, pair.write, 0, 1)?, Code::Dropped(0));
    /// # Ok::<(), strm::Error>(())
    /// ```
    #[inline]
    pub fn stream_drop_readable(
        &mut self,
        guest: Guest,
        payload: Payload,
        handle: Handle,
    ) -> Result<(), Error> {
        let end = self.waited(guest, handle);
        // SAFETY: above.
        let answer =
            done(unsafe { sys::strm_stream_drop_readable(self.at(), guest.0, payload.word(), handle.0) });
        self.gone(end, answer)
    }

    /// What an end, of a stream or a future, is to be told, if anything. It ends the read or write that it
    /// tells of.
    ///
    /// # Errors
    ///
    /// Refused, in this order: `UnknownGuest`, `UnknownHandle`, `WrongKind`.
    ///
    /// ```
    /// # use strm::{Code, Error, Handle, Payload, Refusal, Type};
    /// # let (mut store, writer, reader, pair) = strm::example()?;
    /// let _ = store.stream_write(writer, Payload::U8, pair.write, 0, 3)?;
    /// let _ = store.stream_read(reader, Payload::U8, pair.read, 0, 8)?;
    /// assert_eq!(store.take_event(writer, pair.write)?, Some(Code::Completed(3)));
    /// assert_eq!(store.take_event(writer, pair.write)?, None);
    /// # Ok::<(), strm::Error>(())
    /// ```
    #[inline]
    pub fn take_event(&mut self, guest: Guest, handle: Handle) -> Result<Option<Code>, Error> {
        // SAFETY: above.
        let answer = event(|out| unsafe { sys::strm_take_event(self.at(), guest.0, handle.0, out) });
        match answer {
            Ok(None) => answer,
            _ => self.taken(guest, handle, answer),
        }
    }
}
