//! Ends from guest to guest.

use crate::errors::{done, wrote};
use crate::{Error, Guest, Handle, Pair, Payload, Store, StreamId, Type};
use strm_sys as sys;

/// Ends from guest to guest.
impl Store {
    /// A stream or future from one guest to another, which may be the same.
    ///
    /// # Errors
    ///
    /// Refused, in this order: `UnknownGuest`, `IndexOverflow`, `HandleLimit`, `Full`. Before all of these
    /// [`Error::GuestLimit`]. [`Error::OutOfMemory`] where memory is short.
    ///
    /// ```
    /// # use strm::{Code, Error, Handle, Payload, Refusal, StreamId, Type};
    /// # let (mut store, writer, reader, pair) = strm::example()?;
    /// let pair = store.new_between(reader, writer, Type::Stream(Payload::U64))?;
    /// assert_eq!(pair.stream, StreamId(1));
    /// # Ok::<(), strm::Error>(())
    /// ```
    #[inline]
    pub fn new_between(&mut self, writer: Guest, reader: Guest, ty: Type) -> Result<Pair, Error> {
        // SAFETY: above.
        wrote(|out| unsafe { sys::strm_new_between(self.at(), writer.0, reader.0, ty.word(), out) })
            .map(Pair::from)
    }

    /// Moves an end of a stream, read or write, to another guest, or to the same. Answers its handle there.
    ///
    /// # Errors
    ///
    /// Refused, in this order: `UnknownGuest`, `UnknownHandle`, `WrongKind`, `WrongType`, `Busy`, `LiftDropped`,
    /// `LiftInSet`, `IndexOverflow`. Before all of these [`Error::GuestLimit`]. [`Error::OutOfMemory`] where memory is short.
    ///
    /// ```
    /// # use strm::{Code, Error, Handle, Payload, Refusal, StreamId, Type};
    /// # let (mut store, writer, reader, pair) = strm::example()?;
    /// let third = store.add_guest(64)?;
    /// let read = store.stream_transfer(reader, Payload::U8, pair.read, third)?;
    /// assert_eq!(store.stream_read(third, Payload::U8, read, 0, 1)?, Code::Blocked);
    /// # Ok::<(), strm::Error>(())
    /// ```
    #[inline]
    pub fn stream_transfer(
        &mut self,
        guest: Guest,
        payload: Payload,
        handle: Handle,
        to: Guest,
    ) -> Result<Handle, Error> {
        let end = self.waited(guest, handle);
        // SAFETY: above.
        let answer = wrote(|out| unsafe {
            sys::strm_stream_transfer(self.at(), guest.0, payload.word(), handle.0, to.0, out)
        });
        self.gone(end, answer).map(Handle)
    }

    /// Moves an end of a future to another guest, or to the same. Answers its handle there.
    ///
    /// # Errors
    ///
    /// Refused, in this order: `UnknownGuest`, `UnknownHandle`, `WrongKind`, `WrongType`, `Busy`, `LiftDropped`,
    /// `LiftInSet`, `IndexOverflow`. Before all of these [`Error::GuestLimit`]. [`Error::OutOfMemory`] where memory is short.
    ///
    /// ```
    /// # use strm::{Code, Error, Handle, Payload, Refusal, StreamId, Type};
    /// # let (mut store, writer, reader, pair) = strm::example()?;
    /// let value = store.new_between(writer, reader, Type::Future(Payload::U32))?;
    /// assert_eq!(store.future_transfer(writer, Payload::U32, value.write, reader)?, Handle(3));
    /// # Ok::<(), strm::Error>(())
    /// ```
    #[inline]
    pub fn future_transfer(
        &mut self,
        guest: Guest,
        payload: Payload,
        handle: Handle,
        to: Guest,
    ) -> Result<Handle, Error> {
        let end = self.waited(guest, handle);
        // SAFETY: above.
        let answer = wrote(|out| unsafe {
            sys::strm_future_transfer(self.at(), guest.0, payload.word(), handle.0, to.0, out)
        });
        self.gone(end, answer).map(Handle)
    }

    /// Takes a read end out of a guest. Answers the number of its stream, by which [`Store::lower`] and
    /// [`Store::close`] name it.
    ///
    /// # Errors
    ///
    /// Refused, in this order: `UnknownGuest`, `UnknownHandle`, `WrongKind`, `WrongType`, `WrongEnd`, `Busy`,
    /// `LiftDropped`, `LiftInSet`.
    ///
    /// ```
    /// # use strm::{Code, Error, Handle, Payload, Refusal, StreamId, Type};
    /// # let (mut store, writer, reader, pair) = strm::example()?;
    /// let stream = store.lift(reader, Type::Stream(Payload::U8), pair.read)?;
    /// assert_eq!(stream, pair.stream);
    /// # Ok::<(), strm::Error>(())
    /// ```
    #[inline]
    pub fn lift(&mut self, guest: Guest, ty: Type, handle: Handle) -> Result<StreamId, Error> {
        let end = self.waited(guest, handle);
        // SAFETY: above.
        let answer = wrote(|out| unsafe { sys::strm_lift(self.at(), guest.0, ty.word(), handle.0, out) });
        self.gone(end, answer).map(StreamId)
    }

    /// Gives a guest the loose read end of a stream. Answers its handle.
    ///
    /// # Errors
    ///
    /// Refused, in this order: `UnknownGuest`, `UnknownReader`, `WrongKind`, `WrongType`, `IndexOverflow`,
    /// `HandleLimit`. Before all of these [`Error::GuestLimit`]. [`Error::OutOfMemory`] where memory is short.
    ///
    /// ```
    /// # use strm::{Code, Error, Handle, Payload, Refusal, StreamId, Type};
    /// # let (mut store, writer, reader, pair) = strm::example()?;
    /// let stream = store.lift(reader, Type::Stream(Payload::U8), pair.read)?;
    /// let read = store.lower(stream, writer, Type::Stream(Payload::U8))?;
    /// assert_eq!(store.stream_read(writer, Payload::U8, read, 0, 1)?, Code::Blocked);
    /// # Ok::<(), strm::Error>(())
    /// ```
    #[inline]
    pub fn lower(&mut self, stream: StreamId, guest: Guest, ty: Type) -> Result<Handle, Error> {
        // SAFETY: above.
        wrote(|out| unsafe { sys::strm_lower(self.at(), stream.0, guest.0, ty.word(), out) }).map(Handle)
    }

    /// Drops the loose read end of a stream.
    ///
    /// # Errors
    ///
    /// Refused: `UnknownReader`.
    ///
    /// ```
    /// # use strm::{Code, Error, Handle, Payload, Refusal, StreamId, Type};
    /// # let (mut store, writer, reader, pair) = strm::example()?;
    /// let stream = store.lift(reader, Type::Stream(Payload::U8), pair.read)?;
    /// store.close(stream)?;
    /// assert_eq!(store.stream_write(writer, Payload::U8, pair.write, 0, 1)?, Code::Dropped(0));
    /// # Ok::<(), strm::Error>(())
    /// ```
    #[inline]
    pub fn close(&mut self, stream: StreamId) -> Result<(), Error> {
        // SAFETY: above.
        let answer = done(unsafe { sys::strm_close(self.at(), stream.0) });
        self.closed(stream, answer)
    }
}
