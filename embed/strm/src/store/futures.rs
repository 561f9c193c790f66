//! Futures, as streams of one value.

use super::Named;
use crate::errors::{code, done, operated, wrote};
use crate::{Code, Error, Guest, Handle, Pair, Payload, Side, Store, Type};
use strm_sys as sys;

/// Futures, as streams of one value.
impl Store {
    /// A future whose two ends the guest gets. `canon future.new`.
    ///
    /// # Errors
    ///
    /// Refused, in this order: `UnknownGuest`, `IndexOverflow`, `HandleLimit`, `Full`. Before all of these
    /// [`Error::GuestLimit`]. [`Error::OutOfMemory`] where memory is short.
    ///
    /// ```
    /// # use strm::{Code, Error, Payload, Refusal, Type};
    /// # let (mut store, writer, reader, pair) = strm::example()?;
    /// let value = store.future_new(writer, Payload::U32)?;
    /// assert_eq!(store.transmit_index(value.stream), Some(Type::Future(Payload::U32)));
    /// # Ok::<(), strm::Error>(())
    /// ```
    #[inline]
    pub fn future_new(&mut self, guest: Guest, payload: Payload) -> Result<Pair, Error> {
        // SAFETY: above.
        wrote(|out| unsafe { sys::strm_future_new(self.at(), guest.0, payload.word(), out) }).map(Pair::from)
    }

    /// Writes the value that lies at an address of the guest's memory. `canon future.write`.
    ///
    /// # Errors
    ///
    /// Refused, in this order: `UnknownGuest`, `OutOfBounds`, `NotAligned`, `UnknownHandle`, `WrongKind`,
    /// `WrongType`, `ConcurrentFutureStreamOp`, `WriteToDroppedFuture`, `IntraComponent`. Behind them
    /// [`Error::BadItem`].
    ///
    /// ```
    /// # use strm::{Code, Error, Payload, Refusal, Type};
    /// # let (mut store, writer, reader, pair) = strm::example()?;
    /// let value = store.new_between(writer, reader, Type::Future(Payload::U32))?;
    /// assert_eq!(store.future_write(writer, Payload::U32, value.write, 8)?, Code::Blocked);
    /// # Ok::<(), strm::Error>(())
    /// ```
    #[inline]
    pub fn future_write(
        &mut self,
        guest: Guest,
        payload: Payload,
        handle: Handle,
        address: u32,
    ) -> Result<Code, Error> {
        let end = Named {
            guest,
            handle,
            ty: Type::Future(payload),
            side: Side::Writing,
        };
        let answer = operated(
            // SAFETY: above.
            |out| unsafe {
                sys::strm_future_write(self.at(), guest.0, payload.word(), handle.0, address, out)
            },
            || self.find_bad_item(end, address, 1),
        );
        self.called(guest, handle, answer)
    }

    /// Reads the value to an address of the guest's memory. `canon future.read`.
    ///
    /// # Errors
    ///
    /// Refused, in this order: `UnknownGuest`, `OutOfBounds`, `NotAligned`, `UnknownHandle`, `WrongKind`,
    /// `WrongType`, `ConcurrentFutureStreamOp`, `FutureAlreadyRead`, `IntraComponent`. Behind them
    /// [`Error::BadItem`].
    ///
    /// ```
    /// # use strm::{Code, Error, Payload, Refusal, Type};
    /// # let (mut store, writer, reader, pair) = strm::example()?;
    /// let value = store.new_between(writer, reader, Type::Future(Payload::U32))?;
    /// let _ = store.future_write(writer, Payload::U32, value.write, 8)?;
    /// assert_eq!(store.future_read(reader, Payload::U32, value.read, 16)?, Code::Completed(0));
    /// # Ok::<(), strm::Error>(())
    /// ```
    #[inline]
    pub fn future_read(
        &mut self,
        guest: Guest,
        payload: Payload,
        handle: Handle,
        address: u32,
    ) -> Result<Code, Error> {
        let end = Named {
            guest,
            handle,
            ty: Type::Future(payload),
            side: Side::Reading,
        };
        let answer = operated(
            // SAFETY: above.
            |out| unsafe {
                sys::strm_future_read(self.at(), guest.0, payload.word(), handle.0, address, out)
            },
            || self.find_bad_item(end, address, 1),
        );
        self.called(guest, handle, answer)
    }

    /// Cancels the write that waits. `canon future.cancel-write`.
    ///
    /// # Errors
    ///
    /// Refused, in this order: `UnknownGuest`, `UnknownHandle`, `WrongKind`, `WrongType`, `WrongEnd`,
    /// `NoPending`.
    ///
    /// ```
    /// # use strm::{Code, Error, Payload, Refusal, Type};
    /// # let (mut store, writer, reader, pair) = strm::example()?;
    /// let value = store.new_between(writer, reader, Type::Future(Payload::U32))?;
    /// let _ = store.future_write(writer, Payload::U32, value.write, 8)?;
    /// assert_eq!(store.future_cancel_write(writer, Payload::U32, value.write)?, Code::Cancelled(0));
    /// # Ok::<(), strm::Error>(())
    /// ```
    #[inline]
    pub fn future_cancel_write(
        &mut self,
        guest: Guest,
        payload: Payload,
        handle: Handle,
    ) -> Result<Code, Error> {
        // SAFETY: above.
        let answer = code(|out| unsafe {
            sys::strm_future_cancel_write(self.at(), guest.0, payload.word(), handle.0, out)
        });
        self.taken(guest, handle, answer)
    }

    /// Cancels the read that waits. `canon future.cancel-read`.
    ///
    /// # Errors
    ///
    /// Refused, in this order: `UnknownGuest`, `UnknownHandle`, `WrongKind`, `WrongType`, `WrongEnd`,
    /// `NoPending`.
    ///
    /// ```
    /// # use strm::{Code, Error, Payload, Refusal, Type};
    /// # let (mut store, writer, reader, pair) = strm::example()?;
    /// let value = store.new_between(writer, reader, Type::Future(Payload::U32))?;
    /// let _ = store.future_read(reader, Payload::U32, value.read, 8)?;
    /// assert_eq!(store.future_cancel_read(reader, Payload::U32, value.read)?, Code::Cancelled(0));
    /// # Ok::<(), strm::Error>(())
    /// ```
    #[inline]
    pub fn future_cancel_read(
        &mut self,
        guest: Guest,
        payload: Payload,
        handle: Handle,
    ) -> Result<Code, Error> {
        // SAFETY: above.
        let answer = code(|out| unsafe {
            sys::strm_future_cancel_read(self.at(), guest.0, payload.word(), handle.0, out)
        });
        self.taken(guest, handle, answer)
    }

    /// Drops the write end, which is refused before its value passed, or it was told that nobody reads it.
    /// `canon future.drop-writable`.
    ///
    /// # Errors
    ///
    /// Refused, in this order: `UnknownGuest`, `UnknownHandle`, `WrongKind`, `WrongType`, `WrongEnd`, `Busy`,
    /// `FutureWithoutValue`.
    ///
    /// ```
    /// # use strm::{Code, Error, Payload, Refusal, Type};
    /// # let (mut store, writer, reader, pair) = strm::example()?;
    /// let value = store.new_between(writer, reader, Type::Future(Payload::U32))?;
    /// assert_eq!(
    ///     store.future_drop_writable(writer, Payload::U32, value.write),
    ///     Err(Error::Refused(Refusal::FutureWithoutValue))
    /// );
    /// # Ok::<(), strm::Error>(())
    /// ```
    #[inline]
    pub fn future_drop_writable(
        &mut self,
        guest: Guest,
        payload: Payload,
        handle: Handle,
    ) -> Result<(), Error> {
        let end = self.waited(guest, handle);
        // SAFETY: above.
        let answer =
            done(unsafe { sys::strm_future_drop_writable(self.at(), guest.0, payload.word(), handle.0) });
        self.gone(end, answer)
    }

    /// Drops the read end. `canon future.drop-readable`.
    ///
    /// # Errors
    ///
    /// Refused, in this order: `UnknownGuest`, `UnknownHandle`, `WrongKind`, `WrongType`, `WrongEnd`, `Busy`.
    ///
    /// ```
    /// # use strm::{Code, Error, Payload, Refusal, Type};
    /// # let (mut store, writer, reader, pair) = strm::example()?;
    /// let value = store.new_between(writer, reader, Type::Future(Payload::U32))?;
    /// store.future_drop_readable(reader, Payload::U32, value.read)?;
    /// assert_eq!(store.future_write(writer, Payload::U32, value.write, 8)?, Code::Dropped(0));
    /// # Ok::<(), strm::Error>(())
    /// ```
    #[inline]
    pub fn future_drop_readable(
        &mut self,
        guest: Guest,
        payload: Payload,
        handle: Handle,
    ) -> Result<(), Error> {
        let end = self.waited(guest, handle);
        // SAFETY: above.
        let answer =
            done(unsafe { sys::strm_future_drop_readable(self.at(), guest.0, payload.word(), handle.0) });
        self.gone(end, answer)
    }
}
