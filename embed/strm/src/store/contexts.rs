//! Error contexts.

use crate::errors::{done, wrote};
use crate::{Error, ErrorContext, ErrorContextId, Guest, Store};
use strm_sys as sys;

/// Error contexts.
impl Store {
    /// An error context, whose message is so many bytes of the guest's memory, in UTF-8. Answers its handle.
    /// `canon error-context.new`.
    ///
    /// # Errors
    ///
    /// Refused, in this order: `UnknownGuest`, `MessageTooLong`, `OutOfBounds`, `BadText`, `IndexOverflow`,
    /// `HandleLimit`, `Full`. Before all of these [`Error::GuestLimit`]. [`Error::OutOfMemory`] where memory is short.
    ///
    /// ```
    /// # use strm::{Code, Error, ErrorContext, Payload, Refusal, Type};
    /// # let (mut store, writer, reader, pair) = strm::example()?;
    /// store.memory_write(writer, 0, b"oops")?;
    /// let context = store.error_context_new(writer, 0, 4)?;
    /// assert_eq!(context, ErrorContext(2));
    /// # Ok::<(), strm::Error>(())
    /// ```
    #[inline]
    pub fn error_context_new(&mut self, guest: Guest, address: u32, len: u32) -> Result<ErrorContext, Error> {
        // SAFETY: above.
        wrote(|out| unsafe { sys::strm_error_context_new(self.at(), guest.0, address, len, out) })
            .map(ErrorContext)
    }

    /// Puts the message at an address of the guest's memory. Answers its length in bytes.
    /// `canon error-context.debug-message`.
    ///
    /// # Errors
    ///
    /// Refused, in this order: `UnknownGuest`, `UnknownHandle`, `WrongKind`, `OutOfBounds`.
    ///
    /// ```
    /// # use strm::{Code, Error, ErrorContext, Payload, Refusal, Type};
    /// # let (mut store, writer, reader, pair) = strm::example()?;
    /// store.memory_write(writer, 0, b"oops")?;
    /// let context = store.error_context_new(writer, 0, 4)?;
    /// assert_eq!(store.error_context_message(writer, context, 100)?, 4);
    /// assert_eq!(&store.memory(writer)?[100..104], b"oops");
    /// # Ok::<(), strm::Error>(())
    /// ```
    #[inline]
    pub fn error_context_message(
        &mut self,
        guest: Guest,
        context: ErrorContext,
        address: u32,
    ) -> Result<u32, Error> {
        // SAFETY: above.
        wrote(|out| unsafe { sys::strm_error_context_message(self.at(), guest.0, context.0, address, out) })
    }

    /// Gives another guest a handle to an error context, and answers it; the first guest keeps its own.
    ///
    /// # Errors
    ///
    /// Refused, in this order: `UnknownGuest`, `UnknownHandle`, `WrongKind`, `IndexOverflow`, `HandleLimit`.
    /// Before all of these [`Error::GuestLimit`]. [`Error::OutOfMemory`] where memory is short.
    ///
    /// ```
    /// # use strm::{Code, Error, ErrorContext, Payload, Refusal, Type};
    /// # let (mut store, writer, reader, pair) = strm::example()?;
    /// store.memory_write(writer, 0, b"oops")?;
    /// let context = store.error_context_new(writer, 0, 4)?;
    /// let there = store.error_context_transfer(writer, context, reader)?;
    /// assert_eq!(store.error_context_message(reader, there, 0)?, 4);
    /// # Ok::<(), strm::Error>(())
    /// ```
    #[inline]
    pub fn error_context_transfer(
        &mut self,
        guest: Guest,
        context: ErrorContext,
        to: Guest,
    ) -> Result<ErrorContext, Error> {
        // SAFETY: above.
        wrote(|out| unsafe { sys::strm_error_context_transfer(self.at(), guest.0, context.0, to.0, out) })
            .map(ErrorContext)
    }

    /// The number of the error context of a handle, by which [`Store::error_context_lower`] names it.
    ///
    /// # Errors
    ///
    /// Refused, in this order: `UnknownGuest`, `UnknownHandle`, `WrongKind`.
    ///
    /// ```
    /// # let (mut store, guest, _, _) = strm::example()?;
    /// let context = store.error_context_new(guest, 0, 0)?;
    /// assert_eq!(store.error_context_rep(guest, context)?, strm::ErrorContextId(0));
    /// # Ok::<(), strm::Error>(())
    /// ```
    #[inline]
    pub fn error_context_rep(&self, guest: Guest, context: ErrorContext) -> Result<ErrorContextId, Error> {
        // SAFETY: above.
        wrote(|out| unsafe { sys::strm_error_context_rep(self.at(), guest.0, context.0, out) })
            .map(ErrorContextId)
    }

    /// Gives a guest a handle to the error context of a number. Answers the handle.
    ///
    /// # Errors
    ///
    /// Refused, in this order: `UnknownGuest`, `UnknownHandle`, `IndexOverflow`, `HandleLimit`. Before all of
    /// these [`Error::GuestLimit`]. [`Error::OutOfMemory`] where memory is short.
    ///
    /// ```
    /// # use strm::{Code, Error, ErrorContext, Payload, Refusal, Type};
    /// # let (mut store, writer, reader, pair) = strm::example()?;
    /// store.memory_write(writer, 0, b"oops")?;
    /// let context = store.error_context_new(writer, 0, 4)?;
    /// let rep = store.error_context_rep(writer, context)?;
    /// let there = store.error_context_lower(rep, reader)?;
    /// assert_eq!(store.error_context_message(reader, there, 0)?, 4);
    /// # Ok::<(), strm::Error>(())
    /// ```
    #[inline]
    pub fn error_context_lower(
        &mut self,
        context: ErrorContextId,
        guest: Guest,
    ) -> Result<ErrorContext, Error> {
        // SAFETY: above.
        wrote(|out| unsafe { sys::strm_error_context_lower(self.at(), context.0, guest.0, out) })
            .map(ErrorContext)
    }

    /// Gives up a handle of an error context, and the context with the last.
    /// `canon error-context.drop`.
    ///
    /// # Errors
    ///
    /// Refused, in this order: `UnknownGuest`, `UnknownHandle`, `WrongKind`.
    ///
    /// ```
    /// # use strm::{Code, Error, ErrorContext, Payload, Refusal, Type};
    /// # let (mut store, writer, reader, pair) = strm::example()?;
    /// store.memory_write(writer, 0, b"oops")?;
    /// let context = store.error_context_new(writer, 0, 4)?;
    /// store.error_context_drop(writer, context)?;
    /// assert_eq!(store.error_context_drop(writer, context), Err(Error::Refused(Refusal::UnknownHandle)));
    /// # Ok::<(), strm::Error>(())
    /// ```
    #[inline]
    pub fn error_context_drop(&mut self, guest: Guest, context: ErrorContext) -> Result<(), Error> {
        // SAFETY: above.
        done(unsafe { sys::strm_error_context_drop(self.at(), guest.0, context.0) })
    }
}
