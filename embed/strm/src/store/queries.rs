//! What is asked of a guest's handles.

use crate::errors::wrote;
use crate::{Code, Error, Guest, Handle, Store, StreamId, Type};
use core::fmt;
use strm_sys as sys;

/// What a handle of a guest is of.
///
/// ```
/// use strm::HandleInfo;
///
/// let (store, writer, _, pair) = strm::example()?;
/// let told = store.handle(writer, pair.write)?;
/// assert!(matches!(told, HandleInfo::End(end) if end.stream == pair.stream));
/// assert_eq!(told.to_string(), "write end of stream 0 (stream:u8)");
/// # Ok::<(), strm::Error>(())
/// ```
#[derive(Clone, Copy, Debug, PartialEq, Eq, Hash)]
#[non_exhaustive]
pub enum HandleInfo {
    /// An end of a stream or future.
    End(EndInfo),
    /// A waitable set.
    WaitableSet,
    /// An error context.
    ErrorContext,
    /// Something that no call makes.
    Other,
}

/// What is told of an end.
///
/// ```
/// use strm::{HandleInfo, OtherEnd};
///
/// let (store, writer, reader, pair) = strm::example()?;
/// let HandleInfo::End(end) = store.handle(writer, pair.write)? else { unreachable!() };
/// assert_eq!(end.to_string(), "write end of stream 0 (stream:u8)");
/// assert_eq!(end.other, OtherEnd::Guest { guest: reader, handle: pair.read });
/// # Ok::<(), strm::Error>(())
/// ```
#[derive(Clone, Copy, Debug, PartialEq, Eq, Hash)]
#[non_exhaustive]
pub struct EndInfo {
    /// The type of its stream or future.
    pub ty: Type,
    /// Which of the two ends it is.
    pub side: Side,
    /// Its stream or future.
    pub stream: StreamId,
    /// What it is to be told, if anything, and still is: [`Store::take_event`] takes it.
    pub event: Option<Code>,
    /// Who has the other end.
    pub other: OtherEnd,
}

/// One of the two ends of a stream or future.
///
/// ```
/// use strm::Side;
///
/// assert_eq!(Side::Writing.other(), Side::Reading);
/// assert_eq!(Side::Writing.to_string(), "write end");
/// ```
#[derive(Clone, Copy, Debug, PartialEq, Eq, Hash, PartialOrd, Ord)]
pub enum Side {
    /// The write end.
    Writing,
    /// The read end.
    Reading,
}

/// Who has the other end of a stream or future.
///
/// ```
/// use strm::{Guest, Handle, OtherEnd};
///
/// let other = OtherEnd::Guest { guest: Guest(1), handle: Handle(2) };
/// assert_eq!(other.to_string(), "guest 1, handle 2");
/// assert_eq!(OtherEnd::Gone.to_string(), "gone");
/// ```
#[derive(Clone, Copy, Debug, PartialEq, Eq, Hash)]
#[non_exhaustive]
pub enum OtherEnd {
    /// A guest, under this handle.
    Guest {
        /// The guest.
        guest: Guest,
        /// The end's handle in its table.
        handle: Handle,
    },
    /// Nobody: it was lifted, and not lowered since.
    Loose,
    /// Nobody any more: it was dropped or closed.
    Gone,
}

impl Side {
    /// The other one.
    #[must_use]
    pub const fn other(self) -> Side {
        match self {
            Side::Writing => Side::Reading,
            Side::Reading => Side::Writing,
        }
    }

    pub(crate) const fn word(self) -> u32 {
        match self {
            Side::Writing => sys::SIDE_WRITING,
            Side::Reading => sys::SIDE_READING,
        }
    }
}

impl From<sys::Handle> for HandleInfo {
    fn from(told: sys::Handle) -> HandleInfo {
        match told.kind {
            sys::KIND_END => HandleInfo::End(EndInfo::from(told)),
            sys::KIND_WAITABLE_SET => HandleInfo::WaitableSet,
            sys::KIND_ERROR_CONTEXT => HandleInfo::ErrorContext,
            _ => HandleInfo::Other,
        }
    }
}

impl From<sys::Handle> for EndInfo {
    fn from(told: sys::Handle) -> EndInfo {
        EndInfo {
            ty: Type::of(told.ty),
            side: match told.side {
                sys::SIDE_WRITING => Side::Writing,
                _ => Side::Reading,
            },
            stream: StreamId(told.stream),
            event: Code::told(told.event),
            other: match told.other {
                sys::OTHER_GUEST => OtherEnd::Guest {
                    guest: Guest(told.other_guest),
                    handle: Handle(told.other_handle),
                },
                sys::OTHER_LOOSE => OtherEnd::Loose,
                _ => OtherEnd::Gone,
            },
        }
    }
}

impl fmt::Display for Side {
    fn fmt(&self, f: &mut fmt::Formatter<'_>) -> fmt::Result {
        f.write_str(match self {
            Side::Writing => "write end",
            Side::Reading => "read end",
        })
    }
}

impl fmt::Display for OtherEnd {
    fn fmt(&self, f: &mut fmt::Formatter<'_>) -> fmt::Result {
        match self {
            OtherEnd::Guest { guest, handle } => write!(f, "{guest}, {handle}"),
            OtherEnd::Loose => f.write_str("loose"),
            OtherEnd::Gone => f.write_str("gone"),
        }
    }
}

impl fmt::Display for EndInfo {
    fn fmt(&self, f: &mut fmt::Formatter<'_>) -> fmt::Result {
        write!(f, "{} of {} ({})", self.side, self.stream, self.ty)
    }
}

impl fmt::Display for HandleInfo {
    fn fmt(&self, f: &mut fmt::Formatter<'_>) -> fmt::Result {
        match self {
            HandleInfo::End(end) => end.fmt(f),
            HandleInfo::WaitableSet => f.write_str("waitable set"),
            HandleInfo::ErrorContext => f.write_str("error context"),
            HandleInfo::Other => f.write_str("something that no call makes"),
        }
    }
}

/// What a runtime asks of its handles, which changes nothing.
impl Store {
    /// What a handle of a guest is of, and of an end all that is told of one. Nothing is taken of what it is
    /// to be told.
    ///
    /// # Errors
    ///
    /// Refused, in this order: `UnknownGuest`, `UnknownHandle`.
    ///
    /// ```
    /// # use strm::{Code, EndInfo, HandleInfo, OtherEnd, Payload, Side, Type};
    /// # let (mut store, writer, reader, pair) = strm::example()?;
    /// let _ = store.stream_write(writer, Payload::U8, pair.write, 0, 3)?;
    /// let _ = store.stream_read(reader, Payload::U8, pair.read, 0, 8)?;
    /// let HandleInfo::End(end) = store.handle(writer, pair.write)? else { unreachable!() };
    /// assert_eq!(end.ty, Type::Stream(Payload::U8));
    /// assert_eq!(end.side, Side::Writing);
    /// assert_eq!(end.event, Some(Code::Completed(3)));
    /// assert_eq!(end.other, OtherEnd::Guest { guest: reader, handle: pair.read });
    /// assert_eq!(store.take_event(writer, pair.write)?, end.event);
    /// # Ok::<(), strm::Error>(())
    /// ```
    #[inline]
    pub fn handle(&self, guest: Guest, handle: Handle) -> Result<HandleInfo, Error> {
        // SAFETY: above.
        wrote(|out| unsafe { sys::strm_handle_info(self.at(), guest.0, handle.0, out) }).map(HandleInfo::from)
    }

    /// The least handle of a guest above a number, and what it is of; none behind the last. All of them, one
    /// after the other, cost one pass over the guest's table.
    ///
    /// # Errors
    ///
    /// Refused: `UnknownGuest`.
    ///
    /// ```
    /// # use strm::{Handle, HandleInfo, Payload, WaitableSet};
    /// # let (mut store, writer, reader, pair) = strm::example()?;
    /// store.set_new(writer)?;
    /// let mut after = Handle(0);
    /// while let Some((handle, is)) = store.next_handle(writer, after)? {
    ///     match is {
    ///         HandleInfo::WaitableSet => store.set_drop(writer, WaitableSet(handle.0))?,
    ///         _ => store.stream_drop_writable(writer, Payload::U8, handle)?,
    ///     }
    ///     after = handle;
    /// }
    /// assert_eq!(store.handle_count(writer)?, 0);
    /// # Ok::<(), strm::Error>(())
    /// ```
    #[inline]
    pub fn next_handle(&self, guest: Guest, after: Handle) -> Result<Option<(Handle, HandleInfo)>, Error> {
        // SAFETY: above.
        let told = wrote(|out| unsafe { sys::strm_next_handle(self.at(), guest.0, after.0, out) })?;
        Ok((told.handle != 0).then(|| (Handle(told.handle), HandleInfo::from(told))))
    }

    /// How many handles a guest has. It looks at none of them.
    ///
    /// # Errors
    ///
    /// Refused: `UnknownGuest`.
    ///
    /// ```
    /// # let (store, writer, _, _) = strm::example()?;
    /// assert_eq!(store.handle_count(writer)?, 1);
    /// # Ok::<(), strm::Error>(())
    /// ```
    #[inline]
    pub fn handle_count(&self, guest: Guest) -> Result<u32, Error> {
        // SAFETY: above.
        wrote(|out| unsafe { sys::strm_handle_count(self.at(), guest.0, out) })
    }
}
