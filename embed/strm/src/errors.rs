//! Why a call did not answer.

use crate::{Code, Guest, Handle, Refusal};
use core::fmt;
use strm_sys as sys;

/// An item that is none of its type, and who writes it: a char that is no Unicode scalar value, or the number of a case
/// that there is not.
///
/// ```
/// use strm::{BadItem, Guest, Handle};
///
/// let item = BadItem { guest: Guest(0), handle: Handle(3), index: 2 };
/// assert_eq!(item.to_string(), "item 2 of what guest 0 writes by handle 3 is none of its type");
/// ```
#[derive(Clone, Copy, Debug, PartialEq, Eq, Hash)]
pub struct BadItem {
    /// The guest that has the write end.
    pub guest: Guest,
    /// Its handle of that end.
    pub handle: Handle,
    /// The item's place among all items of the write, from 0, those that moved before among them.
    pub index: u32,
}

/// Why a call did not answer.
///
/// ```
/// use strm::{Error, Limits, Refusal, Store, WaitableSet};
///
/// let mut store = Store::new(0, Limits::default())?;
/// let guest = store.add_guest(64)?;
/// let error = store.set_drop(guest, WaitableSet(1)).unwrap_err();
/// assert_eq!(error, Error::Refused(Refusal::UnknownHandle));
/// assert_eq!(error.to_string(), "refused: no live slot has that number");
/// # Ok::<(), Error>(())
/// ```
#[derive(Clone, Copy, Debug, PartialEq, Eq, Hash)]
#[non_exhaustive]
pub enum Error {
    /// It may not be done now. Nothing has changed.
    Refused(Refusal),
    /// An item that was to move is none of its type. Nothing has changed: the embedder ends the guest that
    /// writes it ([`Store::end_guest`](crate::Store::end_guest)), all others go on, and until then the same call
    /// answers the same.
    BadItem(BadItem),
    /// An allocation was refused. Nothing has changed.
    OutOfMemory,
    /// A guest would get more than its limits allow, which is told before any refusal. Nothing has changed.
    GuestLimit,
    /// The guest's memory is the store's own, which neither grows nor moves; or it is none that
    /// [`Store::grow_memory`](crate::Store::grow_memory) can make longer, since the store was not given it. Nothing
    /// has changed.
    NotLent,
    /// A memory would move to fewer bytes than it has. Nothing has changed.
    Shorter,
    /// A guest was to begin under the number of one that has bytes, handles, or a memory of the host's: it has not
    /// ended, or another has begun. Nothing has changed.
    InUse,
    /// The two guests of a call are one, whose memory can't be lent twice. Nothing has changed.
    SameGuest,
    /// The other end is gone, and not all items were received, or no value came.
    Closed,
    /// There is no room for items in the guest's memory: see [`Store::add_room`](crate::Store::add_room).
    NoRoom,
    /// The bytes in the guest's memory are no item of the type.
    NotAnItem,
}

impl fmt::Display for BadItem {
    fn fmt(&self, f: &mut fmt::Formatter<'_>) -> fmt::Result {
        let BadItem { guest, handle, index } = self;
        write!(
            f,
            "item {index} of what {guest} writes by {handle} is none of its type"
        )
    }
}

impl fmt::Display for Error {
    fn fmt(&self, f: &mut fmt::Formatter<'_>) -> fmt::Result {
        f.write_str(match self {
            Error::Refused(refusal) => return write!(f, "refused: {refusal}"),
            Error::BadItem(item) => return item.fmt(f),
            Error::OutOfMemory => "out of memory",
            Error::GuestLimit => "the guest's limit would be passed",
            Error::NotLent => "the guest's memory is not the host's",
            Error::Shorter => "a memory would have fewer bytes",
            Error::InUse => "the guest has not ended",
            Error::SameGuest => "the two guests are one",
            Error::Closed => "the other end is gone",
            Error::NoRoom => "there is no room for items in the guest's memory",
            Error::NotAnItem => "the bytes are no item of the type",
        })
    }
}

impl core::error::Error for Error {
    fn source(&self) -> Option<&(dyn core::error::Error + 'static)> {
        match self {
            Error::Refused(refusal) => Some(refusal),
            _ => None,
        }
    }
}

impl From<Refusal> for Error {
    fn from(refusal: Refusal) -> Error {
        Error::Refused(refusal)
    }
}

// A status as a result. UNKNOWN_PAYLOAD and NO_STORE cannot come, by the types, and UNKNOWN_STREAM is asked for
// where it can.
#[inline]
pub(crate) fn done(status: u32) -> Result<(), Error> {
    match status {
        0 => Ok(()),
        _ => Err(error(status)),
    }
}

// What a call wrote where it was told to, once it is done.
#[inline(always)]
pub(crate) fn wrote<T: Default>(call: impl FnOnce(&mut T) -> u32) -> Result<T, Error> {
    let mut out = T::default();
    match call(&mut out) {
        0 => Ok(out),
        status => Err(error(status)),
    }
}

// The event of a call that put its word there, if there is one, once it is done.
#[inline(always)]
pub(crate) fn event(call: impl FnOnce(&mut u32) -> u32) -> Result<Option<Code>, Error> {
    wrote(call).map(Code::told)
}

// The code of a call that put its word there, once it is done.
#[inline(always)]
pub(crate) fn code(call: impl FnOnce(&mut u32) -> u32) -> Result<Code, Error> {
    wrote(call).map(Code::of)
}

// The code of a read or write. Where it stops at an item, the other call tells which: the store is as it was.
#[inline(always)]
pub(crate) fn operated(
    call: impl FnOnce(&mut u32) -> u32,
    find: impl FnOnce() -> BadItem,
) -> Result<Code, Error> {
    let mut word = 0;
    match call(&mut word) {
        0 => Ok(Code::of(word)),
        sys::BAD_ITEM => Err(Error::BadItem(find())),
        status => Err(error(status)),
    }
}

#[cold]
fn error(status: u32) -> Error {
    match status {
        sys::OUT_OF_MEMORY => Error::OutOfMemory,
        sys::GUEST_LIMIT => Error::GuestLimit,
        sys::NOT_LENT => Error::NotLent,
        sys::SHORTER => Error::Shorter,
        sys::IN_USE => Error::InUse,
        number => Error::Refused(sys::REFUSALS[number as usize - 1]),
    }
}
