//! The numbers by which calls name things, each of a type of its own.

use crate::Code;
use core::fmt;

macro_rules! number {
    ($name:ident, $shown:literal, $(#[$doc:meta])+) => {
        $(#[$doc])+
        #[derive(Clone, Copy, Debug, PartialEq, Eq, Hash, PartialOrd, Ord)]
        #[repr(transparent)]
        pub struct $name(pub u32);

        impl From<u32> for $name {
            fn from(number: u32) -> $name {
                $name(number)
            }
        }

        impl From<$name> for u32 {
            fn from(it: $name) -> u32 {
                it.0
            }
        }

        impl fmt::Display for $name {
            fn fmt(&self, f: &mut fmt::Formatter<'_>) -> fmt::Result {
                write!(f, concat!($shown, " {}"), self.0)
            }
        }
    };
}

number!(
    Guest,
    "guest",
    /// A guest of a store: they count from 0 in the order of their making, and the number of one that has ended may be
    /// the next one's.
    ///
    /// ```
    /// use strm::{Guest, Limits, Store};
    ///
    /// let mut store = Store::new(0, Limits::default())?;
    /// assert_eq!(store.add_guest(64)?, Guest(0));
    /// assert_eq!(Guest(0).to_string(), "guest 0");
    /// # Ok::<(), strm::Error>(())
    /// ```
);

number!(
    Handle,
    "handle",
    /// A number of a guest's table, from 1: of an end, and where a call says so of a set or an error context too.
    ///
    /// ```
    /// use strm::Handle;
    ///
    /// assert_eq!(Handle::from(3), Handle(3)); // as a guest brings it
    /// assert_eq!(u32::from(Handle(3)), 3); // as it is answered
    /// ```
);

number!(
    WaitableSet,
    "waitable set",
    /// The handle of a waitable set, in the table of its guest.
    ///
    /// ```
    /// use strm::{Handle, WaitableSet};
    ///
    /// assert_eq!(Handle::from(WaitableSet(2)), Handle(2));
    /// ```
);

number!(
    ErrorContext,
    "error context",
    /// A handle of an error context, in the table of a guest.
    ///
    /// ```
    /// use strm::{ErrorContext, Handle};
    ///
    /// assert_eq!(Handle::from(ErrorContext(2)), Handle(2));
    /// ```
);

number!(
    StreamId,
    "stream",
    /// The number of a stream or future in its store. No other has it until both its ends are gone.
    ///
    /// ```
    /// use strm::StreamId;
    ///
    /// let (store, _, _, pair) = strm::example()?;
    /// assert_eq!(pair.stream, StreamId(0));
    /// # Ok::<(), strm::Error>(())
    /// ```
);

number!(
    ErrorContextId,
    "error context number",
    /// The number of an error context in its store, which is the same for all its handles.
    ///
    /// ```
    /// # let (mut store, guest, _, _) = strm::example()?;
    /// let context = store.error_context_new(guest, 0, 0)?;
    /// let same = store.error_context_lower(store.error_context_rep(guest, context)?, guest)?;
    /// assert_ne!(context, same);
    /// assert_eq!(store.error_context_rep(guest, context), store.error_context_rep(guest, same));
    /// # Ok::<(), strm::Error>(())
    /// ```
);

impl WaitableSet {
    /// No set: an end that joins it leaves the one that it was in.
    pub const NONE: WaitableSet = WaitableSet(0);
}

impl From<WaitableSet> for Handle {
    fn from(set: WaitableSet) -> Handle {
        Handle(set.0)
    }
}

impl From<ErrorContext> for Handle {
    fn from(context: ErrorContext) -> Handle {
        Handle(context.0)
    }
}

/// The two ends of a new stream or future, each by its handle in the table of the guest that has it.
///
/// ```
/// let (_, _, _, pair) = strm::example()?;
/// assert_eq!(pair.to_string(), "stream 0, read end handle 1, write end handle 1");
/// # Ok::<(), strm::Error>(())
/// ```
#[derive(Clone, Copy, Debug, PartialEq, Eq, Hash)]
#[must_use = "the ends stay until they are dropped"]
pub struct Pair {
    /// The read end.
    pub read: Handle,
    /// The write end.
    pub write: Handle,
    /// The stream or future.
    pub stream: StreamId,
}

impl From<strm_sys::Pair> for Pair {
    fn from(pair: strm_sys::Pair) -> Pair {
        Pair {
            read: Handle(pair.read),
            write: Handle(pair.write),
            stream: StreamId(pair.stream),
        }
    }
}

impl fmt::Display for Pair {
    fn fmt(&self, f: &mut fmt::Formatter<'_>) -> fmt::Result {
        let Pair { read, write, stream } = self;
        write!(f, "{stream}, read end {read}, write end {write}")
    }
}

/// A member of a waitable set, and what it was told.
///
/// ```
/// use strm::{Code, Handle, Member};
///
/// let told = Member { handle: Handle(2), code: Code::Completed(3) };
/// assert_eq!(told.to_string(), "handle 2: completed, 3 items");
/// ```
#[derive(Clone, Copy, Debug, PartialEq, Eq, Hash)]
pub struct Member {
    /// The member's handle, in the table of the set's guest.
    pub handle: Handle,
    /// What it was told.
    pub code: Code,
}

impl fmt::Display for Member {
    fn fmt(&self, f: &mut fmt::Formatter<'_>) -> fmt::Result {
        write!(f, "{}: {}", self.handle, self.code)
    }
}
