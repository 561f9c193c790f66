//! How much each guest may have at once.

use crate::errors::{done, wrote};
use crate::{Error, Guest, Store};
use core::fmt;
use strm_sys as sys;

/// How much a guest may have at once: so one that takes all it can leaves the others their share.
///
/// ```
/// use strm::GuestLimits;
///
/// let limits = GuestLimits { ends: 10, ..GuestLimits::UNBOUNDED };
/// assert_eq!(limits.to_string(), "4294967295 handles, 10 ends, 18446744073709551615 bytes");
/// ```
#[derive(Clone, Copy, Debug, PartialEq, Eq, Hash)]
pub struct GuestLimits {
    /// Handles, of whatever kind.
    pub handles: u32,
    /// Ends of streams and futures among them, so it is at that many streams and futures at most.
    pub ends: u32,
    /// Bytes that the store keeps for it: 4,096 for each handle of an error context, the longest that a message
    /// can be. Those of its memory are not among them.
    pub bytes: u64,
}

impl GuestLimits {
    /// No bound: what holds of a guest until its limits are set.
    pub const UNBOUNDED: GuestLimits = GuestLimits {
        handles: u32::MAX,
        ends: u32::MAX,
        bytes: u64::MAX,
    };
}

impl fmt::Display for GuestLimits {
    fn fmt(&self, f: &mut fmt::Formatter<'_>) -> fmt::Result {
        write!(
            f,
            "{} handles, {} ends, {} bytes",
            self.handles, self.ends, self.bytes
        )
    }
}

impl Default for GuestLimits {
    fn default() -> GuestLimits {
        GuestLimits::UNBOUNDED
    }
}

/// How much each guest may have at once.
impl Store {
    /// Sets how much a guest may have at once. A call that would give it more is refused with
    /// [`Error::GuestLimit`] and changes nothing. What it has stays, also where that is more; it only gets no
    /// more of it.
    ///
    /// # Errors
    ///
    /// Refused: `UnknownGuest`. [`Error::OutOfMemory`] where memory is short.
    ///
    /// ```
    /// # use strm::{Error, GuestLimits, Payload};
    /// # let (mut store, writer, reader, pair) = strm::example()?;
    /// store.set_guest_limits(writer, GuestLimits { ends: 2, ..GuestLimits::UNBOUNDED })?;
    /// assert_eq!(store.stream_new(writer, Payload::U8), Err(Error::GuestLimit));
    /// store.stream_drop_writable(writer, Payload::U8, pair.write)?;
    /// assert!(store.stream_new(writer, Payload::U8).is_ok());
    /// assert!(store.stream_new(reader, Payload::U8).is_ok());
    /// # Ok::<(), Error>(())
    /// ```
    pub fn set_guest_limits(&mut self, guest: Guest, limits: GuestLimits) -> Result<(), Error> {
        let GuestLimits { handles, ends, bytes } = limits;
        // SAFETY: above.
        done(unsafe { sys::strm_set_guest_limits(self.at(), guest.0, handles, ends, bytes) })
    }

    /// How much a guest may have at once.
    ///
    /// # Errors
    ///
    /// Refused: `UnknownGuest`.
    ///
    /// ```
    /// # use strm::GuestLimits;
    /// # let (store, writer, _, _) = strm::example()?;
    /// assert_eq!(store.guest_limits(writer)?, GuestLimits::UNBOUNDED);
    /// # Ok::<(), strm::Error>(())
    /// ```
    pub fn guest_limits(&self, guest: Guest) -> Result<GuestLimits, Error> {
        // SAFETY: above.
        let sys::Limits { bytes, handles, ends } =
            wrote(|out| unsafe { sys::strm_guest_limits(self.at(), guest.0, out) })?;
        Ok(GuestLimits { handles, ends, bytes })
    }
}
