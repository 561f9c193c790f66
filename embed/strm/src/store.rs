//! The store, and what it tells.

mod contexts;
mod ends;
mod futures;
mod items;
mod limits;
mod lives;
mod memories;
mod moves;
mod polling;
mod queries;
mod ready;
mod rooms;
mod sets;
mod streams;
mod telling;
mod typed;

use crate::errors::{Error, done};
use crate::memory::Memory;
use crate::payload::Type;
use crate::rooms::Rooms;
use crate::waits::Waits;
use crate::{Guest, StreamId};
use alloc::collections::BTreeMap;
use core::cell::UnsafeCell;
use core::fmt;
use strm_sys as sys;

pub(crate) use ends::Named;
pub use limits::GuestLimits;
pub use queries::{EndInfo, HandleInfo, OtherEnd, Side};

/// How much a store may keep. [`GuestLimits`] bound one guest.
///
/// ```
/// use strm::Limits;
///
/// let limits = Limits { handles: 100, ..Limits::default() };
/// assert_eq!(limits.to_string(), "100 handles, 1000000 places");
/// ```
#[derive(Clone, Copy, Debug, PartialEq, Eq, Hash)]
pub struct Limits {
    /// Live handles of all guests together.
    pub handles: usize,
    /// Places: a stream takes three, a waitable set and an error context one each.
    pub places: u32,
}

impl Default for Limits {
    /// A million of each.
    fn default() -> Limits {
        Limits {
            handles: 1_000_000,
            places: 1_000_000,
        }
    }
}

impl fmt::Display for Limits {
    fn fmt(&self, f: &mut fmt::Formatter<'_>) -> fmt::Result {
        write!(f, "{} handles, {} places", self.handles, self.places)
    }
}

/// Guests and the streams between them. It may go to another thread, and is used by one at a time;
/// [`Share`](crate::Share) says how several share one.
///
/// A call is refused for the first reason that holds, in the order that its `# Errors` has, and a refused call
/// changes nothing. Nothing that a guest does stops the calls of another: a bad item stops its writer alone, which
/// [`Error::BadItem`] names.
pub struct Store {
    raw: Raw,
    pub(crate) waits: Waits,
    pub(crate) rooms: BTreeMap<Guest, Rooms>,
    // The memories that the store was given: they are dropped after `raw` gave them up.
    memories: BTreeMap<Guest, Memory>,
    // How many guests of a number have ended, where some have.
    ended: BTreeMap<Guest, u64>,
}

// The archive's store. `UnsafeCell` keeps it from being shared.
struct Raw(UnsafeCell<sys::StoreHandle>);

// SAFETY: that a store may go to another thread is proved of the handle.
unsafe impl Send for Raw {}

impl Drop for Store {
    fn drop(&mut self) {
        // SAFETY: the handle is of a store, and no call comes after.
        unsafe { sys::strm_store_free(self.at()) }
    }
}

impl fmt::Debug for Store {
    fn fmt(&self, f: &mut fmt::Formatter<'_>) -> fmt::Result {
        f.debug_struct("Store")
            .field("tag", &self.tag())
            .field("streams", &self.streams())
            .finish_non_exhaustive()
    }
}

impl fmt::Display for Store {
    fn fmt(&self, f: &mut fmt::Formatter<'_>) -> fmt::Result {
        write!(f, "store {}", self.tag())
    }
}

// What every `unsafe` block below rests on: the declarations of `sys` are written from the exports; from
// `new` until `drop` the handle is of a store, which is all that a call asks for; `&mut self`, or the cell
// that is not `Sync`, leaves the store to one call at a time; pointers are of live references or slices.
impl Store {
    /// A store without guests. `tag` is a number of the caller's own.
    ///
    /// # Errors
    ///
    /// [`Error::OutOfMemory`] where memory is short.
    ///
    /// ```
    /// use strm::{Limits, Store};
    ///
    /// let store = Store::new(7, Limits { handles: 100, places: 30 })?;
    /// assert_eq!(store.tag(), 7);
    /// # Ok::<(), strm::Error>(())
    /// ```
    pub fn new(tag: u64, limits: Limits) -> Result<Store, Error> {
        let mut handle = sys::StoreHandle::NONE;
        // SAFETY: the handle is of no store, as this call alone asks.
        done(unsafe { sys::strm_store_new(&mut handle, tag, limits.handles, limits.places) })?;
        Ok(Store {
            raw: Raw(UnsafeCell::new(handle)),
            waits: Waits::default(),
            rooms: BTreeMap::new(),
            memories: BTreeMap::new(),
            ended: BTreeMap::new(),
        })
    }

    // What each call is handed.
    #[inline(always)]
    fn at(&self) -> *mut sys::StoreHandle {
        self.raw.0.get()
    }

    /// The number that the store was made with.
    ///
    /// ```
    /// let store = strm::Store::new(7, strm::Limits::default())?;
    /// assert_eq!(store.tag(), 7);
    /// # Ok::<(), strm::Error>(())
    /// ```
    pub fn tag(&self) -> u64 {
        // SAFETY: above.
        unsafe { sys::strm_tag(self.at()) }
    }

    /// The numbers that streams and futures got so far are below this. One is given again once both ends of its
    /// stream are gone, so it never passes a third of the places that the store was made with.
    ///
    /// ```
    /// # let (mut store, a, b, _) = strm::example()?;
    /// let _ = store.stream_between::<u8>(a, b)?;
    /// assert_eq!(store.streams(), 2);
    /// # Ok::<(), strm::Error>(())
    /// ```
    pub fn streams(&self) -> u32 {
        // SAFETY: above.
        unsafe { sys::strm_streams(self.at()) }
    }

    /// How many items were received so far on the stream that got this number last, and none where none got it.
    ///
    /// ```
    /// # use strm::{Code, Payload};
    /// # let (mut store, writer, reader, pair) = strm::example()?;
    /// let _ = store.stream_write(writer, Payload::U8, pair.write, 0, 3)?;
    /// let _ = store.stream_read(reader, Payload::U8, pair.read, 0, 2)?;
    /// assert_eq!(store.moved(pair.stream), Some(2));
    /// # Ok::<(), strm::Error>(())
    /// ```
    pub fn moved(&self, stream: StreamId) -> Option<u128> {
        let mut out = sys::Count::default();
        // SAFETY: above.
        let status = unsafe { sys::strm_moved(self.at(), stream.0, &mut out) };
        (status == 0).then_some(u128::from(out.high) << 64 | u128::from(out.low))
    }

    /// The type of the stream that has this number, while an end of it is there.
    ///
    /// ```
    /// # use strm::{Payload, Type};
    /// # let (store, _, _, pair) = strm::example()?;
    /// assert_eq!(store.transmit_index(pair.stream), Some(Type::Stream(Payload::U8)));
    /// # Ok::<(), strm::Error>(())
    /// ```
    pub fn transmit_index(&self, stream: StreamId) -> Option<Type> {
        let mut out = 0;
        // SAFETY: above.
        let status = unsafe { sys::strm_transmit_index(self.at(), stream.0, &mut out) };
        (status == 0).then_some(Type::of(out))
    }
}
