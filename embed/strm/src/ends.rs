//! Ends of guests, typed by what they pass.

use crate::store::Named;
use crate::{Code, EndInfo, Error, Guest, Handle, HandleInfo, Item, Refusal, Side, Store, Type, WaitableSet};
use core::fmt;
use core::marker::PhantomData;

/// Which end of what: [`WriteStream`], [`ReadStream`], [`WriteFuture`] or [`ReadFuture`].
///
/// ```
/// use strm::{Kind, ReadFuture, Side};
///
/// assert_eq!(ReadFuture::SIDE, Side::Reading);
/// assert!(ReadFuture::IS_FUTURE);
/// ```
pub trait Kind: sealed::Sealed + 'static {
    /// Which of the two ends it is.
    const SIDE: Side;

    /// Whether it is of a future.
    const IS_FUTURE: bool;
}

mod sealed {
    pub trait Sealed {}
}

macro_rules! kinds {
    ($($(#[$doc:meta])+ $kind:ident: $side:ident, $is_future:literal;)+) => {$(
        $(#[$doc])+
        #[derive(Clone, Copy, Debug, PartialEq, Eq)]
        pub enum $kind {}

        impl sealed::Sealed for $kind {}

        impl Kind for $kind {
            const SIDE: Side = Side::$side;
            const IS_FUTURE: bool = $is_future;
        }
    )+};
}

kinds! {
    /// The kind of a [`StreamWriter`].
    WriteStream: Writing, false;
    /// The kind of a [`StreamReader`].
    ReadStream: Reading, false;
    /// The kind of a [`FutureWriter`].
    WriteFuture: Writing, true;
    /// The kind of a [`FutureReader`].
    ReadFuture: Reading, true;
}

/// An end of a stream or future, whose items are `T`, by its guest and its handle there.
///
/// There is one such value of an end, which goes where the end goes. It takes the store with each call, and dropping
/// it leaves the end where it is: [`End::close`] drops that. Of another store it names what has its numbers there,
/// which is a wrong answer and no undefined behaviour. [`Owned`](crate::Owned) is an end that keeps a share of its
/// store, is awaited, and drops itself.
///
/// ```
/// use strm::{Code, Limits, Store};
///
/// let mut store = Store::new(0, Limits::default())?;
/// let (a, b) = (store.add_guest(64)?, store.add_guest(64)?);
/// let (mut writer, mut reader) = store.stream_between::<u16>(a, b)?;
///
/// store.put_items(a, 0, &[1u16, 2, 3])?;
/// assert_eq!(writer.write(&mut store, 0, 3)?, Code::Blocked);
/// assert_eq!(reader.read(&mut store, 8, 4)?, Code::Completed(3));
/// assert_eq!(store.get_items::<u16>(b, 8, 3)?, [1, 2, 3]);
/// assert_eq!(writer.take_event(&mut store)?, Some(Code::Completed(3)));
/// writer.close(&mut store)?;
/// assert_eq!(reader.take_event(&mut store)?, Some(Code::Dropped(0)));
/// # Ok::<(), strm::Error>(())
/// ```
///
/// Ends can't be mixed up, neither their sides nor their items:
///
/// ```compile_fail,E0308
/// # let mut store = strm::Store::new(0, strm::Limits::default())?;
/// # let guest = store.add_guest(64)?;
/// let (writer, reader) = store.stream::<u16>(guest)?;
/// let bytes: strm::StreamReader<u8> = reader;
/// # Ok::<(), strm::Error>(())
/// ```
#[must_use = "an end stays until it is closed"]
pub struct End<K, T> {
    guest: Guest,
    handle: Handle,
    kind: PhantomData<fn() -> (K, T)>,
}

/// The write end of a stream of `T`.
///
/// ```
/// # let (mut store, a, b, _) = strm::example()?;
/// let (writer, _reader) = store.stream_between::<u8>(a, b)?;
/// let writer: strm::StreamWriter<u8> = writer;
/// # Ok::<(), strm::Error>(())
/// ```
pub type StreamWriter<T> = End<WriteStream, T>;

/// The read end of a stream of `T`.
///
/// ```
/// # let (mut store, a, b, _) = strm::example()?;
/// let (_writer, reader) = store.stream_between::<u8>(a, b)?;
/// let reader: strm::StreamReader<u8> = reader;
/// # Ok::<(), strm::Error>(())
/// ```
pub type StreamReader<T> = End<ReadStream, T>;

/// The write end of a future of a `T`.
///
/// ```
/// # let (mut store, a, b, _) = strm::example()?;
/// let (writer, _reader) = store.future_between::<u8>(a, b)?;
/// let writer: strm::FutureWriter<u8> = writer;
/// # Ok::<(), strm::Error>(())
/// ```
pub type FutureWriter<T> = End<WriteFuture, T>;

/// The read end of a future of a `T`.
///
/// ```
/// # let (mut store, a, b, _) = strm::example()?;
/// let (_writer, reader) = store.future_between::<u8>(a, b)?;
/// let reader: strm::FutureReader<u8> = reader;
/// # Ok::<(), strm::Error>(())
/// ```
pub type FutureReader<T> = End<ReadFuture, T>;

impl<K: Kind, T: Item> End<K, T> {
    /// The type of its stream or future.
    ///
    /// ```
    /// use strm::{FutureWriter, Payload, Type};
    ///
    /// assert_eq!(FutureWriter::<u8>::TYPE, Type::Future(Payload::U8));
    /// ```
    pub const TYPE: Type = if K::IS_FUTURE {
        Type::Future(T::PAYLOAD)
    } else {
        Type::Stream(T::PAYLOAD)
    };

    /// The end of these numbers, which is believed to be one of this type: see [`Store::end`].
    ///
    /// ```
    /// # use strm::{Code, StreamReader};
    /// # let (mut store, _, reader, pair) = strm::example()?;
    /// let mut reader: StreamReader<u8> = StreamReader::from_raw(reader, pair.read);
    /// assert_eq!(reader.read(&mut store, 0, 1)?, Code::Blocked);
    /// # Ok::<(), strm::Error>(())
    /// ```
    pub const fn from_raw(guest: Guest, handle: Handle) -> End<K, T> {
        End {
            guest,
            handle,
            kind: PhantomData,
        }
    }

    /// The guest that has it, and its handle there, for the guest to use.
    ///
    /// ```
    /// # let (mut store, a, b, _) = strm::example()?;
    /// let (_writer, reader) = store.stream_between::<u8>(a, b)?;
    /// let (guest, handle) = reader.into_raw();
    /// assert_eq!((guest, handle.0), (b, 2));
    /// # Ok::<(), strm::Error>(())
    /// ```
    #[must_use]
    pub fn into_raw(self) -> (Guest, Handle) {
        (self.guest, self.handle)
    }

    /// The guest that has it.
    ///
    /// ```
    /// # let (mut store, a, b, _) = strm::example()?;
    /// let (writer, _reader) = store.stream_between::<u8>(a, b)?;
    /// assert_eq!(writer.guest(), a);
    /// # Ok::<(), strm::Error>(())
    /// ```
    #[must_use]
    pub const fn guest(&self) -> Guest {
        self.guest
    }

    /// Its handle in the guest's table.
    ///
    /// ```
    /// # let (mut store, a, b, _) = strm::example()?;
    /// let (writer, _reader) = store.stream_between::<u8>(a, b)?;
    /// assert_eq!(writer.handle(), strm::Handle(2));
    /// # Ok::<(), strm::Error>(())
    /// ```
    #[must_use]
    pub const fn handle(&self) -> Handle {
        self.handle
    }

    pub(crate) fn named(&self) -> Named {
        Named {
            guest: self.guest,
            handle: self.handle,
            ty: Self::TYPE,
            side: K::SIDE,
        }
    }

    /// What is told of it: its stream, its event, and who has the other end.
    ///
    /// # Errors
    ///
    /// Refused, in this order: `UnknownGuest`, `UnknownHandle`, `WrongKind`, `WrongType`, `WrongEnd`.
    ///
    /// ```
    /// # let (mut store, a, b, _) = strm::example()?;
    /// let (writer, reader) = store.future_between::<u16>(a, b)?;
    /// assert_eq!(writer.info(&store)?.stream, reader.info(&store)?.stream);
    /// # Ok::<(), strm::Error>(())
    /// ```
    pub fn info(&self, store: &Store) -> Result<EndInfo, Error> {
        let refused = |refusal| Err(Error::Refused(refusal));
        let HandleInfo::End(end) = store.handle(self.guest, self.handle)? else {
            return refused(Refusal::WrongKind);
        };
        match (end.ty, Self::TYPE) {
            (Type::Stream(_), Type::Future(_)) | (Type::Future(_), Type::Stream(_)) => {
                refused(Refusal::WrongKind)
            }
            (found, wanted) if found != wanted => refused(Refusal::WrongType),
            _ if end.side != K::SIDE => refused(Refusal::WrongEnd),
            _ => Ok(end),
        }
    }

    /// What it is to be told, if anything. It ends the read or write that it tells of.
    ///
    /// # Errors
    ///
    /// Those of [`Store::take_event`].
    ///
    /// ```
    /// # let (mut store, a, b, _) = strm::example()?;
    /// let (mut writer, reader) = store.stream_between::<u8>(a, b)?;
    /// assert_eq!(writer.take_event(&mut store)?, None);
    /// reader.close(&mut store)?;
    /// assert_eq!(writer.take_event(&mut store)?, Some(strm::Code::Dropped(0)));
    /// # Ok::<(), strm::Error>(())
    /// ```
    pub fn take_event(&mut self, store: &mut Store) -> Result<Option<Code>, Error> {
        store.take_event(self.guest, self.handle)
    }

    /// Cancels its read or write.
    ///
    /// # Errors
    ///
    /// Refused, in this order: `UnknownGuest`, `UnknownHandle`, `WrongKind`, `WrongType`, `WrongEnd`, `NoPending`.
    ///
    /// ```
    /// # use strm::Code;
    /// # let (mut store, a, b, _) = strm::example()?;
    /// let (writer, mut reader) = store.stream_between::<u8>(a, b)?;
    /// let _ = reader.read(&mut store, 0, 5)?;
    /// assert_eq!(reader.cancel(&mut store)?, Code::Cancelled(0));
    /// # Ok::<(), strm::Error>(())
    /// ```
    pub fn cancel(&mut self, store: &mut Store) -> Result<Code, Error> {
        store.cancel(self.named())
    }

    /// It joins a waitable set of its guest, and leaves the one that it was in; see [`WaitableSet::NONE`].
    ///
    /// # Errors
    ///
    /// Those of [`Store::set_join`].
    ///
    /// ```
    /// # let (mut store, a, b, _) = strm::example()?;
    /// let (writer, reader) = store.stream_between::<u8>(a, b)?;
    /// let set = store.set_new(b)?;
    /// reader.join(&mut store, set)?;
    /// let handle = reader.handle();
    /// writer.close(&mut store)?;
    /// assert_eq!(store.set_poll(b, set)?.map(|told| told.handle), Some(handle));
    /// # Ok::<(), strm::Error>(())
    /// ```
    pub fn join(&self, store: &mut Store, set: WaitableSet) -> Result<(), Error> {
        store.set_join(self.guest, set, self.handle)
    }

    /// Moves it to another guest, where it has another handle.
    ///
    /// # Errors
    ///
    /// Those of [`Store::stream_transfer`] or [`Store::future_transfer`]: it stays where it was.
    ///
    /// ```
    /// # let (mut store, a, b, _) = strm::example()?;
    /// let (writer, mut reader) = store.stream_between::<u8>(a, b)?;
    /// let third = store.add_guest(64)?;
    /// reader.transfer(&mut store, third)?;
    /// assert_eq!(reader.guest(), third);
    /// # Ok::<(), strm::Error>(())
    /// ```
    pub fn transfer(&mut self, store: &mut Store, to: Guest) -> Result<(), Error> {
        self.handle = store.transfer(self.named(), to)?;
        self.guest = to;
        Ok(())
    }

    /// Cancels its read or write, if it has one, and drops it.
    ///
    /// # Errors
    ///
    /// Refused, in this order: `UnknownGuest`, `UnknownHandle`, `WrongKind`, `WrongType`, `WrongEnd`,
    /// `FutureWithoutValue`. The end comes back with the error.
    ///
    /// ```
    /// # use strm::{Error, Refusal};
    /// # let (mut store, a, b, _) = strm::example()?;
    /// let (writer, reader) = store.future_between::<u8>(a, b)?;
    /// let error = writer.close(&mut store).unwrap_err();
    /// assert_eq!(error.why(), Error::Refused(Refusal::FutureWithoutValue));
    /// reader.close(&mut store)?;
    /// error.into_end().close(&mut store)?; // nobody waits for its value now
    /// # Ok::<(), Error>(())
    /// ```
    pub fn close(self, store: &mut Store) -> Result<(), EndError<K, T>> {
        match store.give_up(self.named()) {
            Ok(()) => Ok(()),
            Err(why) => Err(EndError::new(self, why)),
        }
    }
}

impl<T: Item> StreamWriter<T> {
    /// Writes items that lie from an address of its guest's memory on, and stay there until they move.
    ///
    /// # Errors
    ///
    /// Those of [`Store::stream_write`].
    ///
    /// ```
    /// # let (mut store, a, b, _) = strm::example()?;
    /// let (mut writer, _reader) = store.stream_between::<u8>(a, b)?;
    /// assert_eq!(writer.write(&mut store, 0, 5)?, strm::Code::Blocked);
    /// # Ok::<(), strm::Error>(())
    /// ```
    pub fn write(&mut self, store: &mut Store, address: u32, count: u32) -> Result<Code, Error> {
        store.operate(self.named(), address, count)
    }
}

impl<T: Item> StreamReader<T> {
    /// Reads so many items at most to an address of its guest's memory on.
    ///
    /// # Errors
    ///
    /// Those of [`Store::stream_read`].
    ///
    /// ```
    /// # let (mut store, a, b, _) = strm::example()?;
    /// let (mut writer, mut reader) = store.stream_between::<u8>(a, b)?;
    /// assert_eq!(reader.read(&mut store, 0, 5)?, strm::Code::Blocked);
    /// assert_eq!(writer.write(&mut store, 0, 3)?, strm::Code::Completed(3));
    /// assert_eq!(reader.take_event(&mut store)?, Some(strm::Code::Completed(3)));
    /// # Ok::<(), strm::Error>(())
    /// ```
    pub fn read(&mut self, store: &mut Store, address: u32, count: u32) -> Result<Code, Error> {
        store.operate(self.named(), address, count)
    }
}

impl<T: Item> FutureWriter<T> {
    /// Writes the value that lies at an address of its guest's memory.
    ///
    /// # Errors
    ///
    /// Those of [`Store::future_write`].
    ///
    /// ```
    /// # let (mut store, a, b, _) = strm::example()?;
    /// let (mut writer, _reader) = store.future_between::<u32>(a, b)?;
    /// assert_eq!(writer.write(&mut store, 8)?, strm::Code::Blocked);
    /// # Ok::<(), strm::Error>(())
    /// ```
    pub fn write(&mut self, store: &mut Store, address: u32) -> Result<Code, Error> {
        store.operate(self.named(), address, 1)
    }
}

impl<T: Item> FutureReader<T> {
    /// Reads the value to an address of its guest's memory.
    ///
    /// # Errors
    ///
    /// Those of [`Store::future_read`].
    ///
    /// ```
    /// # use strm::Code;
    /// # let (mut store, a, b, _) = strm::example()?;
    /// let (mut writer, mut reader) = store.future_between::<char>(a, b)?;
    /// store.put_items(a, 4, &['x'])?;
    /// assert_eq!(writer.write(&mut store, 4)?, Code::Blocked);
    /// assert_eq!(reader.read(&mut store, 0)?, Code::Completed(0));
    /// assert_eq!(store.get_items::<char>(b, 0, 1)?, ['x']);
    /// # Ok::<(), strm::Error>(())
    /// ```
    pub fn read(&mut self, store: &mut Store, address: u32) -> Result<Code, Error> {
        store.operate(self.named(), address, 1)
    }
}

impl<K: Kind, T: Item> fmt::Debug for End<K, T> {
    fn fmt(&self, f: &mut fmt::Formatter<'_>) -> fmt::Result {
        write!(f, "End({self})")
    }
}

impl<K: Kind, T: Item> fmt::Display for End<K, T> {
    fn fmt(&self, f: &mut fmt::Formatter<'_>) -> fmt::Result {
        write!(
            f,
            "{} of {}: {}, {}",
            K::SIDE,
            Self::TYPE,
            self.guest,
            self.handle
        )
    }
}

/// Why a call that takes an end failed, and the end, as it was.
///
/// ```
/// # use strm::{End, EndError, ReadStream, Refusal};
/// # let (mut store, a, b, _) = strm::example()?;
/// let (writer, _reader) = store.future_between::<u8>(a, b)?;
/// let error = writer.close(&mut store).unwrap_err();
/// assert!(error.to_string().starts_with("write end of future:u8: guest 0, handle 2: refused: "));
/// # Ok::<(), strm::Error>(())
/// ```
pub struct EndError<K, T> {
    end: End<K, T>,
    why: Error,
}

impl<K, T> EndError<K, T> {
    pub(crate) fn new(end: End<K, T>, why: Error) -> EndError<K, T> {
        EndError { end, why }
    }

    /// Why it failed.
    #[must_use]
    pub fn why(&self) -> Error {
        self.why
    }

    /// The end, as it was.
    pub fn into_end(self) -> End<K, T> {
        self.end
    }
}

impl<K: Kind, T: Item> fmt::Debug for EndError<K, T> {
    fn fmt(&self, f: &mut fmt::Formatter<'_>) -> fmt::Result {
        f.debug_struct("EndError")
            .field("end", &self.end)
            .field("why", &self.why)
            .finish()
    }
}

impl<K: Kind, T: Item> fmt::Display for EndError<K, T> {
    fn fmt(&self, f: &mut fmt::Formatter<'_>) -> fmt::Result {
        write!(f, "{}: {}", self.end, self.why)
    }
}

impl<K: Kind, T: Item> core::error::Error for EndError<K, T> {
    fn source(&self) -> Option<&(dyn core::error::Error + 'static)> {
        Some(&self.why)
    }
}

impl<K, T> From<EndError<K, T>> for Error {
    fn from(error: EndError<K, T>) -> Error {
        error.why
    }
}
