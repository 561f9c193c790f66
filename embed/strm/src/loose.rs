//! Read ends that no guest has, typed by what they pass.

use crate::ends::{End, EndError, Kind, ReadFuture, ReadStream};
use crate::{Error, Guest, Item, Store, StreamId};
use core::fmt;
use core::marker::PhantomData;

/// A read end that was lifted out of its guest, whose items are `T`: it goes where the runtime carries it, and to a
/// guest again by [`Loose::lower`].
///
/// As an [`End`], it takes the store with each call, and dropping it leaves the end where it is: [`Loose::close`] drops
/// that.
///
/// ```
/// use strm::{Code, LooseStream};
/// # let (mut store, a, b, _) = strm::example()?;
/// let (mut writer, reader) = store.stream_between::<u16>(a, b)?;
/// let loose: LooseStream<u16> = reader.lift(&mut store)?;
///
/// store.put_items(a, 0, &[7u16])?;
/// assert_eq!(writer.write(&mut store, 0, 1)?, Code::Blocked);
/// let mut reader = loose.lower(&mut store, a)?; // to whom it goes knows what it passes
/// assert_eq!(reader.read(&mut store, 8, 1)?, Code::Completed(1));
/// assert_eq!(store.get_items::<u16>(a, 8, 1)?, [7]);
/// # Ok::<(), strm::Error>(())
/// ```
#[must_use = "a loose end stays until it is lowered or closed"]
pub struct Loose<K, T> {
    stream: StreamId,
    kind: PhantomData<fn() -> (K, T)>,
}

/// The loose read end of a stream of `T`.
///
/// ```
/// # let (mut store, a, b, _) = strm::example()?;
/// let (_writer, reader) = store.stream_between::<u8>(a, b)?;
/// let loose: strm::LooseStream<u8> = reader.lift(&mut store)?;
/// # Ok::<(), strm::Error>(())
/// ```
pub type LooseStream<T> = Loose<ReadStream, T>;

/// The loose read end of a future of a `T`.
///
/// ```
/// # let (mut store, a, b, _) = strm::example()?;
/// let (_writer, reader) = store.future_between::<u8>(a, b)?;
/// let loose: strm::LooseFuture<u8> = reader.lift(&mut store)?;
/// # Ok::<(), strm::Error>(())
/// ```
pub type LooseFuture<T> = Loose<ReadFuture, T>;

/// A kind of read end: [`ReadStream`] or [`ReadFuture`].
///
/// ```
/// fn carry<K: strm::ReadKind, T: strm::Item>(end: strm::End<K, T>, store: &mut strm::Store) {
///     let _ = end.lift(store);
/// }
/// ```
pub trait ReadKind: Kind {}

impl ReadKind for ReadStream {}
impl ReadKind for ReadFuture {}

impl<K: ReadKind, T: Item> End<K, T> {
    /// Takes it out of its guest.
    ///
    /// # Errors
    ///
    /// Those of [`Store::lift`]. The end comes back with the error.
    ///
    /// ```
    /// # use strm::{Error, Refusal};
    /// # let (mut store, a, b, _) = strm::example()?;
    /// let (_writer, mut reader) = store.stream_between::<u8>(a, b)?;
    /// let _ = reader.read(&mut store, 0, 1)?;
    /// let error = reader.lift(&mut store).unwrap_err();
    /// assert_eq!(error.why(), Error::Refused(Refusal::Busy));
    /// # Ok::<(), Error>(())
    /// ```
    pub fn lift(self, store: &mut Store) -> Result<Loose<K, T>, EndError<K, T>> {
        match store.lift(self.guest(), Self::TYPE, self.handle()) {
            Ok(stream) => Ok(Loose::from_raw(stream)),
            Err(why) => Err(EndError::new(self, why)),
        }
    }
}

impl<K: ReadKind, T: Item> Loose<K, T> {
    /// The loose read end of a stream, which is believed to be one of this type; [`Loose::lower`] refuses another.
    ///
    /// ```
    /// # use strm::{LooseStream, Payload, Type};
    /// # let (mut store, writer, reader, pair) = strm::example()?;
    /// let stream = store.lift(reader, Type::Stream(Payload::U8), pair.read)?;
    /// let reader = LooseStream::<u8>::from_raw(stream).lower(&mut store, writer)?;
    /// assert_eq!(reader.guest(), writer);
    /// # Ok::<(), strm::Error>(())
    /// ```
    pub const fn from_raw(stream: StreamId) -> Loose<K, T> {
        Loose {
            stream,
            kind: PhantomData,
        }
    }

    /// Its stream or future.
    ///
    /// ```
    /// # let (mut store, a, b, _) = strm::example()?;
    /// let (writer, reader) = store.future_between::<u8>(a, b)?;
    /// let loose = reader.lift(&mut store)?;
    /// assert_eq!(loose.stream(), writer.info(&store)?.stream);
    /// # Ok::<(), strm::Error>(())
    /// ```
    #[must_use]
    pub const fn stream(&self) -> StreamId {
        self.stream
    }

    /// Gives it to a guest.
    ///
    /// # Errors
    ///
    /// Those of [`Store::lower`]. The loose end comes back with the error.
    ///
    /// ```
    /// # use strm::{Error, Guest, Refusal};
    /// # let (mut store, a, b, _) = strm::example()?;
    /// let (_writer, reader) = store.stream_between::<u8>(a, b)?;
    /// let loose = reader.lift(&mut store)?;
    /// let error = loose.lower(&mut store, Guest(9)).unwrap_err();
    /// assert_eq!(error.why(), Error::Refused(Refusal::UnknownGuest));
    /// error.into_loose().lower(&mut store, b)?;
    /// # Ok::<(), Error>(())
    /// ```
    pub fn lower(self, store: &mut Store, to: Guest) -> Result<End<K, T>, LooseError<K, T>> {
        match store.lower(self.stream, to, End::<K, T>::TYPE) {
            Ok(handle) => Ok(End::from_raw(to, handle)),
            Err(why) => Err(LooseError { loose: self, why }),
        }
    }

    /// Drops it.
    ///
    /// # Errors
    ///
    /// Those of [`Store::close`].
    ///
    /// ```
    /// # let (mut store, a, b, _) = strm::example()?;
    /// let (mut writer, reader) = store.stream_between::<u8>(a, b)?;
    /// reader.lift(&mut store)?.close(&mut store)?;
    /// assert_eq!(writer.take_event(&mut store)?, Some(strm::Code::Dropped(0)));
    /// # Ok::<(), strm::Error>(())
    /// ```
    pub fn close(self, store: &mut Store) -> Result<(), Error> {
        store.close(self.stream)
    }
}

impl<K: ReadKind, T: Item> fmt::Debug for Loose<K, T> {
    fn fmt(&self, f: &mut fmt::Formatter<'_>) -> fmt::Result {
        write!(f, "Loose({self})")
    }
}

impl<K: ReadKind, T: Item> fmt::Display for Loose<K, T> {
    fn fmt(&self, f: &mut fmt::Formatter<'_>) -> fmt::Result {
        write!(f, "loose read end of {}: {}", End::<K, T>::TYPE, self.stream)
    }
}

/// Why a loose end was not lowered, and the end, as it was.
///
/// ```
/// # let (mut store, a, b, _) = strm::example()?;
/// let (_writer, reader) = store.future_between::<u8>(a, b)?;
/// let error = reader.lift(&mut store)?.lower(&mut store, strm::Guest(9)).unwrap_err();
/// assert!(error.to_string().starts_with("loose read end of future:u8: stream 1: refused: "));
/// # Ok::<(), strm::Error>(())
/// ```
pub struct LooseError<K, T> {
    loose: Loose<K, T>,
    why: Error,
}

impl<K, T> LooseError<K, T> {
    /// Why it failed.
    #[must_use]
    pub fn why(&self) -> Error {
        self.why
    }

    /// The loose end, as it was.
    pub fn into_loose(self) -> Loose<K, T> {
        self.loose
    }
}

impl<K: ReadKind, T: Item> fmt::Debug for LooseError<K, T> {
    fn fmt(&self, f: &mut fmt::Formatter<'_>) -> fmt::Result {
        f.debug_struct("LooseError")
            .field("loose", &self.loose)
            .field("why", &self.why)
            .finish()
    }
}

impl<K: ReadKind, T: Item> fmt::Display for LooseError<K, T> {
    fn fmt(&self, f: &mut fmt::Formatter<'_>) -> fmt::Result {
        write!(f, "{}: {}", self.loose, self.why)
    }
}

impl<K: ReadKind, T: Item> core::error::Error for LooseError<K, T> {
    fn source(&self) -> Option<&(dyn core::error::Error + 'static)> {
        Some(&self.why)
    }
}

impl<K, T> From<LooseError<K, T>> for Error {
    fn from(error: LooseError<K, T>) -> Error {
        error.why
    }
}
