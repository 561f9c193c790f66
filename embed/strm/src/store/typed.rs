//! Ends that are typed by what they pass.

use crate::ends::{End, FutureReader, FutureWriter, Kind, StreamReader, StreamWriter};
use crate::{Error, Guest, Handle, Item, Pair, Store, Type};

/// Ends that are typed by what they pass.
impl Store {
    /// A stream of `T` whose two ends the guest gets. `canon stream.new`.
    ///
    /// # Errors
    ///
    /// Those of [`Store::stream_new`].
    ///
    /// ```
    /// # let (mut store, guest, _, _) = strm::example()?;
    /// let (writer, reader) = store.stream::<(u8, char)>(guest)?;
    /// assert_eq!(writer.to_string(), "write end of stream:(u8,char): guest 0, handle 3");
    /// assert_eq!(reader.guest(), guest);
    /// # Ok::<(), strm::Error>(())
    /// ```
    pub fn stream<T: Item>(&mut self, guest: Guest) -> Result<(StreamWriter<T>, StreamReader<T>), Error> {
        Ok(ends(guest, guest, self.stream_new(guest, T::PAYLOAD)?))
    }

    /// A stream of `T` from one guest to another, which may be the same.
    ///
    /// # Errors
    ///
    /// Those of [`Store::new_between`].
    ///
    /// ```
    /// # let (mut store, a, b, _) = strm::example()?;
    /// let (writer, reader) = store.stream_between::<u64>(a, b)?;
    /// assert_eq!((writer.guest(), reader.guest()), (a, b));
    /// # Ok::<(), strm::Error>(())
    /// ```
    pub fn stream_between<T: Item>(
        &mut self,
        writer: Guest,
        reader: Guest,
    ) -> Result<(StreamWriter<T>, StreamReader<T>), Error> {
        Ok(ends(
            writer,
            reader,
            self.new_between(writer, reader, Type::Stream(T::PAYLOAD))?,
        ))
    }

    /// A future of a `T` whose two ends the guest gets. `canon future.new`.
    ///
    /// # Errors
    ///
    /// Those of [`Store::future_new`].
    ///
    /// ```
    /// # let (mut store, guest, _, _) = strm::example()?;
    /// let (writer, reader) = store.future::<()>(guest)?;
    /// assert_eq!(writer.to_string(), "write end of future:none: guest 0, handle 3");
    /// # Ok::<(), strm::Error>(())
    /// ```
    pub fn future<T: Item>(&mut self, guest: Guest) -> Result<(FutureWriter<T>, FutureReader<T>), Error> {
        Ok(ends(guest, guest, self.future_new(guest, T::PAYLOAD)?))
    }

    /// A future of a `T` from one guest to another, which may be the same.
    ///
    /// # Errors
    ///
    /// Those of [`Store::new_between`].
    ///
    /// ```
    /// # let (mut store, a, b, _) = strm::example()?;
    /// let (writer, reader) = store.future_between::<bool>(a, b)?;
    /// assert_eq!((writer.guest(), reader.guest()), (a, b));
    /// # Ok::<(), strm::Error>(())
    /// ```
    pub fn future_between<T: Item>(
        &mut self,
        writer: Guest,
        reader: Guest,
    ) -> Result<(FutureWriter<T>, FutureReader<T>), Error> {
        Ok(ends(
            writer,
            reader,
            self.new_between(writer, reader, Type::Future(T::PAYLOAD))?,
        ))
    }

    /// The end that a guest has under a handle, as one that the guest made and handed over. There should be one such
    /// value of an end.
    ///
    /// # Errors
    ///
    /// Refused, in this order: `UnknownGuest`, `UnknownHandle`, `WrongKind`, `WrongType`, `WrongEnd`.
    ///
    /// ```
    /// # use strm::{Error, FutureReader, Refusal, StreamReader, StreamWriter};
    /// # let (store, _, guest, pair) = strm::example()?;
    /// let reader: StreamReader<u8> = store.end(guest, pair.read)?;
    ///
    /// let words: Result<StreamReader<u32>, _> = store.end(guest, pair.read);
    /// assert_eq!(words.unwrap_err(), Error::Refused(Refusal::WrongType));
    /// let writer: Result<StreamWriter<u8>, _> = store.end(guest, pair.read);
    /// assert_eq!(writer.unwrap_err(), Error::Refused(Refusal::WrongEnd));
    /// let future: Result<FutureReader<u8>, _> = store.end(guest, pair.read);
    /// assert_eq!(future.unwrap_err(), Error::Refused(Refusal::WrongKind));
    /// # Ok::<(), Error>(())
    /// ```
    pub fn end<K: Kind, T: Item>(&self, guest: Guest, handle: Handle) -> Result<End<K, T>, Error> {
        let end = End::from_raw(guest, handle);
        end.info(self).map(|_| end)
    }
}

fn ends<W: Kind, R: Kind, T: Item>(writer: Guest, reader: Guest, pair: Pair) -> (End<W, T>, End<R, T>) {
    (
        End::from_raw(writer, pair.write),
        End::from_raw(reader, pair.read),
    )
}
