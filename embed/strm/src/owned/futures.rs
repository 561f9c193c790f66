//! Futures.

use super::streams::closed;
use super::{Awaited, Call, Owned, ValueReceiver, ValueSender};
use crate::ends::{EndError, FutureReader, FutureWriter, ReadFuture, WriteFuture};
use crate::{Code, Error, Guest, Item, Share};
use core::future::poll_fn;
use core::task::{Context, Poll, ready};

/// A future of a `T` from one guest to another, which may be the same, each of whose ends has room for the value in
/// its guest's memory. Where the write end is dropped before it sent one, the reader gets the value given here, since
/// the Canonical ABI lets no future go without. Within one guest integers and `()` pass alone, as in a
/// [`stream`](crate::stream()).
///
/// # Errors
///
/// Those of [`Store::future_between`](crate::Store::future_between). [`Error::NoRoom`].
///
/// ```
/// use std::{cell::RefCell, rc::Rc};
/// use strm::{Error, Limits, Share, Store};
/// # use std::{future::Future, pin::pin, task::{Context, Poll, Waker}};
/// # let mut cx = Context::from_waker(Waker::noop());
///
/// let store = Rc::new(RefCell::new(Store::new(0, Limits::default())?));
/// let (a, b) = store.with(|store| Ok::<_, Error>((store.add_host(64)?, store.add_host(64)?)))?;
/// let (sender, mut receiver) = strm::future::<char, _>(&store, a, b, '?')?;
/// drop(sender);
/// let value = async move { receiver.recv().await };
/// # let Poll::Ready(value) = pin!(value).poll(&mut cx) else { unreachable!() };
/// assert_eq!(value?, '?');
/// # Ok::<(), Error>(())
/// ```
#[allow(clippy::type_complexity)] // What it answers is short by its aliases.
pub fn future<T: Item, S: Share>(
    store: &S,
    writer: Guest,
    reader: Guest,
    last: T,
) -> Result<(ValueSender<T, S>, ValueReceiver<T, S>), Error> {
    let (writer, reader) = store.with(|store| store.future_between(writer, reader))?;
    // The read end first: without it the write end can be closed.
    let receiver = ValueReceiver::new(store, reader).map_err(|error| closed(store, error));
    let sender = ValueSender::new(store, writer, last);
    match (sender, receiver) {
        (Ok(sender), receiver) => Ok((sender, receiver?)),
        (Err(error), receiver) => {
            drop(receiver);
            Err(closed(store, error))
        }
    }
}

impl<T: Item, S: Share> Owned<WriteFuture, T, S> {
    /// Owns a write end, which sends the value given here where it is dropped before it sent one.
    ///
    /// # Errors
    ///
    /// Those of [`End::info`](crate::End::info). [`Error::NoRoom`].
    ///
    /// ```
    /// use strm::{Share, ValueSender};
    /// # let (store, a, b) = strm::example_shared()?;
    /// let (writer, _reader) = store.with(|store| store.future_between::<u32>(a, b))?;
    /// let sender = ValueSender::new(&store, writer, 0)?;
    /// # Ok::<(), strm::Error>(())
    /// ```
    pub fn new(store: &S, end: FutureWriter<T>, last: T) -> Result<Self, EndError<WriteFuture, T>> {
        let owned = Owned::own(store, end, 1, 1)?;
        let (guest, address) = (owned.guest(), owned.address(1));
        match owned.with(|store| store.put_items(guest, address, &[last])) {
            Ok(()) => Ok(owned),
            Err(why) => Err(EndError::new(owned.into_end(), why)),
        }
    }

    /// Sends the value, and waits until it was received.
    ///
    /// # Errors
    ///
    /// [`Error::Closed`] where the read end is gone. Those of [`Store::future_write`](crate::Store::future_write), as
    /// where a value was sent before.
    ///
    /// ```
    /// # let (store, a, b) = strm::example_shared()?;
    /// let (mut sender, mut receiver) = strm::future::<u32, _>(&store, a, b, 0)?;
    /// let first = async {
    ///     sender.send(7).await?;
    ///     # Ok::<(), strm::Error>(())
    /// };
    /// let second = async {
    ///     assert_eq!(receiver.recv().await?, 7);
    ///     # Ok::<(), strm::Error>(())
    /// };
    /// # strm::example_run(first, second)?;
    /// # Ok::<(), strm::Error>(())
    /// ```
    pub async fn send(&mut self, value: T) -> Result<(), Error> {
        self.send_items(&[value]).await
    }

    /// Writes the value that lies at an address of its guest's memory, and waits for the code.
    ///
    /// # Errors
    ///
    /// Those of [`Store::future_write`](crate::Store::future_write). Refused with `NoPending` where another took the
    /// write or its event away.
    ///
    /// ```
    /// use strm::Code;
    /// # let (store, a, b) = strm::example_shared()?;
    /// let (mut sender, mut receiver) = strm::future::<u32, _>(&store, a, b, 0)?;
    /// let first = async {
    ///     assert_eq!(sender.write(1024).await?, Code::Completed(0));
    ///     # Ok::<(), strm::Error>(())
    /// };
    /// let second = async {
    ///     assert_eq!(receiver.read(2048).await?, Code::Completed(0));
    ///     # Ok::<(), strm::Error>(())
    /// };
    /// # strm::example_run(first, second)?;
    /// # Ok::<(), strm::Error>(())
    /// ```
    pub async fn write(&mut self, address: u32) -> Result<Code, Error> {
        self.call(Call::Given { address, count: 1 }).await
    }
}

impl<T: Item, S: Share> Owned<ReadFuture, T, S> {
    /// Owns a read end.
    ///
    /// # Errors
    ///
    /// Those of [`End::info`](crate::End::info). [`Error::NoRoom`].
    ///
    /// ```
    /// use strm::{Share, ValueReceiver};
    /// # let (store, a, b) = strm::example_shared()?;
    /// let (_writer, reader) = store.with(|store| store.future_between::<u32>(a, b))?;
    /// let receiver = ValueReceiver::new(&store, reader)?;
    /// # Ok::<(), strm::Error>(())
    /// ```
    pub fn new(store: &S, end: FutureReader<T>) -> Result<Self, EndError<ReadFuture, T>> {
        Owned::own(store, end, 1, 0)
    }

    /// Receives the value.
    ///
    /// # Errors
    ///
    /// [`Error::Closed`] where the write end is gone without one, as where its guest has ended. Those of
    /// [`Store::future_read`](crate::Store::future_read), as where it was received before.
    ///
    /// ```
    /// # let (store, a, b) = strm::example_shared()?;
    /// let (mut sender, mut receiver) = strm::future::<u32, _>(&store, a, b, 0)?;
    /// let first = async {
    ///     drop(sender); // it sends the value that it was made with
    ///     # Ok::<(), strm::Error>(())
    /// };
    /// let second = async {
    ///     assert_eq!(receiver.recv().await?, 0);
    ///     # Ok::<(), strm::Error>(())
    /// };
    /// # strm::example_run(first, second)?;
    /// # Ok::<(), strm::Error>(())
    /// ```
    pub async fn recv(&mut self) -> Result<T, Error> {
        let end = Awaited(self);
        poll_fn(|cx| end.0.poll_recv(cx)).await
    }

    /// Reads the value to an address of its guest's memory, and waits for the code.
    ///
    /// # Errors
    ///
    /// Those of [`Store::future_read`](crate::Store::future_read). Refused with `NoPending` where another took the
    /// read or its event away.
    ///
    /// ```
    /// use strm::{Code, Share};
    /// # let (store, a, b) = strm::example_shared()?;
    /// let (mut sender, mut receiver) = strm::future::<u32, _>(&store, a, b, 0)?;
    /// let first = async {
    ///     sender.send(7).await?;
    ///     # Ok::<(), strm::Error>(())
    /// };
    /// let second = async {
    ///     assert_eq!(receiver.read(2048).await?, Code::Completed(0));
    ///     assert_eq!(store.with(|store| store.get_items::<u32>(b, 2048, 1))?, [7]);
    ///     # Ok::<(), strm::Error>(())
    /// };
    /// # strm::example_run(first, second)?;
    /// # Ok::<(), strm::Error>(())
    /// ```
    pub async fn read(&mut self, address: u32) -> Result<Code, Error> {
        self.call(Call::Given { address, count: 1 }).await
    }

    /// Receives the value, as [`recv`](Self::recv) does. Where it is pending, the task is woken, and the read stays
    /// under way. For adapters.
    ///
    /// # Errors
    ///
    /// Those of `recv`.
    ///
    /// ```
    /// use std::task::{Context, Poll, Waker};
    /// # let (store, a, b) = strm::example_shared()?;
    /// let (sender, mut receiver) = strm::future::<u32, _>(&store, a, b, 5)?;
    /// let mut cx = Context::from_waker(Waker::noop());
    /// assert_eq!(receiver.poll_recv(&mut cx), Poll::Pending);
    /// drop(sender);
    /// assert_eq!(receiver.poll_recv(&mut cx), Poll::Ready(Ok(5)));
    /// # Ok::<(), strm::Error>(())
    /// ```
    pub fn poll_recv(&mut self, cx: &mut Context<'_>) -> Poll<Result<T, Error>> {
        ready!(self.poll_held(cx))?;
        Poll::Ready(self.take_held().unwrap_or(Err(Error::Closed)))
    }
}
