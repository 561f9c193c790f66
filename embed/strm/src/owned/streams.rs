//! Streams.

use super::{Awaited, Call, Owned, Receiver, Sender};
use crate::ends::{EndError, ReadStream, StreamReader, StreamWriter, WriteStream};
use crate::{Code, Error, Guest, Item, Share};
use alloc::vec::Vec;
use core::future::poll_fn;
use core::task::{Context, Poll, ready};

/// A stream of `T` from one guest to another, which may be the same, each of whose ends has room for so many items in
/// its guest's memory. What is sent waits at the write end until it is read. Within one guest integers and `()` pass, and
/// other items are refused with `IntraComponent`, as the Canonical ABI has it: they need two guests.
///
/// # Errors
///
/// Those of [`Store::stream_between`](crate::Store::stream_between). [`Error::NoRoom`].
///
/// ```
/// use std::{cell::RefCell, rc::Rc};
/// use strm::{Error, Limits, Share, Store};
/// # use std::{future::Future, pin::pin, task::{Context, Poll, Waker}};
/// # let mut cx = Context::from_waker(Waker::noop());
///
/// let store = Rc::new(RefCell::new(Store::new(0, Limits::default())?));
/// let host = store.with(|store| store.add_host(4096))?;
/// let (mut sender, mut receiver) = strm::stream::<u32, _>(&store, host, host, 16)?;
///
/// let write = async move {
///     for number in 0..100 {
///         sender.send(number).await?;
///     }
///     Ok::<(), Error>(()) // the write end is dropped
/// };
/// let read = async move {
///     let mut sum = 0;
///     while let Some(number) = receiver.recv().await? {
///         sum += number;
///     }
///     Ok::<u32, Error>(sum)
/// };
/// # let (mut write, mut read) = (pin!(write), pin!(read));
/// # let mut is_written = false;
/// # let sum = loop {
/// #     is_written = is_written || write.as_mut().poll(&mut cx).is_ready();
/// #     if let Poll::Ready(sum) = read.as_mut().poll(&mut cx) { break sum }
/// # };
/// assert_eq!(sum?, 4950); // of both, run by any executor
/// # Ok::<(), Error>(())
/// ```
#[allow(clippy::type_complexity)] // What it answers is short by its aliases.
pub fn stream<T: Item, S: Share>(
    store: &S,
    writer: Guest,
    reader: Guest,
    capacity: u32,
) -> Result<(Sender<T, S>, Receiver<T, S>), Error> {
    let (writer, reader) = store.with(|store| store.stream_between(writer, reader))?;
    let sender = Sender::new(store, writer, capacity).map_err(|error| closed(store, error));
    let receiver = Receiver::new(store, reader, capacity).map_err(|error| closed(store, error));
    Ok((sender?, receiver?))
}

// An end that could not be owned is closed.
pub(super) fn closed<K: crate::Kind, T: Item, S: Share>(store: &S, error: EndError<K, T>) -> Error {
    let why = error.why();
    let _ = store.with(|store| error.into_end().close(store));
    why
}

impl<T: Item, S: Share> Owned<WriteStream, T, S> {
    /// Owns a write end, with room for so many items.
    ///
    /// # Errors
    ///
    /// Those of [`End::info`](crate::End::info). [`Error::NoRoom`].
    ///
    /// ```
    /// use strm::{Sender, Share};
    /// # let (store, a, b) = strm::example_shared()?;
    /// let (writer, _reader) = store.with(|store| store.stream_between::<u32>(a, b))?;
    /// let sender = Sender::new(&store, writer, 16)?;
    /// # Ok::<(), strm::Error>(())
    /// ```
    pub fn new(store: &S, end: StreamWriter<T>, capacity: u32) -> Result<Self, EndError<WriteStream, T>> {
        Owned::own(store, end, capacity, 0)
    }

    /// Sends an item, and waits until it was received.
    ///
    /// # Errors
    ///
    /// [`Error::Closed`] where the read end is gone, and it was not received. [`Error::NoRoom`] of an end without
    /// room. Those of [`Store::stream_write`](crate::Store::stream_write).
    ///
    /// ```
    /// # let (store, a, b) = strm::example_shared()?;
    /// let (mut sender, mut receiver) = strm::stream::<u32, _>(&store, a, b, 4)?;
    /// let first = async {
    ///     sender.send(1).await?;
    ///     sender.send(2).await?;
    ///     # Ok::<(), strm::Error>(())
    /// };
    /// let second = async {
    ///     assert_eq!(receiver.recv().await?, Some(1));
    ///     assert_eq!(receiver.recv().await?, Some(2));
    ///     # Ok::<(), strm::Error>(())
    /// };
    /// # strm::example_run(first, second)?;
    /// # Ok::<(), strm::Error>(())
    /// ```
    pub async fn send(&mut self, item: T) -> Result<(), Error> {
        self.send_items(&[item]).await
    }

    /// Sends items, and waits until all were received. Where it fails before,
    /// [`Store::moved`](crate::Store::moved) has how many the stream passed.
    ///
    /// # Errors
    ///
    /// Those of [`send`](Self::send).
    ///
    /// ```
    /// # let (store, a, b) = strm::example_shared()?;
    /// let (mut sender, mut receiver) = strm::stream::<u32, _>(&store, a, b, 4)?;
    /// let first = async {
    ///     sender.send_all(&[1, 2, 3, 4, 5, 6]).await?;
    ///     drop(sender);
    ///     # Ok::<(), strm::Error>(())
    /// };
    /// let second = async {
    ///     let mut all = Vec::new();
    ///     while receiver.recv_many(&mut all, 100).await? > 0 {}
    ///     assert_eq!(all, [1, 2, 3, 4, 5, 6]);
    ///     # Ok::<(), strm::Error>(())
    /// };
    /// # strm::example_run(first, second)?;
    /// # Ok::<(), strm::Error>(())
    /// ```
    pub async fn send_all(&mut self, items: &[T]) -> Result<(), Error> {
        self.send_items(items).await
    }

    /// Writes items that lie from an address of its guest's memory on, and waits for the code.
    ///
    /// # Errors
    ///
    /// Those of [`Store::stream_write`](crate::Store::stream_write). Refused with `NoPending` where another took the
    /// write or its event away.
    ///
    /// ```
    /// use strm::Code;
    /// # let (store, a, b) = strm::example_shared()?;
    /// let (mut sender, mut receiver) = strm::stream::<u32, _>(&store, a, b, 4)?;
    /// let first = async {
    ///     assert_eq!(sender.write(1024, 3).await?, Code::Completed(3));
    ///     # Ok::<(), strm::Error>(())
    /// };
    /// let second = async {
    ///     assert_eq!(receiver.read(2048, 8).await?, Code::Completed(3));
    ///     # Ok::<(), strm::Error>(())
    /// };
    /// # strm::example_run(first, second)?;
    /// # Ok::<(), strm::Error>(())
    /// ```
    pub async fn write(&mut self, address: u32, count: u32) -> Result<Code, Error> {
        self.call(Call::Given { address, count }).await
    }

    /// Waits until the read end is gone. Items that wait are sent before.
    ///
    /// # Errors
    ///
    /// Those of [`Store::take_event`](crate::Store::take_event), and of `send` where items wait.
    ///
    /// ```
    /// # let (store, a, b) = strm::example_shared()?;
    /// let (mut sender, mut receiver) = strm::stream::<u32, _>(&store, a, b, 4)?;
    /// let first = async {
    ///     drop(receiver);
    ///     # Ok::<(), strm::Error>(())
    /// };
    /// let second = async {
    ///     sender.closed().await?;
    ///     assert!(sender.is_ended());
    ///     # Ok::<(), strm::Error>(())
    /// };
    /// # strm::example_run(first, second)?;
    /// # Ok::<(), strm::Error>(())
    /// ```
    pub async fn closed(&mut self) -> Result<(), Error> {
        let end = Awaited(self);
        match poll_fn(|cx| end.0.poll_sent(cx)).await {
            Ok(()) | Err(Error::Closed) => {}
            Err(error) => return Err(error),
        }
        while !end.0.is_ended {
            let _ = poll_fn(|cx| end.0.poll_call(cx, Call::End)).await?;
        }
        Ok(())
    }

    /// Takes as many of the items as have room, once those before were received, and begins to send them: how many.
    /// Where it is pending, the task is woken. What was taken is sent on by [`poll_flush`](Self::poll_flush), `send`
    /// or the next of these calls, and given up where the end is dropped before. For adapters.
    ///
    /// # Errors
    ///
    /// Those of `send`, of items before or of these.
    ///
    /// ```
    /// use std::task::{Context, Poll, Waker};
    /// # let (store, a, b) = strm::example_shared()?;
    /// let (mut sender, mut receiver) = strm::stream::<u32, _>(&store, a, b, 4)?;
    /// let mut cx = Context::from_waker(Waker::noop());
    /// assert_eq!(sender.poll_send(&mut cx, &[1, 2, 3, 4, 5]), Poll::Ready(Ok(4)));
    /// assert_eq!(sender.poll_send(&mut cx, &[5]), Poll::Pending); // no room yet
    /// assert_eq!(receiver.poll_recv(&mut cx), Poll::Ready(Ok(Some(1))));
    /// assert_eq!(sender.poll_send(&mut cx, &[5]), Poll::Ready(Ok(1)));
    /// # Ok::<(), strm::Error>(())
    /// ```
    pub fn poll_send(&mut self, cx: &mut Context<'_>, items: &[T]) -> Poll<Result<usize, Error>> {
        ready!(self.poll_sent(cx))?;
        if items.is_empty() {
            return Poll::Ready(Ok(0));
        }
        let count = self.hold(items)?;
        match self.poll_sent(cx) {
            Poll::Ready(Err(error)) => Poll::Ready(Err(error)),
            _ => Poll::Ready(Ok(count)),
        }
    }

    /// Takes as many of the items as have room, and leaves it to [`poll_flush`](Self::poll_flush), `send` or the next of
    /// these calls to send them: how many. For adapters.
    ///
    /// # Errors
    ///
    /// [`Error::NoRoom`] of an end without room, and where items that were taken before are not received yet.
    ///
    /// ```
    /// use std::task::{Context, Poll, Waker};
    /// # let (store, a, b) = strm::example_shared()?;
    /// let (mut sender, mut receiver) = strm::stream::<u32, _>(&store, a, b, 4)?;
    /// assert_eq!(sender.start_send(&[1])?, 1);
    /// assert_eq!(sender.start_send(&[2]), Err(strm::Error::NoRoom));
    /// # Ok::<(), strm::Error>(())
    /// ```
    pub fn start_send(&mut self, items: &[T]) -> Result<usize, Error> {
        if self.held.is_empty() {
            self.hold(items)
        } else {
            Err(Error::NoRoom)
        }
    }

    /// Waits until all items that were taken were received. For adapters.
    ///
    /// # Errors
    ///
    /// Those of `send`.
    ///
    /// ```
    /// use std::task::{Context, Poll, Waker};
    /// # let (store, a, b) = strm::example_shared()?;
    /// let (mut sender, mut receiver) = strm::stream::<u32, _>(&store, a, b, 4)?;
    /// let mut cx = Context::from_waker(Waker::noop());
    /// sender.start_send(&[1])?;
    /// assert_eq!(sender.poll_flush(&mut cx), Poll::Pending);
    /// assert_eq!(receiver.poll_recv(&mut cx), Poll::Ready(Ok(Some(1))));
    /// assert_eq!(sender.poll_flush(&mut cx), Poll::Ready(Ok(())));
    /// # Ok::<(), strm::Error>(())
    /// ```
    pub fn poll_flush(&mut self, cx: &mut Context<'_>) -> Poll<Result<(), Error>> {
        self.poll_sent(cx)
    }
}

impl<T: Item, S: Share> Owned<ReadStream, T, S> {
    /// Owns a read end, with room for so many items.
    ///
    /// # Errors
    ///
    /// Those of [`End::info`](crate::End::info). [`Error::NoRoom`].
    ///
    /// ```
    /// use strm::{Receiver, Share};
    /// # let (store, a, b) = strm::example_shared()?;
    /// let (_writer, reader) = store.with(|store| store.stream_between::<u32>(a, b))?;
    /// let receiver = Receiver::new(&store, reader, 16)?;
    /// # Ok::<(), strm::Error>(())
    /// ```
    pub fn new(store: &S, end: StreamReader<T>, capacity: u32) -> Result<Self, EndError<ReadStream, T>> {
        Owned::own(store, end, capacity, 0)
    }

    /// Receives the next item; none where the write end is gone and all were received.
    ///
    /// # Errors
    ///
    /// [`Error::NoRoom`] of an end without room. Those of [`Store::stream_read`](crate::Store::stream_read).
    /// [`Error::NotAnItem`] where another wrote into its room.
    ///
    /// ```
    /// # let (store, a, b) = strm::example_shared()?;
    /// let (mut sender, mut receiver) = strm::stream::<u32, _>(&store, a, b, 4)?;
    /// let first = async {
    ///     sender.send(1).await?;
    ///     drop(sender);
    ///     # Ok::<(), strm::Error>(())
    /// };
    /// let second = async {
    ///     assert_eq!(receiver.recv().await?, Some(1));
    ///     assert_eq!(receiver.recv().await?, None);
    ///     # Ok::<(), strm::Error>(())
    /// };
    /// # strm::example_run(first, second)?;
    /// # Ok::<(), strm::Error>(())
    /// ```
    pub async fn recv(&mut self) -> Result<Option<T>, Error> {
        let end = Awaited(self);
        poll_fn(|cx| end.0.poll_recv(cx)).await
    }

    /// Receives what is there, one item at least and so many at most: how many were put behind the others, and 0 where
    /// the write end is gone and all were received.
    ///
    /// # Errors
    ///
    /// Those of [`recv`](Self::recv).
    ///
    /// ```
    /// # let (store, a, b) = strm::example_shared()?;
    /// let (mut sender, mut receiver) = strm::stream::<u32, _>(&store, a, b, 4)?;
    /// let first = async {
    ///     sender.send_all(&[1, 2, 3]).await?;
    ///     # Ok::<(), strm::Error>(())
    /// };
    /// let second = async {
    ///     let mut items = vec![0];
    ///     assert_eq!(receiver.recv_many(&mut items, 2).await?, 2);
    ///     assert_eq!(items, [0, 1, 2]);
    ///     # Ok::<(), strm::Error>(())
    /// };
    /// # strm::example_run(first, second)?;
    /// # Ok::<(), strm::Error>(())
    /// ```
    pub async fn recv_many(&mut self, items: &mut Vec<T>, limit: usize) -> Result<usize, Error> {
        let end = Awaited(self);
        poll_fn(|cx| end.0.poll_held(cx)).await?;
        let held = end.0.take_many(limit)?;
        let count = held.len();
        items.extend(held);
        Ok(count)
    }

    /// Reads so many items at most to an address of its guest's memory on, and waits for the code. Items that `recv`
    /// has not handed out yet come before these.
    ///
    /// # Errors
    ///
    /// Those of [`Store::stream_read`](crate::Store::stream_read). Refused with `NoPending` where another took the
    /// read or its event away.
    ///
    /// ```
    /// use strm::{Code, Share};
    /// # let (store, a, b) = strm::example_shared()?;
    /// let (mut sender, mut receiver) = strm::stream::<u32, _>(&store, a, b, 4)?;
    /// let first = async {
    ///     sender.send(7).await?;
    ///     # Ok::<(), strm::Error>(())
    /// };
    /// let second = async {
    ///     assert_eq!(receiver.read(2048, 8).await?, Code::Completed(1));
    ///     assert_eq!(store.with(|store| store.get_items::<u32>(b, 2048, 1))?, [7]);
    ///     # Ok::<(), strm::Error>(())
    /// };
    /// # strm::example_run(first, second)?;
    /// # Ok::<(), strm::Error>(())
    /// ```
    pub async fn read(&mut self, address: u32, count: u32) -> Result<Code, Error> {
        self.call(Call::Given { address, count }).await
    }

    /// Receives the next item, as [`recv`](Self::recv) does. Where it is pending, the task is woken, and the read
    /// stays under way. For adapters.
    ///
    /// # Errors
    ///
    /// Those of `recv`.
    ///
    /// ```
    /// use std::task::{Context, Poll, Waker};
    /// # let (store, a, b) = strm::example_shared()?;
    /// let (mut sender, mut receiver) = strm::stream::<u32, _>(&store, a, b, 4)?;
    /// let mut cx = Context::from_waker(Waker::noop());
    /// assert_eq!(receiver.poll_recv(&mut cx), Poll::Pending);
    /// assert_eq!(sender.poll_send(&mut cx, &[9]), Poll::Ready(Ok(1)));
    /// assert_eq!(receiver.poll_recv(&mut cx), Poll::Ready(Ok(Some(9))));
    /// # Ok::<(), strm::Error>(())
    /// ```
    pub fn poll_recv(&mut self, cx: &mut Context<'_>) -> Poll<Result<Option<T>, Error>> {
        ready!(self.poll_held(cx))?;
        Poll::Ready(self.take_held().transpose())
    }

    /// Receives what is there into the first of these, as [`recv_many`](Self::recv_many) does. For adapters.
    ///
    /// # Errors
    ///
    /// Those of `recv`.
    ///
    /// ```
    /// use std::task::{Context, Poll, Waker};
    /// # let (store, a, b) = strm::example_shared()?;
    /// let (mut sender, mut receiver) = strm::stream::<u32, _>(&store, a, b, 4)?;
    /// let mut cx = Context::from_waker(Waker::noop());
    /// let mut items = [0; 2];
    /// assert_eq!(sender.poll_send(&mut cx, &[7, 8, 9]), Poll::Ready(Ok(3)));
    /// assert_eq!(receiver.poll_recv_into(&mut cx, &mut items), Poll::Ready(Ok(2)));
    /// assert_eq!(items, [7, 8]);
    /// # Ok::<(), strm::Error>(())
    /// ```
    pub fn poll_recv_into(&mut self, cx: &mut Context<'_>, items: &mut [T]) -> Poll<Result<usize, Error>> {
        ready!(self.poll_held(cx))?;
        let held = self.take_many(items.len())?;
        let count = held.len();
        items.iter_mut().zip(held).for_each(|(item, held)| *item = held);
        Poll::Ready(Ok(count))
    }
}
