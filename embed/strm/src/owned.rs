//! Ends that keep a share of their store, are awaited, and drop themselves.

mod futures;
mod streams;

use crate::ends::{End, EndError, Kind, ReadFuture, ReadStream, WriteFuture, WriteStream};
use crate::rooms::{Room, room_len};
use crate::store::Named;
use crate::waits::Place;
use crate::{Code, EndInfo, Error, Guest, Item, Share, Side, Store, StreamId};
use alloc::vec::Vec;
use core::fmt;
use core::future::poll_fn;
use core::ops::Range;
use core::task::{Context, Poll, ready};

pub use futures::future;
pub use streams::stream;

/// An [`End`] that keeps a share of its store: its calls need no store, are awaited, and dropping it cancels what it
/// has under way and drops the end.
///
/// - A call that waits keeps its task's waker with the store. It is woken by the call on the other end that gives
///   this one something to be told, whoever makes that call and by which names; and by a call that takes what is
///   waited for. It is not woken else, and no other task is.
/// - A call that meets a bad item answers [`Error::BadItem`], with nothing moved, and waits no more; a write that waits
///   goes on waiting where a read met its bad item. What is left is to end the guest that the error names, by
///   [`Store::end_guest`](crate::Store::end_guest).
/// - A call whose future is dropped is cancelled. What moved before stays moved: items that were received then are
///   handed out next, and [`Owned::given_up`] has the code.
/// - Once its guest has ended, by [`Store::end_guest`](crate::Store::end_guest), its calls are refused with
///   `UnknownHandle`, those that wait too, and dropping it does nothing; so too where another guest has begun under
///   the number.
/// - Whole items, as `recv` and `send` have them, lie in a room of the end's own in its guest's memory meanwhile: see
///   [`Store::add_room`](crate::Store::add_room). Without it `read` and `write` name addresses of the guest.
///
/// [`stream`] and [`future`] make two of them.
#[must_use = "dropping it drops the end"]
pub struct Owned<K: Kind, T: Item, S: Share> {
    store: S,
    end: End<K, T>,
    // How many guests had the number of its guest before that.
    life: u64,
    stream: StreamId,
    room: Room,
    // The most items that lie in the room, and those that do: received and not handed out, or not sent yet.
    capacity: u32,
    held: Range<u32>,
    under_way: Option<Call>,
    is_ended: bool,
    given_up: Option<Code>,
    is_owner: bool,
}

/// The write end of a stream of `T`, owned.
///
/// ```
/// # let (store, a, b) = strm::example_shared()?;
/// let (sender, _) = strm::stream::<u32, _>(&store, a, b, 4)?;
/// let sender: strm::Sender<u32, std::rc::Rc<std::cell::RefCell<strm::Store>>> = sender;
/// # Ok::<(), strm::Error>(())
/// ```
pub type Sender<T, S> = Owned<WriteStream, T, S>;

/// The read end of a stream of `T`, owned.
///
/// ```
/// # let (store, a, b) = strm::example_shared()?;
/// let (_, receiver) = strm::stream::<u32, _>(&store, a, b, 4)?;
/// let receiver: strm::Receiver<u32, std::rc::Rc<std::cell::RefCell<strm::Store>>> = receiver;
/// # Ok::<(), strm::Error>(())
/// ```
pub type Receiver<T, S> = Owned<ReadStream, T, S>;

/// The write end of a future of a `T`, owned.
///
/// ```
/// # let (store, a, b) = strm::example_shared()?;
/// let (sender, _) = strm::future::<u32, _>(&store, a, b, 0)?;
/// let sender: strm::ValueSender<u32, std::rc::Rc<std::cell::RefCell<strm::Store>>> = sender;
/// # Ok::<(), strm::Error>(())
/// ```
pub type ValueSender<T, S> = Owned<WriteFuture, T, S>;

/// The read end of a future of a `T`, owned.
///
/// ```
/// # let (store, a, b) = strm::example_shared()?;
/// let (_, receiver) = strm::future::<u32, _>(&store, a, b, 0)?;
/// let receiver: strm::ValueReceiver<u32, std::rc::Rc<std::cell::RefCell<strm::Store>>> = receiver;
/// # Ok::<(), strm::Error>(())
/// ```
pub type ValueReceiver<T, S> = Owned<ReadFuture, T, S>;

/// What an owned end waits for.
#[derive(Clone, Copy, Debug, PartialEq, Eq)]
enum Call {
    /// A read or write of items that lie in the room.
    Room { address: u32, count: u32 },
    /// A read or write at an address of the caller's.
    Given { address: u32, count: u32 },
    /// That the other end goes.
    End,
}

impl Call {
    fn region(self) -> Option<(u32, u32)> {
        match self {
            Call::Room { address, count } | Call::Given { address, count } => Some((address, count)),
            Call::End => None,
        }
    }
}

impl<K: Kind, T: Item, S: Share> Owned<K, T, S> {
    // With a room for so many items, and behind them for so many more that are not passed.
    fn own(store: &S, end: End<K, T>, capacity: u32, more: u32) -> Result<Self, EndError<K, T>> {
        let made = store.with(|store| {
            let stream = end.info(store)?.stream;
            let len = capacity
                .checked_add(more)
                .and_then(|count| room_len(T::SIZE, count));
            let room = store.take_room(end.guest(), len.ok_or(Error::NoRoom)?)?;
            Ok((stream, room, store.life(end.guest())))
        });
        match made {
            Err(why) => Err(EndError::new(end, why)),
            Ok((stream, room, life)) => Ok(Owned {
                store: store.clone(),
                end,
                life,
                stream,
                room,
                capacity,
                held: 0..0,
                under_way: None,
                is_ended: false,
                given_up: None,
                is_owner: true,
            }),
        }
    }

    fn named(&self) -> Named {
        self.end.named()
    }

    fn place(&self) -> Place {
        (self.stream, K::SIDE)
    }

    // Calls on the end, and in its guest's memory, which are refused once the guest has ended.
    fn with<R>(&self, calls: impl FnOnce(&mut Store) -> Result<R, Error>) -> Result<R, Error> {
        let (guest, life) = (self.guest(), self.life);
        self.store.with(|store| store.in_life(guest, life, calls))
    }

    // Where the item of this index lies.
    fn address(&self, index: u32) -> u32 {
        self.room.address + index * T::SIZE as u32
    }

    // How many items a code tells of.
    fn count(code: Code) -> u32 {
        match code {
            Code::Completed(_) if K::IS_FUTURE => 1,
            _ => code.count(),
        }
    }

    /// Its share of the store.
    ///
    /// ```
    /// use strm::Share;
    /// # let (store, a, b) = strm::example_shared()?;
    /// let (sender, _receiver) = strm::stream::<u32, _>(&store, a, b, 4)?;
    /// let moved = sender.store().with(|store| store.moved(sender.stream()));
    /// assert_eq!(moved, Some(0));
    /// # Ok::<(), strm::Error>(())
    /// ```
    pub fn store(&self) -> &S {
        &self.store
    }

    /// The guest that has it.
    ///
    /// ```
    /// # let (store, a, b) = strm::example_shared()?;
    /// let (sender, receiver) = strm::stream::<u32, _>(&store, a, b, 4)?;
    /// assert_eq!((sender.guest(), receiver.guest()), (a, b));
    /// # Ok::<(), strm::Error>(())
    /// ```
    pub fn guest(&self) -> Guest {
        self.end.guest()
    }

    /// Its stream or future.
    ///
    /// ```
    /// # let (store, a, b) = strm::example_shared()?;
    /// let (sender, receiver) = strm::stream::<u32, _>(&store, a, b, 4)?;
    /// assert_eq!(sender.stream(), receiver.stream());
    /// # Ok::<(), strm::Error>(())
    /// ```
    pub fn stream(&self) -> StreamId {
        self.stream
    }

    /// What is told of it.
    ///
    /// # Errors
    ///
    /// Those of [`End::info`].
    ///
    /// ```
    /// # let (store, a, b) = strm::example_shared()?;
    /// let (sender, receiver) = strm::stream::<u32, _>(&store, a, b, 4)?;
    /// drop(sender);
    /// assert_eq!(receiver.info()?.event, Some(strm::Code::Dropped(0)));
    /// # Ok::<(), strm::Error>(())
    /// ```
    pub fn info(&self) -> Result<EndInfo, Error> {
        self.with(|store| self.end.info(store))
    }

    /// Whether it was told that the other end is gone.
    ///
    /// ```
    /// # use std::task::Poll;
    /// # let (store, a, b) = strm::example_shared()?;
    /// let (sender, mut receiver) = strm::stream::<u32, _>(&store, a, b, 4)?;
    /// drop(sender);
    /// assert!(!receiver.is_ended()); // nobody asked yet
    /// # let recv = async {
    /// assert_eq!(receiver.recv().await?, None);
    /// assert!(receiver.is_ended());
    /// # Ok::<(), strm::Error>(()) };
    /// # let Poll::Ready(Ok(())) = strm::example_poll(recv) else { unreachable!() };
    /// # Ok::<(), strm::Error>(())
    /// ```
    pub fn is_ended(&self) -> bool {
        self.is_ended
    }

    /// What the last call that was given up had come to: how many items it moved, and whether the other end was
    /// there. None where none was given up.
    ///
    /// ```
    /// use strm::{Code, Share};
    /// # use std::{cell::RefCell, future::Future, pin::pin, rc::Rc, task::{Context, Waker}};
    /// # let mut cx = Context::from_waker(Waker::noop());
    /// # let store = Rc::new(RefCell::new(strm::Store::new(0, strm::Limits::default())?));
    /// # let host = store.with(|store| store.add_host(64))?;
    /// let (_sender, mut receiver) = strm::stream::<u32, _>(&store, host, host, 2)?;
    /// assert!(pin!(receiver.recv()).poll(&mut cx).is_pending());
    /// assert_eq!(receiver.given_up(), Some(Code::Cancelled(0)));
    /// # Ok::<(), strm::Error>(())
    /// ```
    pub fn given_up(&self) -> Option<Code> {
        self.given_up
    }

    /// The end alone, which stays where it is. What it has under way is cancelled; items that were received and not
    /// handed out are given up.
    ///
    /// ```
    /// # let (store, a, b) = strm::example_shared()?;
    /// let (sender, _receiver) = strm::stream::<u32, _>(&store, a, b, 4)?;
    /// let (guest, handle) = sender.into_end().into_raw(); // for the guest to use
    /// assert_eq!((guest, handle), (a, strm::Handle(1)));
    /// # Ok::<(), strm::Error>(())
    /// ```
    pub fn into_end(mut self) -> End<K, T> {
        self.give_up();
        self.is_owner = false;
        let _ = self.with(|store| {
            store.give_room(self.room);
            Ok(())
        });
        End::from_raw(self.end.guest(), self.end.handle())
    }

    /// Moves it to another guest, with the items that were received and not handed out; there has to be room. What it
    /// has under way is cancelled.
    ///
    /// # Errors
    ///
    /// Those of [`End::transfer`]. [`Error::NoRoom`]. It stays where it was.
    ///
    /// ```
    /// # use strm::Share;
    /// # use std::{cell::RefCell, rc::Rc};
    /// # let store = Rc::new(RefCell::new(strm::Store::new(0, strm::Limits::default())?));
    /// # let (host, other) = store.with(|store| Ok::<_, strm::Error>((store.add_host(64)?, store.add_host(64)?)))?;
    /// let (_sender, mut receiver) = strm::stream::<u32, _>(&store, host, host, 2)?;
    /// receiver.transfer(other)?;
    /// assert_eq!(receiver.guest(), other);
    /// # Ok::<(), strm::Error>(())
    /// ```
    pub fn transfer(&mut self, to: Guest) -> Result<(), Error> {
        self.give_up();
        let (named, room) = (self.named(), self.room);
        let (named, room, life) = self.with(|store| {
            let (named, room) = store.move_end(named, room, to)?;
            Ok((named, room, store.life(to)))
        })?;
        self.end = End::from_raw(named.guest, named.handle);
        self.life = life;
        self.room = room;
        Ok(())
    }

    /// Drops it, as going out of scope does, and tells what that was answered.
    ///
    /// # Errors
    ///
    /// Refused where another took the end away, its guest has ended, or it can't write its last value.
    /// [`Error::BadItem`] where another wrote over that value.
    ///
    /// ```
    /// # let (store, a, b) = strm::example_shared()?;
    /// let (sender, receiver) = strm::stream::<u32, _>(&store, a, b, 4)?;
    /// sender.close()?;
    /// receiver.close()?;
    /// # Ok::<(), strm::Error>(())
    /// ```
    pub fn close(mut self) -> Result<(), Error> {
        self.release()
    }

    fn release(&mut self) -> Result<(), Error> {
        self.give_up();
        self.is_owner = false;
        let is_value_sender = K::IS_FUTURE && K::SIDE == Side::Writing;
        let last = is_value_sender.then(|| self.address(self.capacity));
        let (named, place, room) = (self.named(), self.place(), self.room);
        self.with(|store| store.release(named, place, room, last))
    }

    // Cancels what is under way, if anything is.
    fn give_up(&mut self) {
        let Some(call) = self.under_way.take() else { return };
        let (named, place) = (self.named(), self.place());
        let code = self.with(|store| {
            store.unwait(place);
            call.region().map(|_| store.cancel(named)).transpose()
        });
        let Ok(Some(code)) = code else { return };
        self.given_up = Some(code);
        self.note(code);
        self.held = match call {
            Call::Room { .. } if K::SIDE == Side::Reading => 0..Self::count(code),
            Call::Room { .. } => 0..0,
            _ => self.held.clone(),
        };
    }

    fn note(&mut self, code: Code) {
        self.is_ended |= matches!(code, Code::Dropped(_));
    }

    // Begins a call, or goes on with it: another that is under way is given up.
    fn poll_call(&mut self, cx: &mut Context<'_>, call: Call) -> Poll<Result<Code, Error>> {
        if self.under_way != Some(call) {
            self.give_up();
        }
        let begin = call.region().filter(|_| self.under_way.is_none());
        let (named, place) = (self.named(), self.place());
        let told = self.with(|store| store.poll_end(named, place, begin, cx.waker()));
        self.under_way = matches!(told, Ok(None)).then_some(call);
        match told.transpose() {
            None => Poll::Pending,
            Some(answer) => {
                if let Ok(code) = answer {
                    self.note(code);
                }
                Poll::Ready(answer)
            }
        }
    }

    // Takes the next items that were received, so many at most.
    fn take_many(&mut self, limit: usize) -> Result<Vec<T>, Error> {
        let count = self.held.len().min(limit) as u32;
        let (guest, address) = (self.guest(), self.address(self.held.start));
        self.held.start += count;
        self.with(|store| store.get_items(guest, address, count))
    }

    // Takes the next item that was received, if one was.
    fn take_held(&mut self) -> Option<Result<T, Error>> {
        self.take_many(1)
            .map(|items| items.into_iter().next())
            .transpose()
    }

    // Waits until an item was received, or the other end is gone: whether one was.
    fn poll_held(&mut self, cx: &mut Context<'_>) -> Poll<Result<bool, Error>> {
        while self.held.is_empty() {
            if self.is_ended {
                return Poll::Ready(Ok(false));
            }
            if self.capacity == 0 {
                return Poll::Ready(Err(Error::NoRoom));
            }
            let call = Call::Room {
                address: self.room.address,
                count: self.capacity,
            };
            let code = ready!(self.poll_call(cx, call))?;
            self.held = 0..Self::count(code);
        }
        Poll::Ready(Ok(true))
    }

    // Puts as many of the items as have room there, to be sent.
    fn hold(&mut self, items: &[T]) -> Result<usize, Error> {
        if self.capacity == 0 {
            return Err(Error::NoRoom);
        }
        let count = items.len().min(self.capacity as usize);
        let (guest, address) = (self.guest(), self.room.address);
        self.with(|store| store.put_items(guest, address, &items[..count]))?;
        self.held = 0..count as u32;
        Ok(count)
    }

    // Waits until all that is to be sent was received.
    fn poll_sent(&mut self, cx: &mut Context<'_>) -> Poll<Result<(), Error>> {
        while !self.held.is_empty() {
            if self.is_ended {
                self.held = 0..0;
                return Poll::Ready(Err(Error::Closed));
            }
            let Range { start, end } = self.held;
            let call = Call::Room {
                address: self.address(start),
                count: end - start,
            };
            match ready!(self.poll_call(cx, call)) {
                Ok(code) => self.held.start += Self::count(code),
                Err(error) => {
                    self.held = 0..0;
                    return Poll::Ready(Err(error));
                }
            }
        }
        Poll::Ready(Ok(()))
    }

    // Sends items, as many at a time as have room.
    async fn send_items(&mut self, items: &[T]) -> Result<(), Error> {
        let end = Awaited(self);
        poll_fn(|cx| end.0.poll_sent(cx)).await?;
        let mut rest = items;
        while !rest.is_empty() {
            let count = end.0.hold(rest)?;
            poll_fn(|cx| end.0.poll_sent(cx)).await?;
            rest = &rest[count..];
        }
        Ok(())
    }

    // A call at an address of the caller's.
    async fn call(&mut self, call: Call) -> Result<Code, Error> {
        let end = Awaited(self);
        poll_fn(|cx| end.0.poll_call(cx, call)).await
    }
}

impl<K: Kind, T: Item, S: Share> Drop for Owned<K, T, S> {
    fn drop(&mut self) {
        if self.is_owner {
            // Nobody is there to be told of a refusal.
            let _ = self.release();
        }
    }
}

impl<K: Kind, T: Item, S: Share> fmt::Debug for Owned<K, T, S> {
    fn fmt(&self, f: &mut fmt::Formatter<'_>) -> fmt::Result {
        f.debug_struct("Owned")
            .field("end", &self.end)
            .field("stream", &self.stream)
            .field("held", &self.held)
            .field("under_way", &self.under_way)
            .field("is_ended", &self.is_ended)
            .finish_non_exhaustive()
    }
}

impl<K: Kind, T: Item, S: Share> fmt::Display for Owned<K, T, S> {
    fn fmt(&self, f: &mut fmt::Formatter<'_>) -> fmt::Result {
        self.end.fmt(f)
    }
}

/// An end whose call is awaited: where that is dropped before it is done, the call is given up.
struct Awaited<'a, K: Kind, T: Item, S: Share>(&'a mut Owned<K, T, S>);

impl<K: Kind, T: Item, S: Share> Drop for Awaited<'_, K, T, S> {
    fn drop(&mut self) {
        self.0.give_up();
    }
}
