//! Guests that end, and guests that begin under their numbers: whoever waits is told, what was kept of a guest that has
//! ended is of none, and nothing of it reaches the next.

mod tasks;

use std::cell::Cell;
use std::future::Future;
use std::pin::pin;
use std::ptr::NonNull;
use std::task::{Context, Poll, Waker};
use strm::{
    Code, Error, Guest, GuestLimits, Memory, Pair, Payload, Receiver, Refusal, Sender, Share, Store, Type,
    ValueReceiver, ValueSender,
};
use tasks::{Draws, Shared, Tasks, handles, hosts, step};

const NO_HANDLE: Error = Error::Refused(Refusal::UnknownHandle);

const SIZE: u32 = 65536;

fn poll_once<R>(call: impl Future<Output = R>) -> Poll<R> {
    pin!(call).poll(&mut Context::from_waker(Waker::noop()))
}

fn ready<R>(call: impl Future<Output = R>) -> R {
    match poll_once(call) {
        Poll::Ready(result) => result,
        Poll::Pending => panic!("it waits"),
    }
}

// A guest ends, and another begins under its number, with room for items.
fn replace(store: &Shared, guest: Guest) {
    store.with(|store| {
        store.end_guest(guest).unwrap();
        store.begin_guest(guest, SIZE).unwrap();
        store.add_room(guest, 0..SIZE).unwrap();
    });
}

fn two() -> (Store, Guest, Guest, Pair) {
    strm::example().expect("two guests and a stream")
}

#[test]
fn each_end_is_cancelled_and_dropped() {
    let (mut store, guest, peer, bytes) = two();
    let value = store
        .new_between(guest, peer, Type::Future(Payload::U32))
        .unwrap();
    let words = store
        .new_between(peer, guest, Type::Stream(Payload::U64))
        .unwrap();
    let (set, within) = (
        store.set_new(guest).unwrap(),
        store.stream_new(guest, Payload::U8).unwrap(),
    );
    store.set_join(guest, set, bytes.write).unwrap();
    store.error_context_new(guest, 0, 4).unwrap();
    assert_eq!(
        store.stream_write(guest, Payload::U8, bytes.write, 0, 5),
        Ok(Code::Blocked)
    );
    assert_eq!(
        store.stream_read(peer, Payload::U8, bytes.read, 0, 3),
        Ok(Code::Completed(3))
    );
    assert_eq!(
        store.stream_read(guest, Payload::U8, within.read, 0, 3),
        Ok(Code::Blocked)
    );
    assert_eq!(
        store.stream_write(peer, Payload::U64, words.write, 0, 1),
        Ok(Code::Blocked)
    );
    assert_eq!(
        store.future_read(peer, Payload::U32, value.read, 0),
        Ok(Code::Blocked)
    );
    store.end_guest(guest).unwrap();
    let told = |store: &mut Store, handle| store.take_event(peer, handle);
    for handle in [bytes.read, words.write, value.read] {
        assert_eq!(told(&mut store, handle), Ok(Some(Code::Dropped(0))));
    }
    assert_eq!(
        (store.moved(bytes.stream), store.handle_count(guest)),
        (Some(3), Ok(0))
    );
    assert_eq!(store.memory(guest), Ok(&[][..]));
    store
        .future_drop_readable(peer, Payload::U32, value.read)
        .unwrap();
    assert_eq!(
        store.end_guest(Guest(7)),
        Err(Error::Refused(Refusal::UnknownGuest))
    );
}

#[test]
fn ends_of_a_guest_that_has_ended_are_none() {
    let (mut store, guest, peer, _) = two();
    let (mut writer, _) = store.stream_between::<u8>(guest, peer).unwrap();
    let (_, mut reader) = store.future_between::<char>(peer, guest).unwrap();
    let set = store.set_new(guest).unwrap();
    store.end_guest(guest).unwrap();
    // No item lies in a memory that is gone; of none the handle is looked at.
    assert_eq!(
        writer.write(&mut store, 0, 1),
        Err(Error::Refused(Refusal::OutOfBounds))
    );
    assert_eq!(writer.write(&mut store, 0, 0), Err(NO_HANDLE));
    assert_eq!(writer.take_event(&mut store), Err(NO_HANDLE));
    assert_eq!(writer.cancel(&mut store), Err(NO_HANDLE));
    assert_eq!(writer.join(&mut store, set), Err(NO_HANDLE));
    assert_eq!(writer.transfer(&mut store, peer), Err(NO_HANDLE));
    assert_eq!(writer.info(&store), Err(NO_HANDLE));
    assert_eq!(
        reader.read(&mut store, 0),
        Err(Error::Refused(Refusal::OutOfBounds))
    );
    assert_eq!(reader.take_event(&mut store), Err(NO_HANDLE));
    assert_eq!(
        reader.close(&mut store).map_err(|error| error.why()),
        Err(NO_HANDLE)
    );
    assert_eq!(store.set_poll(guest, set), Err(NO_HANDLE));
}

#[test]
fn a_number_is_of_the_next_guest() {
    let (mut store, guest, peer, pair) = two();
    let limits = GuestLimits {
        handles: 3,
        ends: 2,
        bytes: 4096,
    };
    store.set_guest_limits(guest, limits).unwrap();
    assert_eq!(store.begin_guest(guest, 64), Err(Error::InUse));
    store.end_guest(guest).unwrap();
    assert_eq!(
        store.begin_guest(Guest(7), u32::MAX),
        Err(Error::Refused(Refusal::UnknownGuest))
    );
    assert_eq!(
        store.begin_guest(guest, u32::MAX),
        Err(Error::Refused(Refusal::MemoryTooBig))
    );
    store.begin_guest(guest, 64).unwrap();
    assert_eq!(store.begin_guest(guest, u32::MAX), Err(Error::InUse));
    assert_eq!(store.guest_limits(guest), Ok(limits));
    store.stream_drop_readable(peer, Payload::U8, pair.read).unwrap();
    // Its handles begin with 1, and the number of a stream that is gone is given again.
    assert_eq!(
        store.new_between(guest, peer, Type::Stream(Payload::U8)),
        Ok(pair)
    );
    store.memory_mut(guest).unwrap()[0] = 7;
    assert_eq!(
        store.stream_write(guest, Payload::U8, pair.write, 0, 1),
        Ok(Code::Blocked)
    );
    assert_eq!(
        store.stream_read(peer, Payload::U8, pair.read, 9, 1),
        Ok(Code::Completed(1))
    );
    assert_eq!(store.memory(peer).unwrap()[9], 7);
}

#[test]
fn a_guest_without_bytes_is_free_until_it_has_something() {
    let (mut store, _, _, _) = two();
    let guest = store.add_guest(0).unwrap();
    store.begin_guest(guest, 0).unwrap();
    store.set_new(guest).unwrap();
    assert_eq!(store.begin_guest(guest, 0), Err(Error::InUse));
    store.end_guest(guest).unwrap();
    store.begin_guest_with(guest, Memory::from(vec![0u8; 0])).unwrap();
    assert_eq!(store.begin_guest(guest, 0), Err(Error::InUse));
}

#[test]
fn a_memory_goes_with_its_guest() {
    let (mut store, writer, _, _) = two();
    let guest = store
        .add_guest_with(Memory::mapped(64, 1 << 30).unwrap())
        .unwrap();
    for size in [8, 4096, 0] {
        store.grow_memory(guest, 100_000).unwrap();
        let pair = store
            .new_between(writer, guest, Type::Stream(Payload::U8))
            .unwrap();
        let len = store.memory(guest).unwrap().len() as u32;
        assert_eq!(
            store.stream_read(guest, Payload::U8, pair.read, 0, len),
            Ok(Code::Blocked)
        );
        store.end_guest(guest).unwrap();
        assert_eq!(store.grow_memory(guest, 1), Err(Error::NotLent));
        assert_eq!(
            store.stream_write(writer, Payload::U8, pair.write, 0, 8),
            Ok(Code::Dropped(0))
        );
        store
            .stream_drop_writable(writer, Payload::U8, pair.write)
            .unwrap();
        store
            .begin_guest_with(guest, Memory::from(vec![7u8; size]))
            .unwrap();
        assert_eq!(store.memory(guest).unwrap(), vec![7; size]);
    }
}

#[test]
fn bytes_that_were_lent_are_the_hosts_again() {
    let (mut store, writer, _, _) = two();
    let (mut first, mut second) = (vec![1u8; 64], [2u8; 64]);
    // SAFETY: the bytes stay where they are, and are the store's alone, until the guest has ended.
    let guest = unsafe { store.add_guest_at(NonNull::from(&mut first[..]).cast(), 64) }.unwrap();
    let pair = store
        .new_between(writer, guest, Type::Stream(Payload::U8))
        .unwrap();
    assert_eq!(
        store.stream_read(guest, Payload::U8, pair.read, 0, 64),
        Ok(Code::Blocked)
    );
    store.end_guest(guest).unwrap();
    assert_eq!(first, [1; 64]);
    drop(first);
    assert_eq!(
        store.stream_write(writer, Payload::U8, pair.write, 0, 64),
        Ok(Code::Dropped(0))
    );
    // SAFETY: the same, until the store is gone.
    unsafe { store.begin_guest_at(guest, NonNull::from(&mut second).cast(), 64) }.unwrap();
    assert_eq!(store.memory(guest).unwrap(), [2; 64]);
    drop(store);
    assert_eq!(second, [2; 64]);
}

#[test]
fn an_owned_end_says_nothing_to_the_next_guest() {
    let (store, [a, b]) = hosts();
    let (mut sender, mut receiver) = strm::stream::<u8, _>(&store, a, b, 4).unwrap();
    assert_eq!(sender.start_send(&[1, 2, 3]), Ok(3));
    replace(&store, a);
    assert_eq!(ready(receiver.recv()), Ok(None));
    drop(receiver);
    // The next guest has a stream of the same number under the same handle, and the same room for its items.
    let (mut next, mut beside) = strm::stream::<u8, _>(&store, a, b, 4).unwrap();
    assert_eq!(next.to_string(), sender.to_string());
    assert_eq!(next.stream(), sender.stream());
    assert_eq!(next.start_send(&[7, 8, 9]), Ok(3));
    assert!(
        next.poll_flush(&mut Context::from_waker(Waker::noop()))
            .is_pending()
    );
    assert_eq!(ready(sender.send(4)), Err(NO_HANDLE));
    assert_eq!(sender.start_send(&[4]), Err(NO_HANDLE));
    assert_eq!(ready(sender.write(0, 1)), Err(NO_HANDLE));
    assert_eq!(ready(sender.closed()), Err(NO_HANDLE));
    assert_eq!(sender.info(), Err(NO_HANDLE));
    assert_eq!(sender.transfer(b), Err(NO_HANDLE));
    assert_eq!(sender.close(), Err(NO_HANDLE));
    for item in [7, 8, 9] {
        assert_eq!(ready(beside.recv()), Ok(Some(item)));
    }
    // An end that moved is of the guest that has it.
    next.transfer(b).unwrap();
    replace(&store, a);
    assert!(next.info().is_ok());
}

#[test]
fn one_that_waits_is_woken_and_leaves_the_next_ones_waker() {
    let (store, [a, b]) = hosts();
    let (sender, mut receiver) = strm::stream::<u8, _>(&store, a, b, 4).unwrap();
    let mut tasks = Tasks::default();
    let late = tasks.spawn(async move {
        assert_eq!(receiver.recv().await, Err(NO_HANDLE));
        // It is dropped after the next guest's end waits.
        step().await;
        drop(receiver);
        Ok(())
    });
    assert_eq!(tasks.run(), [late]);
    replace(&store, b);
    drop(sender);
    let (mut sender, mut receiver) = strm::stream::<u8, _>(&store, a, b, 4).unwrap();
    let next = tasks.spawn(async move {
        assert_eq!(receiver.recv().await, Ok(Some(5)));
        Ok(())
    });
    assert_eq!(tasks.run(), [next]);
    assert_eq!(ready(sender.send(5)), Ok(()));
    assert!(tasks.run().is_empty(), "the wake was missed");
}

#[test]
fn a_value_that_never_comes() {
    let (store, [a, b]) = hosts();
    let (sender, mut receiver) = strm::future::<u32, _>(&store, a, b, 9).unwrap();
    let mut tasks = Tasks::default();
    tasks.spawn(async move {
        assert_eq!(receiver.recv().await, Err(Error::Closed));
        Ok(())
    });
    assert_eq!(tasks.run(), [0]);
    replace(&store, a);
    assert!(tasks.run().is_empty(), "the wake was missed");
    assert_eq!(sender.close(), Err(NO_HANDLE));
}

#[test]
fn a_value_that_was_left_goes_with_either_guest() {
    let (store, [a, b]) = hosts();
    let (sender, mut receiver) = strm::future::<u32, _>(&store, a, b, 9).unwrap();
    drop(sender);
    replace(&store, a);
    assert_eq!(ready(receiver.recv()), Err(Error::Closed));
    drop(receiver);
    let (sender, receiver) = strm::future::<u32, _>(&store, a, b, 9).unwrap();
    drop(sender);
    replace(&store, b);
    assert_eq!(receiver.close(), Err(NO_HANDLE));
    assert_eq!(handles(&store, &[a, b]), 0);
    // All of either memory is free.
    let ends = strm::stream::<u8, _>(&store, a, b, SIZE);
    assert!(ends.is_ok());
}

#[test]
fn a_task_that_waits_for_a_set_of_a_guest_that_ends() {
    let (store, [a, b]) = hosts();
    let set = store.with(|store| store.set_new(b)).unwrap();
    let mut tasks = Tasks::default();
    let waits = tasks.spawn({
        let store = store.clone();
        async move {
            assert_eq!(strm::set_wait(&store, b, set).await, Err(NO_HANDLE));
            Ok(())
        }
    });
    assert_eq!(tasks.run(), [waits]);
    replace(&store, b);
    // The next guest's set has the same handle, and something to tell, which is not taken from it.
    let reader = store.with(|store| {
        assert_eq!(store.set_new(b), Ok(set));
        let (writer, reader) = store.stream_between::<u8>(a, b).unwrap();
        reader.join(store, set).unwrap();
        writer.close(store).unwrap();
        reader
    });
    assert!(tasks.run().is_empty(), "the wake was missed");
    let told = store.with(|store| store.set_poll(b, set)).unwrap();
    assert_eq!(told.map(|told| told.handle), Some(reader.handle()));
}

// Sends so many items, and waits until the other end is gone; it may be refused at any time.
async fn sends(mut sender: Sender<u32, Shared>, first: u32, count: u32) -> Result<(), Error> {
    for number in first..first + count {
        if sender.send(number).await.is_err() {
            return Ok(());
        }
    }
    let _ = sender.closed().await;
    Ok(())
}

async fn receives(
    mut receiver: Receiver<u32, Shared>,
    first: u32,
    received: &Cell<u32>,
) -> Result<(), Error> {
    let mut next = first;
    while let Ok(Some(number)) = receiver.recv().await {
        assert_eq!(number, next);
        received.set(received.get() + 1);
        next += 1;
    }
    Ok(())
}

async fn receives_a_value(
    mut receiver: ValueReceiver<u32, Shared>,
    value: u32,
    received: &Cell<u32>,
) -> Result<(), Error> {
    if let Ok(number) = receiver.recv().await {
        assert_eq!(number, value);
        received.set(received.get() + 1);
    }
    Ok(())
}

// Of a stream or future between two guests each end gets a task, or is left to its guest.
fn begin<'a>(
    tasks: &mut Tasks<'a>,
    draws: &mut Draws,
    store: &Shared,
    [a, b]: [Guest; 2],
    first: u32,
    received: &'a Cell<u32>,
) {
    let mut is_left = || draws.below(3) == 0;
    if is_left() {
        let (sender, receiver): (ValueSender<u32, _>, _) = strm::future(store, a, b, first).unwrap();
        if is_left() {
            let _ = sender.into_end();
        }
        if is_left() {
            let _ = receiver.into_end();
        } else {
            tasks.spawn(receives_a_value(receiver, first, received));
        }
        return;
    }
    let (sender, receiver) = strm::stream::<u32, _>(store, a, b, 2).unwrap();
    if is_left() {
        let _ = sender.into_end();
    } else {
        tasks.spawn(sends(sender, first, 5));
    }
    if is_left() {
        let _ = receiver.into_end();
    } else {
        tasks.spawn(receives(receiver, first, received));
    }
}

#[test]
fn no_wake_is_missed_and_no_item_goes_astray() {
    let received = Cell::new(0);
    for seed in 1..60 {
        let (store, guests) = hosts::<3>();
        let mut draws = Draws(seed);
        let mut tasks = Tasks::default();
        for round in 0..100 {
            let ends = [guests[draws.below(3)], guests[draws.below(3)]];
            match draws.below(6) {
                0 => replace(&store, ends[0]),
                _ => begin(&mut tasks, &mut draws, &store, ends, round * 10, &received),
            }
            // Who waits on would do so too if it were asked.
            let waiting = tasks.run();
            waiting.iter().for_each(|number| tasks.disturb(*number));
            assert_eq!(tasks.run(), waiting, "seed {seed}: a wake was missed");
        }
        guests.iter().for_each(|guest| replace(&store, *guest));
        assert!(tasks.run().is_empty(), "seed {seed}: a wake was missed");
        assert_eq!(handles(&store, &guests), 0);
    }
    assert!(received.get() > 1000);
}
