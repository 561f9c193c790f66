//! Each task is woken when its end has something to be told, whoever makes the call that says so, and no other is.

mod tasks;

use std::sync::Arc;
use std::sync::atomic::{AtomicUsize, Ordering::Relaxed};
use std::task::{Context, Wake, Waker};
use strm::{BadItem, Code, Error, Guest, Payload, Receiver, Refusal, Sender, Share, Type};
use tasks::{Shared, Tasks, handles, hosts};

type Bytes = (Sender<u8, Shared>, Receiver<u8, Shared>);

// A task that waits for one item, and finds this.
async fn waits_for(
    mut receiver: Receiver<u8, Shared>,
    wanted: Result<Option<u8>, Error>,
) -> Result<(), Error> {
    assert_eq!(receiver.recv().await, wanted);
    Ok(())
}

// A reader waits, a call is made, and the reader is woken by it.
fn is_woken_by(
    wanted: Result<Option<u8>, Error>,
    call: impl FnOnce(&Shared, [Guest; 3], Sender<u8, Shared>),
) {
    let (store, guests) = hosts::<3>();
    let (sender, receiver): Bytes = strm::stream(&store, guests[0], guests[1], 1).unwrap();
    let mut tasks = Tasks::default();
    tasks.spawn(waits_for(receiver, wanted));
    assert_eq!(tasks.run(), [0]);
    call(&store, guests, sender);
    assert!(tasks.run().is_empty(), "the wake was missed");
}

#[test]
fn by_a_write_of_numbers() {
    is_woken_by(Ok(Some(7)), |store, [writer, ..], sender| {
        let (guest, handle) = sender.into_end().into_raw();
        assert_eq!(guest, writer);
        store.borrow_mut().memory_mut(writer).unwrap()[100] = 7;
        let code = store
            .borrow_mut()
            .stream_write(writer, Payload::U8, handle, 100, 1);
        assert_eq!(code, Ok(Code::Completed(1)));
    });
}

#[test]
fn by_a_dropped_end() {
    is_woken_by(Ok(None), |_, _, sender| drop(sender));
}

#[test]
fn by_an_end_that_moved() {
    is_woken_by(Ok(Some(9)), |store, [.., third], mut sender| {
        sender.transfer(third).unwrap();
        let mut writer = sender.into_end();
        assert_eq!(writer.guest(), third);
        store.with(|store| {
            store.put_items(third, 8, &[9u8]).unwrap();
            assert_eq!(writer.write(store, 8, 1), Ok(Code::Completed(1)));
        });
    });
}

#[test]
fn by_a_guest_that_ends() {
    is_woken_by(Ok(None), |store, [writer, ..], sender| {
        assert_eq!(store.with(|store| store.end_guest(writer)), Ok(()));
        // The sender finds its end gone, and says nothing.
        assert_eq!(sender.close(), Err(Error::Refused(Refusal::UnknownHandle)));
    });
}

#[test]
fn by_a_guest_that_ends_with_the_end_that_waits() {
    is_woken_by(
        Err(Error::Refused(Refusal::UnknownHandle)),
        |store, [_, reader, _], sender| {
            assert_eq!(store.with(|store| store.end_guest(reader)), Ok(()));
            assert_eq!(sender.info().unwrap().event, Some(Code::Dropped(0)));
        },
    );
}

#[test]
fn by_the_end_of_a_guest_that_writes_a_bad_item() {
    is_woken_by(Ok(None), |store, [writer, reader, _], _sender| {
        store.with(|store| {
            let pair = store
                .new_between(writer, reader, Type::Stream(Payload::CHAR))
                .unwrap();
            store.put_items(writer, 0, &[0xd800u32]).unwrap();
            let _ = store.stream_write(writer, Payload::CHAR, pair.write, 0, 1);
            let code = store.stream_read(reader, Payload::CHAR, pair.read, 0, 1);
            let item = BadItem {
                guest: writer,
                handle: pair.write,
                index: 0,
            };
            assert_eq!(code, Err(Error::BadItem(item)));
            assert_eq!(store.end_guest(item.guest), Ok(()));
        });
    });
}

#[test]
fn by_another_who_cancels() {
    is_woken_by(Err(Error::Refused(Refusal::NoPending)), |store, _, sender| {
        let strm::OtherEnd::Guest { guest, handle } = sender.info().unwrap().other else {
            unreachable!()
        };
        let code = store.with(|store| store.stream_cancel_read(guest, Payload::U8, handle));
        assert_eq!(code, Ok(Code::Cancelled(0)));
    });
}

#[test]
fn by_another_who_polls_a_set() {
    is_woken_by(Err(Error::Refused(Refusal::NoPending)), |store, _, sender| {
        let strm::OtherEnd::Guest { guest, handle } = sender.info().unwrap().other else {
            unreachable!()
        };
        let (writer, write) = sender.into_end().into_raw();
        store.with(|store| {
            let set = store.set_new(guest).unwrap();
            store.set_join(guest, set, handle).unwrap();
            assert_eq!(
                store.stream_write(writer, Payload::U8, write, 0, 1),
                Ok(Code::Completed(1))
            );
            assert_eq!(
                store.set_poll(guest, set).unwrap().map(|told| told.code),
                Some(Code::Completed(1))
            );
        });
    });
}

#[test]
fn a_writer_by_a_loose_end_that_is_closed() {
    let (store, [a, b]) = hosts();
    let (mut sender, receiver): Bytes = strm::stream(&store, a, b, 4).unwrap();
    let mut tasks = Tasks::default();
    tasks.spawn(async move {
        assert_eq!(sender.send(1).await, Err(Error::Closed));
        Ok(())
    });
    assert_eq!(tasks.run(), [0]);
    let (guest, handle) = receiver.into_end().into_raw();
    let stream = store
        .with(|store| store.lift(guest, Type::Stream(Payload::U8), handle))
        .unwrap();
    assert_eq!(tasks.run(), [0]);
    store.with(|store| store.close(stream)).unwrap();
    assert!(tasks.run().is_empty());
    assert_eq!(handles(&store, &[a, b]), 0);
}

#[test]
fn a_writer_of_nothing_by_a_read() {
    let (store, [a, b]) = hosts();
    let (mut sender, receiver): Bytes = strm::stream(&store, a, b, 4).unwrap();
    let mut tasks = Tasks::default();
    tasks.spawn(async move {
        assert_eq!(sender.write(0, 0).await, Ok(Code::Completed(0)));
        sender.closed().await
    });
    assert_eq!(tasks.run(), [0]);
    let mut reader = receiver.into_end();
    let code = store.with(|store| reader.read(store, 0, 1));
    assert_eq!(code, Ok(Code::Blocked));
    assert_eq!(tasks.run(), [0]);
    assert_eq!(tasks.polls(), 2);
    store.with(|store| reader.close(store)).unwrap();
    assert!(tasks.run().is_empty());
}

#[test]
fn a_reader_by_the_last_value() {
    let (store, [a, b]) = hosts();
    let (sender, mut receiver) = strm::future(&store, a, b, 'x').unwrap();
    let mut tasks = Tasks::default();
    tasks.spawn(async move {
        assert_eq!(receiver.recv().await, Ok('x'));
        Ok(())
    });
    assert_eq!(tasks.run(), [0]);
    drop(sender);
    assert!(tasks.run().is_empty());
    assert_eq!(handles(&store, &[a, b]), 0);
}

#[test]
fn who_was_polled_without_a_wake() {
    let (store, [a, b]) = hosts();
    let (sender, receiver): Bytes = strm::stream(&store, a, b, 1).unwrap();
    let mut tasks = Tasks::default();
    tasks.spawn(waits_for(receiver, Ok(None)));
    assert_eq!(tasks.run(), [0]);
    for _ in 0..3 {
        tasks.disturb(0);
        assert_eq!(tasks.run(), [0]);
    }
    drop(sender);
    assert!(tasks.run().is_empty());
}

struct Count(AtomicUsize);

impl Wake for Count {
    fn wake(self: Arc<Self>) {
        self.0.fetch_add(1, Relaxed);
    }
}

#[test]
fn the_task_that_polled_last() {
    let (store, [a, b]) = hosts();
    let (sender, mut receiver): Bytes = strm::stream(&store, a, b, 1).unwrap();
    let counts = [0, 1, 2].map(|_| Arc::new(Count(AtomicUsize::new(0))));
    for count in &counts {
        let waker = Waker::from(count.clone());
        assert!(receiver.poll_recv(&mut Context::from_waker(&waker)).is_pending());
    }
    drop(sender);
    assert_eq!(counts.map(|count| count.0.load(Relaxed)), [0, 0, 1]);
}

#[test]
fn only_who_is_ready() {
    let (store, [a, b]) = hosts();
    let mut tasks = Tasks::default();
    let mut senders = Vec::new();
    for _ in 0..500 {
        let (sender, receiver): Bytes = strm::stream(&store, a, b, 1).unwrap();
        tasks.spawn(waits_for(receiver, Ok(Some(5))));
        senders.push(sender);
    }
    assert_eq!(tasks.run().len(), 500);
    assert_eq!(tasks.polls(), 500);
    for (number, mut sender) in senders.into_iter().enumerate() {
        tasks.spawn(async move { sender.send(5).await });
        assert_eq!(tasks.run().len(), 499 - number);
        // The sender once and the reader once; the sender completes at once.
        assert_eq!(tasks.polls(), 2);
    }
    assert_eq!(handles(&store, &[a, b]), 0);
}
