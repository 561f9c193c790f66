//! Owned ends: what they pass, under calls that are given up, moves and drops.

mod tasks;

use std::cell::Cell;
use std::future::Future;
use std::pin::Pin;
use std::rc::Rc;
use std::sync::{Arc, Mutex};
use std::task::{Context, Poll, Wake, Waker};
use strm::{BadItem, Code, Error, Guest, Item, Payload, Receiver, Refusal, Sender, Share};
use tasks::{Draws, Shared, Tasks, handles, hosts, step, within};

fn poll_once<R>(call: impl Future<Output = R>) -> Poll<R> {
    std::pin::pin!(call).poll(&mut Context::from_waker(Waker::noop()))
}

fn ready<R>(call: impl Future<Output = R>) -> R {
    match poll_once(call) {
        Poll::Ready(result) => result,
        Poll::Pending => panic!("it waits"),
    }
}

#[test]
fn a_read_given_up_is_cancelled_and_loses_nothing() {
    let (store, [a, b]) = hosts();
    let (sender, mut receiver) = strm::stream::<u16, _>(&store, a, b, 4).unwrap();
    let mut writer = sender.into_end();
    {
        let mut recv = std::pin::pin!(receiver.recv());
        assert!(
            recv.as_mut()
                .poll(&mut Context::from_waker(Waker::noop()))
                .is_pending()
        );
        store.with(|store| {
            store.put_items(a, 0, &[1u16, 2, 3]).unwrap();
            assert_eq!(writer.write(store, 0, 3), Ok(Code::Completed(3)));
        });
    }
    assert_eq!(receiver.given_up(), Some(Code::Cancelled(3)));
    assert_eq!(
        [1, 2, 3].map(|_| ready(receiver.recv())),
        [Ok(Some(1)), Ok(Some(2)), Ok(Some(3))]
    );
    // The store has no read of it any more.
    assert!(poll_once(receiver.recv()).is_pending());
    assert_eq!(store.with(|store| writer.write(store, 0, 1)), Ok(Code::Blocked));
    assert_eq!(ready(receiver.recv()), Ok(Some(1)));
}

#[test]
fn a_forgotten_read_is_given_up_by_the_next() {
    let (store, [a, b]) = hosts();
    let (mut sender, mut receiver) = strm::stream::<u8, _>(&store, a, b, 4).unwrap();
    let mut forgotten = Box::pin(receiver.read(100, 3));
    assert!(
        forgotten
            .as_mut()
            .poll(&mut Context::from_waker(Waker::noop()))
            .is_pending()
    );
    std::mem::forget(forgotten);
    assert!(poll_once(receiver.recv()).is_pending());
    assert_eq!(receiver.given_up(), Some(Code::Cancelled(0)));
    assert!(poll_once(sender.send(8)).is_pending());
    assert!(poll_once(receiver.recv()).is_pending()); // the send was given up, too
}

#[test]
fn a_bad_item_stops_the_calls_that_meet_it_alone() {
    let (store, [a, b]) = hosts();
    let (sender, mut receiver) = strm::stream::<char, _>(&store, a, b, 4).unwrap();
    let (mut other, mut beside) = strm::stream::<char, _>(&store, a, b, 1).unwrap();
    let (guest, handle) = sender.into_end().into_raw();
    let item = BadItem {
        guest,
        handle,
        index: 1,
    };
    store.with(|store| {
        store.put_items(a, 4096, &[0x41u32, 0xd800]).unwrap();
        assert_eq!(
            store.stream_write(a, Payload::CHAR, handle, 4096, 2),
            Ok(Code::Blocked)
        );
    });
    for _ in 0..2 {
        assert_eq!(ready(receiver.recv()), Err(Error::BadItem(item)));
        assert_eq!(receiver.given_up(), None);
    }
    // What comes before the item is there, and other streams go on.
    assert_eq!(ready(receiver.read(4096, 1)), Ok(Code::Completed(1)));
    let mut recv = std::pin::pin!(beside.recv());
    assert!(
        recv.as_mut()
            .poll(&mut Context::from_waker(Waker::noop()))
            .is_pending()
    );
    assert_eq!(ready(other.send('x')), Ok(()));
    assert_eq!(ready(recv), Ok(Some('x')));
    assert_eq!(ready(receiver.recv()), Err(Error::BadItem(item)));
    // Once the writer is ended, the reader is told so.
    assert_eq!(store.with(|store| store.end_guest(item.guest)), Ok(()));
    assert_eq!(ready(receiver.recv()), Ok(None));
}

// One end sends numbers, the other receives them, and both are given up and moved as is drawn.
async fn send(mut sender: Sender<u32, Shared>, guests: [Guest; 3], mut draws: Draws) -> Result<(), Error> {
    let mut next = 0;
    while next < 300 {
        let count = 1 + draws.below(5) as u32;
        let items: Vec<u32> = (next..next + count).collect();
        match within(draws.below(4), sender.send_all(&items)).await {
            Some(result) => {
                result?;
                next += count;
            }
            None => {
                let moved = sender.store().with(|store| store.moved(sender.stream()));
                next = moved.expect("the stream is there") as u32;
            }
        }
        if draws.below(3) == 0 {
            sender.transfer(guests[draws.below(3)])?;
        }
        if draws.below(3) == 0 {
            step().await;
        }
    }
    Ok(())
}

async fn receive(
    mut receiver: Receiver<u32, Shared>,
    guests: [Guest; 3],
    mut draws: Draws,
    received: Rc<Cell<u32>>,
) -> Result<(), Error> {
    loop {
        match within(draws.below(4), receiver.recv()).await {
            Some(Ok(Some(number))) => {
                assert_eq!(number, received.get());
                received.set(number + 1);
            }
            Some(Ok(None)) => return Ok(()),
            Some(Err(error)) => return Err(error),
            None => {}
        }
        if draws.below(4) == 0 && !receiver.is_ended() {
            receiver.transfer(guests[draws.below(3)])?;
        }
        if draws.below(3) == 0 {
            step().await;
        }
    }
}

#[test]
fn all_arrive_once_and_in_order() {
    for seed in 1..11 {
        let (store, guests) = hosts::<3>();
        let mut tasks = Tasks::default();
        let mut received = Vec::new();
        for pair in 0..20 {
            let [a, b] = [guests[pair % 3], guests[(pair + 1) % 3]];
            let (sender, receiver) = strm::stream(&store, a, b, 1 + pair as u32 % 7).unwrap();
            let (there, draws) = (Rc::new(Cell::new(0)), |k| {
                Draws(seed * 1000 + pair as u64 * 2 + k)
            });
            tasks.spawn(send(sender, guests, draws(1)));
            tasks.spawn(receive(receiver, guests, draws(2), there.clone()));
            received.push(there);
        }
        assert!(tasks.run().is_empty(), "seed {seed}: a wake was missed");
        assert!(received.iter().all(|there| there.get() >= 300));
        assert_eq!(handles(&store, &guests), 0);
    }
}

#[test]
fn tasks_that_are_dropped_drop_their_ends() {
    let (store, [a, b]) = hosts();
    for seed in 1..200 {
        let mut draws = Draws(seed);
        let mut tasks = Tasks::default();
        for _ in 0..10 {
            let (mut sender, mut receiver) = strm::stream::<u64, _>(&store, a, b, 3).unwrap();
            tasks.spawn(async move {
                loop {
                    if sender.send_all(&[1; 10]).await == Err(Error::Closed) {
                        return Ok(());
                    }
                }
            });
            tasks.spawn(async move {
                while receiver.recv().await?.is_some() {
                    step().await;
                }
                Ok(())
            });
        }
        for pair in 0..10 {
            (0..draws.below(50)).for_each(|_| assert!(tasks.step()));
            tasks.drop_task(pair * 2 + draws.below(2));
        }
        assert!(tasks.run().is_empty(), "seed {seed}: a wake was missed");
        assert_eq!(handles(&store, &[a, b]), 0);
    }
}

#[test]
fn a_last_value_waits_to_be_received() {
    let (store, [a, b]) = hosts();
    let (sender, mut receiver) = strm::future::<u32, _>(&store, a, b, 42).unwrap();
    drop(sender);
    assert_eq!(handles(&store, &[a]), 1);
    assert_eq!(ready(receiver.recv()), Ok(42));
    assert_eq!(handles(&store, &[a]), 0);
    assert_eq!(
        ready(receiver.recv()),
        Err(Error::Refused(Refusal::FutureAlreadyRead))
    );
    drop(receiver);
    assert_eq!(handles(&store, &[b]), 0);
}

#[test]
fn a_last_value_goes_with_its_reader() {
    let (store, [a, b]) = hosts();
    let (sender, receiver) = strm::future::<u32, _>(&store, a, b, 42).unwrap();
    drop(sender);
    drop(receiver);
    assert_eq!(handles(&store, &[a, b]), 0);
    let (mut sender, receiver) = strm::future::<u32, _>(&store, a, b, 42).unwrap();
    drop(receiver);
    assert_eq!(ready(sender.send(43)), Err(Error::Closed));
    drop(sender);
    assert_eq!(handles(&store, &[a, b]), 0);
}

#[test]
fn a_value_that_was_sent_is_the_last() {
    let (store, [a, b]) = hosts();
    let (mut sender, mut receiver) = strm::future::<u32, _>(&store, a, b, 42).unwrap();
    {
        let mut recv = std::pin::pin!(receiver.recv());
        assert!(
            recv.as_mut()
                .poll(&mut Context::from_waker(Waker::noop()))
                .is_pending()
        );
        assert_eq!(ready(sender.send(43)), Ok(()));
        // The read is given up, but the value has passed.
    }
    assert_eq!(ready(receiver.recv()), Ok(43));
    drop((sender, receiver));
    assert_eq!(handles(&store, &[a, b]), 0);
}

#[test]
fn rooms_are_given_back() {
    let (store, [a, b]) = hosts();
    for _ in 0..1000 {
        let (sender, receiver) = strm::stream::<(u8, u64), _>(&store, a, b, 4096).unwrap();
        let error = strm::stream::<u8, _>(&store, a, b, 1).unwrap_err();
        assert_eq!(error, Error::NoRoom);
        drop((sender, receiver));
        let (sender, _) = strm::future::<u64, _>(&store, a, b, 1).unwrap();
        drop(sender);
    }
    assert_eq!(handles(&store, &[a, b]), 0);
}

#[test]
fn an_end_without_room_reads_where_its_guest_says() {
    let (store, [a, b]) = hosts();
    let (writer, reader) = store.with(|store| store.stream_between::<bool>(a, b)).unwrap();
    let mut sender = Sender::new(&store, writer, 0).unwrap();
    let mut receiver = Receiver::new(&store, reader, 0).unwrap();
    assert_eq!(ready(sender.send(true)), Err(Error::NoRoom));
    assert_eq!(ready(receiver.recv()), Err(Error::NoRoom));
    store
        .with(|store| store.put_items(a, 0, &[true, false, true]))
        .unwrap();
    assert!(poll_once(receiver.read(1, 2)).is_pending());
    let mut read = std::pin::pin!(receiver.read(0, 4));
    assert!(
        read.as_mut()
            .poll(&mut Context::from_waker(Waker::noop()))
            .is_pending()
    );
    assert_eq!(ready(sender.write(0, 3)), Ok(Code::Completed(3)));
    assert_eq!(ready(read), Ok(Code::Completed(3)));
    assert_eq!(
        store.with(|store| store.get_items(b, 0, 3)),
        Ok(vec![true, false, true])
    );
}

#[test]
fn within_one_guest_integers_pass_alone() {
    let (store, [a]) = hosts();
    let (mut sender, mut receiver) = strm::stream::<(u8, u8), _>(&store, a, a, 2).unwrap();
    let mut tasks = Tasks::default();
    tasks.spawn(async move {
        assert_eq!(sender.send((1, 2)).await, Err(Error::Closed));
        Ok(())
    });
    tasks.spawn(async move {
        assert_eq!(
            receiver.recv().await,
            Err(Error::Refused(Refusal::IntraComponent))
        );
        Ok(())
    });
    assert!(tasks.run().is_empty());
    assert_eq!(handles(&store, &[a]), 0);
}

#[test]
fn streams_of_nothing_need_no_room() {
    let (store, [a, b]) = hosts();
    let (mut sender, mut receiver) = strm::stream::<(), _>(&store, a, b, 1 << 20).unwrap();
    let mut tasks = Tasks::default();
    tasks.spawn(async move { sender.send_all(&[(); 1000]).await });
    tasks.spawn(async move {
        let mut all = Vec::new();
        while receiver.recv_many(&mut all, usize::MAX).await? > 0 {}
        assert_eq!(all.len(), 1000);
        Ok(())
    });
    assert!(tasks.run().is_empty());
}

// A task that nobody has but its wakers: waking it after its executor is gone drops it, and its ends.
struct Lonely(Mutex<Option<Pin<Box<dyn Future<Output = ()>>>>>);

impl Wake for Lonely {
    fn wake(self: Arc<Self>) {}
}

// SAFETY: the test has one thread.
unsafe impl Send for Lonely {}
unsafe impl Sync for Lonely {}

#[test]
fn a_waker_may_drop_the_last_end() {
    let (store, [a, b]) = hosts();
    let (sender, mut receiver) = strm::stream::<u8, _>(&store, a, b, 1).unwrap();
    let task = Arc::new(Lonely(Mutex::new(Some(Box::pin(async move {
        let _ = receiver.recv().await;
    })))));
    let waker = Waker::from(task.clone());
    let mut future = task.0.lock().unwrap().take().unwrap();
    assert!(
        future
            .as_mut()
            .poll(&mut Context::from_waker(&waker))
            .is_pending()
    );
    *task.0.lock().unwrap() = Some(future);
    drop((task, waker));
    assert_eq!(handles(&store, &[a, b]), 2);
    drop(sender);
    assert_eq!(handles(&store, &[a, b]), 0);
}

#[test]
fn so_may_one_that_is_replaced() {
    let (store, [a, b]) = hosts();
    let (sender, mut receiver) = strm::stream::<u8, _>(&store, a, b, 1).unwrap();
    let task = Arc::new(Lonely(Mutex::new(Some(Box::pin(async move { drop(sender) })))));
    let waker = Waker::from(task);
    assert!(receiver.poll_recv(&mut Context::from_waker(&waker)).is_pending());
    drop(waker);
    // The sender goes with its waker, which this poll replaces.
    assert!(
        receiver
            .poll_recv(&mut Context::from_waker(Waker::noop()))
            .is_pending()
    );
    assert_eq!(ready(receiver.recv()), Ok(None));
    assert_eq!(handles(&store, &[a]), 0);
}

#[test]
fn an_end_goes_to_a_guest_and_comes_back() {
    let (store, [a, b]) = hosts();
    let (mut sender, receiver) = strm::stream::<char, _>(&store, a, b, 2).unwrap();
    let (guest, handle) = receiver.into_end().into_raw();
    let end = store.with(|store| store.end(guest, handle)).unwrap();
    let mut receiver: Receiver<char, _> = Receiver::new(&store, end, 2).unwrap();
    let wrong = store.with(|store| store.end(guest, handle).unwrap());
    assert_eq!(
        Sender::<u8, _>::new(&store, wrong_type(wrong), 2)
            .unwrap_err()
            .why(),
        Error::Refused(Refusal::WrongType)
    );
    assert!(poll_once(receiver.recv()).is_pending());
    let mut recv = std::pin::pin!(receiver.recv());
    assert!(
        recv.as_mut()
            .poll(&mut Context::from_waker(Waker::noop()))
            .is_pending()
    );
    assert_eq!(ready(sender.send('z')), Ok(()));
    assert_eq!(ready(recv), Ok(Some('z')));
}

// The same numbers, believed to be of another end.
fn wrong_type(end: strm::StreamReader<char>) -> strm::StreamWriter<u8> {
    let (guest, handle) = end.into_raw();
    strm::StreamWriter::from_raw(guest, handle)
}

#[test]
fn items_of_each_kind_arrive() {
    fn passes<T: Item + Copy + PartialEq + std::fmt::Debug>(items: &[T]) {
        let (store, [a, b]) = hosts();
        let (mut sender, mut receiver) = strm::stream::<T, _>(&store, a, b, 3).unwrap();
        let mut tasks = Tasks::default();
        tasks.spawn(async move { sender.send_all(items).await });
        tasks.spawn(async move {
            let mut got = Vec::new();
            while receiver.recv_many(&mut got, usize::MAX).await? > 0 {}
            assert_eq!(got, items);
            Ok(())
        });
        assert!(tasks.run().is_empty());
    }
    passes(&[true, false, true, true]);
    passes(&[i8::MIN, -1, 0, i8::MAX]);
    passes(&[i16::MIN, i16::MAX]);
    passes(&[u32::MAX, 0, 7]);
    passes(&[i64::MIN, -5]);
    passes(&['a', '\u{10ffff}', '\0']);
    passes(&[((7u8),), (9,)]);
    passes(&[(1u8, 2u16, 3u32, 4u64, true, 'x', -1i8, -2i64); 9]);
    assert_eq!(<(u8, u16, u32, u64, bool, char, i8, i64)>::SIZE, 40);
    assert_eq!(Payload::U64.align(), 8);
}
