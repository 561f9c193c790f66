//! What the examples of the calls do not show: many calls, threads, tuples, and each kind of error.

use core::ptr::NonNull;
use strm::{
    BadItem, Code, EndInfo, Error, Guest, Handle, HandleInfo, Limits, Memory, OtherEnd, Pair, Payload,
    Refusal, Scalar, Side, Store, StreamId, Type,
};

const BYTES: Type = Type::Stream(Payload::U8);

fn two() -> (Store, Guest, Guest, Pair) {
    strm::example().expect("two guests and a stream")
}

#[test]
fn memories_stay_where_they_are() {
    let (mut store, writer, reader, pair) = two();
    let at = store.memory_at(writer).unwrap();
    for _ in 0..5000 {
        store.add_guest(16).unwrap();
    }
    for k in 0..1000 {
        assert_eq!(
            store.stream_write(writer, Payload::U8, pair.write, k, 60),
            Ok(Code::Blocked)
        );
        assert_eq!(
            store.stream_read(reader, Payload::U8, pair.read, k, 60),
            Ok(Code::Completed(60))
        );
        assert_eq!(
            store.take_event(writer, pair.write),
            Ok(Some(Code::Completed(60)))
        );
    }
    let mut store = std::thread::spawn(move || store).join().unwrap();
    assert_eq!(store.memory_at(writer).unwrap(), at);
    assert_eq!(store.moved(pair.stream), Some(60_000));
}

#[test]
fn a_memory_of_the_host_grows_while_a_read_waits() {
    let (mut store, writer, _, _) = two();
    for memory in [Memory::mapped(64, 1 << 20).unwrap(), Memory::from(vec![0; 64])] {
        let reader = store.add_guest_with(memory).unwrap();
        let pair = store.new_between(writer, reader, BYTES).unwrap();
        let read = store.stream_read(reader, Payload::U8, pair.read, 60, 4);
        assert_eq!(read, Ok(Code::Blocked));
        assert_eq!(store.grow_memory(reader, 100_000), Ok(64));
        store.memory_write(writer, 0, b"here").unwrap();
        let write = store.stream_write(writer, Payload::U8, pair.write, 0, 4);
        assert_eq!(write, Ok(Code::Completed(4)));
        let memory = store.memory(reader).unwrap();
        assert_eq!((memory.len(), &memory[60..66]), (100_064, b"here\0\0".as_slice()));
    }
}

#[test]
fn bytes_that_are_lent_are_the_hosts() {
    let (mut store, own, _, _) = two();
    let (mut small, mut large) = ([1; 8], [0; 32]);
    let at = |bytes: &mut [u8]| NonNull::from(bytes).cast::<u8>();
    // SAFETY: the arrays stay where they are until the store is gone, and are the store's alone meanwhile.
    let guest = unsafe { store.add_guest_at(at(&mut small), 4) }.unwrap();
    let end = NonNull::from(&mut small[4..]).cast::<u8>();
    // SAFETY: there the memory ends.
    unsafe { store.memory_grown(guest, end, 4) }.unwrap();
    assert_eq!(store.memory(guest).unwrap(), [1; 8]);
    large[..8].copy_from_slice(&[1; 8]);
    // SAFETY: it begins with the bytes of the memory.
    unsafe { store.memory_moved(guest, at(&mut large), 32) }.unwrap();
    store.memory_mut(guest).unwrap()[0] = 7;
    // SAFETY: none of these is done.
    let refused = unsafe {
        [
            store.memory_moved(guest, at(&mut large), 8),
            store.memory_grown(own, end, 4),
            store.memory_grown(Guest(9), end, 4),
        ]
    };
    let unknown = Error::Refused(Refusal::UnknownGuest);
    assert_eq!(refused, [Err(Error::Shorter), Err(Error::NotLent), Err(unknown)]);
    assert_eq!(store.grow_memory(guest, 1), Err(Error::NotLent));
    drop(store);
    assert_eq!((small[0], large[0]), (1, 7));
}

#[test]
fn a_memory_that_was_told_to_be_elsewhere_is_not_made_longer() {
    let (mut store, _, _, _) = two();
    let mut other = [0u8; 16];
    for len in [0, 8] {
        let guest = store.add_guest_with(Memory::mapped(len, 64).unwrap()).unwrap();
        let elsewhere = NonNull::from(&mut other[len..]).cast::<u8>();
        // SAFETY: no guest has the bytes, which are zeros as the memory's are, and outlive the store.
        unsafe { store.memory_moved(guest, elsewhere, len) }.unwrap();
        assert_eq!(store.grow_memory(guest, 1), Err(Error::NotLent));
    }
    drop(store);
}

#[test]
fn tuples_keep_the_padding_of_the_reader() {
    let (mut store, writer, reader, _) = two();
    let item = Payload::tuple(&[Scalar::U8, Scalar::U32]).unwrap();
    let pair = store.new_between(writer, reader, Type::Stream(item)).unwrap();
    store.memory_mut(writer).unwrap()[..8].copy_from_slice(&[1, 9, 9, 9, 2, 3, 4, 5]);
    store.memory_mut(reader).unwrap()[..8].fill(0xee);
    assert_eq!(
        store.stream_write(writer, item, pair.write, 0, 1),
        Ok(Code::Blocked)
    );
    assert_eq!(
        store.stream_read(reader, item, pair.read, 0, 1),
        Ok(Code::Completed(1))
    );
    assert_eq!(
        store.memory(reader).unwrap()[..8],
        [1, 0xee, 0xee, 0xee, 2, 3, 4, 5]
    );
}

#[test]
fn each_tuple_is_a_type_of_its_own() {
    let (mut store, writer, reader, _) = two();
    for len in 1..=8 {
        for scalar in [Scalar::Bool, Scalar::U16, Scalar::Char, Scalar::F64] {
            let item = Payload::tuple(&vec![scalar; len]).unwrap();
            let pair = store.new_between(writer, reader, Type::Future(item)).unwrap();
            assert_eq!(store.transmit_index(pair.stream), Some(Type::Future(item)));
            assert_eq!(item.scalars().count(), len);
        }
    }
    assert_eq!(Payload::tuple(&[Scalar::U8; 9]), None);
}

#[test]
fn a_bad_item_stops_its_writer_alone() {
    let (mut store, writer, reader, bytes) = two();
    let pair = store
        .new_between(writer, reader, Type::Stream(Payload::CHAR))
        .unwrap();
    let chars = ['a' as u32, 'b' as u32, 0xd800, 'c' as u32].map(u32::to_le_bytes);
    store.memory_mut(writer).unwrap()[..16].copy_from_slice(chars.as_flattened());
    assert_eq!(
        store.stream_write(writer, Payload::CHAR, pair.write, 0, 4),
        Ok(Code::Blocked)
    );
    assert_eq!(
        store.stream_read(reader, Payload::CHAR, pair.read, 0, 1),
        Ok(Code::Completed(1))
    );
    // The place is among all items of the write, and until it is cancelled the answer is the same.
    let item = BadItem {
        guest: writer,
        handle: pair.write,
        index: 2,
    };
    for _ in 0..2 {
        assert_eq!(
            store.stream_read(reader, Payload::CHAR, pair.read, 4, 3),
            Err(Error::BadItem(item))
        );
        assert_eq!(store.moved(pair.stream), Some(1));
    }
    assert_eq!(
        store.stream_read(reader, Payload::CHAR, pair.read, 4, 1),
        Ok(Code::Completed(1))
    );
    assert_eq!(
        store.stream_write(writer, Payload::U8, bytes.write, 0, 1),
        Ok(Code::Blocked)
    );
    assert_eq!(
        store.stream_cancel_write(writer, Payload::CHAR, pair.write),
        Ok(Code::Cancelled(2))
    );
    assert_eq!(
        store.stream_read(reader, Payload::CHAR, pair.read, 8, 1),
        Ok(Code::Blocked)
    );
    // The writer is told of its own items too.
    let item = BadItem { index: 0, ..item };
    assert_eq!(
        store.stream_write(writer, Payload::CHAR, pair.write, 8, 1),
        Err(Error::BadItem(item))
    );
}

#[test]
fn limits_are_kept() {
    let mut store = Store::new(
        3,
        Limits {
            handles: 4,
            places: 6,
        },
    )
    .unwrap();
    let guest = store.add_guest(8).unwrap();
    let _ = store.stream_new(guest, Payload::U8).unwrap();
    let _ = store.stream_new(guest, Payload::U8).unwrap();
    assert_eq!(
        store.stream_new(guest, Payload::U8),
        Err(Error::Refused(Refusal::HandleLimit))
    );
    assert_eq!(store.set_new(guest), Err(Error::Refused(Refusal::HandleLimit)));
    assert_eq!(store.streams(), 2);
}

#[test]
fn what_is_not_there_is_refused() {
    let (mut store, writer, _, pair) = two();
    let nobody = Guest(9);
    let unknown = Err(Error::Refused(Refusal::UnknownGuest));
    assert_eq!(
        store.stream_write(nobody, Payload::U8, pair.write, 0, 1),
        unknown.map(|()| Code::Blocked)
    );
    assert_eq!(store.memory(nobody).map(|_| ()), unknown);
    assert_eq!(store.memory_mut(nobody).map(|_| ()), unknown);
    assert_eq!(store.memory_read(nobody, 0, &mut []), unknown);
    assert_eq!(store.memory_write(writer, 65536, &[]), Ok(()));
    assert_eq!(
        store.memory_write(writer, 65536, &[1]),
        Err(Error::Refused(Refusal::OutOfBounds))
    );
    assert_eq!(
        store.memory_write(writer, u32::MAX, &[1; 100]),
        Err(Error::Refused(Refusal::OutOfBounds))
    );
    assert_eq!(store.moved(StreamId(9)), None);
    assert_eq!(store.transmit_index(StreamId(9)), None);
    assert_eq!(
        store.lower(StreamId(9), writer, BYTES),
        Err(Error::Refused(Refusal::UnknownReader))
    );
}

#[test]
fn a_guest_without_bytes_has_none() {
    let (mut store, ..) = two();
    let guest = store.add_guest(0).unwrap();
    assert_eq!(store.memory(guest).unwrap(), []);
    assert_eq!(store.memory_mut(guest).unwrap(), []);
    let nowhere = std::ptr::NonNull::dangling().as_ptr();
    assert_eq!(store.memory_at(guest), Ok((nowhere, 0)));
    assert_eq!(store.memory_write(guest, 0, &[]), Ok(()));
    assert_eq!(store.memory_read(guest, 0, &mut []), Ok(()));
}

fn end(store: &Store, guest: Guest, handle: Handle) -> EndInfo {
    match store.handle(guest, handle) {
        Ok(HandleInfo::End(end)) => end,
        other => panic!("{other:?} is no end"),
    }
}

#[test]
fn who_has_the_other_end_is_told() {
    let (mut store, writer, reader, pair) = two();
    assert_eq!(
        end(&store, reader, pair.read).other,
        OtherEnd::Guest {
            guest: writer,
            handle: pair.write
        }
    );
    let stream = store.lift(reader, BYTES, pair.read).unwrap();
    assert_eq!(end(&store, writer, pair.write).other, OtherEnd::Loose);
    let read = store.lower(stream, writer, BYTES).unwrap();
    assert_eq!(
        end(&store, writer, pair.write).other,
        OtherEnd::Guest {
            guest: writer,
            handle: read
        }
    );
    store.stream_drop_readable(writer, Payload::U8, read).unwrap();
    let told = end(&store, writer, pair.write);
    assert_eq!((told.ty, told.side, told.stream), (BYTES, Side::Writing, stream));
    assert_eq!((told.event, told.other), (Some(Code::Dropped(0)), OtherEnd::Gone));
    assert_eq!(store.take_event(writer, pair.write), Ok(Some(Code::Dropped(0))));
    assert_eq!(end(&store, writer, pair.write).event, None);
}

#[test]
fn handles_come_in_rising_order() {
    let (mut store, writer, reader, pair) = two();
    store.memory_write(writer, 0, b"oops").unwrap();
    let set = store.set_new(writer).unwrap();
    let value = store.future_new(writer, Payload::U32).unwrap();
    let context = store.error_context_new(writer, 0, 4).unwrap();
    store.set_drop(writer, set).unwrap();
    let mut found = Vec::new();
    while let Some((handle, is)) = store
        .next_handle(writer, found.last().map_or(Handle(0), |&(handle, _)| handle))
        .unwrap()
    {
        found.push((handle, is));
    }
    let numbers: Vec<Handle> = found.iter().map(|&(handle, _)| handle).collect();
    assert_eq!(numbers, [pair.write, value.read, value.write, context.into()]);
    assert_eq!(found[3].1, HandleInfo::ErrorContext);
    assert_eq!(store.handle_count(writer), Ok(4));
    for (handle, is) in found {
        assert_eq!(store.handle(writer, handle), Ok(is));
    }
    assert_eq!(store.next_handle(writer, Handle(u32::MAX)), Ok(None));
    assert_eq!(
        store.handle(writer, set.into()),
        Err(Error::Refused(Refusal::UnknownHandle))
    );
    assert_eq!(
        store.next_handle(Guest(9), Handle(0)),
        Err(Error::Refused(Refusal::UnknownGuest))
    );
    assert_eq!(
        store.handle_count(Guest(9)),
        Err(Error::Refused(Refusal::UnknownGuest))
    );
    assert_eq!(store.handle_count(reader), Ok(1));
}

#[test]
fn many_stores_come_and_go() {
    for tag in 0..1000 {
        let mut store = Store::new(tag, Limits::default()).unwrap();
        let guest = store.add_guest(4096).unwrap();
        let _ = store.future_new(guest, Payload::U64).unwrap();
        assert_eq!(store.tag(), tag);
    }
}

#[test]
fn errors_say_what_they_are() {
    use std::error::Error as _;
    let error = Error::from(Refusal::UnknownHandle);
    assert_eq!(error.to_string(), "refused: no live slot has that number");
    assert_eq!(
        error.source().unwrap().to_string(),
        Refusal::UnknownHandle.to_string()
    );
    assert_eq!(Code::Cancelled(3).word(), 0x32);
}

#[test]
fn what_may_go_to_another_thread() {
    fn goes<T: Send>() {}
    goes::<Store>();
    goes::<strm::StreamWriter<u8>>();
    goes::<strm::Sender<char, std::sync::Arc<std::sync::Mutex<Store>>>>();
}
