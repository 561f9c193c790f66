//! The store answers with the statuses and the codes that `strm.h` lists, and gives the handles and numbers that the
//! archive gives.

use super::face::*;

const BOOL: u64 = 1;
const U8: u64 = 3;
const U32: u64 = 7;
const CHAR: u64 = 10;
const TUPLE: u64 = 1 << 32;
const FUTURE: u64 = 1 << 33;

const BLOCKED: u32 = u32::MAX;
const NOBODY: u32 = 9;

const DONE: u32 = 0;
const UNKNOWN_GUEST: u32 = 1;
const UNKNOWN_READER: u32 = 4;
const STREAM_OP_TOO_BIG: u32 = 5;
const OUT_OF_BOUNDS: u32 = 6;
const NOT_ALIGNED: u32 = 7;
const UNKNOWN_HANDLE: u32 = 8;
const WRONG_KIND: u32 = 9;
const WRONG_TYPE: u32 = 10;
const WRONG_END: u32 = 11;
const CONCURRENT: u32 = 12;
const BUSY: u32 = 13;
const NO_PENDING: u32 = 14;
const WRITE_TO_DROPPED_STREAM: u32 = 16;
const WRITE_TO_DROPPED_FUTURE: u32 = 17;
const READ_FROM_DROPPED_STREAM: u32 = 18;
const FUTURE_ALREADY_READ: u32 = 19;
const INTRA_COMPONENT: u32 = 20;
const LIFT_DROPPED: u32 = 21;
const LIFT_IN_SET: u32 = 22;
const SET_NOT_EMPTY: u32 = 23;
const FUTURE_WITHOUT_VALUE: u32 = 24;
const HANDLE_LIMIT: u32 = 26;
const FULL: u32 = 27;
const MEMORY_TOO_BIG: u32 = 28;
const BAD_TEXT: u32 = 29;
const MESSAGE_TOO_LONG: u32 = 30;
const BAD_ITEM: u32 = 64;
const UNKNOWN_PAYLOAD: u32 = 67;
const NO_STORE: u32 = 69;
const GUEST_LIMIT: u32 = 72;

fn completed(count: u32) -> u32 {
    count << 4
}

fn dropped(count: u32) -> u32 {
    count << 4 | 1
}

fn cancelled(count: u32) -> u32 {
    count << 4 | 2
}

// What a call put at `out`, or its status.
fn out<T: Default>(call: impl FnOnce(&mut T) -> u32) -> Result<T, u32> {
    let mut out = T::default();
    match call(&mut out) {
        DONE => Ok(out),
        status => Err(status),
    }
}

// A store with two guests of 64 bytes.
fn store() -> StoreHandle {
    store_of(100, 100)
}

fn store_of(handles: usize, places: u32) -> StoreHandle {
    let mut store = StoreHandle::NONE;
    assert_eq!(store_new(&mut store, handles, places), DONE);
    for guest in 0..2 {
        assert_eq!(out(|at| add_guest(&mut store, 64, at)), Ok(guest));
    }
    store
}

fn pair(store: &mut StoreHandle, ty: u64) -> Result<Pair, u32> {
    out(|at| new_between(store, 0, 1, ty, at))
}

fn write(store: &mut StoreHandle, payload: u64, handle: u32, address: u32, count: u32) -> Result<u32, u32> {
    out(|at| stream_write(store, 0, payload, handle, address, count, at))
}

fn read(store: &mut StoreHandle, payload: u64, handle: u32, address: u32, count: u32) -> Result<u32, u32> {
    out(|at| stream_read(store, 1, payload, handle, address, count, at))
}

fn event(store: &mut StoreHandle, guest: u32, handle: u32) -> Result<u32, u32> {
    out(|at| take_event(store, guest, handle, at))
}

fn count(store: &mut StoreHandle, guest: u32) -> u32 {
    out(|at| handle_count(store, guest, at)).unwrap()
}

#[test]
fn no_store_is_told_first() {
    let mut none = StoreHandle::NONE;
    assert_eq!(pair(&mut none, NOBODY.into()), Err(NO_STORE));
    assert_eq!(write(&mut none, 99, 1, 0, 1), Err(NO_STORE));
    assert_eq!(event(&mut none, 0, 1), Err(NO_STORE));
    assert_eq!(stream_drop_writable(&mut none, 0, U8, 1), NO_STORE);
    assert_eq!(set_join(&mut none, 0, 1, 1), NO_STORE);
    let mut freed = store();
    store_free(&mut freed);
    assert_eq!(out(|at| add_guest(&mut freed, 1, at)), Err(NO_STORE));
}

#[test]
fn words_are_tested() {
    let mut store = store();
    for word in [
        11,
        TUPLE,
        TUPLE | 0x30,
        TUPLE | 0xb3,
        FUTURE | 11,
        FUTURE | TUPLE,
        1 << 34,
        u64::MAX,
    ] {
        assert_eq!(pair(&mut store, word), Err(UNKNOWN_PAYLOAD), "{word:x}");
    }
    for word in [
        0,
        10,
        TUPLE | 0x3,
        TUPLE | 0x3333_3333,
        FUTURE,
        FUTURE | 10,
        FUTURE | TUPLE | 0xa,
    ] {
        assert!(pair(&mut store, word).is_ok(), "{word:x}");
    }
    assert_eq!(write(&mut store, FUTURE | U8, 1, 0, 1), Err(UNKNOWN_PAYLOAD));
}

#[test]
fn items_move() {
    let mut store = store();
    let made = pair(&mut store, U8).unwrap();
    let first = Pair {
        read: 1,
        write: 1,
        stream: 0,
    };
    assert_eq!(made, first);
    memory_mut(&mut store, 0).unwrap()[..4].copy_from_slice(&[1, 2, 3, 4]);
    assert_eq!(write(&mut store, U8, 1, 0, 4), Ok(BLOCKED));
    assert_eq!(write(&mut store, U8, 1, 0, 4), Err(CONCURRENT));
    assert_eq!(event(&mut store, 0, 1), Ok(NO_EVENT));
    assert_eq!(read(&mut store, U8, 1, 8, 3), Ok(completed(3)));
    assert_eq!(read(&mut store, U8, 1, 11, 9), Ok(completed(1)));
    assert_eq!(memory_mut(&mut store, 1).unwrap()[8..13], [1, 2, 3, 4, 0]);
    assert_eq!(read(&mut store, U8, 1, 8, 3), Ok(BLOCKED));
    assert_eq!(event(&mut store, 0, 1), Ok(completed(4)));
    assert_eq!(event(&mut store, 0, 1), Ok(NO_EVENT));
    assert_eq!(moved(&mut store, 0), Some(4));
    assert_eq!(moved(&mut store, 1), None);
    assert_eq!(event(&mut store, NOBODY, 1), Err(UNKNOWN_GUEST));
    assert_eq!(event(&mut store, 0, 2), Err(UNKNOWN_HANDLE));
}

#[test]
fn nothing_moves_where_none_is_asked_for() {
    let mut store = store();
    pair(&mut store, U8).unwrap();
    assert_eq!(read(&mut store, U8, 1, 0, 5), Ok(BLOCKED));
    assert_eq!(write(&mut store, U8, 1, 0, 0), Ok(completed(0)));
    assert_eq!(event(&mut store, 1, 1), Ok(NO_EVENT));
    assert_eq!(
        out(|at| stream_cancel_read(&mut store, 1, U8, 1, at)),
        Ok(cancelled(0))
    );
    assert_eq!(read(&mut store, U8, 1, 0, 0), Ok(BLOCKED));
    assert_eq!(write(&mut store, U8, 1, 0, 2), Ok(BLOCKED));
    assert_eq!(event(&mut store, 1, 1), Ok(completed(0)));
    assert_eq!(read(&mut store, U8, 1, 0, 1), Ok(completed(1)));
    assert_eq!(
        out(|at| stream_cancel_write(&mut store, 0, U8, 1, at)),
        Ok(cancelled(1))
    );
    assert_eq!(
        out(|at| stream_cancel_write(&mut store, 0, U8, 1, at)),
        Err(NO_PENDING)
    );
}

#[test]
fn reads_and_writes_are_refused_in_order() {
    let mut store = store();
    pair(&mut store, U32).unwrap();
    pair(&mut store, FUTURE | U32).unwrap();
    let wrote = |store: &mut _, guest, payload, handle, address, count| {
        out(|at| stream_write(store, guest, payload, handle, address, count, at))
    };
    assert_eq!(wrote(&mut store, NOBODY, U32, 1, 65, 1 << 28), Err(UNKNOWN_GUEST));
    assert_eq!(wrote(&mut store, 0, U32, 9, 65, 1 << 28), Err(STREAM_OP_TOO_BIG));
    assert_eq!(wrote(&mut store, 0, U32, 9, 61, 1), Err(OUT_OF_BOUNDS));
    assert_eq!(
        wrote(&mut store, 0, U32, 9, 60, (1 << 28) - 1),
        Err(OUT_OF_BOUNDS)
    );
    assert_eq!(wrote(&mut store, 0, U32, 9, 58, 1), Err(NOT_ALIGNED));
    assert_eq!(wrote(&mut store, 0, U32, 9, 60, 1), Err(UNKNOWN_HANDLE));
    assert_eq!(wrote(&mut store, 0, U32, 0, u32::MAX, 0), Err(UNKNOWN_HANDLE));
    assert_eq!(wrote(&mut store, 0, U32, 2, 60, 1), Err(WRONG_KIND));
    assert_eq!(wrote(&mut store, 0, U8, 2, 60, 1), Err(WRONG_KIND));
    assert_eq!(wrote(&mut store, 0, U8, 1, 60, 1), Err(WRONG_TYPE));
    assert_eq!(wrote(&mut store, 1, U32, 1, 60, 1), Err(CONCURRENT));
    assert_eq!(wrote(&mut store, 0, U32, 1, 60, 1), Ok(BLOCKED));
}

#[test]
fn the_other_end_is_told_once() {
    let mut store = store();
    let made = pair(&mut store, U8).unwrap();
    assert_eq!(write(&mut store, U8, made.write, 0, 4), Ok(BLOCKED));
    assert_eq!(stream_drop_writable(&mut store, 0, U8, made.write), BUSY);
    assert_eq!(read(&mut store, U8, made.read, 0, 1), Ok(completed(1)));
    assert_eq!(stream_drop_writable(&mut store, 1, U8, made.read), WRONG_END);
    assert_eq!(stream_drop_readable(&mut store, 1, U8, made.read), DONE);
    assert_eq!(stream_drop_readable(&mut store, 1, U8, made.read), UNKNOWN_HANDLE);
    assert_eq!(event(&mut store, 0, made.write), Ok(dropped(1)));
    assert_eq!(event(&mut store, 0, made.write), Ok(NO_EVENT));
    assert_eq!(
        write(&mut store, U8, made.write, 0, 4),
        Err(WRITE_TO_DROPPED_STREAM)
    );
    assert_eq!(stream_drop_writable(&mut store, 0, U8, made.write), DONE);

    // The number is given again, and so are the handles. A call tells it too, or an event of an idle end.
    assert_eq!(pair(&mut store, U8), Ok(made));
    assert_eq!(moved(&mut store, made.stream), Some(0));
    assert_eq!(stream_drop_writable(&mut store, 0, U8, made.write), DONE);
    assert_eq!(read(&mut store, U8, made.read, 0, 1), Ok(dropped(0)));
    assert_eq!(event(&mut store, 1, made.read), Ok(NO_EVENT));
    assert_eq!(
        read(&mut store, U8, made.read, 0, 1),
        Err(READ_FROM_DROPPED_STREAM)
    );
    let other = pair(&mut store, U8).unwrap();
    assert_eq!((other.read, other.write, other.stream), (2, 1, 1));
    assert_eq!(stream_drop_writable(&mut store, 0, U8, other.write), DONE);
    assert_eq!(event(&mut store, 1, other.read), Ok(dropped(0)));
    assert_eq!(event(&mut store, 1, other.read), Ok(NO_EVENT));
}

#[test]
fn freed_numbers_are_given_last_first() {
    let mut store = store();
    for _ in 0..3 {
        pair(&mut store, U8).unwrap();
    }
    for handle in [1, 3, 2] {
        assert_eq!(stream_drop_writable(&mut store, 0, U8, handle), DONE);
        assert_eq!(stream_drop_readable(&mut store, 1, U8, handle), DONE);
    }
    assert_eq!(out(|at| set_new(&mut store, 0, at)), Ok(2));
    let made = pair(&mut store, U8).unwrap();
    assert_eq!((made.read, made.write, made.stream), (2, 3, 1));
    let made = pair(&mut store, U8).unwrap();
    assert_eq!((made.read, made.write, made.stream), (3, 1, 2));
    let within = out(|at| new_between(&mut store, 1, 1, U8, at)).unwrap();
    assert_eq!((within.read, within.write, within.stream), (1, 4, 0));
}

#[test]
fn a_future_passes_one_value() {
    let mut store = store();
    let made = pair(&mut store, FUTURE | U32).unwrap();
    assert_eq!(
        future_drop_writable(&mut store, 0, U32, made.write),
        FUTURE_WITHOUT_VALUE
    );
    assert_eq!(
        out(|at| future_read(&mut store, 1, U32, made.read, 0, at)),
        Ok(BLOCKED)
    );
    assert_eq!(
        out(|at| future_write(&mut store, 0, U32, made.write, 4, at)),
        Ok(completed(0))
    );
    assert_eq!(
        out(|at| future_write(&mut store, 0, U32, made.write, 4, at)),
        Err(WRITE_TO_DROPPED_FUTURE)
    );
    assert_eq!(future_drop_writable(&mut store, 0, U32, made.write), DONE);
    assert_eq!(event(&mut store, 1, made.read), Ok(completed(0)));
    assert_eq!(
        out(|at| future_read(&mut store, 1, U32, made.read, 4, at)),
        Err(FUTURE_ALREADY_READ)
    );
    assert_eq!(event(&mut store, 1, made.read), Ok(NO_EVENT));
    assert_eq!(future_drop_readable(&mut store, 1, U32, made.read), DONE);

    let made = pair(&mut store, FUTURE | U32).unwrap();
    assert_eq!(future_drop_readable(&mut store, 1, U32, made.read), DONE);
    assert_eq!(
        future_drop_writable(&mut store, 0, U32, made.write),
        FUTURE_WITHOUT_VALUE
    );
    assert_eq!(
        out(|at| future_write(&mut store, 0, U32, made.write, 4, at)),
        Ok(dropped(0))
    );
    assert_eq!(future_drop_writable(&mut store, 0, U32, made.write), DONE);
}

#[test]
fn items_are_tested_between_guests() {
    let mut store = store();
    let made = pair(&mut store, CHAR).unwrap();
    memory_mut(&mut store, 0).unwrap()[..8].copy_from_slice(&[b'a', 0, 0, 0, 0, 0xd8, 0, 0]);
    assert_eq!(write(&mut store, CHAR, made.write, 0, 2), Ok(BLOCKED));
    assert_eq!(read(&mut store, CHAR, made.read, 0, 2), Err(BAD_ITEM));
    assert_eq!(read(&mut store, CHAR, made.read, 0, 2), Err(BAD_ITEM));
    assert_eq!(memory_mut(&mut store, 1).unwrap()[0], 0);
    assert_eq!(read(&mut store, CHAR, made.read, 0, 1), Ok(completed(1)));
    assert_eq!(memory_mut(&mut store, 1).unwrap()[0], b'a');

    let flags = pair(&mut store, BOOL).unwrap();
    memory_mut(&mut store, 0).unwrap()[..3].copy_from_slice(&[0, 1, 7]);
    assert_eq!(write(&mut store, BOOL, flags.write, 0, 3), Ok(BLOCKED));
    assert_eq!(read(&mut store, BOOL, flags.read, 0, 3), Ok(completed(3)));
    assert_eq!(memory_mut(&mut store, 1).unwrap()[..3], [0, 1, 1]);

    // A flag and a char, with three bytes of padding between.
    let both = TUPLE | CHAR << 4 | BOOL;
    let made = pair(&mut store, both).unwrap();
    memory_mut(&mut store, 0).unwrap()[..8].copy_from_slice(&[9, 8, 8, 8, b'z', 0, 0, 0]);
    memory_mut(&mut store, 1).unwrap()[..8].fill(5);
    assert_eq!(write(&mut store, both, made.write, 0, 1), Ok(BLOCKED));
    assert_eq!(read(&mut store, both, made.read, 2, 1), Err(NOT_ALIGNED));
    assert_eq!(read(&mut store, both, made.read, 0, 1), Ok(completed(1)));
    assert_eq!(
        memory_mut(&mut store, 1).unwrap()[..8],
        [1, 5, 5, 5, b'z', 0, 0, 0]
    );
}

#[test]
fn numbers_alone_move_within_a_guest() {
    let mut store = store();
    let numbers = out(|at| new_between(&mut store, 0, 0, U8, at)).unwrap();
    assert_eq!((numbers.read, numbers.write), (1, 2));
    memory_mut(&mut store, 0).unwrap()[..3].copy_from_slice(&[1, 2, 3]);
    assert_eq!(write(&mut store, U8, numbers.write, 0, 3), Ok(BLOCKED));
    assert_eq!(
        out(|at| stream_read(&mut store, 0, U8, numbers.read, 1, 3, at)),
        Ok(completed(3))
    );
    assert_eq!(memory_mut(&mut store, 0).unwrap()[..4], [1, 1, 2, 3]);
    let flags = out(|at| new_between(&mut store, 0, 0, BOOL, at)).unwrap();
    assert_eq!(write(&mut store, BOOL, flags.write, 0, 3), Ok(BLOCKED));
    assert_eq!(
        out(|at| stream_read(&mut store, 0, BOOL, flags.read, 1, 3, at)),
        Err(INTRA_COMPONENT)
    );
}

#[test]
fn a_set_tells_its_least_ready_member() {
    let mut store = store();
    for _ in 0..3 {
        pair(&mut store, U8).unwrap();
    }
    let set = out(|at| set_new(&mut store, 1, at)).unwrap();
    let poll = |store: &mut _| {
        out::<Member>(|at| set_poll(store, 1, set, at)).map(|member| (member.handle, member.code))
    };
    assert_eq!(set_join(&mut store, NOBODY, set, 1), UNKNOWN_GUEST);
    assert_eq!(set_join(&mut store, 1, 1, 1), WRONG_KIND);
    assert_eq!(set_join(&mut store, 1, set, set), WRONG_KIND);
    assert_eq!(set_join(&mut store, 1, set, 9), UNKNOWN_HANDLE);
    for handle in [3, 1, 2, 2] {
        assert_eq!(set_join(&mut store, 1, set, handle), DONE);
    }
    assert_eq!(poll(&mut store), Ok((0, NO_EVENT)));
    assert_eq!(read(&mut store, U8, 2, 0, 4), Ok(BLOCKED));
    assert_eq!(write(&mut store, U8, 2, 0, 1), Ok(completed(1)));
    assert_eq!(stream_drop_writable(&mut store, 0, U8, 1), DONE);
    assert_eq!(stream_drop_writable(&mut store, 0, U8, 3), DONE);
    assert_eq!(poll(&mut store), Ok((1, dropped(0))));
    assert_eq!(
        out(|at| stream_cancel_read(&mut store, 1, U8, 2, at)),
        Ok(cancelled(1))
    );

    // A drop leaves the set, an end of it stays with its guest, and one that joins late is told too.
    let move_it = |store: &mut _, handle| out(|at| stream_transfer(store, 1, U8, handle, 0, at));
    assert_eq!(move_it(&mut store, 2), Err(LIFT_IN_SET));
    assert_eq!(set_join(&mut store, 1, 0, 3), DONE);
    assert_eq!(poll(&mut store), Ok((0, NO_EVENT)));
    assert_eq!(set_join(&mut store, 1, set, 3), DONE);
    assert_eq!(poll(&mut store), Ok((3, dropped(0))));
    assert_eq!(set_drop(&mut store, 1, set), SET_NOT_EMPTY);
    for handle in 1..=3 {
        assert_eq!(stream_drop_readable(&mut store, 1, U8, handle), DONE);
    }
    assert_eq!(set_drop(&mut store, 1, set), DONE);
    assert_eq!(poll(&mut store), Err(UNKNOWN_HANDLE));
    assert_eq!((count(&mut store, 0), count(&mut store, 1)), (1, 0));
}

#[test]
fn ends_move() {
    let mut store = store();
    let made = pair(&mut store, U8).unwrap();
    assert_eq!(write(&mut store, U8, made.write, 0, 2), Ok(BLOCKED));
    let transfer =
        |store: &mut _, guest, handle, to| out(|at| stream_transfer(store, guest, U8, handle, to, at));
    assert_eq!(transfer(&mut store, 0, made.write, 1), Err(BUSY));
    assert_eq!(transfer(&mut store, 1, made.read, NOBODY), Err(UNKNOWN_GUEST));
    assert_eq!(transfer(&mut store, 1, made.read, 1), Ok(made.read));
    let here = transfer(&mut store, 1, made.read, 0).unwrap();
    assert_eq!(here, 2);
    assert_eq!(
        out(|at| stream_read(&mut store, 0, U8, here, 8, 2, at)),
        Ok(completed(2))
    );

    let lifted = out(|at| lift(&mut store, 0, U8, here, at)).unwrap();
    assert_eq!(lifted, made.stream);
    assert_eq!(out(|at| lower(&mut store, lifted, 1, U32, at)), Err(WRONG_TYPE));
    assert_eq!(
        out(|at| lower(&mut store, lifted, 1, FUTURE | U8, at)),
        Err(WRONG_KIND)
    );
    assert_eq!(out(|at| lower(&mut store, lifted, 1, U8, at)), Ok(1));
    assert_eq!(
        out(|at| lower(&mut store, lifted, 1, U8, at)),
        Err(UNKNOWN_READER)
    );
    assert_eq!(out(|at| lift(&mut store, 1, U8, 1, at)), Ok(lifted));
    assert_eq!(close(&mut store, lifted), DONE);
    assert_eq!(close(&mut store, lifted), UNKNOWN_READER);
    assert_eq!(event(&mut store, 0, made.write), Ok(dropped(2)));
    assert_eq!(transfer(&mut store, 0, made.write, 1), Err(LIFT_DROPPED));
}

#[test]
fn an_error_context_lives_as_long_as_its_handles() {
    let mut store = store_of(100, 1);
    memory_mut(&mut store, 0).unwrap()[..3].copy_from_slice(&[b'n', b'o', 0xff]);
    let new = |store: &mut _, address, len| out(|at| error_context_new(store, 0, address, len, at));
    assert_eq!(new(&mut store, 0, 4097), Err(MESSAGE_TOO_LONG));
    assert_eq!(new(&mut store, 0, 65), Err(OUT_OF_BOUNDS));
    assert_eq!(new(&mut store, 0, 3), Err(BAD_TEXT));
    let context = new(&mut store, 0, 2).unwrap();
    assert_eq!(new(&mut store, 0, 2), Err(FULL));
    let there = out(|at| error_context_transfer(&mut store, 0, context, 1, at)).unwrap();
    assert_eq!(error_context_drop(&mut store, 0, context), DONE);
    assert_eq!(new(&mut store, 0, 2), Err(FULL));
    assert_eq!(
        out(|at| error_context_message(&mut store, 1, there, 8, at)),
        Ok(2)
    );
    assert_eq!(memory_mut(&mut store, 1).unwrap()[8..10], *b"no");
    assert_eq!(event(&mut store, 1, there), Err(WRONG_KIND));
    assert_eq!(error_context_drop(&mut store, 1, there), DONE);
    assert_eq!(error_context_drop(&mut store, 1, there), UNKNOWN_HANDLE);
    assert_eq!(new(&mut store, u32::MAX, 0), Ok(1));
}

#[test]
fn limits_hold() {
    let mut store = store_of(4, 6);
    assert_eq!(out(|at| add_guest(&mut store, 1 << 28, at)), Err(MEMORY_TOO_BIG));
    let new =
        |store: &mut _, writer, reader| out::<Pair>(|at| new_between(store, writer, reader, U8, at)).err();
    assert_eq!(new(&mut store, 0, NOBODY), Some(UNKNOWN_GUEST));
    assert_eq!(new(&mut store, 0, 1), None);
    assert_eq!(set_guest_limits(&mut store, NOBODY, 0, 0, 0), UNKNOWN_GUEST);
    assert_eq!(set_guest_limits(&mut store, 0, u32::MAX, 2, 4096), DONE);
    assert_eq!(new(&mut store, 0, 0), Some(GUEST_LIMIT));
    assert_eq!(new(&mut store, 1, 0), None);
    assert_eq!(new(&mut store, 0, NOBODY), Some(GUEST_LIMIT));
    assert_eq!(new(&mut store, 1, 1), Some(HANDLE_LIMIT));
    assert_eq!(out(|at| set_new(&mut store, 0, at)), Err(HANDLE_LIMIT));
    assert_eq!(set_guest_limits(&mut store, 0, 2, 2, 4096), DONE);
    assert_eq!(out(|at| set_new(&mut store, 0, at)), Err(GUEST_LIMIT));
    assert_eq!(set_guest_limits(&mut store, 1, 2, 1, 4095), DONE);
    assert_eq!(
        out(|at| error_context_new(&mut store, 1, 0, 0, at)),
        Err(GUEST_LIMIT)
    );
    assert_eq!(stream_drop_readable(&mut store, 1, U8, 1), DONE);
    assert_eq!(
        out(|at| stream_transfer(&mut store, 0, U8, 2, 1, at)),
        Err(GUEST_LIMIT)
    );
    assert_eq!(out(|at| set_new(&mut store, 1, at)), Err(FULL));
}
