//! The raw declarations of the proved archive, whose every call is one step of its machine: the exports, their
//! statuses and refusals. The build script links the archive; the crate `strm` is the safe one above.
//!
//! Written by `embed/declare`. A slice crosses as a pointer and a length, as bytes that are lent do, and a
//! [`StoreHandle`] is one word. What the caller owes stands at the head of `strm.h`; all else is answered, whatever
//! numbers are passed.
#![no_std]
#![allow(missing_docs)] // What a struct says of itself is said of its fields too.

use core::fmt;

#[cfg(not(all(
    target_os = "linux",
    any(target_arch = "x86_64", target_arch = "aarch64"),
    target_pointer_width = "64",
    target_endian = "little"
)))]
compile_error!("there are archives for Linux on x86-64 and on arm64 alone");

/// A store, or none. Only the library reads what is in it.
#[repr(C)]
#[derive(Debug)]
pub struct StoreHandle {
    at: *mut u8,
}

impl StoreHandle {
    /// No store.
    pub const NONE: StoreHandle = StoreHandle {
        at: core::ptr::null_mut(),
    };
}

/// A count of 128 bits: low + 2^64 * high.
#[repr(C)]
#[derive(Clone, Copy, Debug, Default, PartialEq, Eq)]
pub struct Count {
    pub low: u64,
    pub high: u64,
}

/// An item that is none of its type: who writes it, and which of its write's items it is.
#[repr(C)]
#[derive(Clone, Copy, Debug, Default, PartialEq, Eq)]
pub struct BadItem {
    /// The guest that has the write end.
    pub guest: u32,
    /// Its handle of that end.
    pub handle: u32,
    /// The item's place among all items of the write, from 0.
    pub index: u32,
}

/// A member of a set and what it was told: its handle, and a code, or STRM_NO_EVENT.
#[repr(C)]
#[derive(Clone, Copy, Debug, Default, PartialEq, Eq)]
pub struct Member {
    pub handle: u32,
    pub code: u32,
}

/// A handle of a guest, and what it is of. What is not told is 0, and an event STRM_NO_EVENT.
#[repr(C)]
#[derive(Clone, Copy, Debug, Default, PartialEq, Eq)]
pub struct Handle {
    /// Of an end, the type of its stream or future.
    pub ty: u64,
    /// The handle's number; 0 where there is none.
    pub handle: u32,
    /// What it is of, by its kind; 0 where there is no handle.
    pub kind: u32,
    /// Of an end, which of the two it is.
    pub side: u32,
    /// Of an end, the number of its stream or future.
    pub stream: u32,
    /// Of an end, the code that it is to be told, and still is; else STRM_NO_EVENT.
    pub event: u32,
    /// Of an end, who has the other one.
    pub other: u32,
    /// The guest that has the other end, if one has.
    pub other_guest: u32,
    /// The handle under which that guest has it.
    pub other_handle: u32,
}

/// How much a guest may have at once. UINT32_MAX handles or ends and UINT64_MAX bytes are no bound, and hold of
/// a guest until its limits are set.
#[repr(C)]
#[derive(Clone, Copy, Debug, Default, PartialEq, Eq)]
pub struct Limits {
    /// Bytes that the store keeps for it: 4,096 for each handle of an error context, the longest that a message can be.
    pub bytes: u64,
    /// Handles, of whatever kind.
    pub handles: u32,
    /// Ends of streams and futures among them, so it is at that many streams and futures at most.
    pub ends: u32,
}

/// The handles of a new stream's or future's two ends, each in the table of the guest that has it, and
/// the number of the stream or future, which no other has until both its ends are gone.
#[repr(C)]
#[derive(Clone, Copy, Debug, Default, PartialEq, Eq)]
pub struct Pair {
    pub read: u32,
    pub write: u32,
    pub stream: u32,
}

/// Why a call was refused. Nothing has changed.
#[derive(Clone, Copy, Debug, PartialEq, Eq, Hash)]
#[non_exhaustive]
#[repr(u8)]
pub enum Refusal {
    /// A named guest is not there.
    UnknownGuest = 1,
    /// No host end has that number.
    UnknownHost = 2,
    /// The host end was used before.
    HostUsed = 3,
    /// No stream of that number has a loose read end.
    UnknownReader = 4,
    /// The count is 2^28 or more.
    StreamOpTooBig = 5,
    /// The region passes the memory's end.
    OutOfBounds = 6,
    /// The address is no multiple of the payload's alignment.
    NotAligned = 7,
    /// No live slot has that number.
    UnknownHandle = 8,
    /// The slot is of another kind than the call names.
    WrongKind = 9,
    /// The payloads differ.
    WrongType = 10,
    /// In a cancel, drop or lift: the handle is the other end, busy or idle.
    WrongEnd = 11,
    /// In a read or write: the handle is busy, or is the other end.
    ConcurrentFutureStreamOp = 12,
    /// In a drop, transfer or lift: the end has an operation.
    Busy = 13,
    /// In a cancel: the end has no operation.
    NoPending = 14,
    /// The operation was asked to finish before.
    CancelUnderWay = 15,
    /// The write end of a stream was told that the read end is gone.
    WriteToDroppedStream = 16,
    /// The write end of a future was told so, or the value passed.
    WriteToDroppedFuture = 17,
    /// The read end of a stream was told that the write end is gone.
    ReadFromDroppedStream = 18,
    /// The value passed.
    FutureAlreadyRead = 19,
    /// Both operations are of one guest, and the payload is neither none nor a number.
    IntraComponent = 20,
    /// The end that would move was told, or the value passed.
    LiftDropped = 21,
    /// The end that would move is a member of a set.
    LiftInSet = 22,
    /// The set has a member.
    SetNotEmpty = 23,
    /// The value has not passed, and the write end was not told.
    FutureWithoutValue = 24,
    /// A new handle would be 2^28 or more.
    IndexOverflow = 25,
    /// The live handles would pass the limit.
    HandleLimit = 26,
    /// The places in use and those needed pass the limit, or a number would pass its range.
    Full = 27,
    /// The guests' memories would pass 268,435,456 bytes together.
    MemoryTooBig = 28,
    /// The bytes are not UTF-8.
    BadText = 29,
    /// The message is longer than 4,096 bytes.
    MessageTooLong = 30,
}

impl Refusal {
    /// The refusal that a status tells, if it tells one.
    pub const fn of_status(status: u32) -> Option<Refusal> {
        if status == 0 || status as usize > REFUSALS.len() {
            return None;
        }
        Some(REFUSALS[status as usize - 1])
    }
}

impl fmt::Display for Refusal {
    fn fmt(&self, f: &mut fmt::Formatter<'_>) -> fmt::Result {
        f.write_str(TEXTS[*self as usize - 1])
    }
}

impl core::error::Error for Refusal {}

/// The refusals by their numbers, from 1.
#[rustfmt::skip]
pub const REFUSALS: [Refusal; 30] = [
    Refusal::UnknownGuest,
    Refusal::UnknownHost,
    Refusal::HostUsed,
    Refusal::UnknownReader,
    Refusal::StreamOpTooBig,
    Refusal::OutOfBounds,
    Refusal::NotAligned,
    Refusal::UnknownHandle,
    Refusal::WrongKind,
    Refusal::WrongType,
    Refusal::WrongEnd,
    Refusal::ConcurrentFutureStreamOp,
    Refusal::Busy,
    Refusal::NoPending,
    Refusal::CancelUnderWay,
    Refusal::WriteToDroppedStream,
    Refusal::WriteToDroppedFuture,
    Refusal::ReadFromDroppedStream,
    Refusal::FutureAlreadyRead,
    Refusal::IntraComponent,
    Refusal::LiftDropped,
    Refusal::LiftInSet,
    Refusal::SetNotEmpty,
    Refusal::FutureWithoutValue,
    Refusal::IndexOverflow,
    Refusal::HandleLimit,
    Refusal::Full,
    Refusal::MemoryTooBig,
    Refusal::BadText,
    Refusal::MessageTooLong,
];

/// What each says.
#[rustfmt::skip]
pub const TEXTS: [&str; 30] = [
    "a named guest is not there",
    "no host end has that number",
    "the host end was used before",
    "no stream of that number has a loose read end",
    "the count is 2^28 or more",
    "the region passes the memory's end",
    "the address is no multiple of the payload's alignment",
    "no live slot has that number",
    "the slot is of another kind than the call names",
    "the payloads differ",
    "in a cancel, drop or lift: the handle is the other end, busy or idle",
    "in a read or write: the handle is busy, or is the other end",
    "in a drop, transfer or lift: the end has an operation",
    "in a cancel: the end has no operation",
    "the operation was asked to finish before",
    "the write end of a stream was told that the read end is gone",
    "the write end of a future was told so, or the value passed",
    "the read end of a stream was told that the write end is gone",
    "the value passed",
    "both operations are of one guest, and the payload is neither none nor a number",
    "the end that would move was told, or the value passed",
    "the end that would move is a member of a set",
    "the set has a member",
    "the value has not passed, and the write end was not told",
    "a new handle would be 2^28 or more",
    "the live handles would pass the limit",
    "the places in use and those needed pass the limit, or a number would pass its range",
    "the guests' memories would pass 268,435,456 bytes together",
    "the bytes are not UTF-8",
    "the message is longer than 4,096 bytes",
];

/// An item that was to move is none of its type: a char that is no Unicode scalar value, or the number of a case that there is not. strm_find_bad_item tells which, and who writes it.
pub const BAD_ITEM: u32 = 64;

/// An allocation was refused, and nothing has changed.
pub const OUT_OF_MEMORY: u32 = 66;

/// No payload, or no type, has the word.
pub const UNKNOWN_PAYLOAD: u32 = 67;

/// No stream has the number, or none of which an end is there.
pub const UNKNOWN_STREAM: u32 = 68;

/// The handle is of no store: it is {NULL}.
pub const NO_STORE: u32 = 69;

/// A guest that is there would get more than its limits allow. It is told before any refusal.
pub const GUEST_LIMIT: u32 = 72;

/// A read or write with these arguments stops at no item.
pub const NO_BAD_ITEM: u32 = 73;

/// The guest's memory is the store's own, which neither grows nor moves.
pub const NOT_LENT: u32 = 74;

/// There are fewer bytes than the guest's memory has.
pub const SHORTER: u32 = 75;

/// The guest has bytes, handles, or a memory that was lent: it did not end, or began again.
pub const IN_USE: u32 = 76;

/// The words of a type are more than seven.
pub const TYPE_TOO_LONG: u32 = 77;

/// The words spell no type, more than one, or a tuple that STRM_FIELD makes.
pub const NO_TYPE: u32 = 78;

/// The handle is of an end of a stream or future.
pub const KIND_END: u32 = 1;

/// The handle is of a waitable set.
pub const KIND_WAITABLE_SET: u32 = 2;

/// The handle is of an error context.
pub const KIND_ERROR_CONTEXT: u32 = 3;

/// The handle is of something that no call makes.
pub const KIND_OTHER: u32 = 4;

/// The end is the write end.
pub const SIDE_WRITING: u32 = 1;

/// The end is the read end.
pub const SIDE_READING: u32 = 2;

/// A guest has the other end.
pub const OTHER_GUEST: u32 = 1;

/// The other end is loose: it was lifted, and not lowered since.
pub const OTHER_LOOSE: u32 = 2;

/// The other end is gone: it was dropped or closed.
pub const OTHER_GONE: u32 = 3;

/// The number of no guest: none gets it.
pub const NO_GUEST: u32 = 4294967295;

#[rustfmt::skip]
unsafe extern "C" {
    /// The version of the archive, as STRM_VERSION is that of this header. Where the two differ, a program was
    /// compiled for another archive than it was linked with.
    pub fn strm_version() -> u32;
    /// Makes a store without guests, in a handle of none ({NULL}). It keeps `handles` live handles of all
    /// guests together at most, and `places` places: a stream takes three, a waitable set and an error
    /// context one each. `tag` is a number of the caller's own. OUT_OF_MEMORY.
    pub fn strm_store_new(store: *mut StoreHandle, tag: u64, handles: usize, places: u32) -> u32;
    /// Gives a store up, with the memories of its guests, and leaves {NULL}. Of {NULL} it does nothing.
    pub fn strm_store_free(store: *mut StoreHandle);
    /// The number that the store was made with; 0 of {NULL}.
    pub fn strm_tag(store: *mut StoreHandle) -> u64;
    /// The numbers that streams and futures got so far are below this; 0 of {NULL}. One is given again once both ends
    /// of its stream are gone, so it never passes a third of `places`: a store keeps room for no more streams than
    /// that, and no making is refused since streams were made and dropped before.
    pub fn strm_streams(store: *mut StoreHandle) -> u32;
    /// Puts at `out` how many items were received so far on the stream that got this number last. UNKNOWN_STREAM
    /// where none got it.
    pub fn strm_moved(store: *mut StoreHandle, stream: u32, out: &mut Count) -> u32;
    /// Puts at `out` the type of the stream that has this number, while an end of it is there. UNKNOWN_STREAM of any
    /// other.
    pub fn strm_transmit_index(store: *mut StoreHandle, stream: u32, out: &mut u64) -> u32;
    /// Adds a guest with a memory of `size` zero bytes, and puts its number at `out`; the first is 0. Refused:
    /// MemoryTooBig (268,435,456 bytes of all guests together, without those that were lent), Full (1,048,576
    /// guests). OUT_OF_MEMORY.
    pub fn strm_add_guest(store: *mut StoreHandle, size: u32, out: &mut u32) -> u32;
    /// Adds a guest whose memory is `len` bytes that the caller lends, from `bytes` on, and puts its number at
    /// `out`. They stay where they are, are touched only as the guest's memory is, and are not freed: they are the
    /// caller's again once the guest ended or the store is given up, or at once where nothing is added. There is no
    /// limit on those of all guests. Refused: MemoryTooBig (4,294,967,296 bytes or more), Full (1,048,576 guests).
    /// OUT_OF_MEMORY.
    pub fn strm_add_guest_at(store: *mut StoreHandle, bytes: *mut u8, len: usize, out: &mut u32) -> u32;
    /// Tells that a memory which the caller lent has `len` bytes more, from `more` on, which lie directly behind
    /// its end: it grew where it lies. Reads and writes that wait go on. Refused: UnknownGuest, MemoryTooBig
    /// (4,294,967,296 bytes or more in all). NOT_LENT.
    pub fn strm_memory_grown(store: *mut StoreHandle, guest: u32, more: *mut u8, len: usize) -> u32;
    /// Tells that a memory which the caller lent goes on in `len` bytes from `bytes` on, which begin with all that
    /// it had: it grew, and lies elsewhere. Reads and writes that wait go on there, and the bytes where it was are
    /// the caller's again. Refused: UnknownGuest, MemoryTooBig (4,294,967,296 bytes or more). NOT_LENT, SHORTER.
    pub fn strm_memory_moved(store: *mut StoreHandle, guest: u32, bytes: *mut u8, len: usize) -> u32;
    /// Copies `len` bytes into a guest's memory, from `address` on. Refused: UnknownGuest, OutOfBounds.
    pub fn strm_memory_write(store: *mut StoreHandle, guest: u32, address: u32, bytes: *const u8, len: usize) -> u32;
    /// Copies `len` bytes of a guest's memory out, from `address` on. Refused: UnknownGuest, OutOfBounds.
    pub fn strm_memory_read(store: *mut StoreHandle, guest: u32, address: u32, out: *mut u8, len: usize) -> u32;
    /// Puts at `out` where a guest's memory lies, and at `len` how many bytes it has; of no bytes `out` is an
    /// address that may not be read. The store's own lie there until the guest ends or the store is given up, from
    /// the beginning of a block of malloc's on, at a multiple of 16; those that the caller lent until it tells that they
    /// moved. The caller may read and write them between calls, and must not during one. Refused: UnknownGuest.
    pub fn strm_memory_at(store: *mut StoreHandle, guest: u32, out: &mut *mut u8, len: &mut usize) -> u32;
    /// Ends a guest: each of its ends, by rising handle, is cancelled (what was moved stays moved) and dropped, and
    /// whoever has the other end is told so by its event, the reader of a future that never gets its value too. Then its
    /// waitable sets and error contexts go, and its memory: nobody may read or write there any more, and bytes that the
    /// caller lent are the caller's again. The number stays a guest's that has nothing, until one begins under it; the
    /// limits that were set of the number stay. Refused: UnknownGuest.
    pub fn strm_end_guest(store: *mut StoreHandle, guest: u32) -> u32;
    /// Begins a guest under the number of one that has nothing, as one that ended, with a memory of `size` zero bytes.
    /// Refused: UnknownGuest, MemoryTooBig (268,435,456 bytes of all guests together, without those that were lent).
    /// IN_USE, which comes between the two. OUT_OF_MEMORY.
    pub fn strm_begin_guest(store: *mut StoreHandle, guest: u32, size: u32) -> u32;
    /// Begins a guest under the number of one that has nothing, as one that ended, whose memory is `len` bytes that the
    /// caller lends, from `bytes` on, as by strm_add_guest_at. They are the caller's again once the guest ended or the
    /// store is given up, or at once where nothing begins. Refused: UnknownGuest, MemoryTooBig (4,294,967,296 bytes or
    /// more). IN_USE, which comes between the two.
    pub fn strm_begin_guest_at(store: *mut StoreHandle, guest: u32, bytes: *mut u8, len: usize) -> u32;
    /// Makes a stream whose two ends the guest gets, and puts their handles and the stream's number at `out`,
    /// which may be that of a stream both of whose ends are gone. `canon stream.new`. Refused: UnknownGuest,
    /// IndexOverflow, HandleLimit, Full. GUEST_LIMIT, OUT_OF_MEMORY, UNKNOWN_PAYLOAD.
    pub fn strm_stream_new(store: *mut StoreHandle, guest: u32, payload: u64, out: &mut Pair) -> u32;
    /// Writes `count` items that lie from `address` of the guest's memory on, and puts the code at `out`. A
    /// write that waits (STRM_BLOCKED) leaves its items where they are until they move. `canon stream.write`.
    /// Refused: UnknownGuest, StreamOpTooBig, OutOfBounds, NotAligned, UnknownHandle, WrongKind, WrongType,
    /// ConcurrentFutureStreamOp, WriteToDroppedStream, IntraComponent. BAD_ITEM, UNKNOWN_PAYLOAD.
    pub fn strm_stream_write(store: *mut StoreHandle, guest: u32, payload: u64, handle: u32, address: u32, count: u32, out: &mut u32) -> u32;
    /// Reads `count` items to `address` of the guest's memory on, and puts the code at `out`.
    /// `canon stream.read`. Refused: UnknownGuest, StreamOpTooBig, OutOfBounds, NotAligned, UnknownHandle,
    /// WrongKind, WrongType, ConcurrentFutureStreamOp, ReadFromDroppedStream, IntraComponent. BAD_ITEM,
    /// UNKNOWN_PAYLOAD.
    pub fn strm_stream_read(store: *mut StoreHandle, guest: u32, payload: u64, handle: u32, address: u32, count: u32, out: &mut u32) -> u32;
    /// Cancels the write that waits, and puts the code at `out`. `canon stream.cancel-write`. Refused: UnknownGuest,
    /// UnknownHandle, WrongKind, WrongType, WrongEnd, NoPending. UNKNOWN_PAYLOAD.
    pub fn strm_stream_cancel_write(store: *mut StoreHandle, guest: u32, payload: u64, handle: u32, out: &mut u32) -> u32;
    /// Cancels the read that waits, and puts the code at `out`. `canon stream.cancel-read`. Refused: UnknownGuest,
    /// UnknownHandle, WrongKind, WrongType, WrongEnd, NoPending. UNKNOWN_PAYLOAD.
    pub fn strm_stream_cancel_read(store: *mut StoreHandle, guest: u32, payload: u64, handle: u32, out: &mut u32) -> u32;
    /// Drops the write end. `canon stream.drop-writable`. Refused: UnknownGuest, UnknownHandle, WrongKind,
    /// WrongType, WrongEnd, Busy. UNKNOWN_PAYLOAD.
    pub fn strm_stream_drop_writable(store: *mut StoreHandle, guest: u32, payload: u64, handle: u32) -> u32;
    /// Drops the read end. `canon stream.drop-readable`. Refused: UnknownGuest, UnknownHandle, WrongKind,
    /// WrongType, WrongEnd, Busy. UNKNOWN_PAYLOAD.
    pub fn strm_stream_drop_readable(store: *mut StoreHandle, guest: u32, payload: u64, handle: u32) -> u32;
    /// Puts what an end, of a stream or a future, is to be told at `out`: a code, or STRM_NO_EVENT. It ends
    /// the read or write that it tells of. Refused: UnknownGuest, UnknownHandle, WrongKind.
    pub fn strm_take_event(store: *mut StoreHandle, guest: u32, handle: u32, out: &mut u32) -> u32;
    /// Makes a future whose two ends the guest gets, and puts their handles and the future's number at `out`,
    /// as strm_stream_new does. `canon future.new`. Refused: UnknownGuest, IndexOverflow, HandleLimit, Full.
    /// GUEST_LIMIT, OUT_OF_MEMORY, UNKNOWN_PAYLOAD.
    pub fn strm_future_new(store: *mut StoreHandle, guest: u32, payload: u64, out: &mut Pair) -> u32;
    /// Writes the value that lies at `address` of the guest's memory, and puts the code at `out`.
    /// `canon future.write`. Refused: UnknownGuest, OutOfBounds, NotAligned, UnknownHandle, WrongKind, WrongType,
    /// ConcurrentFutureStreamOp, WriteToDroppedFuture, IntraComponent. BAD_ITEM, UNKNOWN_PAYLOAD.
    pub fn strm_future_write(store: *mut StoreHandle, guest: u32, payload: u64, handle: u32, address: u32, out: &mut u32) -> u32;
    /// Reads the value to `address` of the guest's memory, and puts the code at `out`. `canon future.read`.
    /// Refused: UnknownGuest, OutOfBounds, NotAligned, UnknownHandle, WrongKind, WrongType,
    /// ConcurrentFutureStreamOp, FutureAlreadyRead, IntraComponent. BAD_ITEM, UNKNOWN_PAYLOAD.
    pub fn strm_future_read(store: *mut StoreHandle, guest: u32, payload: u64, handle: u32, address: u32, out: &mut u32) -> u32;
    /// Cancels the write that waits, and puts the code at `out`. `canon future.cancel-write`. Refused: UnknownGuest,
    /// UnknownHandle, WrongKind, WrongType, WrongEnd, NoPending. UNKNOWN_PAYLOAD.
    pub fn strm_future_cancel_write(store: *mut StoreHandle, guest: u32, payload: u64, handle: u32, out: &mut u32) -> u32;
    /// Cancels the read that waits, and puts the code at `out`. `canon future.cancel-read`. Refused: UnknownGuest,
    /// UnknownHandle, WrongKind, WrongType, WrongEnd, NoPending. UNKNOWN_PAYLOAD.
    pub fn strm_future_cancel_read(store: *mut StoreHandle, guest: u32, payload: u64, handle: u32, out: &mut u32) -> u32;
    /// Drops the write end. `canon future.drop-writable`. Refused: UnknownGuest, UnknownHandle, WrongKind,
    /// WrongType, WrongEnd, Busy, FutureWithoutValue. UNKNOWN_PAYLOAD.
    pub fn strm_future_drop_writable(store: *mut StoreHandle, guest: u32, payload: u64, handle: u32) -> u32;
    /// Drops the read end. `canon future.drop-readable`. Refused: UnknownGuest, UnknownHandle, WrongKind,
    /// WrongType, WrongEnd, Busy. UNKNOWN_PAYLOAD.
    pub fn strm_future_drop_readable(store: *mut StoreHandle, guest: u32, payload: u64, handle: u32) -> u32;
    /// Puts the item at `out` at which a read (`side` is STRM_SIDE_READING) or a write (any other `side`) with
    /// these arguments stops: the guest that writes it, its handle of the write end, and the item's place among
    /// all items of that write, from 0. So whoever is told of a bad item asks whose it is, with the arguments of
    /// that call; of a future `count` is not looked at. NO_BAD_ITEM where it would stop at none. UNKNOWN_PAYLOAD.
    pub fn strm_find_bad_item(store: *mut StoreHandle, side: u32, guest: u32, ty: u64, handle: u32, address: u32, count: u32, out: &mut BadItem) -> u32;
    /// Makes a stream or future from one guest to another, which may be the same, and puts the handles of its
    /// ends and its number at `out`, as strm_stream_new does. Refused: UnknownGuest, IndexOverflow, HandleLimit,
    /// Full. GUEST_LIMIT, OUT_OF_MEMORY, UNKNOWN_PAYLOAD.
    pub fn strm_new_between(store: *mut StoreHandle, writer: u32, reader: u32, ty: u64, out: &mut Pair) -> u32;
    /// Moves an end of a stream, read or write, to the guest `to`, which may be the same, and puts its handle there
    /// at `out`. Refused: UnknownGuest, UnknownHandle, WrongKind, WrongType, Busy, LiftDropped, LiftInSet,
    /// IndexOverflow. GUEST_LIMIT, OUT_OF_MEMORY, where the two guests differ; UNKNOWN_PAYLOAD.
    pub fn strm_stream_transfer(store: *mut StoreHandle, guest: u32, payload: u64, handle: u32, to: u32, out: &mut u32) -> u32;
    /// Moves an end of a future, read or write, to the guest `to`, which may be the same, and puts its handle there
    /// at `out`. Refused: UnknownGuest, UnknownHandle, WrongKind, WrongType, Busy, LiftDropped, LiftInSet,
    /// IndexOverflow. GUEST_LIMIT, OUT_OF_MEMORY, where the two guests differ; UNKNOWN_PAYLOAD.
    pub fn strm_future_transfer(store: *mut StoreHandle, guest: u32, payload: u64, handle: u32, to: u32, out: &mut u32) -> u32;
    /// Takes a read end out of a guest, and puts the number of its stream at `out`, by which strm_lower and
    /// strm_close name it: while the end is loose no other stream gets that number. Refused: UnknownGuest,
    /// UnknownHandle, WrongKind, WrongType, WrongEnd, Busy, LiftDropped, LiftInSet. UNKNOWN_PAYLOAD.
    pub fn strm_lift(store: *mut StoreHandle, guest: u32, ty: u64, handle: u32, out: &mut u32) -> u32;
    /// Gives a guest the loose read end of a stream, and puts its handle at `out`. Refused: UnknownGuest,
    /// UnknownReader, WrongKind, WrongType, IndexOverflow, HandleLimit. GUEST_LIMIT, OUT_OF_MEMORY, UNKNOWN_PAYLOAD.
    pub fn strm_lower(store: *mut StoreHandle, reader: u32, guest: u32, ty: u64, out: &mut u32) -> u32;
    /// Drops the loose read end of a stream. Refused: UnknownReader.
    pub fn strm_close(store: *mut StoreHandle, reader: u32) -> u32;
    /// Makes a waitable set, and puts its handle at `out`. `canon waitable-set.new`. Refused: UnknownGuest,
    /// IndexOverflow, HandleLimit, Full. GUEST_LIMIT, OUT_OF_MEMORY.
    pub fn strm_set_new(store: *mut StoreHandle, guest: u32, out: &mut u32) -> u32;
    /// An end joins a set, and leaves the one that it was in; of set 0 it leaves that alone.
    /// `canon waitable.join`. Refused: UnknownGuest, UnknownHandle, WrongKind. OUT_OF_MEMORY.
    pub fn strm_set_join(store: *mut StoreHandle, guest: u32, set: u32, handle: u32) -> u32;
    /// Tells the member of the least handle that has something to be told, and puts its handle and code at
    /// `out`; where none has, the code is STRM_NO_EVENT, and the handle stays. `canon waitable-set.poll`.
    /// Refused: UnknownGuest, UnknownHandle, WrongKind.
    pub fn strm_set_poll(store: *mut StoreHandle, guest: u32, set: u32, out: &mut Member) -> u32;
    /// Gives up a set without members. `canon waitable-set.drop`. Refused: UnknownGuest, UnknownHandle,
    /// WrongKind, SetNotEmpty.
    pub fn strm_set_drop(store: *mut StoreHandle, guest: u32, set: u32) -> u32;
    /// Makes an error context of `len` bytes from `address` of the guest's memory on, its message, and puts its
    /// handle at `out`. `canon error-context.new`. Refused: UnknownGuest, MessageTooLong, OutOfBounds, BadText,
    /// IndexOverflow, HandleLimit, Full. GUEST_LIMIT, OUT_OF_MEMORY.
    pub fn strm_error_context_new(store: *mut StoreHandle, guest: u32, address: u32, len: u32, out: &mut u32) -> u32;
    /// Puts the message of an error context at `address` of the guest's memory, and its bytes' number at `out`.
    /// `canon error-context.debug-message`. Refused: UnknownGuest, UnknownHandle, WrongKind, OutOfBounds.
    pub fn strm_error_context_message(store: *mut StoreHandle, guest: u32, handle: u32, address: u32, out: &mut u32) -> u32;
    /// Gives the guest `to` a handle to an error context, and puts it at `out`; the first guest keeps its own.
    /// Refused: UnknownGuest, UnknownHandle, WrongKind, IndexOverflow, HandleLimit. GUEST_LIMIT, OUT_OF_MEMORY.
    pub fn strm_error_context_transfer(store: *mut StoreHandle, guest: u32, handle: u32, to: u32, out: &mut u32) -> u32;
    /// Puts the number of the error context of a handle at `out`, by which strm_error_context_lower names it.
    /// Refused: UnknownGuest, UnknownHandle, WrongKind.
    pub fn strm_error_context_rep(store: *mut StoreHandle, guest: u32, handle: u32, out: &mut u32) -> u32;
    /// Gives a guest a handle to the error context of a number, and puts it at `out`. Refused: UnknownGuest,
    /// UnknownHandle, IndexOverflow, HandleLimit. GUEST_LIMIT, OUT_OF_MEMORY.
    pub fn strm_error_context_lower(store: *mut StoreHandle, rep: u32, guest: u32, out: &mut u32) -> u32;
    /// Gives up a handle of an error context, and the context with the last. `canon error-context.drop`.
    /// Refused: UnknownGuest, UnknownHandle, WrongKind.
    pub fn strm_error_context_drop(store: *mut StoreHandle, guest: u32, handle: u32) -> u32;
    /// Puts at `out` what a handle of a guest is of, and of an end all that a runtime asks of it. Nothing is
    /// taken of what it is to be told. Refused: UnknownGuest, UnknownHandle.
    pub fn strm_handle_info(store: *mut StoreHandle, guest: u32, handle: u32, out: &mut Handle) -> u32;
    /// Puts at `out` the least handle of a guest above `after`, and what it is of, as strm_handle_info does; where
    /// no handle is above it, its number and kind are 0. From 0 on, and then from each handle, it tells all of them,
    /// and goes over the guest's table once. Refused: UnknownGuest.
    pub fn strm_next_handle(store: *mut StoreHandle, guest: u32, after: u32, out: &mut Handle) -> u32;
    /// Puts at `out` how many handles a guest has, and looks at none of them. Refused: UnknownGuest.
    pub fn strm_handle_count(store: *mut StoreHandle, guest: u32, out: &mut u32) -> u32;
    /// Puts at `out` the least guest, of those from a number on, that has an end which is to be told something, or
    /// STRM_NO_GUEST where none has. It is told as long as that is so, whoever asked before. From 0 on, and then from
    /// behind each guest, it tells all that are ready, and looks at no guest in vain. strm_next_handle tells which ends
    /// they are, or strm_set_poll of those in a set. The first call makes counts: it goes over all streams, and takes
    /// 8 to 17 bytes for each guest and 24 for each stream; later ones go over the streams that changed since, each
    /// once. OUT_OF_MEMORY, of the first call alone, after which nothing is counted.
    pub fn strm_next_ready_guest(store: *mut StoreHandle, from: u32, out: &mut u32) -> u32;
    /// Sets how much a guest may have at once: handles of whatever kind, ends of streams and futures among them, and
    /// bytes that the store keeps for it, 4,096 for each handle of an error context. What it has stays, also where
    /// that is more; it only gets no more of it. It takes 16 bytes for each guest up to this one. Refused:
    /// UnknownGuest. OUT_OF_MEMORY.
    pub fn strm_set_guest_limits(store: *mut StoreHandle, guest: u32, handles: u32, ends: u32, bytes: u64) -> u32;
    /// Puts at `out` how much a guest may have at once. Refused: UnknownGuest.
    pub fn strm_guest_limits(store: *mut StoreHandle, guest: u32, out: &mut Limits) -> u32;
    /// Puts at `out` the payload that these words spell, each of them a byte: a type before the types that it holds,
    /// as STRM_WORD_RESULT, STRM_WORD_NOTHING, STRM_WORD_ENUM(3). It is built once, and then passed as any other.
    /// TYPE_TOO_LONG. NO_TYPE.
    pub fn strm_type_of(words: *const u8, len: usize, out: &mut u64) -> u32;
}
