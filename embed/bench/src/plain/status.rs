//! Why a call was not done. Nothing has changed then.

use std::collections::TryReserveError;

#[derive(Clone, Copy, Debug, PartialEq, Eq)]
#[repr(u32)]
pub enum Status {
    UnknownGuest = 1,
    UnknownReader = 4,
    StreamOpTooBig = 5,
    OutOfBounds = 6,
    NotAligned = 7,
    UnknownHandle = 8,
    WrongKind = 9,
    WrongType = 10,
    WrongEnd = 11,
    ConcurrentFutureStreamOp = 12,
    Busy = 13,
    NoPending = 14,
    WriteToDroppedStream = 16,
    WriteToDroppedFuture = 17,
    ReadFromDroppedStream = 18,
    FutureAlreadyRead = 19,
    IntraComponent = 20,
    LiftDropped = 21,
    LiftInSet = 22,
    SetNotEmpty = 23,
    FutureWithoutValue = 24,
    IndexOverflow = 25,
    HandleLimit = 26,
    Full = 27,
    MemoryTooBig = 28,
    BadText = 29,
    MessageTooLong = 30,
    BadItem = 64,
    OutOfMemory = 66,
    UnknownPayload = 67,
    UnknownStream = 68,
    NoStore = 69,
    GuestLimit = 72,
}

impl From<TryReserveError> for Status {
    fn from(_: TryReserveError) -> Status {
        Status::OutOfMemory
    }
}
