//! What reads, writes and events are answered, and why a step is refused.

use std::fmt;

/// How a read or write ended, but for its count.
#[derive(Clone, Copy, Debug, PartialEq, Eq)]
pub enum StreamResult {
    Completed,
    Dropped,
    Cancelled,
}

/// What a read, a write or an event is answered.
#[derive(Clone, Copy, Debug, PartialEq, Eq)]
pub enum ReturnCode {
    Blocked,
    Ended { how: StreamResult, count: u32 },
}

impl ReturnCode {
    pub const fn completed(count: u32) -> ReturnCode {
        ReturnCode::Ended { how: StreamResult::Completed, count }
    }

    pub const fn dropped(count: u32) -> ReturnCode {
        ReturnCode::Ended { how: StreamResult::Dropped, count }
    }

    pub const fn cancelled(count: u32) -> ReturnCode {
        ReturnCode::Ended { how: StreamResult::Cancelled, count }
    }

    /// The word of the Canonical ABI.
    pub fn encode(self) -> u32 {
        match self {
            ReturnCode::Blocked => u32::MAX,
            ReturnCode::Ended { how, count } => 16 * count + how as u32,
        }
    }
}

/// Why a step may not be done.
#[derive(Clone, Copy, Debug, PartialEq, Eq)]
pub enum Refusal {
    UnknownGuest,
    UnknownHost,
    HostUsed,
    UnknownReader,
    StreamOpTooBig,
    OutOfBounds,
    NotAligned,
    UnknownHandle,
    WrongKind,
    WrongType,
    WrongEnd,
    ConcurrentFutureStreamOp,
    Busy,
    NoPending,
    CancelUnderWay,
    WriteToDroppedStream,
    WriteToDroppedFuture,
    ReadFromDroppedStream,
    FutureAlreadyRead,
    IntraComponent,
    LiftDropped,
    LiftInSet,
    SetNotEmpty,
    FutureWithoutValue,
    HandleLimit,
    Full,
    MemoryTooBig,
    BadText,
    MessageTooLong,
}

impl Refusal {
    /// Its name, as a reply has it.
    pub fn name(self) -> &'static str {
        match self {
            Refusal::UnknownGuest => "UnknownGuest",
            Refusal::UnknownHost => "UnknownHost",
            Refusal::HostUsed => "HostUsed",
            Refusal::UnknownReader => "UnknownReader",
            Refusal::StreamOpTooBig => "StreamOpTooBig",
            Refusal::OutOfBounds => "OutOfBounds",
            Refusal::NotAligned => "NotAligned",
            Refusal::UnknownHandle => "UnknownHandle",
            Refusal::WrongKind => "WrongKind",
            Refusal::WrongType => "WrongType",
            Refusal::WrongEnd => "WrongEnd",
            Refusal::ConcurrentFutureStreamOp => "ConcurrentFutureStreamOp",
            Refusal::Busy => "Busy",
            Refusal::NoPending => "NoPending",
            Refusal::CancelUnderWay => "CancelUnderWay",
            Refusal::WriteToDroppedStream => "WriteToDroppedStream",
            Refusal::WriteToDroppedFuture => "WriteToDroppedFuture",
            Refusal::ReadFromDroppedStream => "ReadFromDroppedStream",
            Refusal::FutureAlreadyRead => "FutureAlreadyRead",
            Refusal::IntraComponent => "IntraComponent",
            Refusal::LiftDropped => "LiftDropped",
            Refusal::LiftInSet => "LiftInSet",
            Refusal::SetNotEmpty => "SetNotEmpty",
            Refusal::FutureWithoutValue => "FutureWithoutValue",
            Refusal::HandleLimit => "HandleLimit",
            Refusal::Full => "Full",
            Refusal::MemoryTooBig => "MemoryTooBig",
            Refusal::BadText => "BadText",
            Refusal::MessageTooLong => "MessageTooLong",
        }
    }
}

/// A host end by its number.
#[derive(Clone, Copy, Debug, PartialEq, Eq)]
pub enum HostEnd {
    Writer(u32),
    Reader(u32),
}

impl fmt::Display for HostEnd {
    fn fmt(&self, f: &mut fmt::Formatter<'_>) -> fmt::Result {
        match self {
            HostEnd::Writer(number) => write!(f, "writer {number}"),
            HostEnd::Reader(number) => write!(f, "reader {number}"),
        }
    }
}

/// Why a run stops.
#[derive(Clone, Copy, Debug, PartialEq, Eq)]
pub enum Stop {
    HostFailed(HostEnd),
    HostBroke(HostEnd),
    BadItem { stream: u32 },
}

impl Stop {
    /// The status of a program whose run stopped so.
    pub fn status(self) -> u8 {
        match self {
            Stop::HostFailed(_) => 6,
            Stop::HostBroke(_) => 7,
            Stop::BadItem { .. } => 8,
        }
    }
}

impl fmt::Display for Stop {
    fn fmt(&self, f: &mut fmt::Formatter<'_>) -> fmt::Result {
        match self {
            Stop::HostFailed(end) => write!(f, "host-failed {end}"),
            Stop::HostBroke(end) => write!(f, "host-broke {end}"),
            Stop::BadItem { stream } => write!(f, "bad-item stream {stream}"),
        }
    }
}

/// Why a step was not done.
#[derive(Clone, Copy, Debug, PartialEq, Eq)]
pub enum StoreError {
    Refused(Refusal),
    Stopped(Stop),
}

impl From<Refusal> for StoreError {
    fn from(refusal: Refusal) -> StoreError {
        StoreError::Refused(refusal)
    }
}

impl From<Stop> for StoreError {
    fn from(stop: Stop) -> StoreError {
        StoreError::Stopped(stop)
    }
}
