//! The words of `strm.h`: payloads and types, statuses, and codes.

use crate::sys;
use plain::codes::{Refusal, ReturnCode};
use plain::compound::Tree;
use plain::payload::{Fields, Payload, Scalar, TransmitIndex};
use plain::streams::Side;
use std::cell::RefCell;
use std::collections::HashMap;

/// The bit of a tuple's word.
pub const TUPLE: u64 = 1 << 32;

/// The bit of a future's type.
pub const FUTURE: u64 = 1 << 33;

/// What the fifth byte of the word of a type that holds others is, but for the future's bit.
const COMPOUND: u8 = 4;

/// The word of no event.
pub const NO_EVENT: u64 = 3;

/// The word of a side.
pub fn side_word(side: Side) -> u32 {
    match side {
        Side::Write => sys::SIDE_WRITING,
        Side::Read => sys::SIDE_READING,
    }
}

fn scalar_at(word: u64) -> Option<Scalar> {
    Scalar::ALL.get(usize::try_from(word).ok()?.wrapping_sub(1)).copied()
}

fn tuple_at(mut word: u64) -> Option<Payload> {
    let mut fields = Vec::new();
    while word != 0 {
        fields.push(scalar_at(word % 16)?);
        word /= 16;
    }
    Fields::new(&fields).map(Payload::Tuple)
}

thread_local! {
    // What was built, since a type that holds others is kept for good.
    static BUILT: RefCell<HashMap<Vec<u8>, Payload>> = RefCell::default();
}

// The type that holds others whose words these bytes are.
fn compound(words: &[u8]) -> Option<Payload> {
    if let Some(payload) = BUILT.with_borrow(|built| built.get(words).copied()) {
        return Some(payload);
    }
    let payload = Payload::compound(Tree::of_words(words)?);
    BUILT.with_borrow_mut(|built| built.insert(words.to_vec(), payload));
    Some(payload)
}

/// The payload that words spell, each of them a byte: nothing, a scalar, or a type that holds others.
pub fn built(words: &[u8]) -> Option<Payload> {
    match words {
        [13] => Some(Payload::Nothing),
        [word @ 1..13] => scalar_at((*word).into()).map(Payload::One),
        _ => compound(words),
    }
}

// The words lie in the lowest four bytes and the highest three; 0 ends them.
fn compound_at(word: u64) -> Option<Payload> {
    let bytes = word.to_le_bytes();
    let words = [&bytes[..4], &bytes[5..]].concat();
    let last = words.iter().rposition(|word| *word != 0)?;
    compound(&words[..=last])
}

/// The payload of a word, if it is one's.
pub fn payload_at(word: u64) -> Option<Payload> {
    match word {
        0 => Some(Payload::Nothing),
        TUPLE.. if word.to_le_bytes()[4] == COMPOUND => compound_at(word),
        TUPLE.. => tuple_at(word - TUPLE),
        _ => scalar_at(word).map(Payload::One),
    }
}

/// The type of a word, if it is one's.
pub fn type_at(word: u64) -> Option<TransmitIndex> {
    match word & FUTURE {
        0 => payload_at(word).map(TransmitIndex::stream),
        _ => payload_at(word - FUTURE).map(TransmitIndex::future),
    }
}

/// The word of a payload; of a type that holds others that of its words, which are seven at most.
pub fn payload_word(payload: &Payload) -> u64 {
    let number = |scalar: &Scalar| *scalar as u64 + 1;
    match payload {
        Payload::Nothing => 0,
        Payload::One(scalar) => number(scalar),
        Payload::Tuple(fields) => {
            TUPLE + fields.as_slice().iter().rev().fold(0, |word, scalar| 16 * word + number(scalar))
        }
        Payload::Compound(tree) => {
            let mut words = tree.words();
            words.resize(7, 0);
            words.insert(4, COMPOUND);
            words.iter().rev().fold(0, |word, byte| 256 * word + u64::from(*byte))
        }
    }
}

/// The word of a type.
pub fn type_word(ty: &TransmitIndex) -> u64 {
    payload_word(&ty.payload) + if ty.is_future() { FUTURE } else { 0 }
}

/// The word of an event.
pub fn event_word(event: Option<ReturnCode>) -> u64 {
    event.map_or(NO_EVENT, |code| code.encode().into())
}

/// The status of a refusal.
#[rustfmt::skip]
pub fn status_of(refusal: Refusal) -> u32 {
    use sys::Refusal as Status;
    let status = match refusal {
        Refusal::UnknownGuest => Status::UnknownGuest,
        Refusal::UnknownHost => Status::UnknownHost,
        Refusal::HostUsed => Status::HostUsed,
        Refusal::UnknownReader => Status::UnknownReader,
        Refusal::StreamOpTooBig => Status::StreamOpTooBig,
        Refusal::OutOfBounds => Status::OutOfBounds,
        Refusal::NotAligned => Status::NotAligned,
        Refusal::UnknownHandle => Status::UnknownHandle,
        Refusal::WrongKind => Status::WrongKind,
        Refusal::WrongType => Status::WrongType,
        Refusal::WrongEnd => Status::WrongEnd,
        Refusal::ConcurrentFutureStreamOp => Status::ConcurrentFutureStreamOp,
        Refusal::Busy => Status::Busy,
        Refusal::NoPending => Status::NoPending,
        Refusal::CancelUnderWay => Status::CancelUnderWay,
        Refusal::WriteToDroppedStream => Status::WriteToDroppedStream,
        Refusal::WriteToDroppedFuture => Status::WriteToDroppedFuture,
        Refusal::ReadFromDroppedStream => Status::ReadFromDroppedStream,
        Refusal::FutureAlreadyRead => Status::FutureAlreadyRead,
        Refusal::IntraComponent => Status::IntraComponent,
        Refusal::LiftDropped => Status::LiftDropped,
        Refusal::LiftInSet => Status::LiftInSet,
        Refusal::SetNotEmpty => Status::SetNotEmpty,
        Refusal::FutureWithoutValue => Status::FutureWithoutValue,
        Refusal::HandleLimit => Status::HandleLimit,
        Refusal::Full => Status::Full,
        Refusal::MemoryTooBig => Status::MemoryTooBig,
        Refusal::BadText => Status::BadText,
        Refusal::MessageTooLong => Status::MessageTooLong,
    };
    status as u32
}

/// What `strm.h` calls a status, without `STRM_`.
pub fn name_of(status: u32) -> String {
    let name = match status {
        0 => "Done".to_owned(),
        sys::BAD_ITEM => "BadItem".to_owned(),
        sys::OUT_OF_MEMORY => "OutOfMemory".to_owned(),
        sys::UNKNOWN_PAYLOAD => "UnknownPayload".to_owned(),
        sys::UNKNOWN_STREAM => "UnknownStream".to_owned(),
        sys::NO_STORE => "NoStore".to_owned(),
        sys::GUEST_LIMIT => "GuestLimit".to_owned(),
        sys::NO_BAD_ITEM => "NoBadItem".to_owned(),
        sys::NOT_LENT => "NotLent".to_owned(),
        sys::SHORTER => "Shorter".to_owned(),
        sys::IN_USE => "InUse".to_owned(),
        sys::TYPE_TOO_LONG => "TypeTooLong".to_owned(),
        sys::NO_TYPE => "NoType".to_owned(),
        number => match sys::REFUSALS.get(number as usize - 1) {
            Some(refusal) => format!("{refusal:?}"),
            None => return number.to_string(),
        },
    };
    let mut text = String::new();
    for letter in name.chars() {
        if letter.is_uppercase() && !text.is_empty() {
            text.push('_');
        }
        text.push(letter.to_ascii_uppercase());
    }
    text
}
