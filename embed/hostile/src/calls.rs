//! The calls of the archive, with all that a caller chooses.

use crate::limits::GuestLimits;
use crate::words::{FUTURE, side_word};
use plain::compare::random::Random;
use plain::payload::TransmitKind::{self, Future, Stream};
use plain::streams::Side::{self, Read, Write};
use std::fmt;

/// One call of an export. Payloads and types are words, of which some are none's.
#[derive(Clone, Copy, Debug, PartialEq, Eq)]
#[rustfmt::skip]
pub enum Call {
    Free,
    Tag,
    Streams,
    Moved { stream: u32 },
    TransmitIndex { stream: u32 },
    TypeOf { words: TypeWords },
    HandleInfo { guest: u32, handle: u32 },
    NextHandle { guest: u32, after: u32 },
    HandleCount { guest: u32 },
    NextReadyGuest { from: u32 },
    SetGuestLimits { guest: u32, limits: GuestLimits },
    GuestLimits { guest: u32 },
    AddGuest { size: u32 },
    AddGuestAt { size: u64 },
    MemoryGrown { guest: u32, more: u32 },
    MemoryMoved { guest: u32, size: u64 },
    EndGuest { guest: u32 },
    BeginGuest { guest: u32, size: u32 },
    BeginGuestAt { guest: u32, size: u64 },
    MemoryWrite { guest: u32, address: u32, bytes: Bytes },
    MemoryRead { guest: u32, address: u32, len: u32 },
    MemoryAt { guest: u32 },
    New { kind: TransmitKind, guest: u32, payload: u64 },
    /// A count that is not passed of a future.
    Operate { side: Side, kind: TransmitKind, guest: u32, payload: u64, handle: u32, address: u32, count: u32 },
    /// The item at which a read or write with these arguments stops.
    FindBadItem { side: Side, guest: u32, ty: u64, handle: u32, address: u32, count: u32 },
    Cancel { side: Side, kind: TransmitKind, guest: u32, payload: u64, handle: u32 },
    Drop { side: Side, kind: TransmitKind, guest: u32, payload: u64, handle: u32 },
    TakeEvent { guest: u32, handle: u32 },
    NewBetween { writer: u32, reader: u32, ty: u64 },
    Transfer { kind: TransmitKind, guest: u32, payload: u64, handle: u32, to: u32 },
    Lift { guest: u32, ty: u64, handle: u32 },
    Lower { reader: u32, guest: u32, ty: u64 },
    Close { reader: u32 },
    SetNew { guest: u32 },
    SetJoin { guest: u32, set: u32, handle: u32 },
    SetPoll { guest: u32, set: u32 },
    SetDrop { guest: u32, set: u32 },
    ContextNew { guest: u32, address: u32, len: u32 },
    ContextMessage { guest: u32, handle: u32, address: u32 },
    ContextTransfer { guest: u32, handle: u32, to: u32 },
    ContextRep { guest: u32, handle: u32 },
    ContextLower { rep: u32, guest: u32 },
    ContextDrop { guest: u32, handle: u32 },
}

impl Call {
    /// Of a read or write, the question at which item it stops.
    pub fn find_bad_item(&self) -> Option<Call> {
        let Call::Operate { side, kind, guest, payload, handle, address, count } = *self else { return None };
        let ty = if kind == Future { payload | FUTURE } else { payload };
        Some(Call::FindBadItem { side, guest, ty, handle, address, count })
    }

    /// The name of the export, without `strm_`.
    #[rustfmt::skip]
    pub fn export(&self) -> &'static str {
        match self {
            Call::Free => "store_free",
            Call::Tag => "tag",
            Call::Streams => "streams",
            Call::Moved { .. } => "moved",
            Call::TransmitIndex { .. } => "transmit_index",
            Call::TypeOf { .. } => "type_of",
            Call::HandleInfo { .. } => "handle_info",
            Call::NextHandle { .. } => "next_handle",
            Call::HandleCount { .. } => "handle_count",
            Call::NextReadyGuest { .. } => "next_ready_guest",
            Call::SetGuestLimits { .. } => "set_guest_limits",
            Call::GuestLimits { .. } => "guest_limits",
            Call::AddGuest { .. } => "add_guest",
            Call::AddGuestAt { .. } => "add_guest_at",
            Call::MemoryGrown { .. } => "memory_grown",
            Call::MemoryMoved { .. } => "memory_moved",
            Call::EndGuest { .. } => "end_guest",
            Call::BeginGuest { .. } => "begin_guest",
            Call::BeginGuestAt { .. } => "begin_guest_at",
            Call::MemoryWrite { .. } => "memory_write",
            Call::MemoryRead { .. } => "memory_read",
            Call::MemoryAt { .. } => "memory_at",
            Call::New { kind: Stream, .. } => "stream_new",
            Call::New { kind: Future, .. } => "future_new",
            Call::Operate { kind: Stream, side: Write, .. } => "stream_write",
            Call::Operate { kind: Stream, side: Read, .. } => "stream_read",
            Call::Operate { kind: Future, side: Write, .. } => "future_write",
            Call::Operate { kind: Future, side: Read, .. } => "future_read",
            Call::FindBadItem { .. } => "find_bad_item",
            Call::Cancel { kind: Stream, side: Write, .. } => "stream_cancel_write",
            Call::Cancel { kind: Stream, side: Read, .. } => "stream_cancel_read",
            Call::Cancel { kind: Future, side: Write, .. } => "future_cancel_write",
            Call::Cancel { kind: Future, side: Read, .. } => "future_cancel_read",
            Call::Drop { kind: Stream, side: Write, .. } => "stream_drop_writable",
            Call::Drop { kind: Stream, side: Read, .. } => "stream_drop_readable",
            Call::Drop { kind: Future, side: Write, .. } => "future_drop_writable",
            Call::Drop { kind: Future, side: Read, .. } => "future_drop_readable",
            Call::TakeEvent { .. } => "take_event",
            Call::NewBetween { .. } => "new_between",
            Call::Transfer { kind: Stream, .. } => "stream_transfer",
            Call::Transfer { kind: Future, .. } => "future_transfer",
            Call::Lift { .. } => "lift",
            Call::Lower { .. } => "lower",
            Call::Close { .. } => "close",
            Call::SetNew { .. } => "set_new",
            Call::SetJoin { .. } => "set_join",
            Call::SetPoll { .. } => "set_poll",
            Call::SetDrop { .. } => "set_drop",
            Call::ContextNew { .. } => "error_context_new",
            Call::ContextMessage { .. } => "error_context_message",
            Call::ContextTransfer { .. } => "error_context_transfer",
            Call::ContextRep { .. } => "error_context_rep",
            Call::ContextLower { .. } => "error_context_lower",
            Call::ContextDrop { .. } => "error_context_drop",
        }
    }

    /// The numbers that are passed, in C's order; of bytes how many there are.
    #[rustfmt::skip]
    fn arguments(&self) -> Vec<u64> {
        let of = |words: &[u32]| words.iter().copied().map(u64::from).collect();
        match *self {
            Call::Free | Call::Tag | Call::Streams => Vec::new(),
            Call::Moved { stream } | Call::TransmitIndex { stream } => of(&[stream]),
            Call::TypeOf { words } => words.list().iter().map(|word| (*word).into()).collect(),
            Call::AddGuest { size } => of(&[size]),
            Call::NextReadyGuest { from } => of(&[from]),
            Call::AddGuestAt { size } => vec![size],
            Call::MemoryGrown { guest, more } => of(&[guest, more]),
            Call::MemoryMoved { guest, size } | Call::BeginGuestAt { guest, size } => vec![guest.into(), size],
            Call::EndGuest { guest } => of(&[guest]),
            Call::BeginGuest { guest, size } => of(&[guest, size]),
            Call::MemoryWrite { guest, address, bytes } => of(&[guest, address, bytes.len]),
            Call::MemoryRead { guest, address, len } | Call::ContextNew { guest, address, len } => of(&[guest, address, len]),
            Call::MemoryAt { guest } | Call::SetNew { guest } | Call::HandleCount { guest } | Call::GuestLimits { guest } => of(&[guest]),
            Call::SetGuestLimits { guest, limits } => vec![guest.into(), limits.handles.into(), limits.ends.into(), limits.bytes],
            Call::NextHandle { guest, after } => of(&[guest, after]),
            Call::New { guest, payload, .. } => vec![guest.into(), payload],
            Call::Operate { kind: Stream, guest, payload, handle, address, count, .. } => {
                vec![guest.into(), payload, handle.into(), address.into(), count.into()]
            }
            Call::Operate { guest, payload, handle, address, .. } => vec![guest.into(), payload, handle.into(), address.into()],
            Call::FindBadItem { side, guest, ty, handle, address, count } => {
                vec![side_word(side).into(), guest.into(), ty, handle.into(), address.into(), count.into()]
            }
            Call::Cancel { guest, payload, handle, .. } | Call::Drop { guest, payload, handle, .. } => vec![guest.into(), payload, handle.into()],
            Call::TakeEvent { guest, handle } | Call::HandleInfo { guest, handle } | Call::ContextRep { guest, handle } | Call::ContextDrop { guest, handle } => of(&[guest, handle]),
            Call::NewBetween { writer, reader, ty } => vec![writer.into(), reader.into(), ty],
            Call::Transfer { guest, payload, handle, to, .. } => vec![guest.into(), payload, handle.into(), to.into()],
            Call::Lift { guest, ty, handle } => vec![guest.into(), ty, handle.into()],
            Call::Lower { reader, guest, ty } => vec![reader.into(), guest.into(), ty],
            Call::Close { reader } => of(&[reader]),
            Call::SetJoin { guest, set, handle } => of(&[guest, set, handle]),
            Call::SetPoll { guest, set } | Call::SetDrop { guest, set } => of(&[guest, set]),
            Call::ContextMessage { guest, handle, address } => of(&[guest, handle, address]),
            Call::ContextTransfer { guest, handle, to } => of(&[guest, handle, to]),
            Call::ContextLower { rep, guest } => of(&[rep, guest]),
        }
    }
}

impl fmt::Display for Call {
    fn fmt(&self, f: &mut fmt::Formatter<'_>) -> fmt::Result {
        write!(f, "strm_{}(", self.export())?;
        for (place, number) in self.arguments().into_iter().enumerate() {
            f.write_str(if place == 0 { "" } else { ", " })?;
            if number > u32::MAX.into() { write!(f, "{number:#x}")? } else { write!(f, "{number}")? }
        }
        f.write_str(")")?;
        if let Call::MemoryWrite { bytes, .. } = self {
            f.write_str(" of ")?;
            bytes.list().iter().try_for_each(|byte| write!(f, "{byte:02x}"))?;
        }
        Ok(())
    }
}

/// The words of a type, or nearly, each of them a byte.
#[derive(Clone, Copy, Debug, PartialEq, Eq)]
pub struct TypeWords {
    len: u8,
    words: [u8; 9],
}

impl TypeWords {
    /// The first nine of these.
    pub fn of(list: &[u8]) -> TypeWords {
        let mut words = [0; 9];
        let len = list.len().min(words.len());
        words[..len].copy_from_slice(&list[..len]);
        TypeWords { len: len as u8, words }
    }

    pub fn list(&self) -> &[u8] {
        &self.words[..self.len.into()]
    }
}

/// What bytes are like.
#[derive(Clone, Copy, Debug, PartialEq, Eq)]
pub enum Likeness {
    Any,
    /// A char in each four, of some all but one.
    Chars,
    /// A small number in each four, so that it may be that of a case, some of them with one byte that is not.
    Cases,
    /// UTF-8, which the end may cut.
    Text,
}

/// Bytes that are written into a memory, by a seed.
#[derive(Clone, Copy, Debug, PartialEq, Eq)]
pub struct Bytes {
    pub likeness: Likeness,
    pub len: u32,
    pub seed: u32,
}

impl Bytes {
    pub fn list(self) -> Vec<u8> {
        let mut random = Random::new(self.seed.into());
        let len = self.len as usize;
        let mut list = match self.likeness {
            Likeness::Any => return random.bytes(len),
            Likeness::Chars => {
                let mut words: Vec<u32> =
                    (0..len.div_ceil(4)).map(|_| some_char(&mut random).into()).collect();
                if random.chance(20) && !words.is_empty() {
                    let bad = random.below(words.len());
                    words[bad] = random.pick(&[0xd800, 0xdfff, 0x11_0000, u32::MAX]);
                }
                words.into_iter().flat_map(u32::to_le_bytes).collect()
            }
            Likeness::Cases => {
                let small = |random: &mut Random| random.pick(&[0, 0, 1, 1, 2, 3]);
                let mut list: Vec<u8> =
                    (0..len).map(|at| if at % 4 == 0 { small(&mut random) } else { 0 }).collect();
                if random.chance(30) && !list.is_empty() {
                    let other = random.below(list.len());
                    list[other] = random.draw() as u8;
                }
                list
            }
            Likeness::Text => {
                let mut text = String::new();
                while text.len() < len {
                    text.push(some_char(&mut random));
                }
                text.into_bytes()
            }
        };
        list.truncate(len);
        list
    }
}

// A char of one to four bytes of UTF-8, the last ones of each range among them.
fn some_char(random: &mut Random) -> char {
    let last = random.pick(&['\x7f', '\x7f', '\u{7ff}', '\u{d7ff}', '\u{ffff}', char::MAX]);
    let drawn = char::from_u32(random.within(0, last.into()));
    if random.chance(20) { last } else { drawn.unwrap_or('\u{e000}') }
}
