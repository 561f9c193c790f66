//! Steps, and the lines that spell them.

use crate::payload::TransmitIndex;
use crate::session::put_line;
use std::fmt;

/// Bytes of a step: where they lie among those of its script.
#[derive(Clone, Copy, Debug, PartialEq, Eq)]
pub struct Chunk {
    pub start: u32,
    pub len: u8,
}

/// What a line asks for.
#[derive(Clone, Copy, Debug, PartialEq, Eq)]
#[rustfmt::skip]
pub enum Step {
    Guest { size: u32 },
    New { guest: u32, ty: TransmitIndex },
    Pair { writer: u32, reader: u32, ty: TransmitIndex },
    Write { guest: u32, ty: TransmitIndex, handle: u32, address: u32, count: u32 },
    Read { guest: u32, ty: TransmitIndex, handle: u32, address: u32, count: u32 },
    CancelWrite { guest: u32, ty: TransmitIndex, handle: u32 },
    CancelRead { guest: u32, ty: TransmitIndex, handle: u32 },
    DropWrite { guest: u32, ty: TransmitIndex, handle: u32 },
    DropRead { guest: u32, ty: TransmitIndex, handle: u32 },
    Event { guest: u32, handle: u32 },
    Move { guest: u32, ty: TransmitIndex, handle: u32, to: u32 },
    Lift { guest: u32, ty: TransmitIndex, handle: u32 },
    Lower { reader: u32, guest: u32, ty: TransmitIndex },
    Pipe { reader: u32, host: u32 },
    Close { reader: u32 },
    Host { host: u32 },
    Drive,
    /// Without bytes no more will come.
    Feed { host: u32, bytes: Chunk },
    Grant { host: u32, count: u32 },
    SetNew { guest: u32 },
    SetJoin { guest: u32, set: u32, handle: u32 },
    SetPoll { guest: u32, set: u32 },
    SetDrop { guest: u32, set: u32 },
    ErrNew { guest: u32, address: u32, len: u32 },
    ErrText { guest: u32, handle: u32, address: u32 },
    ErrMove { guest: u32, handle: u32, to: u32 },
    ErrDrop { guest: u32, handle: u32 },
    Poke { guest: u32, address: u32, bytes: Chunk },
    Dump { guest: u32, address: u32, len: u32 },
}

impl Step {
    /// The type that it names, if it names one.
    pub fn ty(&self) -> Option<TransmitIndex> {
        match *self {
            Step::New { ty, .. }
            | Step::Pair { ty, .. }
            | Step::Write { ty, .. }
            | Step::Read { ty, .. }
            | Step::CancelWrite { ty, .. }
            | Step::CancelRead { ty, .. }
            | Step::DropWrite { ty, .. }
            | Step::DropRead { ty, .. }
            | Step::Move { ty, .. }
            | Step::Lift { ty, .. }
            | Step::Lower { ty, .. } => Some(ty),
            _ => None,
        }
    }
}

/// Steps, and the bytes that they have.
#[derive(Clone, Debug, Default)]
pub struct Script {
    pub steps: Vec<Step>,
    pub bytes: Vec<u8>,
}

impl Script {
    /// The bytes of one of its steps.
    pub fn bytes_of(&self, chunk: Chunk) -> &[u8] {
        &self.bytes[chunk.start as usize..][..chunk.len as usize]
    }

    /// Keeps bytes for a step, 64 at most.
    pub fn keep(&mut self, bytes: &[u8]) -> Chunk {
        let start = self.bytes.len() as u32;
        self.bytes.extend_from_slice(bytes);
        Chunk { start, len: bytes.len() as u8 }
    }

    /// Its lines.
    pub fn text(&self) -> Vec<u8> {
        let mut text = Vec::new();
        for step in &self.steps {
            put_line(&mut text, format_args!("{}", Line { script: self, step }));
        }
        text
    }
}

struct Line<'a> {
    script: &'a Script,
    step: &'a Step,
}

struct Hex<'a>(&'a [u8]);

impl fmt::Display for Hex<'_> {
    fn fmt(&self, f: &mut fmt::Formatter<'_>) -> fmt::Result {
        self.0.iter().try_for_each(|byte| write!(f, "{byte:02x}"))
    }
}

impl Line<'_> {
    fn moving(&self, f: &mut fmt::Formatter<'_>, command: &str) -> fmt::Result {
        let (Step::Write { guest, ty, handle, address, count }
        | Step::Read { guest, ty, handle, address, count }) = *self.step
        else {
            return Ok(());
        };
        write!(f, "{command} {guest} {ty} {handle} {address}")?;
        if ty.is_future() { Ok(()) } else { write!(f, " {count}") }
    }
}

impl fmt::Display for Line<'_> {
    fn fmt(&self, f: &mut fmt::Formatter<'_>) -> fmt::Result {
        let hex = |chunk| Hex(self.script.bytes_of(chunk));
        match *self.step {
            Step::Guest { size } => write!(f, "guest {size}"),
            Step::New { guest, ty } => write!(f, "new {guest} {ty}"),
            Step::Pair { writer, reader, ty } => write!(f, "pair {writer} {reader} {ty}"),
            Step::Write { .. } => self.moving(f, "write"),
            Step::Read { .. } => self.moving(f, "read"),
            Step::CancelWrite { guest, ty, handle } => write!(f, "cancel-write {guest} {ty} {handle}"),
            Step::CancelRead { guest, ty, handle } => write!(f, "cancel-read {guest} {ty} {handle}"),
            Step::DropWrite { guest, ty, handle } => write!(f, "drop-write {guest} {ty} {handle}"),
            Step::DropRead { guest, ty, handle } => write!(f, "drop-read {guest} {ty} {handle}"),
            Step::Event { guest, handle } => write!(f, "event {guest} {handle}"),
            Step::Move { guest, ty, handle, to } => write!(f, "move {guest} {ty} {handle} {to}"),
            Step::Lift { guest, ty, handle } => write!(f, "lift {guest} {ty} {handle}"),
            Step::Lower { reader, guest, ty } => write!(f, "lower {reader} {guest} {ty}"),
            Step::Pipe { reader, host } => write!(f, "pipe {reader} {host}"),
            Step::Close { reader } => write!(f, "close {reader}"),
            Step::Host { host } => write!(f, "host {host}"),
            Step::Drive => f.write_str("drive"),
            Step::Feed { host, bytes } if bytes.len == 0 => write!(f, "feed {host} end"),
            Step::Feed { host, bytes } => write!(f, "feed {host} {}", hex(bytes)),
            Step::Grant { host, count } => write!(f, "grant {host} {count}"),
            Step::SetNew { guest } => write!(f, "set-new {guest}"),
            Step::SetJoin { guest, set, handle } => write!(f, "set-join {guest} {set} {handle}"),
            Step::SetPoll { guest, set } => write!(f, "set-poll {guest} {set}"),
            Step::SetDrop { guest, set } => write!(f, "set-drop {guest} {set}"),
            Step::ErrNew { guest, address, len } => write!(f, "err-new {guest} {address} {len}"),
            Step::ErrText { guest, handle, address } => write!(f, "err-text {guest} {handle} {address}"),
            Step::ErrMove { guest, handle, to } => write!(f, "err-move {guest} {handle} {to}"),
            Step::ErrDrop { guest, handle } => write!(f, "err-drop {guest} {handle}"),
            Step::Poke { guest, address, bytes } => write!(f, "poke {guest} {address} {}", hex(bytes)),
            Step::Dump { guest, address, len } => write!(f, "dump {guest} {address} {len}"),
        }
    }
}
