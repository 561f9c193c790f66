//! The store: guests, their streams, and the host ends on them; and what each step does.
//!
//! A refusal changes nothing: each call tests all that may refuse it first.

mod contexts;
mod ends;
mod moving;
mod rounds;
mod turns;

use crate::codes::{Refusal, ReturnCode, StoreError};
use crate::hosts::Hosts;
use crate::payload::TransmitIndex;
use crate::sets::WaitableSet;
use crate::steps::{Script, Step};
use crate::streams::{Owner, Side, Stream};
use crate::tables::{Entry, Table};
use contexts::Contexts;

/// The first number that is no count of items, and no handle.
const COUNT_LIMIT: u32 = 1 << 28;

/// The most bytes of all memories together.
const MOST_MEMORY: usize = 1 << 28;

const MOST_GUESTS: usize = 1 << 20;

/// The most live handles, and the most places: three for a stream, one for a set or an error context.
#[derive(Clone, Copy, Debug)]
pub struct Limits {
    pub handles: u64,
    pub places: u64,
}

impl Default for Limits {
    /// Those of the program.
    fn default() -> Limits {
        Limits { handles: 1_000_000, places: 1_000_000 }
    }
}

/// A guest.
#[derive(Clone, Debug, Default)]
pub struct Guest {
    pub memory: Vec<u8>,
    /// Whether the memory is an engine's, as an embedder's store may have some.
    pub is_lent: bool,
    pub table: Table,
    pub sets: Vec<WaitableSet>,
}

impl Guest {
    /// Whether it has bytes, handles, or a memory that is an engine's.
    pub fn is_used(&self) -> bool {
        !self.memory.is_empty() || self.table.handles().next().is_some() || self.is_lent
    }
}

/// What a step that is done is answered.
#[derive(Clone, Copy, Debug, PartialEq, Eq)]
pub enum Reply<'a> {
    Done,
    Number(u32),
    Pair { read: u32, write: u32, stream: u32 },
    Code(ReturnCode),
    Event(Option<ReturnCode>),
    Member(Option<(u32, ReturnCode)>),
    Bytes(&'a [u8]),
    Refused(Refusal),
}

/// Guests, streams and host ends.
#[derive(Clone, Debug, Default)]
pub struct Store {
    pub guests: Vec<Guest>,
    /// All that were made, those that are gone too.
    pub streams: Vec<Stream>,
    pub hosts: Hosts,
    contexts: Contexts,
    limits: Limits,
    memory: usize,
    handles: u64,
    places: u64,
}

// Whether bytes of a region lie past the end of a memory; no bytes lie nowhere.
fn is_out_of_bounds(memory: &[u8], address: u32, len: u64) -> bool {
    len > 0 && u64::from(address) + len > memory.len() as u64
}

impl Store {
    pub fn new(hosts: Hosts) -> Store {
        Store { hosts, ..Store::default() }
    }

    /// A store without host ends.
    pub fn with_limits(limits: Limits) -> Store {
        Store { limits, ..Store::default() }
    }

    fn guest(&self, guest: u32) -> Result<&Guest, Refusal> {
        self.guests.get(guest as usize).ok_or(Refusal::UnknownGuest)
    }

    fn guest_mut(&mut self, guest: u32) -> Result<&mut Guest, Refusal> {
        self.guests.get_mut(guest as usize).ok_or(Refusal::UnknownGuest)
    }

    // What a handle of a guest that is there stands for.
    fn entry(&self, guest: u32, handle: u32) -> Result<Entry, Refusal> {
        self.guest(guest)?.table.get(handle).ok_or(Refusal::UnknownHandle)
    }

    // The stream and the side of a handle to an end of this type.
    fn end_of(&self, guest: u32, ty: TransmitIndex, handle: u32) -> Result<(u32, Side), Refusal> {
        let Entry::End { stream, side } = self.entry(guest, handle)? else {
            return Err(Refusal::WrongKind);
        };
        self.is_of_type(stream, ty)?;
        Ok((stream, side))
    }

    fn is_of_type(&self, stream: u32, ty: TransmitIndex) -> Result<(), Refusal> {
        let found = self.streams[stream as usize].ty;
        if found.kind != ty.kind {
            return Err(Refusal::WrongKind);
        }
        if found.payload != ty.payload {
            return Err(Refusal::WrongType);
        }
        Ok(())
    }

    // Whether so many handles and places more are within the limits.
    fn has_room(&self, handles: u64, places: u64) -> Result<(), Refusal> {
        if self.handles + handles > self.limits.handles {
            return Err(Refusal::HandleLimit);
        }
        if self.places + places > self.limits.places {
            return Err(Refusal::Full);
        }
        Ok(())
    }

    fn insert(&mut self, guest: u32, entry: Entry) -> u32 {
        self.handles += 1;
        self.guests[guest as usize].table.insert(entry)
    }

    fn remove(&mut self, guest: u32, handle: u32) {
        self.handles -= 1;
        self.guests[guest as usize].table.remove(handle);
    }

    pub fn add_guest(&mut self, size: u32) -> Result<u32, Refusal> {
        if self.memory + size as usize > MOST_MEMORY {
            return Err(Refusal::MemoryTooBig);
        }
        if self.guests.len() >= MOST_GUESTS {
            return Err(Refusal::Full);
        }
        self.memory += size as usize;
        self.guests.push(Guest { memory: vec![0; size as usize], ..Guest::default() });
        Ok(self.guests.len() as u32 - 1)
    }

    /// A guest that has nothing gets a memory of so many zero bytes.
    pub fn begin_guest(&mut self, guest: u32, size: u32) -> Result<Reply<'_>, Refusal> {
        self.guest(guest)?;
        if self.memory + size as usize > MOST_MEMORY {
            return Err(Refusal::MemoryTooBig);
        }
        self.memory += size as usize;
        self.guests[guest as usize] = Guest { memory: vec![0; size as usize], ..Guest::default() };
        Ok(Reply::Done)
    }

    /// A guest ends: its ends are cancelled and dropped, by rising handle, then its sets and error contexts go, and
    /// its memory.
    pub fn end_guest(&mut self, guest: u32) -> Result<Reply<'_>, Refusal> {
        let mut handles: Vec<_> = self.guest(guest)?.table.handles().collect();
        handles.sort_by_key(|(handle, _)| *handle);
        for (handle, entry) in &handles {
            if let Entry::End { stream, side } = *entry {
                self.end_end(guest, *handle, stream, side)?;
            }
        }
        for (handle, entry) in handles {
            match entry {
                Entry::Set(_) => self.set_drop(guest, handle)?,
                Entry::Context(_) => self.error_context_drop(guest, handle)?,
                Entry::End { .. } => Reply::Done,
            };
        }
        let ended = std::mem::take(&mut self.guests[guest as usize]);
        if !ended.is_lent {
            self.memory -= ended.memory.len();
        }
        Ok(Reply::Done)
    }

    fn add_stream(&mut self, stream: Stream) -> u32 {
        self.places += 3;
        self.streams.push(stream);
        self.streams.len() as u32 - 1
    }

    fn new_between(&mut self, writer: u32, reader: u32, ty: TransmitIndex) -> Result<Reply<'_>, Refusal> {
        self.may_make(writer, reader)?;
        Ok(self.make_at(self.streams.len() as u32, writer, reader, ty))
    }

    /// Whether a stream or future may be made between two guests.
    pub fn may_make(&self, writer: u32, reader: u32) -> Result<(), Refusal> {
        self.guest(writer)?;
        self.guest(reader)?;
        self.has_room(2, 3)
    }

    /// Makes one that may be made, under the number behind the last or that of one whose ends are gone.
    pub fn make_at(&mut self, stream: u32, writer: u32, reader: u32, ty: TransmitIndex) -> Reply<'static> {
        let read = self.insert(reader, Entry::End { stream, side: Side::Read });
        let write = self.insert(writer, Entry::End { stream, side: Side::Write });
        let writer = Owner::Guest { guest: writer, handle: write };
        let made = Stream::new(ty, writer, Owner::Guest { guest: reader, handle: read });
        match self.streams.get_mut(stream as usize) {
            Some(gone) => {
                *gone = made;
                self.places += 3;
            }
            None => {
                self.add_stream(made);
            }
        }
        Reply::Pair { read, write, stream }
    }

    pub fn poke(&mut self, guest: u32, address: u32, bytes: &[u8]) -> Result<Reply<'_>, Refusal> {
        let memory = &mut self.guest_mut(guest)?.memory;
        if is_out_of_bounds(memory, address, bytes.len() as u64) {
            return Err(Refusal::OutOfBounds);
        }
        if !bytes.is_empty() {
            memory[address as usize..][..bytes.len()].copy_from_slice(bytes);
        }
        Ok(Reply::Done)
    }

    pub fn dump(&self, guest: u32, address: u32, len: u32) -> Result<Reply<'_>, Refusal> {
        let memory = &self.guest(guest)?.memory;
        if is_out_of_bounds(memory, address, u64::from(len)) {
            return Err(Refusal::OutOfBounds);
        }
        Ok(Reply::Bytes(if len == 0 { &[] } else { &memory[address as usize..][..len as usize] }))
    }

    fn feed(&mut self, host: u32, bytes: &[u8]) -> Result<Reply<'_>, Refusal> {
        self.hosts.writers.get_mut(host as usize).ok_or(Refusal::UnknownHost)?.feed(bytes);
        Ok(Reply::Done)
    }

    fn grant(&mut self, host: u32, count: u32) -> Result<Reply<'_>, Refusal> {
        self.hosts.readers.get_mut(host as usize).ok_or(Refusal::UnknownHost)?.grant(count);
        Ok(Reply::Done)
    }

    /// Does a step, one of this script.
    pub fn apply(&mut self, script: &Script, step: &Step) -> Result<Reply<'_>, StoreError> {
        let done = Ok(Reply::Done);
        Ok(match *step {
            Step::Write { guest, ty, handle, address, count } => {
                Reply::Code(self.operate(Side::Write, guest, ty, handle, address, count)?)
            }
            Step::Read { guest, ty, handle, address, count } => {
                Reply::Code(self.operate(Side::Read, guest, ty, handle, address, count)?)
            }
            Step::Event { guest, handle } => Reply::Event(self.take_event(guest, handle)?),
            Step::Drive => self.drive_once().and(done)?,
            Step::CancelWrite { guest, ty, handle } => {
                Reply::Code(self.cancel(Side::Write, guest, ty, handle)?)
            }
            Step::CancelRead { guest, ty, handle } => {
                Reply::Code(self.cancel(Side::Read, guest, ty, handle)?)
            }
            _ => self.make(script, step)?,
        })
    }

    // The steps that move no items, and tell nobody anything.
    fn make(&mut self, script: &Script, step: &Step) -> Result<Reply<'_>, Refusal> {
        match *step {
            Step::Guest { size } => self.add_guest(size).map(Reply::Number),
            Step::New { guest, ty } => self.new_between(guest, guest, ty),
            Step::Pair { writer, reader, ty } => self.new_between(writer, reader, ty),
            Step::Poke { guest, address, bytes } => self.poke(guest, address, script.bytes_of(bytes)),
            Step::Dump { guest, address, len } => self.dump(guest, address, len),
            Step::DropWrite { guest, ty, handle } => self.drop_end(Side::Write, guest, ty, handle),
            Step::DropRead { guest, ty, handle } => self.drop_end(Side::Read, guest, ty, handle),
            Step::Move { guest, ty, handle, to } => self.move_end(guest, ty, handle, to),
            Step::Lift { guest, ty, handle } => self.lift(guest, ty, handle),
            Step::Lower { reader, guest, ty } => self.lower(reader, guest, ty),
            Step::Pipe { reader, host } => self.pipe(reader, host),
            Step::Close { reader } => self.close(reader),
            Step::Host { host } => self.host_new(host),
            Step::Feed { host, bytes } => self.feed(host, script.bytes_of(bytes)),
            Step::Grant { host, count } => self.grant(host, count),
            Step::SetNew { guest } => self.set_new(guest),
            Step::SetJoin { guest, set, handle } => self.set_join(guest, set, handle),
            Step::SetPoll { guest, set } => self.set_poll(guest, set),
            Step::SetDrop { guest, set } => self.set_drop(guest, set),
            Step::ErrNew { guest, address, len } => self.error_context_new(guest, address, len),
            Step::ErrText { guest, handle, address } => self.error_context_message(guest, handle, address),
            Step::ErrMove { guest, handle, to } => self.error_context_transfer(guest, handle, to),
            Step::ErrDrop { guest, handle } => self.error_context_drop(guest, handle),
            _ => Ok(Reply::Done),
        }
    }
}
