//! Events and cancels, and ends that are dropped or go elsewhere.

use super::{Reply, Store};
use crate::codes::{Refusal, ReturnCode, StreamResult};
use crate::faults::{Fault, planted};
use crate::payload::TransmitIndex;
use crate::streams::{Owner, Side, Stream};
use crate::tables::Entry;

impl Store {
    pub fn take_event(&mut self, guest: u32, handle: u32) -> Result<Option<ReturnCode>, Refusal> {
        match self.entry(guest, handle)? {
            Entry::End { stream, side } => Ok(self.streams[stream as usize].deliver(side)),
            _ => Err(Refusal::WrongKind),
        }
    }

    pub fn cancel(
        &mut self,
        side: Side,
        guest: u32,
        ty: TransmitIndex,
        handle: u32,
    ) -> Result<ReturnCode, Refusal> {
        let (number, found) = self.end_of(guest, ty, handle)?;
        if found != side {
            return Err(Refusal::WrongEnd);
        }
        let stream = &mut self.streams[number as usize];
        let other = stream[side.other()].owner;
        let operation = stream[side].operation.as_mut().ok_or(Refusal::NoPending)?;
        if operation.asked {
            return Err(Refusal::CancelUnderWay);
        }
        let is_hosted = matches!(other, Owner::Host(_));
        if let Some(code) = stream.deliver(side) {
            return Ok(cancelled(ty, code));
        }
        let operation = &mut stream[side].operation;
        if is_hosted {
            if let Some(operation) = operation {
                operation.asked = true;
            }
            return Ok(ReturnCode::Blocked);
        }
        *operation = None;
        Ok(ReturnCode::cancelled(0))
    }

    pub fn drop_end(
        &mut self,
        side: Side,
        guest: u32,
        ty: TransmitIndex,
        handle: u32,
    ) -> Result<Reply<'_>, Refusal> {
        let (number, found) = self.end_of(guest, ty, handle)?;
        if found != side {
            return Err(Refusal::WrongEnd);
        }
        let stream = &self.streams[number as usize];
        let end = &stream[side];
        if end.operation.is_some() {
            return Err(Refusal::Busy);
        }
        if ty.is_future() && side == Side::Write && !stream.passed && !end.told {
            return Err(Refusal::FutureWithoutValue);
        }
        if let Some(set) = end.set {
            self.guests[guest as usize].sets[set as usize].leave(handle);
        }
        self.remove(guest, handle);
        self.give_up(number, side);
        Ok(Reply::Done)
    }

    // An end of a guest that ends is cancelled and dropped, also where a future's value is owed.
    pub(in crate::store) fn end_end(
        &mut self,
        guest: u32,
        handle: u32,
        number: u32,
        side: Side,
    ) -> Result<(), Refusal> {
        let ty = self.streams[number as usize].ty;
        if self.streams[number as usize][side].operation.is_some() {
            self.cancel(side, guest, ty, handle)?;
        }
        if let Some(set) = self.streams[number as usize][side].set {
            self.guests[guest as usize].sets[set as usize].leave(handle);
        }
        self.remove(guest, handle);
        self.give_up(number, side);
        Ok(())
    }

    // An end is gone, and with it one of a host on the other side. A stream without ends has no places.
    pub(super) fn give_up(&mut self, number: u32, side: Side) {
        let stream = &mut self.streams[number as usize];
        for side in [side, side.other()] {
            let owner = std::mem::replace(&mut stream[side].owner, Owner::Gone);
            if let (Owner::Host(writer), Side::Write) = (owner, side) {
                self.hosts.writers[writer as usize].held.clear();
            }
            if !matches!(stream[side.other()].owner, Owner::Host(_)) {
                break;
            }
        }
        if !stream.is_live() {
            self.places -= 3;
        }
        self.note(number, Side::Write);
        self.note(number, Side::Read);
    }

    // Whether an end may go elsewhere.
    fn may_move(stream: &Stream, side: Side) -> Result<(), Refusal> {
        let end = &stream[side];
        if end.operation.is_some() {
            return Err(Refusal::Busy);
        }
        if end.told || stream.passed {
            return Err(Refusal::LiftDropped);
        }
        if end.set.is_some() {
            return Err(Refusal::LiftInSet);
        }
        Ok(())
    }

    pub fn move_end(
        &mut self,
        guest: u32,
        ty: TransmitIndex,
        handle: u32,
        to: u32,
    ) -> Result<Reply<'_>, Refusal> {
        self.guest(guest)?;
        self.guest(to)?;
        let (number, side) = self.end_of(guest, ty, handle)?;
        Store::may_move(&self.streams[number as usize], side)?;
        self.remove(guest, handle);
        let handle = self.insert(to, Entry::End { stream: number, side });
        self.streams[number as usize][side].owner = Owner::Guest { guest: to, handle };
        Ok(Reply::Number(handle))
    }

    pub fn lift(&mut self, guest: u32, ty: TransmitIndex, handle: u32) -> Result<Reply<'_>, Refusal> {
        let (number, side) = self.end_of(guest, ty, handle)?;
        if side == Side::Write {
            return Err(Refusal::WrongEnd);
        }
        Store::may_move(&self.streams[number as usize], side)?;
        self.remove(guest, handle);
        self.streams[number as usize][Side::Read].owner = Owner::Loose;
        Ok(Reply::Number(number))
    }

    // Whether the read end of a stream of this number is loose.
    fn is_loose(&self, reader: u32) -> Result<(), Refusal> {
        let stream = self.streams.get(reader as usize).ok_or(Refusal::UnknownReader)?;
        if stream[Side::Read].owner == Owner::Loose { Ok(()) } else { Err(Refusal::UnknownReader) }
    }

    pub fn lower(&mut self, reader: u32, guest: u32, ty: TransmitIndex) -> Result<Reply<'_>, Refusal> {
        self.guest(guest)?;
        self.is_loose(reader)?;
        self.is_of_type(reader, ty)?;
        self.has_room(1, 0)?;
        let handle = self.insert(guest, Entry::End { stream: reader, side: Side::Read });
        self.streams[reader as usize][Side::Read].owner = Owner::Guest { guest, handle };
        Ok(Reply::Number(handle))
    }

    pub fn close(&mut self, reader: u32) -> Result<Reply<'_>, Refusal> {
        self.is_loose(reader)?;
        self.give_up(reader, Side::Read);
        Ok(Reply::Done)
    }

    pub(super) fn pipe(&mut self, reader: u32, host: u32) -> Result<Reply<'_>, Refusal> {
        let end = self.hosts.readers.get(host as usize).ok_or(Refusal::UnknownHost)?;
        if end.stream.is_some() {
            return Err(Refusal::HostUsed);
        }
        self.is_loose(reader)?;
        self.is_of_type(reader, end.ty)?;
        self.hosts.readers[host as usize].stream = Some(reader);
        let stream = &mut self.streams[reader as usize];
        stream[Side::Read].owner = Owner::Host(host);
        if let Some(operation) = stream.open(Side::Write)
            && !planted(Fault::KeepsReportAtPipe)
        {
            operation.outcome = None;
        }
        let is_over = match stream[Side::Write].owner {
            Owner::Host(writer) => {
                let writer = &self.hosts.writers[writer as usize];
                writer.is_over && writer.held.is_empty()
            }
            owner => owner == Owner::Gone,
        };
        if is_over {
            self.give_up(reader, Side::Read);
        }
        Ok(Reply::Done)
    }

    pub(super) fn host_new(&mut self, host: u32) -> Result<Reply<'_>, Refusal> {
        let writer = self.hosts.writers.get(host as usize).ok_or(Refusal::UnknownHost)?;
        if writer.stream.is_some() {
            return Err(Refusal::HostUsed);
        }
        self.has_room(0, 3)?;
        let stream = Stream::new(writer.ty, Owner::Host(host), Owner::Loose);
        let number = self.add_stream(stream);
        self.hosts.writers[host as usize].stream = Some(number);
        Ok(Reply::Number(number))
    }
}

// What a cancel answers in place of a code that an event would tell.
fn cancelled(ty: TransmitIndex, code: ReturnCode) -> ReturnCode {
    match code {
        ReturnCode::Ended { how: StreamResult::Completed, count } if !ty.is_future() => {
            ReturnCode::cancelled(count)
        }
        _ => code,
    }
}
