//! Reads and writes of guests, and where the two meet.

use super::{COUNT_LIMIT, Store, is_out_of_bounds};
use crate::codes::{Refusal, ReturnCode, Stop, StoreError, StreamResult};
use crate::faults::{Fault, planted};
use crate::payload::{Payload, TransmitIndex};
use crate::streams::{Operation, Owner, Side};

impl Store {
    /// A guest's read or write.
    pub fn operate(
        &mut self,
        side: Side,
        guest: u32,
        ty: TransmitIndex,
        handle: u32,
        address: u32,
        count: u32,
    ) -> Result<ReturnCode, StoreError> {
        let count = if ty.is_future() { 1 } else { count };
        let number = self.may_operate(side, guest, ty, handle, address, count)?;
        let operation =
            Operation { address, left: count, moved: 0, is_open: true, outcome: None, asked: false };
        let stream = &mut self.streams[number as usize];
        let owner = stream[side.other()].owner;
        match owner {
            Owner::Gone => {
                stream[side].told = true;
                Ok(ReturnCode::dropped(0))
            }
            Owner::Guest { guest: other, .. } if stream.open(side.other()).is_some() => {
                self.meet(number, side, (guest, other), operation)
            }
            Owner::Guest { .. } | Owner::Loose => {
                stream[side].operation = Some(operation);
                Ok(ReturnCode::Blocked)
            }
            Owner::Host(host) => {
                stream[side].operation = Some(operation);
                self.turn(number, side, guest, host)?;
                Ok(self.streams[number as usize].deliver(side).unwrap_or(ReturnCode::Blocked))
            }
        }
    }

    // The number of the stream, where nothing refuses it.
    fn may_operate(
        &self,
        side: Side,
        guest: u32,
        ty: TransmitIndex,
        handle: u32,
        address: u32,
        count: u32,
    ) -> Result<u32, Refusal> {
        let memory = &self.guest(guest)?.memory;
        if count >= COUNT_LIMIT {
            return Err(Refusal::StreamOpTooBig);
        }
        region(memory, &ty.payload, address, count)?;
        let (number, found) = self.end_of(guest, ty, handle)?;
        let stream = &self.streams[number as usize];
        if found != side || stream[side].operation.is_some() {
            return Err(Refusal::ConcurrentFutureStreamOp);
        }
        // The reader of a future whose value never comes is told so as often as it reads.
        let is_told = stream[side].told && !(ty.is_future() && side == Side::Read);
        if is_told || stream.passed {
            return Err(match (side, ty.is_future()) {
                (Side::Write, false) => Refusal::WriteToDroppedStream,
                (Side::Write, true) => Refusal::WriteToDroppedFuture,
                (Side::Read, false) => Refusal::ReadFromDroppedStream,
                (Side::Read, true) => Refusal::FutureAlreadyRead,
            });
        }
        let other = &stream[side.other()];
        let is_within = matches!(other.owner, Owner::Guest { guest: other, .. } if other == guest);
        let is_met = other.operation.is_some_and(|operation| operation.is_open);
        if is_within && is_met && !ty.payload.moves_within() {
            return Err(Refusal::IntraComponent);
        }
        Ok(number)
    }

    // A call meets the open operation on the other side.
    fn meet(
        &mut self,
        number: u32,
        side: Side,
        (guest, other): (u32, u32),
        mut called: Operation,
    ) -> Result<ReturnCode, StoreError> {
        let payload = self.streams[number as usize].ty.payload;
        let Some(waiting) = self.streams[number as usize].open(side.other()).copied() else {
            return Ok(ReturnCode::Blocked);
        };
        let (write, read) = match side {
            Side::Write => (called.left, waiting.left),
            Side::Read => (waiting.left, called.left),
        };
        let count = write.min(read);
        if count > 0 {
            let ((from, source), (to, target)) = match side {
                Side::Write => ((guest, called.address), (other, waiting.address)),
                Side::Read => ((other, waiting.address), (guest, called.address)),
            };
            let looked_at = if planted(Fault::TestsItemsThatStay) { write } else { count };
            self.copy(&payload, (from, source), (to, target), count, looked_at)
                .ok_or(Stop::BadItem { stream: number })?;
        }
        let stream = &mut self.streams[number as usize];
        stream.receive(count);
        let (call_completes, waiting_completes) = match (write, read) {
            (1.., 1..) => (true, true),
            (0, _) => (side == Side::Write, side == Side::Read),
            (_, 0) => (side == Side::Read, side == Side::Write || planted(Fault::EmptyReadCompletesWrite)),
        };
        if waiting_completes && let Some(waiting) = stream.open(side.other()) {
            advance(waiting, &payload, count);
            waiting.outcome = Some(StreamResult::Completed);
            waiting.is_open = count > 0 && waiting.left > 0;
        }
        if call_completes {
            called.moved = if planted(Fault::CountsAskedItems) { called.left } else { count };
        } else {
            stream[side].operation = Some(called);
        }
        let moved = if stream.ty.is_future() { 0 } else { called.moved };
        if waiting_completes {
            self.note(number, side.other());
        }
        Ok(if call_completes { ReturnCode::completed(moved) } else { ReturnCode::Blocked })
    }

    // Copies items between two guests, or within one. None where one of those that are looked at is none.
    fn copy(
        &mut self,
        payload: &Payload,
        (from, source): (u32, u32),
        (to, target): (u32, u32),
        count: u32,
        looked_at: u32,
    ) -> Option<()> {
        let size = payload.size();
        if size == 0 {
            return Some(());
        }
        let (source, target, bytes) = (source as usize, target as usize, count as usize * size);
        if from == to {
            self.guests[from as usize].memory.copy_within(source..source + bytes, target);
            return Some(());
        }
        let [writer, reader] = self.guests.get_disjoint_mut([from as usize, to as usize]).ok()?;
        if payload.first_bad(&writer.memory[source..][..looked_at as usize * size]).is_some() {
            return None;
        }
        payload.copy(&writer.memory[source..][..bytes], &mut reader.memory[target..][..bytes]);
        Some(())
    }
}

/// Counts items of an operation as moved.
pub(super) fn advance(operation: &mut Operation, payload: &Payload, count: u32) {
    operation.address = operation.address.wrapping_add(count.wrapping_mul(payload.size() as u32));
    operation.left -= count;
    operation.moved += count;
}

// Whether so many items may lie there.
fn region(memory: &[u8], payload: &Payload, address: u32, count: u32) -> Result<(), Refusal> {
    let bytes = u64::from(count) * payload.size() as u64;
    if bytes == 0 {
        return Ok(());
    }
    let is_misaligned = !(address as usize).is_multiple_of(payload.align());
    if is_misaligned && planted(Fault::TestsAlignmentFirst) {
        return Err(Refusal::NotAligned);
    }
    if is_out_of_bounds(memory, address, bytes) {
        return Err(Refusal::OutOfBounds);
    }
    if is_misaligned {
        return Err(Refusal::NotAligned);
    }
    Ok(())
}
