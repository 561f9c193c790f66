//! Turns of host ends on which a guest's read or write waits.

use super::Store;
use super::moving::advance;
use crate::codes::{HostEnd, Stop, StreamResult};
use crate::hosts::Answer;
use crate::records::ReaderRecord;
use crate::streams::{Operation, Side};

impl Store {
    /// The turn of the host end on the other side of a guest's open read or write.
    pub(super) fn turn(&mut self, number: u32, side: Side, guest: u32, host: u32) -> Result<(), Stop> {
        match side {
            Side::Read => self.producer_turn(number, guest, host),
            Side::Write => self.consumer_turn(number, guest, host),
        }
    }

    fn producer_turn(&mut self, number: u32, guest: u32, host: u32) -> Result<(), Stop> {
        let Some(Operation { left, asked, .. }) = self.streams[number as usize].open(Side::Read).copied()
        else {
            return Ok(());
        };
        let writer = &mut self.hosts.writers[host as usize];
        let settled = if !writer.held.is_empty() {
            Some(StreamResult::Completed)
        } else if writer.is_over {
            Some(StreamResult::Dropped)
        } else {
            match self.poll_writer(host, Some(left), asked)? {
                Answer::Completed => Some(StreamResult::Completed),
                Answer::Cancelled => Some(StreamResult::Cancelled),
                Answer::Dropped => Some(StreamResult::Dropped),
                Answer::Pending | Answer::Failed => None,
            }
        };
        self.give_held(number, guest, host);
        let Some(outcome) = settled else { return Ok(()) };
        let has_more = !self.hosts.writers[host as usize].held.is_empty();
        let outcome = match outcome {
            StreamResult::Dropped if has_more => StreamResult::Completed,
            outcome => outcome,
        };
        self.settle(number, Side::Read, outcome);
        Ok(())
    }

    /// Polls a host writer, which holds nothing; what it gives is held then.
    pub(super) fn poll_writer(&mut self, host: u32, room: Option<u32>, finish: bool) -> Result<Answer, Stop> {
        let writer = &mut self.hosts.writers[host as usize];
        let answer = writer.poll(room, finish);
        if answer == Answer::Failed {
            return Err(Stop::HostFailed(HostEnd::Writer(host)));
        }
        if writer.broke() {
            return Err(Stop::HostBroke(HostEnd::Writer(host)));
        }
        writer.is_over |= answer == Answer::Dropped;
        Ok(answer)
    }

    // Puts what a host writer holds where a guest reads it, as much as the read has room for.
    fn give_held(&mut self, number: u32, guest: u32, host: u32) {
        let held = &mut self.hosts.writers[host as usize].held;
        let stream = &mut self.streams[number as usize];
        let payload = stream.ty.payload;
        let Some(operation) = stream.open(Side::Read) else { return };
        let count = held.len().min(u64::from(operation.left)) as u32;
        if count == 0 {
            return;
        }
        let bytes = count as usize * payload.size();
        if bytes > 0 {
            let memory = &mut self.guests[guest as usize].memory;
            let region = &mut memory[operation.address as usize..][..bytes];
            payload.copy(held.first(u64::from(count)), region);
        }
        held.skip(u64::from(count));
        advance(operation, &payload, count);
        stream.receive(count);
    }

    fn consumer_turn(&mut self, number: u32, guest: u32, host: u32) -> Result<(), Stop> {
        let stream = &mut self.streams[number as usize];
        let payload = stream.ty.payload;
        let Some(operation) = stream.open(Side::Write).copied() else { return Ok(()) };
        let bytes = operation.left as usize * payload.size();
        let items = match bytes {
            0 => &[],
            _ => &self.guests[guest as usize].memory[operation.address as usize..][..bytes],
        };
        let record = self.hosts.readers[host as usize].poll(operation.left, items, operation.asked);
        self.may_go_on(number, host, &record)?;
        let stream = &mut self.streams[number as usize];
        if let Some(operation) = stream.open(Side::Write) {
            advance(operation, &payload, record.taken);
        }
        stream.receive(record.taken);
        match record.answer {
            Answer::Pending | Answer::Failed => {}
            Answer::Completed => self.settle(number, Side::Write, StreamResult::Completed),
            Answer::Cancelled => self.settle(number, Side::Write, StreamResult::Cancelled),
            Answer::Dropped => self.settle(number, Side::Write, StreamResult::Dropped),
        }
        Ok(())
    }

    /// Whether the run goes on after a poll of a host reader.
    pub(super) fn may_go_on(&self, number: u32, host: u32, record: &ReaderRecord) -> Result<(), Stop> {
        if record.answer == Answer::Failed {
            return Err(Stop::HostFailed(HostEnd::Reader(host)));
        }
        if record.bad {
            return Err(Stop::BadItem { stream: number });
        }
        if self.hosts.readers[host as usize].breaks(record) {
            return Err(Stop::HostBroke(HostEnd::Reader(host)));
        }
        Ok(())
    }

    // A host end settled the operation; where there is no more of it, it is gone.
    fn settle(&mut self, number: u32, side: Side, outcome: StreamResult) {
        if let Some(operation) = self.streams[number as usize].open(side) {
            operation.outcome = Some(outcome);
            operation.is_open = false;
        }
        self.note(number, side);
        if outcome == StreamResult::Dropped {
            self.give_up(number, side.other());
        }
    }
}
