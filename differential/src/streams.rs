//! A stream or future: its two ends, what waits on them, and what they are to be told.

use crate::codes::{ReturnCode, StreamResult};
use crate::faults::{Fault, planted};
use crate::payload::TransmitIndex;
use std::ops::{Index, IndexMut};

/// Which end.
#[derive(Clone, Copy, Debug, PartialEq, Eq)]
pub enum Side {
    Write,
    Read,
}

impl Side {
    pub fn other(self) -> Side {
        match self {
            Side::Write => Side::Read,
            Side::Read => Side::Write,
        }
    }
}

/// Who has an end.
#[derive(Clone, Copy, Debug, PartialEq, Eq)]
pub enum Owner {
    Guest {
        guest: u32,
        handle: u32,
    },
    /// A read end that nobody has yet.
    Loose,
    /// The host writer, or for a read end the host reader, of this number.
    Host(u32),
    Gone,
}

/// A read or write that has not ended.
#[derive(Clone, Copy, Debug)]
pub struct Operation {
    /// Where its next item lies.
    pub address: u32,
    /// Items still to move.
    pub left: u32,
    pub moved: u32,
    /// Whether it can meet another.
    pub is_open: bool,
    /// How it met, or was settled by a host end.
    pub outcome: Option<StreamResult>,
    /// Whether it was cancelled and waits for its host end.
    pub asked: bool,
}

/// One end.
#[derive(Clone, Copy, Debug)]
pub struct End {
    pub owner: Owner,
    /// Whether it was told that the other one is gone.
    pub told: bool,
    pub operation: Option<Operation>,
    /// The set that it is a member of.
    pub set: Option<u32>,
}

impl End {
    pub fn of(owner: Owner) -> End {
        End { owner, told: false, operation: None, set: None }
    }

    pub fn is_gone(&self) -> bool {
        self.owner == Owner::Gone
    }
}

/// A stream or future.
#[derive(Clone, Debug)]
pub struct Stream {
    pub ty: TransmitIndex,
    /// Whether a future's value was handed over.
    pub passed: bool,
    /// Items received.
    pub moved: u64,
    ends: [End; 2],
}

impl Index<Side> for Stream {
    type Output = End;

    fn index(&self, side: Side) -> &End {
        &self.ends[side as usize]
    }
}

impl IndexMut<Side> for Stream {
    fn index_mut(&mut self, side: Side) -> &mut End {
        &mut self.ends[side as usize]
    }
}

impl Stream {
    pub fn new(ty: TransmitIndex, write: Owner, read: Owner) -> Stream {
        Stream { ty, passed: false, moved: 0, ends: [End::of(write), End::of(read)] }
    }

    /// Whether an end is there.
    pub fn is_live(&self) -> bool {
        !(self[Side::Write].is_gone() && self[Side::Read].is_gone())
    }

    /// The operation of an end, if it can meet another.
    pub fn open(&mut self, side: Side) -> Option<&mut Operation> {
        self[side].operation.as_mut().filter(|operation| operation.is_open)
    }

    /// Counts items that were received.
    pub fn receive(&mut self, count: u32) {
        self.moved += u64::from(count);
        self.passed |= self.ty.is_future() && count > 0;
    }

    /// What an end is to be told.
    pub fn report(&self, side: Side) -> Option<ReturnCode> {
        let end = &self[side];
        let is_gone = self[side.other()].is_gone();
        let is_future = self.ty.is_future();
        match &end.operation {
            Some(operation) if is_gone && !is_future => Some(ReturnCode::dropped(operation.moved)),
            Some(Operation { outcome: Some(how), moved, .. }) => {
                let is_value = is_future && *how == StreamResult::Completed;
                Some(ReturnCode::Ended { how: *how, count: if is_value { 0 } else { *moved } })
            }
            Some(_) => (is_gone && !self.passed).then_some(ReturnCode::dropped(0)),
            None => (is_gone && !end.told && !self.passed).then_some(ReturnCode::dropped(0)),
        }
    }

    /// Tells an end what it is to be told: that ends its operation.
    pub fn deliver(&mut self, side: Side) -> Option<ReturnCode> {
        let code = self.report(side)?;
        let end = &mut self[side];
        let was_idle = end.operation.take().is_none();
        if matches!(code, ReturnCode::Ended { how: StreamResult::Dropped, .. }) {
            end.told = !(was_idle && planted(Fault::TellsTwice));
        }
        Some(code)
    }
}
