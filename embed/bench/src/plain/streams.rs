//! A stream or future: its two ends, their reads and writes, and what each is to be told.

use super::payloads::Type;

#[derive(Clone, Copy, Debug, PartialEq, Eq)]
pub enum Kind {
    Stream,
    Future,
}

#[derive(Clone, Copy, Debug, PartialEq, Eq)]
pub enum Side {
    Writing,
    Reading,
}

impl Side {
    pub fn other(self) -> Side {
        match self {
            Side::Writing => Side::Reading,
            Side::Reading => Side::Writing,
        }
    }
}

/// What a read, a write, a cancel or an event tells.
#[derive(Clone, Copy, Debug, PartialEq, Eq)]
pub enum Code {
    Blocked,
    Completed(u32),
    Dropped(u32),
    Cancelled(u32),
}

impl Code {
    pub fn word(self) -> u32 {
        match self {
            Code::Blocked => u32::MAX,
            Code::Completed(count) => count << 4,
            Code::Dropped(count) => count << 4 | 1,
            Code::Cancelled(count) => count << 4 | 2,
        }
    }
}

/// Who has an end.
#[derive(Clone, Copy, Debug, PartialEq, Eq)]
pub enum Owner {
    Guest { guest: u32, handle: u32 },
    Loose,
    Gone,
}

/// A read or write that was called, of the guest that has the end: a busy end does not move.
#[derive(Clone, Copy, Debug)]
pub struct Operation {
    pub address: u32,
    pub left: u32,
    moved: u32,
    met: bool,
}

impl Operation {
    pub fn new(address: u32, count: u32) -> Operation {
        Operation {
            address,
            left: count,
            moved: 0,
            met: false,
        }
    }

    /// Whether the other side may meet it.
    pub fn is_open(&self) -> bool {
        !self.met || self.left > 0
    }

    /// It met the other side, and so many items moved.
    pub fn advance(&mut self, size: usize, count: u32) {
        self.address += size as u32 * count;
        self.left -= count;
        self.moved += count;
        self.met = true;
    }
}

#[derive(Clone, Copy, Debug)]
pub struct End {
    pub owner: Owner,
    /// The waitable set of its guest that it is in.
    pub set: Option<u32>,
    /// It was told that the other end is gone.
    pub told: bool,
    pub operation: Option<Operation>,
}

impl End {
    fn new(owner: Owner) -> End {
        End {
            owner,
            set: None,
            told: false,
            operation: None,
        }
    }
}

pub struct Stream {
    pub ty: Type,
    /// A future's value passed.
    pub passed: bool,
    pub received: u128,
    ends: [End; 2],
}

impl Stream {
    pub fn new(ty: Type, writer: Owner, reader: Owner) -> Stream {
        Stream {
            ty,
            passed: false,
            received: 0,
            ends: [End::new(writer), End::new(reader)],
        }
    }

    pub fn end(&self, side: Side) -> &End {
        &self.ends[side as usize]
    }

    pub fn end_mut(&mut self, side: Side) -> &mut End {
        &mut self.ends[side as usize]
    }

    /// So many items, as a code has them.
    pub fn counted(&self, items: u32) -> u32 {
        match self.ty.kind {
            Kind::Stream => items,
            Kind::Future => 0,
        }
    }

    /// Whether a read or write of an end can be no more.
    pub fn has_ended(&self, side: Side) -> bool {
        match (self.ty.kind, side) {
            (Kind::Stream, _) => self.end(side).told,
            (Kind::Future, Side::Writing) => self.end(side).told || self.passed,
            (Kind::Future, Side::Reading) => self.passed,
        }
    }

    /// Whether a read or write of a guest waits at an end.
    pub fn waits_for(&self, side: Side, guest: u32) -> bool {
        let End { owner, operation, .. } = self.end(side);
        let is_open = operation.as_ref().is_some_and(Operation::is_open);
        is_open && matches!(owner, Owner::Guest { guest: holder, .. } if *holder == guest)
    }

    /// So many items moved to or from an end, whose read or write completes; that of the other end has met.
    #[inline(always)]
    pub fn receive(&mut self, side: Side, items: u32) -> Code {
        self.passed |= self.ty.kind == Kind::Future;
        self.received = self.received.saturating_add(u128::from(items));
        let size = self.ty.payload.size();
        if let Some(theirs) = &mut self.end_mut(side.other()).operation {
            theirs.advance(size, items);
        }
        Code::Completed(self.counted(items))
    }

    /// What an end is to be told, if anything.
    #[inline]
    pub fn report(&self, side: Side) -> Option<Code> {
        let end = self.end(side);
        let is_other_gone = self.end(side.other()).owner == Owner::Gone;
        match end.operation {
            Some(mine) if is_other_gone && self.ty.kind == Kind::Stream => Some(Code::Dropped(mine.moved)),
            Some(mine) if mine.met => Some(Code::Completed(self.counted(mine.moved))),
            Some(_) if is_other_gone && !self.passed => Some(Code::Dropped(0)),
            None if is_other_gone && !end.told && !self.passed => Some(Code::Dropped(0)),
            _ => None,
        }
    }

    /// An end is told so: its read or write ends with that.
    #[inline]
    pub fn tell(&mut self, side: Side) -> Option<Code> {
        let code = self.report(side)?;
        let end = self.end_mut(side);
        end.operation = None;
        end.told |= matches!(code, Code::Dropped(_));
        Some(code)
    }

    /// The read or write of an end is cancelled.
    pub fn cancel(&mut self, side: Side) -> Code {
        let told = self.tell(side);
        self.end_mut(side).operation = None;
        match told {
            Some(Code::Completed(count)) if self.ty.kind == Kind::Stream => Code::Cancelled(count),
            Some(code) => code,
            None => Code::Cancelled(0),
        }
    }
}
