//! A store of streams in plain Rust, without proofs, with the same tests of each call as that of
//! `strm_transmit`: reads, writes and events of two ends, which are made and dropped. Handles and places that
//! are free stand in lists, and are given again.
//!
//! `rounds.rs`, `shared.rs`, `chain.rs`, `generated.rs` and `embed/bench` use it; the last has a store beside it that
//! keeps all that the interface for C asks for.

#[derive(Clone, Copy, PartialEq, Eq)]
#[allow(dead_code)]
pub enum Scalar {
    U8,
    U16,
    U32,
    U64,
    Char,
}

#[derive(Clone, Copy, PartialEq, Eq)]
pub struct Shape {
    pub fields: [Scalar; 8],
    pub len: u8,
    pub size: u8,
    pub align: u8,
}

#[derive(Clone, Copy, PartialEq, Eq)]
#[allow(dead_code)]
pub enum Payload {
    Nothing,
    One(Scalar),
    Tuple(Shape),
}

impl Scalar {
    pub fn size(self) -> usize {
        match self {
            Scalar::U8 => 1,
            Scalar::U16 => 2,
            Scalar::U32 | Scalar::Char => 4,
            Scalar::U64 => 8,
        }
    }
}

impl Payload {
    pub fn size(&self) -> usize {
        match self {
            Payload::Nothing => 0,
            Payload::One(scalar) => scalar.size(),
            Payload::Tuple(shape) => shape.size as usize,
        }
    }

    pub fn align(&self) -> usize {
        match self {
            Payload::Nothing => 1,
            Payload::One(scalar) => scalar.size(),
            Payload::Tuple(shape) => shape.align as usize,
        }
    }

    pub fn is_number(&self) -> bool {
        matches!(self, Payload::One(scalar) if *scalar != Scalar::Char)
    }
}

#[derive(Clone, Copy, PartialEq, Eq)]
pub enum Kind {
    Stream,
    Future,
}

#[derive(Clone, Copy, PartialEq, Eq)]
pub enum Side {
    Writing,
    Reading,
}

#[derive(Clone, Copy)]
pub struct Operation {
    pub guest: u32,
    pub address: u32,
    pub left: u32,
    pub moved: u32,
    pub is_open: bool,
    pub met: bool,
}

#[derive(Clone, Copy)]
pub struct End {
    pub is_gone: bool,
    pub told: bool,
    pub operation: Option<Operation>,
}

#[allow(dead_code)]
pub struct Stream {
    pub kind: Kind,
    pub payload: Payload,
    pub passed: bool,
    pub ends: [End; 2],
    pub received: u128,
}

#[derive(Clone, Copy)]
pub struct Handle {
    pub kind: Kind,
    pub payload: Payload,
    pub side: Side,
    pub stream: u32,
}

pub struct Guest {
    pub memory: Vec<u8>,
    pub handles: Vec<Option<Handle>>,
    pub freed: Vec<u32>,
}

pub struct Store {
    pub guests: Vec<Guest>,
    pub streams: Vec<Stream>,
    pub gone: Vec<u32>,
    pub live_handles: usize,
    pub is_trapped: bool,
}

// The most live handles, and the most streams that are there.
const HANDLES: usize = 1_000_000;
const STREAMS: usize = 1_000_000 / 3;

#[derive(Clone, Copy, Debug)]
pub enum Refusal {
    UnknownGuest,
    StreamOpTooBig,
    OutOfBounds,
    NotAligned,
    UnknownHandle,
    WrongKind,
    WrongType,
    Concurrent,
    Ended,
    IntraComponent,
    WrongEnd,
    Busy,
    WithoutValue,
    HandleLimit,
    Full,
    Trapped,
    BadItem,
}

#[derive(Clone, Copy)]
pub enum Code {
    Blocked,
    Completed(u32),
    Dropped(u32),
}

impl Code {
    pub fn encode(self) -> u32 {
        match self {
            Code::Blocked => u32::MAX,
            Code::Completed(count) => 16 * count,
            Code::Dropped(count) => 16 * count + 1,
        }
    }
}

impl Operation {
    pub fn advance(&mut self, size: usize, count: u32) {
        self.address += size as u32 * count;
        self.left -= count;
        self.moved += count;
        self.is_open = self.left > 0;
        self.met = true;
    }
}

fn is_char(bytes: &[u8]) -> bool {
    let number = u32::from_le_bytes([bytes[0], bytes[1], bytes[2], bytes[3]]);
    char::from_u32(number).is_some()
}

impl Store {
    pub fn new() -> Store {
        Store { guests: Vec::new(), streams: Vec::new(), gone: Vec::new(), live_handles: 0, is_trapped: false }
    }

    pub fn add_guest(&mut self, size: usize) -> u32 {
        self.guests.push(Guest { memory: vec![0; size], handles: Vec::new(), freed: Vec::new() });
        self.guests.len() as u32 - 1
    }

    #[allow(dead_code)]
    pub fn may_make(&self, writer: u32, reader: u32) -> Result<(), Refusal> {
        if self.is_trapped {
            return Err(Refusal::Trapped);
        }
        if writer.max(reader) as usize >= self.guests.len() {
            return Err(Refusal::UnknownGuest);
        }
        if self.live_handles + 2 > HANDLES {
            return Err(Refusal::HandleLimit);
        }
        if self.streams.len() - self.gone.len() >= STREAMS {
            return Err(Refusal::Full);
        }
        Ok(())
    }

    pub fn new_between(&mut self, writer: u32, reader: u32, kind: Kind, payload: Payload) -> (u32, u32) {
        let idle = End { is_gone: false, told: false, operation: None };
        let made = Stream { kind, payload, passed: false, ends: [idle; 2], received: 0 };
        let stream = match self.gone.pop() {
            Some(stream) => {
                self.streams[stream as usize] = made;
                stream
            }
            None => {
                self.streams.push(made);
                self.streams.len() as u32 - 1
            }
        };
        self.live_handles += 2;
        let mut insert = |guest: u32, side| {
            let Guest { handles, freed, .. } = &mut self.guests[guest as usize];
            let entry = Some(Handle { kind, payload, side, stream });
            match freed.pop() {
                Some(handle) => {
                    handles[handle as usize - 1] = entry;
                    handle
                }
                None => {
                    handles.push(entry);
                    handles.len() as u32
                }
            }
        };
        (insert(reader, Side::Reading), insert(writer, Side::Writing))
    }

    #[allow(dead_code)]
    pub fn drop_end(&mut self, side: Side, guest: u32, kind: Kind, payload: Payload, handle: u32) -> Result<(), Refusal> {
        if self.is_trapped {
            return Err(Refusal::Trapped);
        }
        let Some(holder) = self.guests.get_mut(guest as usize) else { return Err(Refusal::UnknownGuest) };
        let Some(slot) = holder.handles.get_mut((handle as usize).wrapping_sub(1)) else { return Err(Refusal::UnknownHandle) };
        let Some(found) = slot else { return Err(Refusal::UnknownHandle) };
        if found.kind != kind {
            return Err(Refusal::WrongKind);
        }
        if found.payload != payload {
            return Err(Refusal::WrongType);
        }
        if found.side != side {
            return Err(Refusal::WrongEnd);
        }
        let (number, stream) = (found.stream, &mut self.streams[found.stream as usize]);
        let end = &mut stream.ends[side as usize];
        if end.operation.is_some() {
            return Err(Refusal::Busy);
        }
        if kind == Kind::Future && side == Side::Writing && !stream.passed && !end.told {
            return Err(Refusal::WithoutValue);
        }
        end.is_gone = true;
        if stream.ends[1 - side as usize].is_gone {
            self.gone.push(number);
        }
        *slot = None;
        holder.freed.push(handle);
        self.live_handles -= 1;
        Ok(())
    }

    pub fn find(&self, side: Side, guest: u32, kind: Kind, payload: &Payload, handle: u32, address: u32, count: u32) -> Result<u32, Refusal> {
        let Some(holder) = self.guests.get(guest as usize) else { return Err(Refusal::UnknownGuest) };
        if count >= 1 << 28 {
            return Err(Refusal::StreamOpTooBig);
        }
        let len = payload.size() * count as usize;
        if len > 0 {
            if holder.memory.len() < address as usize + len {
                return Err(Refusal::OutOfBounds);
            }
            if address as usize & (payload.align() - 1) != 0 {
                return Err(Refusal::NotAligned);
            }
        }
        let Some(Some(found)) = holder.handles.get((handle as usize).wrapping_sub(1)) else { return Err(Refusal::UnknownHandle) };
        if found.kind != kind {
            return Err(Refusal::WrongKind);
        }
        if found.payload != *payload {
            return Err(Refusal::WrongType);
        }
        let stream = &self.streams[found.stream as usize];
        let end = &stream.ends[side as usize];
        if found.side != side || end.operation.is_some() {
            return Err(Refusal::Concurrent);
        }
        let has_ended = match (kind, side) {
            (Kind::Stream, _) => end.told,
            (Kind::Future, Side::Writing) => end.told || stream.passed,
            (Kind::Future, Side::Reading) => stream.passed,
        };
        if has_ended {
            return Err(Refusal::Ended);
        }
        if let Some(theirs) = &stream.ends[1 - side as usize].operation {
            if theirs.is_open && theirs.guest == guest && !payload.is_number() {
                return Err(Refusal::IntraComponent);
            }
        }
        Ok(found.stream)
    }

    pub fn carry(&mut self, payload: Payload, from: (u32, u32), to: (u32, u32), count: u32) -> Result<(), Refusal> {
        let len = payload.size() * count as usize;
        let (at, into) = (from.1 as usize, to.1 as usize);
        if from.0 == to.0 {
            self.guests[from.0 as usize].memory.copy_within(at..at + len, into);
            return Ok(());
        }
        let [source, target] = self.guests.get_disjoint_mut([from.0 as usize, to.0 as usize]).unwrap();
        let (source, target) = (&source.memory[at..at + len], &mut target.memory[into..into + len]);
        if !payload.is_number() && !source.chunks(4).all(is_char) {
            return Err(Refusal::BadItem);
        }
        target.copy_from_slice(source);
        Ok(())
    }

    pub fn operate(&mut self, side: Side, guest: u32, kind: Kind, payload: Payload, handle: u32, address: u32, count: u32) -> Result<Code, Refusal> {
        if self.is_trapped {
            return Err(Refusal::Trapped);
        }
        let number = self.find(side, guest, kind, &payload, handle, address, count)? as usize;
        let (mine, other) = (side as usize, 1 - side as usize);
        let stream = &mut self.streams[number];
        if stream.ends[other].is_gone {
            stream.ends[mine].told = true;
            return Ok(Code::Dropped(0));
        }
        let begun = Operation { guest, address, left: count, moved: 0, is_open: true, met: false };
        let theirs = match stream.ends[other].operation {
            Some(theirs) if theirs.is_open => theirs,
            _ => {
                stream.ends[mine].operation = Some(begun);
                return Ok(Code::Blocked);
            }
        };
        let moved = count.min(theirs.left);
        if moved == 0 {
            return Ok(self.complete_alone(number, side, begun));
        }
        let (here, there) = ((guest, address), (theirs.guest, theirs.address));
        let carried = match side {
            Side::Writing => self.carry(payload, here, there, moved),
            Side::Reading => self.carry(payload, there, here, moved),
        };
        if let Err(error) = carried {
            self.is_trapped = true;
            return Err(error);
        }
        let stream = &mut self.streams[number];
        stream.passed |= stream.kind == Kind::Future;
        stream.received = stream.received.saturating_add(u128::from(moved));
        if let Some(theirs) = &mut stream.ends[other].operation {
            theirs.advance(payload.size(), moved);
        }
        Ok(Code::Completed(if stream.kind == Kind::Stream { moved } else { 0 }))
    }

    pub fn complete_alone(&mut self, number: usize, side: Side, begun: Operation) -> Code {
        let stream = &mut self.streams[number];
        let left = stream.ends[1 - side as usize].operation.map_or(0, |theirs| theirs.left);
        let write = if side == Side::Writing { begun.left } else { left };
        let who = if write == 0 { Side::Writing } else { Side::Reading };
        if who == side {
            return Code::Completed(0);
        }
        if let Some(theirs) = &mut stream.ends[1 - side as usize].operation {
            theirs.advance(0, 0);
        }
        stream.ends[side as usize].operation = Some(begun);
        Code::Blocked
    }

    pub fn take_event(&mut self, guest: u32, handle: u32) -> Result<Option<Code>, Refusal> {
        if self.is_trapped {
            return Err(Refusal::Trapped);
        }
        let Some(holder) = self.guests.get(guest as usize) else { return Err(Refusal::UnknownGuest) };
        let Some(Some(found)) = holder.handles.get((handle as usize).wrapping_sub(1)) else { return Err(Refusal::UnknownHandle) };
        let stream = &mut self.streams[found.stream as usize];
        let other_gone = stream.ends[1 - found.side as usize].is_gone;
        let end = &mut stream.ends[found.side as usize];
        let code = match (&end.operation, stream.kind) {
            (Some(mine), Kind::Stream) if other_gone => Code::Dropped(mine.moved),
            (Some(mine), _) if mine.met => Code::Completed(if stream.kind == Kind::Stream { mine.moved } else { 0 }),
            (Some(_), Kind::Future) if other_gone && !stream.passed => Code::Dropped(0),
            (None, _) if other_gone && !end.told && !stream.passed => Code::Dropped(0),
            _ => return Ok(None),
        };
        end.operation = None;
        if let Code::Dropped(_) = code {
            end.told = true;
        }
        Ok(Some(code))
    }
}
