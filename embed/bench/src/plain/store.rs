//! The store: guests, and the streams and futures between them.
//!
//! A refusal changes nothing: each call tests all that may refuse it first, in the order of `strm.h`, and takes all
//! memory that it needs before it changes anything.

use super::guests::{Guest, GuestLimits};
use super::payloads::{Payload, Type};
use super::status::Status;
use super::streams::{Code, End, Kind, Operation, Owner, Side, Stream};
use super::tables::{Entry, Slab};

/// The first number that is no count of items.
const COUNT_LIMIT: u32 = 1 << 28;

/// The most bytes of all memories together.
const MOST_MEMORY: u32 = 1 << 28;

const MOST_GUESTS: usize = 1 << 20;

const LONGEST_MESSAGE: u32 = 4096;

/// The places that a stream takes, of which a waitable set and an error context take one each.
const STREAM_PLACES: u32 = 3;

/// The handles of a new stream's ends, and its number.
#[derive(Clone, Copy, Debug, Default, PartialEq, Eq)]
#[repr(C)]
pub struct Pair {
    pub read: u32,
    pub write: u32,
    pub stream: u32,
}

// A message, and how many handles it has.
struct Context {
    message: Vec<u8>,
    handles: u32,
}

pub struct Store {
    guests: Vec<Guest>,
    /// All that were made; each is there until another gets its number.
    streams: Vec<Stream>,
    /// Those whose ends are gone: the one that went last is given again first.
    gone: Vec<u32>,
    contexts: Slab<Context>,
    handles_left: usize,
    places_left: u32,
    memory_left: u32,
}

impl Store {
    pub fn new(handles: usize, places: u32) -> Store {
        Store {
            guests: Vec::new(),
            streams: Vec::new(),
            gone: Vec::new(),
            contexts: Slab::default(),
            handles_left: handles,
            places_left: places,
            memory_left: MOST_MEMORY,
        }
    }

    pub fn add_guest(&mut self, size: u32) -> Result<u32, Status> {
        if size > self.memory_left {
            return Err(Status::MemoryTooBig);
        }
        if self.guests.len() >= MOST_GUESTS {
            return Err(Status::Full);
        }
        let mut memory = Vec::new();
        memory.try_reserve_exact(size as usize)?;
        memory.resize(size as usize, 0);
        self.guests.try_reserve(1)?;
        self.guests.push(Guest {
            memory,
            ..Guest::default()
        });
        self.memory_left -= size;
        Ok(self.guests.len() as u32 - 1)
    }

    fn guest(&self, guest: u32) -> Result<&Guest, Status> {
        self.guests.get(guest as usize).ok_or(Status::UnknownGuest)
    }

    fn guest_mut(&mut self, guest: u32) -> Result<&mut Guest, Status> {
        self.guests.get_mut(guest as usize).ok_or(Status::UnknownGuest)
    }

    pub fn memory_mut(&mut self, guest: u32) -> Result<&mut [u8], Status> {
        Ok(&mut self.guest_mut(guest)?.memory)
    }

    pub fn set_guest_limits(&mut self, guest: u32, limits: GuestLimits) -> Result<(), Status> {
        self.guest_mut(guest)?.limits = limits;
        Ok(())
    }

    pub fn handle_count(&self, guest: u32) -> Result<u32, Status> {
        Ok(self.guest(guest)?.table.len())
    }

    /// How many items were received on the stream that got this number last.
    pub fn moved(&self, stream: u32) -> Result<u128, Status> {
        match self.streams.get(stream as usize) {
            Some(stream) => Ok(stream.received),
            None => Err(Status::UnknownStream),
        }
    }

    // What a handle stands for.
    fn entry(&self, guest: u32, handle: u32) -> Result<Entry, Status> {
        self.guest(guest)?.table.get(handle).ok_or(Status::UnknownHandle)
    }

    // The stream and the side of a handle of an end of this type.
    #[inline]
    fn end_of(&self, guest: u32, ty: Type, handle: u32) -> Result<(u32, Side), Status> {
        let found = end_in(self.guest(guest)?, handle)?;
        is_of_type(&self.streams[found.0 as usize], ty)?;
        Ok(found)
    }

    // Whether a guest may have a handle more.
    fn may_have_handle(&self, guest: &Guest) -> Result<(), Status> {
        if !guest.table.has_numbers(1) {
            return Err(Status::IndexOverflow);
        }
        if self.handles_left < 1 {
            return Err(Status::HandleLimit);
        }
        Ok(())
    }
}

// The stream and the side of a guest's handle of an end, whatever its type.
#[inline]
fn end_in(guest: &Guest, handle: u32) -> Result<(u32, Side), Status> {
    match guest.table.get(handle) {
        Some(Entry::Writer(stream)) => Ok((stream, Side::Writing)),
        Some(Entry::Reader(stream)) => Ok((stream, Side::Reading)),
        Some(_) => Err(Status::WrongKind),
        None => Err(Status::UnknownHandle),
    }
}

#[inline]
fn is_of_type(stream: &Stream, ty: Type) -> Result<(), Status> {
    if stream.ty.kind != ty.kind {
        return Err(Status::WrongKind);
    }
    if stream.ty.payload != ty.payload {
        return Err(Status::WrongType);
    }
    Ok(())
}

// Where an end is in a set, that learns whether the end has something to be told.
#[inline]
fn note(guests: &mut [Guest], stream: &Stream, side: Side) {
    if let Some(set) = stream.end(side).set {
        note_in(guests, set, stream, side);
    }
}

fn note_in(guests: &mut [Guest], set: u32, stream: &Stream, side: Side) {
    let Owner::Guest { guest, handle } = stream.end(side).owner else {
        return;
    };
    if let Some(set) = guests[guest as usize].sets.get_mut(set) {
        set.note(handle, stream.report(side).is_some());
    }
}

/// Streams and futures that are made.
impl Store {
    #[inline]
    fn may_make(&self, writer: u32, reader: u32, each: u32) -> Result<(), Status> {
        let write = self.guests.get(writer as usize);
        let read = self.guests.get(reader as usize);
        if [write, read]
            .into_iter()
            .flatten()
            .any(|guest| guest.is_past_ends(each))
        {
            return Err(Status::GuestLimit);
        }
        let (Some(write), Some(read)) = (write, read) else {
            return Err(Status::UnknownGuest);
        };
        if !write.table.has_numbers(each) || !read.table.has_numbers(each) {
            return Err(Status::IndexOverflow);
        }
        if self.handles_left < 2 {
            return Err(Status::HandleLimit);
        }
        if self.places_left < STREAM_PLACES {
            return Err(Status::Full);
        }
        Ok(())
    }

    // The number of the next stream, with room for it and for its number to be freed.
    #[inline]
    fn next_stream(&mut self) -> Result<u32, Status> {
        if let Some(number) = self.gone.last() {
            return Ok(*number);
        }
        self.streams.try_reserve(1)?;
        self.gone.try_reserve(self.streams.len() + 1)?;
        Ok(self.streams.len() as u32)
    }

    // The handle of an end, which a guest has room for.
    #[inline]
    fn give_end(&mut self, guest: u32, stream: u32, side: Side) -> u32 {
        let receiver = &mut self.guests[guest as usize];
        receiver.ends += 1;
        self.handles_left -= 1;
        receiver.table.insert(Entry::of_end(stream, side))
    }

    /// A stream or future from one guest to another, which may be the same.
    pub fn new_between(&mut self, writer: u32, reader: u32, ty: Type) -> Result<Pair, Status> {
        let each = if writer == reader { 2 } else { 1 };
        self.may_make(writer, reader, each)?;
        self.guests[reader as usize].table.reserve(each)?;
        self.guests[writer as usize].table.reserve(each)?;
        let stream = self.next_stream()?;
        let read = self.give_end(reader, stream, Side::Reading);
        let write = self.give_end(writer, stream, Side::Writing);
        let held = |guest, handle| Owner::Guest { guest, handle };
        let made = Stream::new(ty, held(writer, write), held(reader, read));
        match self.gone.pop() {
            Some(number) => self.streams[number as usize] = made,
            None => self.streams.push(made),
        }
        self.places_left -= STREAM_PLACES;
        Ok(Pair { read, write, stream })
    }
}

// The items that are asked for, where they may lie there.
#[inline]
fn region(guest: &Guest, ty: &Type, address: u32, count: u32) -> Result<u32, Status> {
    let count = if ty.kind == Kind::Future { 1 } else { count };
    if count >= COUNT_LIMIT {
        return Err(Status::StreamOpTooBig);
    }
    let len = ty.payload.size() * count as usize;
    if guest.is_outside(address, len) {
        return Err(Status::OutOfBounds);
    }
    if len > 0 && address as usize & (ty.payload.align() - 1) != 0 {
        return Err(Status::NotAligned);
    }
    Ok(count)
}

// Whether an end may read or write now.
#[inline]
fn may_operate(stream: &Stream, side: Side, named: Side, guest: u32) -> Result<(), Status> {
    if named != side || stream.end(side).operation.is_some() {
        return Err(Status::ConcurrentFutureStreamOp);
    }
    if stream.has_ended(side) {
        return Err(match (side, stream.ty.kind) {
            (Side::Writing, Kind::Stream) => Status::WriteToDroppedStream,
            (Side::Writing, Kind::Future) => Status::WriteToDroppedFuture,
            (Side::Reading, Kind::Stream) => Status::ReadFromDroppedStream,
            (Side::Reading, Kind::Future) => Status::FutureAlreadyRead,
        });
    }
    if !stream.ty.payload.is_number_or_none() && stream.waits_for(side.other(), guest) {
        return Err(Status::IntraComponent);
    }
    Ok(())
}

// So many items move from an address of a guest to one of another, or of the same.
#[inline(always)]
fn carry(
    guests: &mut [Guest],
    payload: &Payload,
    from: (u32, u32),
    to: (u32, u32),
    count: u32,
) -> Result<(), Status> {
    let len = payload.size() * count as usize;
    if len == 0 {
        return Ok(());
    }
    let (at, into) = (from.1 as usize, to.1 as usize);
    if from.0 == to.0 {
        let memory = &mut guests[from.0 as usize].memory;
        memory.copy_within(at..at + len, into);
        return Ok(());
    }
    let Ok([source, target]) = guests.get_disjoint_mut([from.0 as usize, to.0 as usize]) else {
        unreachable!()
    };
    let (source, target) = (&source.memory[at..at + len], &mut target.memory[into..into + len]);
    if !payload.copy(source, target) {
        return Err(Status::BadItem);
    }
    Ok(())
}

// Nothing moves between a write and a read of which one asks for no item: one of the two completes, and the other one
// waits, or has met.
fn complete_alone(stream: &mut Stream, side: Side, mine: Operation, write_left: u32) -> Code {
    let completes = if write_left == 0 {
        Side::Writing
    } else {
        Side::Reading
    };
    if completes == side {
        return Code::Completed(0);
    }
    if let Some(theirs) = &mut stream.end_mut(side.other()).operation {
        theirs.advance(0, 0);
    }
    stream.end_mut(side).operation = Some(mine);
    Code::Blocked
}

/// Reads, writes and events.
impl Store {
    /// A read or write of the end that a handle names; of a future the count is not looked at.
    #[inline(always)]
    pub fn operate(
        &mut self,
        side: Side,
        guest: u32,
        ty: Type,
        handle: u32,
        address: u32,
        count: u32,
    ) -> Result<Code, Status> {
        let Some(caller) = self.guests.get(guest as usize) else {
            return Err(Status::UnknownGuest);
        };
        let count = region(caller, &ty, address, count)?;
        let (number, named) = end_in(caller, handle)?;
        let stream = &mut self.streams[number as usize];
        is_of_type(stream, ty)?;
        may_operate(stream, side, named, guest)?;
        let mine = Operation::new(address, count);
        let End { owner, operation, .. } = stream.end(side.other());
        let (theirs, other) = match (owner, operation) {
            (Owner::Gone, _) => {
                stream.end_mut(side).told = true;
                note(&mut self.guests, stream, side);
                return Ok(Code::Dropped(0));
            }
            (Owner::Guest { guest, .. }, Some(theirs)) if theirs.is_open() => (theirs, *guest),
            _ => {
                stream.end_mut(side).operation = Some(mine);
                return Ok(Code::Blocked);
            }
        };
        let moved = count.min(theirs.left);
        let code = if moved == 0 {
            let write_left = if side == Side::Writing { count } else { theirs.left };
            complete_alone(stream, side, mine, write_left)
        } else {
            let (here, there) = ((guest, address), (other, theirs.address));
            match side {
                Side::Writing => carry(&mut self.guests, &ty.payload, here, there, moved)?,
                Side::Reading => carry(&mut self.guests, &ty.payload, there, here, moved)?,
            }
            stream.receive(side, moved)
        };
        note(&mut self.guests, stream, side.other());
        Ok(code)
    }

    /// The read or write of an end is cancelled.
    pub fn cancel(&mut self, side: Side, guest: u32, ty: Type, handle: u32) -> Result<Code, Status> {
        let (number, named) = self.end_of(guest, ty, handle)?;
        let stream = &mut self.streams[number as usize];
        if named != side {
            return Err(Status::WrongEnd);
        }
        if stream.end(side).operation.is_none() {
            return Err(Status::NoPending);
        }
        let code = stream.cancel(side);
        note(&mut self.guests, stream, side);
        Ok(code)
    }

    /// What an end is to be told, if anything.
    #[inline]
    pub fn take_event(&mut self, guest: u32, handle: u32) -> Result<Option<Code>, Status> {
        let (number, side) = end_in(self.guest(guest)?, handle)?;
        let stream = &mut self.streams[number as usize];
        let told = stream.tell(side);
        note(&mut self.guests, stream, side);
        Ok(told)
    }
}

/// Ends that go.
impl Store {
    // A handle of an end is freed; the end leaves the set that it is in.
    #[inline(always)]
    fn free_end(&mut self, guest: u32, handle: u32, set: Option<u32>) {
        let holder = &mut self.guests[guest as usize];
        if let Some(set) = set.and_then(|set| holder.sets.get_mut(set)) {
            set.leave(handle);
        }
        holder.table.remove(handle);
        holder.ends -= 1;
        self.handles_left += 1;
    }

    // An end is gone: the other one is to be told so, or the number is free.
    #[inline(always)]
    fn lose(&mut self, number: u32, side: Side) {
        let stream = &mut self.streams[number as usize];
        stream.end_mut(side).owner = Owner::Gone;
        if stream.end(side.other()).owner == Owner::Gone {
            self.gone.push(number);
            self.places_left += STREAM_PLACES;
        } else {
            note(&mut self.guests, stream, side.other());
        }
    }

    /// The end that a handle names is dropped.
    #[inline(always)]
    pub fn drop_end(&mut self, side: Side, guest: u32, ty: Type, handle: u32) -> Result<(), Status> {
        let (number, named) = self.end_of(guest, ty, handle)?;
        let stream = &self.streams[number as usize];
        let end = stream.end(side);
        if named != side {
            return Err(Status::WrongEnd);
        }
        if end.operation.is_some() {
            return Err(Status::Busy);
        }
        if ty.kind == Kind::Future && side == Side::Writing && !stream.passed && !end.told {
            return Err(Status::FutureWithoutValue);
        }
        self.free_end(guest, handle, end.set);
        self.lose(number, side);
        Ok(())
    }

    // Whether an end may leave its guest.
    fn may_leave(&self, number: u32, side: Side) -> Result<(), Status> {
        let stream = &self.streams[number as usize];
        let end = stream.end(side);
        if end.operation.is_some() {
            return Err(Status::Busy);
        }
        if end.told || stream.passed {
            return Err(Status::LiftDropped);
        }
        if end.set.is_some() {
            return Err(Status::LiftInSet);
        }
        Ok(())
    }

    /// An end moves to a guest, which may be the same, and gets a handle there.
    pub fn transfer(&mut self, guest: u32, ty: Type, handle: u32, to: u32) -> Result<u32, Status> {
        let receiver = self.guests.get(to as usize);
        if guest != to && receiver.is_some_and(|receiver| receiver.is_past_ends(1)) {
            return Err(Status::GuestLimit);
        }
        self.guest(guest)?;
        self.guest(to)?;
        let (number, side) = self.end_of(guest, ty, handle)?;
        self.may_leave(number, side)?;
        if guest != to {
            let table = &mut self.guests[to as usize].table;
            if !table.has_numbers(1) {
                return Err(Status::IndexOverflow);
            }
            table.reserve(1)?;
        }
        self.free_end(guest, handle, None);
        let handle = self.give_end(to, number, side);
        self.streams[number as usize].end_mut(side).owner = Owner::Guest { guest: to, handle };
        Ok(handle)
    }

    /// A read end leaves its guest, and is loose: the number of its stream.
    pub fn lift(&mut self, guest: u32, ty: Type, handle: u32) -> Result<u32, Status> {
        let (number, side) = self.end_of(guest, ty, handle)?;
        if side != Side::Reading {
            return Err(Status::WrongEnd);
        }
        self.may_leave(number, side)?;
        self.free_end(guest, handle, None);
        self.streams[number as usize].end_mut(side).owner = Owner::Loose;
        Ok(number)
    }

    fn is_loose(&self, reader: u32) -> Result<(), Status> {
        match self.streams.get(reader as usize) {
            Some(stream) if stream.end(Side::Reading).owner == Owner::Loose => Ok(()),
            _ => Err(Status::UnknownReader),
        }
    }

    /// A guest gets the loose read end of a stream: its handle.
    pub fn lower(&mut self, reader: u32, guest: u32, ty: Type) -> Result<u32, Status> {
        let receiver = self.guests.get(guest as usize);
        if receiver.is_some_and(|receiver| receiver.is_past_ends(1)) {
            return Err(Status::GuestLimit);
        }
        let receiver = self.guest(guest)?;
        self.is_loose(reader)?;
        is_of_type(&self.streams[reader as usize], ty)?;
        self.may_have_handle(receiver)?;
        self.guests[guest as usize].table.reserve(1)?;
        let handle = self.give_end(guest, reader, Side::Reading);
        self.streams[reader as usize].end_mut(Side::Reading).owner = Owner::Guest { guest, handle };
        Ok(handle)
    }

    /// The loose read end of a stream is dropped.
    pub fn close(&mut self, reader: u32) -> Result<(), Status> {
        self.is_loose(reader)?;
        self.lose(reader, Side::Reading);
        Ok(())
    }
}

/// Waitable sets.
impl Store {
    // A handle of a guest, which takes a place; the guest has room for it.
    fn give_placed(&mut self, guest: u32, entry: Entry) -> u32 {
        self.handles_left -= 1;
        self.guests[guest as usize].table.insert(entry)
    }

    fn may_have_placed(&self, guest: u32) -> Result<(), Status> {
        self.may_have_handle(self.guest(guest)?)?;
        if self.places_left < 1 {
            return Err(Status::Full);
        }
        Ok(())
    }

    // The number of the set that a handle names.
    fn set_at(&self, guest: u32, handle: u32) -> Result<u32, Status> {
        match self.entry(guest, handle)? {
            Entry::Set(set) => Ok(set),
            _ => Err(Status::WrongKind),
        }
    }

    pub fn set_new(&mut self, guest: u32) -> Result<u32, Status> {
        if self
            .guests
            .get(guest as usize)
            .is_some_and(|maker| maker.is_past(1))
        {
            return Err(Status::GuestLimit);
        }
        self.may_have_placed(guest)?;
        let maker = self.guest_mut(guest)?;
        maker.table.reserve(1)?;
        maker.sets.reserve()?;
        let set = maker.sets.insert(Default::default());
        self.places_left -= 1;
        Ok(self.give_placed(guest, Entry::Set(set)))
    }

    /// An end joins a set, and leaves the one that it was in; of set 0 it leaves that alone.
    pub fn set_join(&mut self, guest: u32, set: u32, handle: u32) -> Result<(), Status> {
        self.guest(guest)?;
        let joined = if set == 0 {
            None
        } else {
            Some(self.set_at(guest, set)?)
        };
        let (number, side) = end_in(self.guest(guest)?, handle)?;
        let sets = &mut self.guests[guest as usize].sets;
        if let Some(joined) = joined.and_then(|set| sets.get_mut(set)) {
            joined.join()?;
        }
        let stream = &mut self.streams[number as usize];
        let end = stream.end_mut(side);
        if let Some(left) = end.set.and_then(|set| sets.get_mut(set)) {
            left.leave(handle);
        }
        end.set = joined;
        note(&mut self.guests, stream, side);
        Ok(())
    }

    /// The member of the least handle that has something to be told is told so.
    pub fn set_poll(&mut self, guest: u32, set: u32) -> Result<Option<(u32, Code)>, Status> {
        let set = self.set_at(guest, set)?;
        let sets = &self.guests[guest as usize].sets;
        let Some(handle) = sets.get(set).and_then(|set| set.least()) else {
            return Ok(None);
        };
        let told = self.take_event(guest, handle)?;
        Ok(told.map(|code| (handle, code)))
    }

    pub fn set_drop(&mut self, guest: u32, handle: u32) -> Result<(), Status> {
        let set = self.set_at(guest, handle)?;
        let holder = &mut self.guests[guest as usize];
        if holder.sets.get(set).is_some_and(|set| set.members > 0) {
            return Err(Status::SetNotEmpty);
        }
        holder.sets.remove(set);
        holder.table.remove(handle);
        self.handles_left += 1;
        self.places_left += 1;
        Ok(())
    }
}

/// Error contexts.
impl Store {
    // The number of the error context that a handle names.
    fn context_at(&self, guest: u32, handle: u32) -> Result<u32, Status> {
        match self.entry(guest, handle)? {
            Entry::Context(context) => Ok(context),
            _ => Err(Status::WrongKind),
        }
    }

    pub fn context_new(&mut self, guest: u32, address: u32, len: u32) -> Result<u32, Status> {
        if self
            .guests
            .get(guest as usize)
            .is_some_and(Guest::is_past_context)
        {
            return Err(Status::GuestLimit);
        }
        let maker = self.guest(guest)?;
        if len > LONGEST_MESSAGE {
            return Err(Status::MessageTooLong);
        }
        if maker.is_outside(address, len as usize) {
            return Err(Status::OutOfBounds);
        }
        let bytes = if len == 0 {
            &[]
        } else {
            &maker.memory[address as usize..][..len as usize]
        };
        if std::str::from_utf8(bytes).is_err() {
            return Err(Status::BadText);
        }
        self.may_have_placed(guest)?;
        let mut message = Vec::new();
        message.try_reserve_exact(bytes.len())?;
        message.extend_from_slice(bytes);
        let maker = self.guest_mut(guest)?;
        maker.table.reserve(1)?;
        self.contexts.reserve()?;
        let context = self.contexts.insert(Context { message, handles: 1 });
        self.guests[guest as usize].contexts += 1;
        self.places_left -= 1;
        Ok(self.give_placed(guest, Entry::Context(context)))
    }

    /// The message goes to an address of the guest's memory: its bytes' number.
    pub fn context_message(&mut self, guest: u32, handle: u32, address: u32) -> Result<u32, Status> {
        let context = self.context_at(guest, handle)?;
        let holder = &mut self.guests[guest as usize];
        let Some(Context { message, .. }) = self.contexts.get(context) else {
            return Err(Status::UnknownHandle);
        };
        if holder.is_outside(address, message.len()) {
            return Err(Status::OutOfBounds);
        }
        if !message.is_empty() {
            holder.memory[address as usize..][..message.len()].copy_from_slice(message);
        }
        Ok(message.len() as u32)
    }

    /// A guest gets a handle of the context too.
    pub fn context_transfer(&mut self, guest: u32, handle: u32, to: u32) -> Result<u32, Status> {
        if self.guests.get(to as usize).is_some_and(Guest::is_past_context) {
            return Err(Status::GuestLimit);
        }
        self.guest(guest)?;
        self.guest(to)?;
        let number = self.context_at(guest, handle)?;
        self.may_have_handle(self.guest(to)?)?;
        let receiver = &mut self.guests[to as usize];
        receiver.table.reserve(1)?;
        receiver.contexts += 1;
        if let Some(context) = self.contexts.get_mut(number) {
            context.handles += 1;
        }
        Ok(self.give_placed(to, Entry::Context(number)))
    }

    pub fn context_drop(&mut self, guest: u32, handle: u32) -> Result<(), Status> {
        let number = self.context_at(guest, handle)?;
        let holder = &mut self.guests[guest as usize];
        holder.table.remove(handle);
        holder.contexts -= 1;
        self.handles_left += 1;
        if let Some(context) = self.contexts.get_mut(number) {
            context.handles -= 1;
            if context.handles == 0 {
                self.contexts.remove(number);
                self.places_left += 1;
            }
        }
        Ok(())
    }
}
