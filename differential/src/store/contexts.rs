//! Waitable sets and error contexts.

use super::{Guest, Reply, Store, is_out_of_bounds};
use crate::codes::Refusal;
use crate::streams::{End, Owner, Side};
use crate::tables::Entry;

/// The most bytes of a message.
const MOST_MESSAGE: u32 = 4096;

/// A message, and how many handles there are to it.
#[derive(Clone, Debug, Default)]
struct Context {
    message: Vec<u8>,
    handles: u32,
}

/// The error contexts of a store. A place without handles is free.
#[derive(Clone, Debug, Default)]
pub struct Contexts {
    all: Vec<Context>,
    free: Vec<u32>,
}

impl Contexts {
    // Keeps a message, which has one handle.
    fn add(&mut self, message: Vec<u8>) -> u32 {
        let context = Context { message, handles: 1 };
        if let Some(place) = self.free.pop() {
            self.all[place as usize] = context;
            return place;
        }
        self.all.push(context);
        self.all.len() as u32 - 1
    }
}

impl Store {
    pub fn set_new(&mut self, guest: u32) -> Result<Reply<'_>, Refusal> {
        self.guest(guest)?;
        self.has_room(1, 1)?;
        let sets = &mut self.guests[guest as usize].sets;
        sets.push(Default::default());
        let set = sets.len() as u32 - 1;
        self.places += 1;
        Ok(Reply::Number(self.insert(guest, Entry::Set(set))))
    }

    fn set_of(&self, guest: u32, handle: u32) -> Result<u32, Refusal> {
        match self.entry(guest, handle)? {
            Entry::Set(set) => Ok(set),
            _ => Err(Refusal::WrongKind),
        }
    }

    pub fn set_join(&mut self, guest: u32, set: u32, handle: u32) -> Result<Reply<'_>, Refusal> {
        self.guest(guest)?;
        let joined = if set == 0 { None } else { Some(self.set_of(guest, set)?) };
        let Entry::End { stream, side } = self.entry(guest, handle)? else {
            return Err(Refusal::WrongKind);
        };
        let end = &mut self.streams[stream as usize][side];
        let left = std::mem::replace(&mut end.set, joined);
        let sets = &mut self.guests[guest as usize].sets;
        if let Some(set) = left {
            sets[set as usize].leave(handle);
        }
        if let Some(set) = joined {
            sets[set as usize].join(handle);
        }
        Ok(Reply::Done)
    }

    pub fn set_poll(&mut self, guest: u32, handle: u32) -> Result<Reply<'_>, Refusal> {
        let set = self.set_of(guest, handle)?;
        let Guest { table, sets, .. } = &mut self.guests[guest as usize];
        let streams = &mut self.streams;
        let end_of = |member| match table.get(member) {
            Some(Entry::End { stream, side }) => Some((stream as usize, side)),
            _ => None,
        };
        let is_ready =
            |member| end_of(member).is_some_and(|(stream, side)| streams[stream].report(side).is_some());
        let Some(member) = sets[set as usize].first(is_ready) else { return Ok(Reply::Member(None)) };
        let code = end_of(member).and_then(|(stream, side)| streams[stream].deliver(side));
        Ok(Reply::Member(code.map(|code| (member, code))))
    }

    /// An end may be told something from now on: so the set that it is in takes note.
    pub(super) fn note(&mut self, number: u32, side: Side) {
        if let End { owner: Owner::Guest { guest, handle }, set: Some(set), .. } =
            self.streams[number as usize][side]
        {
            self.guests[guest as usize].sets[set as usize].note(handle);
        }
    }

    pub fn set_drop(&mut self, guest: u32, handle: u32) -> Result<Reply<'_>, Refusal> {
        let set = self.set_of(guest, handle)?;
        if !self.guests[guest as usize].sets[set as usize].is_empty() {
            return Err(Refusal::SetNotEmpty);
        }
        self.places -= 1;
        self.remove(guest, handle);
        Ok(Reply::Done)
    }

    pub fn error_context_new(&mut self, guest: u32, address: u32, len: u32) -> Result<Reply<'_>, Refusal> {
        let memory = &self.guest(guest)?.memory;
        if len > MOST_MESSAGE {
            return Err(Refusal::MessageTooLong);
        }
        if is_out_of_bounds(memory, address, u64::from(len)) {
            return Err(Refusal::OutOfBounds);
        }
        let message = if len == 0 { &[] } else { &memory[address as usize..][..len as usize] };
        std::str::from_utf8(message).map_err(|_| Refusal::BadText)?;
        self.has_room(1, 1)?;
        let place = self.contexts.add(message.to_vec());
        self.places += 1;
        Ok(Reply::Number(self.insert(guest, Entry::Context(place))))
    }

    fn context_of(&self, guest: u32, handle: u32) -> Result<u32, Refusal> {
        match self.entry(guest, handle)? {
            Entry::Context(place) => Ok(place),
            _ => Err(Refusal::WrongKind),
        }
    }

    pub fn error_context_message(
        &mut self,
        guest: u32,
        handle: u32,
        address: u32,
    ) -> Result<Reply<'_>, Refusal> {
        let place = self.context_of(guest, handle)?;
        let message = &self.contexts.all[place as usize].message;
        let memory = &mut self.guests[guest as usize].memory;
        if is_out_of_bounds(memory, address, message.len() as u64) {
            return Err(Refusal::OutOfBounds);
        }
        if !message.is_empty() {
            memory[address as usize..][..message.len()].copy_from_slice(message);
        }
        Ok(Reply::Number(message.len() as u32))
    }

    pub fn error_context_transfer(&mut self, guest: u32, handle: u32, to: u32) -> Result<Reply<'_>, Refusal> {
        self.guest(guest)?;
        self.guest(to)?;
        let place = self.context_of(guest, handle)?;
        self.add_handle(place, to)
    }

    // A handle more to a context.
    fn add_handle(&mut self, place: u32, to: u32) -> Result<Reply<'_>, Refusal> {
        self.has_room(1, 0)?;
        self.contexts.all[place as usize].handles += 1;
        Ok(Reply::Number(self.insert(to, Entry::Context(place))))
    }

    pub fn error_context_rep(&self, guest: u32, handle: u32) -> Result<Reply<'_>, Refusal> {
        self.context_of(guest, handle).map(Reply::Number)
    }

    pub fn error_context_lower(&mut self, rep: u32, guest: u32) -> Result<Reply<'_>, Refusal> {
        self.guest(guest)?;
        if self.contexts.all.get(rep as usize).is_none_or(|context| context.handles == 0) {
            return Err(Refusal::UnknownHandle);
        }
        self.add_handle(rep, guest)
    }

    pub fn error_context_drop(&mut self, guest: u32, handle: u32) -> Result<Reply<'_>, Refusal> {
        let place = self.context_of(guest, handle)?;
        self.remove(guest, handle);
        let context = &mut self.contexts.all[place as usize];
        context.handles -= 1;
        if context.handles == 0 {
            context.message = Vec::new();
            self.contexts.free.push(place);
            self.places -= 1;
        }
        Ok(Reply::Done)
    }
}
