//! Calls that are drawn from a seed: mostly of what is there, so that they are done, and often with something
//! wrong in them.

use crate::calls::{Bytes, Call, Likeness, TypeWords};
use crate::lent::{ROOM, SIZE_LIMIT};
use crate::limits::GuestLimits;
use crate::profiles::{Family, Profile, SIZES, some_tree};
use crate::words::{FUTURE, type_word};
use plain::compare::random::Random;
use plain::payload::{TransmitIndex, TransmitKind};
use plain::store::Store;
use plain::streams::{Owner, Side, Stream};
use plain::tables::Entry;

/// The most bytes that the embedder reads or writes at once.
const MOST_BYTES: u32 = 5000;

/// Numbers at the edges of what calls accept.
const EDGES: [u32; 12] = [
    0,
    1,
    4096,
    4097,
    65535,
    (1 << 28) - 1,
    1 << 28,
    (1 << 28) + 1,
    i32::MAX as u32,
    1 << 31,
    u32::MAX - 1,
    u32::MAX,
];

/// The most guests of a store, since all memories are compared after each call.
const MOST_GUESTS: usize = 12;

/// How often something that is wanted is looked for.
const TRIES: u32 = 8;

/// An end that a guest has: who, under which handle, of which type, and which one.
#[derive(Clone, Copy)]
struct Found {
    guest: u32,
    handle: u32,
    ty: TransmitIndex,
    side: Side,
}

/// Draws a call of a store as it is.
pub struct Draws<'a> {
    random: &'a mut Random,
    profile: &'a Profile,
    store: &'a Store,
    // How much of the call is still to be wrong.
    wrongs: u32,
}

impl<'a> Draws<'a> {
    pub fn new(random: &'a mut Random, profile: &'a Profile, store: &'a Store) -> Draws<'a> {
        let wrongs = if random.chance(profile.hostility) { random.within(1, 2) } else { 0 };
        Draws { random, profile, store, wrongs }
    }

    // Whether what is drawn next is wrong.
    fn goes_wrong(&mut self) -> bool {
        let goes_wrong = self.wrongs > 0 && self.random.chance(25);
        self.wrongs -= u32::from(goes_wrong);
        goes_wrong
    }

    // A number that is likely none's.
    fn stranger(&mut self, last: u32) -> u32 {
        match self.random.below(4) {
            0 => last.wrapping_add(self.random.within(0, 2)),
            1 => self.random.within(0, 9),
            2 => self.random.pick(&EDGES),
            _ => self.random.draw() as u32,
        }
    }

    fn guest(&mut self) -> u32 {
        let guests = self.store.guests.len() as u32;
        if guests == 0 || self.goes_wrong() {
            return self.stranger(guests);
        }
        self.random.within(0, guests - 1)
    }

    fn memory_of(&self, guest: u32) -> u32 {
        self.store.guests.get(guest as usize).map_or(0, |guest| guest.memory.len() as u32)
    }

    fn entry(&self, guest: u32, handle: u32) -> Option<Entry> {
        self.store.guests.get(guest as usize)?.table.get(handle)
    }

    // A handle of a guest that stands for something that is wanted.
    fn handle(&mut self, guest: u32, is_wanted: impl Fn(Entry) -> bool) -> Option<u32> {
        let Some(holder) = self.store.guests.get(guest as usize) else { return Some(self.stranger(0)) };
        let (table, last) = (&holder.table, holder.table.len());
        if self.goes_wrong() {
            return Some(self.stranger(last));
        }
        if last == 0 {
            return None;
        }
        let mut tries = (0..TRIES).map(|_| self.random.within(1, last));
        tries.find(|handle| table.get(*handle).is_some_and(&is_wanted))
    }

    fn set(&mut self, guest: u32) -> Option<u32> {
        self.handle(guest, |entry| matches!(entry, Entry::Set(_)))
    }

    fn context(&mut self, guest: u32) -> Option<u32> {
        self.handle(guest, |entry| matches!(entry, Entry::Context(_)))
    }

    // An end that is wanted, or sometimes another.
    fn end(&mut self, is_wanted: impl Fn(&Stream, Side) -> bool) -> Option<Found> {
        let guest = self.guest();
        let (store, is_any) = (self.store, self.random.chance(20));
        let wanted = |entry| match entry {
            Entry::End { stream, side } => is_any || is_wanted(&store.streams[stream as usize], side),
            _ => false,
        };
        let handle = self.handle(guest, wanted)?;
        let found = match self.entry(guest, handle) {
            Some(Entry::End { stream, side }) => Some((store.streams[stream as usize].ty, side)),
            _ => None,
        };
        let (ty, side) = found.unwrap_or_else(|| (self.profile.some_type(self.random), Side::Read));
        Some(Found { guest, handle, ty, side })
    }

    // A type's word, or another's, or none's.
    fn type_word(&mut self, ty: TransmitIndex) -> u64 {
        if !self.goes_wrong() {
            return type_word(&ty);
        }
        match self.random.below(6) {
            0 => self.random.draw() >> self.random.within(0, 63),
            1 => type_word(&ty) ^ 1 << self.random.within(0, 63),
            2 => type_word(&TransmitIndex { kind: ty.kind, ..self.profile.some_type(self.random) }),
            3 => type_word(&ty) ^ FUTURE,
            _ => type_word(&ty) & FUTURE | u64::from(self.random.within(0, 12)),
        }
    }

    // The kind and the payload's word that a call names for a type.
    fn named(&mut self, ty: TransmitIndex) -> (TransmitKind, u64) {
        let word = self.type_word(ty);
        let kind = if word & FUTURE == 0 { TransmitKind::Stream } else { TransmitKind::Future };
        (kind, word & !FUTURE)
    }

    fn count(&mut self, most: u32) -> u32 {
        if self.goes_wrong() {
            return self.random.pick(&EDGES);
        }
        let count = self.random.pick(&[0, 1, 1, 2, 3, 4, 5, 8, 16, most]);
        count.min(most)
    }

    fn address(&mut self, memory: u32, last: u32) -> u32 {
        if !self.goes_wrong() {
            return self.random.within(0, last);
        }
        match self.random.below(3) {
            0 => self.stranger(memory),
            1 => memory.saturating_sub(self.random.within(0, 20)),
            _ => self.random.within(0, memory),
        }
    }

    // Where so many items may lie in a guest's memory, and how many.
    fn region(&mut self, guest: u32, ty: TransmitIndex) -> (u32, u32) {
        let memory = self.memory_of(guest);
        let (size, align) = (ty.payload.size() as u32, ty.payload.align() as u32);
        let count = self.count(memory.checked_div(size).unwrap_or(40));
        let items = if ty.is_future() { 1 } else { count };
        let last = memory.saturating_sub(size.saturating_mul(items));
        let address = self.address(memory, last);
        let is_aligned = !self.goes_wrong();
        (if is_aligned { address / align * align } else { address }, count)
    }

    // The number of a stream, with a loose read end if that can be found.
    fn stream(&mut self, is_loose: bool) -> Option<u32> {
        let streams = self.store.streams.len() as u32;
        if streams == 0 || self.goes_wrong() {
            return Some(self.stranger(streams));
        }
        let first = streams.saturating_sub(200);
        let store = self.store;
        let mut tries = (0..TRIES).map(|_| self.random.within(first, streams - 1));
        tries.find(|number| !is_loose || store.streams[*number as usize][Side::Read].owner == Owner::Loose)
    }

    /// The next call.
    pub fn call(&mut self) -> Call {
        let drawn = match self.profile.some_family(self.random) {
            Family::Operate => self.operate(),
            Family::Event => self.event(),
            Family::End => self.end_call(),
            Family::New => Some(self.new_pair()),
            Family::Move => self.moving(),
            Family::Set => self.set_call(),
            Family::Context => self.context_call(),
            Family::Memory => Some(self.memory_call()),
            Family::AddGuest => Some(self.add_guest()),
            Family::Life => Some(self.life()),
            Family::Grow => Some(self.grow()),
            Family::Query => self.query(),
            Family::Ready => Some(self.next_ready_guest()),
            Family::Limits => Some(self.limits_call()),
        };
        drawn.unwrap_or_else(|| self.new_thing())
    }

    // Where nothing is there of what was wanted, something is made, or where there is no room given up.
    fn new_thing(&mut self) -> Call {
        if self.store.may_make(0, 0).is_err()
            && self.random.chance(90)
            && let Some(call) = self.old_thing()
        {
            return call;
        }
        match self.random.below(6) {
            0 => Call::SetNew { guest: self.guest() },
            1 => self.new_context(),
            _ => self.new_pair(),
        }
    }
}

impl Draws<'_> {
    fn old_thing(&mut self) -> Option<Call> {
        let guest = self.guest();
        let handle = self.handle(guest, |_| true)?;
        Some(match self.entry(guest, handle)? {
            Entry::Set(_) => Call::SetDrop { guest, set: handle },
            Entry::Context(_) => Call::ContextDrop { guest, handle },
            Entry::End { stream, side } => {
                let stream = &self.store.streams[stream as usize];
                let (kind, payload) = self.named(stream.ty);
                match stream[side].operation {
                    Some(_) => Call::Cancel { side, kind, guest, payload, handle },
                    None => Call::Drop { side, kind, guest, payload, handle },
                }
            }
        })
    }

    fn operate(&mut self) -> Option<Call> {
        let wanted = self.random.pick(&[Side::Write, Side::Read]);
        let is_wanted = |stream: &Stream, side: Side| {
            side == wanted && !stream[side].told && !stream.passed && stream[side].operation.is_none()
        };
        let Found { guest, handle, ty, side } = self.end(is_wanted)?;
        let (kind, payload) = self.named(ty);
        let (address, count) = self.region(guest, ty);
        let side = if self.goes_wrong() { side.other() } else { side };
        Some(Call::Operate { side, kind, guest, payload, handle, address, count })
    }

    fn event(&mut self) -> Option<Call> {
        let Found { guest, handle, .. } = self.end(|stream, side| stream.report(side).is_some())?;
        Some(Call::TakeEvent { guest, handle })
    }

    fn end_call(&mut self) -> Option<Call> {
        let is_cancel = self.random.chance(self.profile.cancels);
        let found = self.end(|stream, side| stream[side].operation.is_some() == is_cancel)?;
        let Found { guest, handle, .. } = found;
        let side = if self.goes_wrong() { found.side.other() } else { found.side };
        let (kind, payload) = self.named(found.ty);
        Some(match is_cancel {
            true => Call::Cancel { side, kind, guest, payload, handle },
            false => Call::Drop { side, kind, guest, payload, handle },
        })
    }

    fn new_pair(&mut self) -> Call {
        let ty = self.profile.some_type(self.random);
        let (writer, reader) = (self.guest(), self.guest());
        if self.random.chance(70) {
            return Call::NewBetween { writer, reader, ty: self.type_word(ty) };
        }
        let (kind, payload) = self.named(ty);
        Call::New { kind, guest: writer, payload }
    }

    // So many bytes of the store's own, or the least that are too many.
    fn own_size(&mut self, is_too_big: bool) -> u32 {
        let own = self.store.guests.iter().filter(|guest| !guest.is_lent);
        let bytes: usize = own.map(|guest| guest.memory.len()).sum();
        match is_too_big {
            true => self.random.pick(&[(1 << 28) + 1 - bytes as u32, 1 << 29, u32::MAX]),
            false => self.random.pick(&SIZES),
        }
    }

    // The same of bytes that are lent.
    fn lent_size(&mut self, is_too_big: bool) -> u64 {
        if is_too_big { SIZE_LIMIT } else { self.random.pick(&SIZES).into() }
    }

    /// A guest, or one whose memory is too big.
    pub fn add_guest(&mut self) -> Call {
        let is_too_big = self.goes_wrong() || self.store.guests.len() >= MOST_GUESTS;
        match self.random.chance(40) {
            true => Call::AddGuestAt { size: self.lent_size(is_too_big) },
            false => Call::AddGuest { size: self.own_size(is_too_big) },
        }
    }

    // The same under the number of one that is there.
    fn begin_guest(&mut self, guest: u32) -> Call {
        let is_too_big = self.goes_wrong();
        match self.random.chance(40) {
            true => Call::BeginGuestAt { guest, size: self.lent_size(is_too_big) },
            false => Call::BeginGuest { guest, size: self.own_size(is_too_big) },
        }
    }

    // One begins where a guest is found that has nothing, and else one ends; or sometimes the other way round.
    fn life(&mut self) -> Call {
        let store = self.store;
        let is_free = |guest: &u32| store.guests.get(*guest as usize).is_some_and(|found| !found.is_used());
        let mut tries = (0..TRIES).map(|_| self.guest());
        let found = tries.find(is_free);
        let guest = found.unwrap_or_else(|| self.guest());
        let is_other = self.goes_wrong() || self.random.chance(10);
        match found.is_some() != is_other {
            true => self.begin_guest(guest),
            false => Call::EndGuest { guest },
        }
    }

    // A memory that is lent grows where it lies, or moves; some other does neither.
    fn grow(&mut self) -> Call {
        let store = self.store;
        let mut tries = (0..TRIES).map(|_| self.guest());
        let is_lent = |guest: &u32| store.guests.get(*guest as usize).is_none_or(|found| found.is_lent);
        let found = tries.find(is_lent);
        let guest = found.unwrap_or_else(|| self.guest());
        let memory = self.memory_of(guest);
        let more = self.random.pick(&[0, 1, 16, 100, 1024]);
        if memory + more > ROOM || self.goes_wrong() {
            let size = self.random.pick(&[memory.saturating_sub(1), 0, memory, ROOM]).into();
            let size = if self.random.chance(20) { SIZE_LIMIT } else { size };
            return Call::MemoryMoved { guest, size };
        }
        match self.random.chance(50) {
            true => Call::MemoryGrown { guest, more },
            false => Call::MemoryMoved { guest, size: (memory + more).into() },
        }
    }

    fn moving(&mut self) -> Option<Call> {
        Some(match self.random.below(8) {
            0..4 => {
                let may_move = |stream: &Stream, side: Side| stream[side].operation.is_none();
                let Found { guest, handle, ty, .. } = self.end(may_move)?;
                let (kind, payload) = self.named(ty);
                Call::Transfer { kind, guest, payload, handle, to: self.guest() }
            }
            4 => {
                let Found { guest, handle, ty, .. } = self.end(|_, side| side == Side::Read)?;
                Call::Lift { guest, ty: self.type_word(ty), handle }
            }
            5 | 6 => {
                let (reader, guest) = (self.stream(true)?, self.guest());
                let found = self.store.streams.get(reader as usize).map(|stream| stream.ty);
                let ty = found.unwrap_or_else(|| self.profile.some_type(self.random));
                Call::Lower { reader, guest, ty: self.type_word(ty) }
            }
            _ => Call::Close { reader: self.stream(true)? },
        })
    }

    fn set_call(&mut self) -> Option<Call> {
        let guest = self.guest();
        Some(match self.random.below(10) {
            0 => Call::SetNew { guest },
            1 => Call::SetDrop { guest, set: self.set(guest)? },
            2..6 => {
                let set = if self.random.chance(20) { 0 } else { self.set(guest)? };
                let handle = self.handle(guest, |entry| matches!(entry, Entry::End { .. }))?;
                Call::SetJoin { guest, set, handle }
            }
            _ => Call::SetPoll { guest, set: self.set(guest)? },
        })
    }

    fn new_context(&mut self) -> Call {
        let guest = self.guest();
        let memory = self.memory_of(guest);
        let len = self.random.pick(&[0, 1, 2, 5, 20, 100, 4096]).min(memory);
        let len = if self.goes_wrong() { self.random.pick(&[4096, 4097, memory + 1, u32::MAX]) } else { len };
        Call::ContextNew { guest, address: self.address(memory, memory.saturating_sub(len)), len }
    }

    fn context_call(&mut self) -> Option<Call> {
        let guest = self.guest();
        let memory = self.memory_of(guest);
        Some(match self.random.below(10) {
            0..3 => self.new_context(),
            3..5 => {
                let handle = self.context(guest)?;
                Call::ContextMessage { guest, handle, address: self.address(memory, memory) }
            }
            5 => Call::ContextTransfer { guest, handle: self.context(guest)?, to: self.guest() },
            6 => Call::ContextRep { guest, handle: self.context(guest)? },
            7 => {
                let handle = self.context(guest)?;
                let rep = match self.entry(guest, handle) {
                    Some(Entry::Context(rep)) if !self.goes_wrong() => rep,
                    _ => self.stranger(3),
                };
                Call::ContextLower { rep, guest: self.guest() }
            }
            _ => Call::ContextDrop { guest, handle: self.context(guest)? },
        })
    }

    /// All bytes of a guest's memory.
    pub fn fill(&mut self, guest: u32) -> Call {
        let (likeness, len) = (self.profile.likeness(self.random), self.memory_of(guest));
        Call::MemoryWrite {
            guest,
            address: 0,
            bytes: Bytes { likeness, len, seed: self.random.draw() as u32 },
        }
    }

    fn memory_call(&mut self) -> Call {
        let guest = self.guest();
        let memory = self.memory_of(guest);
        let len = self.random.pick(&[0, 1, 4, 64, 500, memory]).min(memory).min(MOST_BYTES);
        let address = self.address(memory, memory - len);
        match self.random.below(10) {
            0..6 => {
                let likeness = self.profile.likeness(self.random);
                let address = if likeness == Likeness::Chars { address / 4 * 4 } else { address };
                let bytes = Bytes { likeness, len, seed: self.random.draw() as u32 };
                Call::MemoryWrite { guest, address, bytes }
            }
            6..9 => Call::MemoryRead { guest, address, len },
            _ => Call::MemoryAt { guest },
        }
    }

    // What a guest may have: none, about as much as it has, or all it likes.
    fn limit(&mut self, has: u32) -> u32 {
        match self.random.below(6) {
            0 => self.random.within(0, 3),
            1..4 => has.saturating_sub(2) + self.random.within(0, 5),
            _ => u32::MAX,
        }
    }

    fn limits_call(&mut self) -> Call {
        let guest = self.guest();
        if self.random.chance(20) {
            return Call::GuestLimits { guest };
        }
        let found = self.store.guests.get(guest as usize);
        let has = found.map_or(0, |holder| holder.table.handles().count() as u32);
        let (handles, ends) = (self.limit(has), self.limit(has));
        let contexts = self.random.pick(&[0, 1, 2, 5, 1 << 40]);
        let bytes = contexts * 4096 + self.random.pick(&[0, 1, 4095]);
        Call::SetGuestLimits { guest, limits: GuestLimits { handles, ends, bytes } }
    }

    fn query(&mut self) -> Option<Call> {
        let guest = self.guest();
        Some(match self.random.below(16) {
            0 => Call::Tag,
            1 => self.operate()?.find_bad_item()?,
            2 if self.random.chance(50) => Call::TypeOf { words: self.type_words() },
            2 => Call::Streams,
            3 | 4 => Call::Moved { stream: self.stream(false)? },
            5 | 6 => Call::TransmitIndex { stream: self.stream(false)? },
            7 => Call::HandleCount { guest },
            8 | 9 => Call::NextHandle { guest, after: self.handle(guest, |_| true)? },
            _ => Call::HandleInfo { guest, handle: self.handle(guest, |_| true)? },
        })
    }

    // The words of a type, or some that are nearly.
    fn type_words(&mut self) -> TypeWords {
        let most = self.random.within(1, 9) as usize;
        let mut words = some_tree(self.random, most).words();
        if self.random.chance(40) {
            let at = self.random.below(words.len());
            match self.random.below(4) {
                0 => words[at] = self.random.draw() as u8,
                1 => _ = words.remove(at),
                2 => {
                    words.insert(at, self.random.pick(&[0, 1, 13, 14, 15, 16, 17, 32, 33, 47, 80, 127, 128]))
                }
                _ => words.push(3),
            }
        }
        TypeWords::of(&words)
    }

    // From the first guest on, from one, or from behind one.
    fn next_ready_guest(&mut self) -> Call {
        let guest = self.guest();
        Call::NextReadyGuest { from: self.random.pick(&[0, guest, guest.wrapping_add(1)]) }
    }
}
