//! A store of the archive, called as C calls it.

use crate::allocations::granting;
use crate::calls::Call;
use crate::lent::{Block, SIZE_LIMIT, wide};
use crate::limits::GuestLimits;
use crate::sys::{self, BadItem, Count, Handle, Limits, Member, Pair, StoreHandle};
use crate::words::side_word;
use plain::payload::TransmitKind::{Future, Stream};
use plain::streams::Side::{Read, Write};
use std::collections::HashMap;

/// The words at `out`, as many as the call has of them; the others are what they were.
pub type Words = [u64; 9];

/// These words, and behind them what was there.
pub fn over<const N: usize>(before: Words, words: [u64; N]) -> Words {
    let mut all = before;
    all[..N].copy_from_slice(&words);
    all
}

/// What a call answered.
#[derive(Clone, Debug, Default, PartialEq, Eq)]
pub struct Answer {
    /// 0 of a call that answers none.
    pub status: u32,
    /// What lies at `out` then, or what a call without a status answers.
    pub words: Words,
    /// The bytes that a memory was asked for.
    pub bytes: Vec<u8>,
}

// A type that is built, which no store knows of.
fn type_of(words: &[u8], before: Words) -> Answer {
    let mut word = before[0];
    // SAFETY: the words are lent for the call.
    let status = unsafe { sys::strm_type_of(words.as_ptr(), words.len(), &mut word) };
    Answer { status, words: over(before, [word]), bytes: Vec::new() }
}

type Handles = *mut StoreHandle;
type HandleCall = unsafe extern "C" fn(Handles, u32, u32, &mut Handle) -> u32;
type NewCall = unsafe extern "C" fn(Handles, u32, u64, &mut Pair) -> u32;
type EndCall = unsafe extern "C" fn(Handles, u32, u64, u32) -> u32;
type CodeCall = unsafe extern "C" fn(Handles, u32, u64, u32, &mut u32) -> u32;
type FutureCall = unsafe extern "C" fn(Handles, u32, u64, u32, u32, &mut u32) -> u32;
type StreamCall = unsafe extern "C" fn(Handles, u32, u64, u32, u32, u32, &mut u32) -> u32;
type MoveCall = unsafe extern "C" fn(Handles, u32, u64, u32, u32, &mut u32) -> u32;

/// A store, and where its memories were said to lie when their guests began.
pub struct Archive {
    store: StoreHandle,
    memories: Vec<(*mut u8, usize)>,
    // The blocks of memories that are lent, by guest, and those in which some were.
    lent: HashMap<u32, Block>,
    gone: Vec<Block>,
    granted: Option<u32>,
    was_refused: bool,
}

impl Drop for Archive {
    fn drop(&mut self) {
        self.free();
    }
}

impl Archive {
    /// No store, and what the making of one answered.
    pub fn new(tag: u64, handles: usize, places: u32, granted: Option<u32>) -> (Archive, u32) {
        let mut store = StoreHandle::NONE;
        // SAFETY: the handle is of none, and nobody else's.
        let (status, _) =
            granting(granted, || unsafe { sys::strm_store_new(&mut store, tag, handles, places) });
        let (memories, lent, gone) = (Vec::new(), HashMap::new(), Vec::new());
        (Archive { store, memories, lent, gone, granted: None, was_refused: false }, status)
    }

    fn free(&mut self) {
        self.memories.clear();
        // SAFETY: a handle of a store or of none, that this value has.
        unsafe { sys::strm_store_free(&mut self.store) }
        assert!(self.gone.iter().all(Block::is_given_up), "a block that was given up was written");
        (self.lent, self.gone) = (HashMap::new(), Vec::new());
    }

    /// Whether an allocation was refused in the last call.
    pub fn was_refused(&self) -> bool {
        self.was_refused
    }

    /// The bytes of each guest's memory.
    pub fn memories(&self) -> impl Iterator<Item = &[u8]> {
        // SAFETY: there they lie until they move, their guests end or the store is freed, as this value knows, and
        // no call is made while they are looked at.
        self.memories.iter().map(|(at, len)| match len {
            0 => &[][..],
            _ => unsafe { std::slice::from_raw_parts(*at, *len) },
        })
    }

    /// Makes a call, whose `out` has these words before, and of whose allocations so many are granted.
    pub fn answer(&mut self, call: &Call, before: Words, granted: Option<u32>) -> Answer {
        self.granted = granted;
        self.was_refused = false;
        match call {
            Call::New { .. } | Call::NewBetween { .. } => self.answer_making(call, before),
            Call::Operate { .. } | Call::Cancel { .. } | Call::Drop { .. } | Call::TakeEvent { .. } => {
                self.answer_end(call, before)
            }
            Call::Transfer { .. } | Call::Lift { .. } | Call::Lower { .. } | Call::Close { .. } => {
                self.answer_move(call, before)
            }
            Call::SetNew { .. } | Call::SetJoin { .. } | Call::SetPoll { .. } | Call::SetDrop { .. } => {
                self.answer_set(call, before)
            }
            Call::AddGuest { .. } | Call::AddGuestAt { .. } => self.answer_guest(call, before),
            Call::EndGuest { .. } | Call::BeginGuest { .. } | Call::BeginGuestAt { .. } => {
                self.answer_life(call, before)
            }
            Call::MemoryGrown { .. } | Call::MemoryMoved { .. } => self.answer_growth(call, before),
            Call::MemoryWrite { .. } | Call::MemoryRead { .. } | Call::MemoryAt { .. } => {
                self.answer_memory(call, before)
            }
            Call::Free | Call::Tag | Call::Streams => self.answer_store(call, before),
            Call::Moved { .. } | Call::TransmitIndex { .. } => self.answer_stream(call, before),
            Call::TypeOf { words } => type_of(words.list(), before),
            Call::HandleInfo { .. } | Call::NextHandle { .. } | Call::HandleCount { .. } => {
                self.answer_handle(call, before)
            }
            Call::NextReadyGuest { from } => {
                self.word(before, |store, out| unsafe { sys::strm_next_ready_guest(store, *from, out) })
            }
            Call::FindBadItem { .. } => self.answer_bad_item(call, before),
            Call::SetGuestLimits { .. } | Call::GuestLimits { .. } => self.answer_limits(call, before),
            _ => self.answer_context(call, before),
        }
    }

    // A call with such an `out`, in words.
    fn put<T, const N: usize>(
        &mut self,
        before: Words,
        mut out: T,
        words: impl FnOnce(&T) -> [u64; N],
        call: impl FnOnce(Handles, &mut T) -> u32,
    ) -> Answer {
        let store = &mut self.store;
        let (status, was_refused) = granting(self.granted, || call(store, &mut out));
        self.was_refused = was_refused;
        Answer { status, words: over(before, words(&out)), bytes: Vec::new() }
    }

    fn done(&mut self, before: Words, call: impl FnOnce(Handles) -> u32) -> Answer {
        self.put(before, (), |()| [], |store, ()| call(store))
    }

    fn word(&mut self, before: Words, call: impl FnOnce(Handles, &mut u32) -> u32) -> Answer {
        self.put(before, before[0] as u32, |out| [(*out).into()], call)
    }

    fn pair(&mut self, before: Words, call: impl FnOnce(Handles, &mut Pair) -> u32) -> Answer {
        let out = Pair { read: before[0] as u32, write: before[1] as u32, stream: before[2] as u32 };
        self.put(before, out, |out| [out.read, out.write, out.stream].map(u64::from), call)
    }

    // SAFETY, of each call below: the handle is this value's, and what is lent is the function's own.

    fn answer_store(&mut self, call: &Call, before: Words) -> Answer {
        let store: Handles = &mut self.store;
        let word = match call {
            Call::Tag => unsafe { sys::strm_tag(store) },
            Call::Streams => unsafe { sys::strm_streams(store) }.into(),
            _ => {
                self.free();
                before[0]
            }
        };
        Answer { status: 0, words: over(before, [word]), bytes: Vec::new() }
    }

    fn answer_stream(&mut self, call: &Call, before: Words) -> Answer {
        match *call {
            Call::Moved { stream } => {
                let (out, words) =
                    (Count { low: before[0], high: before[1] }, |out: &Count| [out.low, out.high]);
                self.put(before, out, words, |store, out| unsafe { sys::strm_moved(store, stream, out) })
            }
            Call::TransmitIndex { stream } => self.put(
                before,
                before[0],
                |out| [*out],
                |store, out| unsafe { sys::strm_transmit_index(store, stream, out) },
            ),
            _ => unreachable!("a call of another family"),
        }
    }

    fn answer_bad_item(&mut self, call: &Call, before: Words) -> Answer {
        let Call::FindBadItem { side, guest, ty, handle, address, count } = *call else {
            unreachable!("a call of another family")
        };
        let [first, second, third] = [before[0], before[1], before[2]].map(|word| word as u32);
        let out = BadItem { guest: first, handle: second, index: third };
        let words = |out: &BadItem| [out.guest, out.handle, out.index].map(u64::from);
        self.put(before, out, words, |store, out| unsafe {
            sys::strm_find_bad_item(store, side_word(side), guest, ty, handle, address, count, out)
        })
    }

    // A call that tells of a handle.
    fn handle(&mut self, before: Words, (guest, number): (u32, u32), call: HandleCall) -> Answer {
        let [ty, rest @ ..] = before;
        let [handle, kind, side, stream, event, other, other_guest, other_handle] =
            rest.map(|word| word as u32);
        let out = Handle { ty, handle, kind, side, stream, event, other, other_guest, other_handle };
        let words = |out: &Handle| {
            let rest =
                [out.kind, out.side, out.stream, out.event, out.other, out.other_guest, out.other_handle];
            let [kind, side, stream, event, other, other_guest, other_handle] = rest.map(u64::from);
            [out.ty, out.handle.into(), kind, side, stream, event, other, other_guest, other_handle]
        };
        self.put(before, out, words, |store, out| unsafe { call(store, guest, number, out) })
    }

    fn answer_handle(&mut self, call: &Call, before: Words) -> Answer {
        match *call {
            Call::HandleInfo { guest, handle } => self.handle(before, (guest, handle), sys::strm_handle_info),
            Call::NextHandle { guest, after } => self.handle(before, (guest, after), sys::strm_next_handle),
            Call::HandleCount { guest } => {
                self.word(before, |store, out| unsafe { sys::strm_handle_count(store, guest, out) })
            }
            _ => unreachable!("a call of another family"),
        }
    }

    fn answer_limits(&mut self, call: &Call, before: Words) -> Answer {
        match *call {
            Call::SetGuestLimits { guest, limits: GuestLimits { handles, ends, bytes } } => self
                .done(before, |store| unsafe {
                    sys::strm_set_guest_limits(store, guest, handles, ends, bytes)
                }),
            Call::GuestLimits { guest } => {
                let out = Limits { bytes: before[0], handles: before[1] as u32, ends: before[2] as u32 };
                let words = |out: &Limits| [out.bytes, out.handles.into(), out.ends.into()];
                self.put(before, out, words, |store, out| unsafe {
                    sys::strm_guest_limits(store, guest, out)
                })
            }
            _ => unreachable!("a call of another family"),
        }
    }

    fn answer_guest(&mut self, call: &Call, before: Words) -> Answer {
        let block = Block::new();
        let answer = match *call {
            Call::AddGuest { size } => {
                self.word(before, |store, out| unsafe { sys::strm_add_guest(store, size, out) })
            }
            Call::AddGuestAt { size } => {
                let at = if size < SIZE_LIMIT { block.at() } else { wide() };
                self.word(before, |store, out| unsafe {
                    sys::strm_add_guest_at(store, at, size as usize, out)
                })
            }
            _ => unreachable!("a call of another family"),
        };
        if answer.status == 0 {
            let guest = answer.words[0] as u32;
            let place = self.place(guest);
            self.memories.push(place);
            if matches!(call, Call::AddGuestAt { .. }) {
                self.lent.insert(guest, block);
            }
        }
        answer
    }

    // A guest ends, and its block is given up if its memory was lent; or one begins under its number.
    fn answer_life(&mut self, call: &Call, before: Words) -> Answer {
        let block = Block::new();
        let (guest, answer) = match *call {
            Call::EndGuest { guest } => {
                (guest, self.done(before, |store| unsafe { sys::strm_end_guest(store, guest) }))
            }
            Call::BeginGuest { guest, size } => {
                (guest, self.done(before, |store| unsafe { sys::strm_begin_guest(store, guest, size) }))
            }
            Call::BeginGuestAt { guest, size } => {
                let at = if size < SIZE_LIMIT { block.at() } else { wide() };
                let answer = self.done(before, |store| unsafe {
                    sys::strm_begin_guest_at(store, guest, at, size as usize)
                });
                (guest, answer)
            }
            _ => unreachable!("a call of another family"),
        };
        if answer.status != 0 {
            return answer;
        }
        self.memories[guest as usize] = self.place(guest);
        if let Some(old) = self.lent.remove(&guest) {
            old.give_up();
            self.gone.push(old);
        }
        if let Call::BeginGuestAt { .. } = call {
            self.lent.insert(guest, block);
        }
        answer
    }

    // Where a guest's memory is said to lie, and how many bytes it has.
    fn place(&mut self, guest: u32) -> (*mut u8, usize) {
        let (mut at, mut len) = (std::ptr::null_mut(), 0);
        unsafe { sys::strm_memory_at(&mut self.store, guest, &mut at, &mut len) };
        (at, len)
    }

    // A memory that is lent has more bytes of its block, or goes on in a new one.
    fn answer_growth(&mut self, call: &Call, before: Words) -> Answer {
        let new = Block::new();
        let (Call::MemoryGrown { guest, .. } | Call::MemoryMoved { guest, .. }) = *call else {
            unreachable!("a call of another family")
        };
        let len = self.memories.get(guest as usize).map_or(0, |(_, len)| *len);
        let old = self.lent.get(&guest);
        let answer = match *call {
            Call::MemoryGrown { more, .. } => {
                let at = old.unwrap_or(&new).behind(if old.is_some() { len } else { 0 });
                self.done(before, |store| unsafe { sys::strm_memory_grown(store, guest, at, more as usize) })
            }
            Call::MemoryMoved { size, .. } => {
                if let Some(old) = old {
                    new.begin_with(old, len);
                }
                let at = if size < SIZE_LIMIT { new.at() } else { wide() };
                self.done(before, |store| unsafe { sys::strm_memory_moved(store, guest, at, size as usize) })
            }
            _ => unreachable!("a call of another family"),
        };
        if answer.status == 0 {
            self.memories[guest as usize] = self.place(guest);
            if let Call::MemoryMoved { .. } = call
                && let Some(old) = self.lent.insert(guest, new)
            {
                old.give_up();
                self.gone.push(old);
            }
        }
        answer
    }

    fn answer_memory(&mut self, call: &Call, before: Words) -> Answer {
        match *call {
            Call::MemoryWrite { guest, address, bytes } => {
                let list = bytes.list();
                let (at, len) = (list.as_ptr(), list.len());
                self.done(before, |store| unsafe { sys::strm_memory_write(store, guest, address, at, len) })
            }
            Call::MemoryRead { guest, address, len } => {
                let mut bytes = vec![before[0] as u8; len as usize];
                let (at, len) = (bytes.as_mut_ptr(), bytes.len());
                let answer = self
                    .done(before, |store| unsafe { sys::strm_memory_read(store, guest, address, at, len) });
                Answer { bytes, ..answer }
            }
            Call::MemoryAt { guest } => {
                let mut other = 0;
                let none: *mut u8 = &mut other;
                let (mut at, mut len) = (none, before[1] as usize);
                let answer = self
                    .done(before, |store| unsafe { sys::strm_memory_at(store, guest, &mut at, &mut len) });
                let place = self.place_of(guest, at, none, before[0]);
                Answer { words: over(before, [place, len as u64]), ..answer }
            }
            _ => unreachable!("a call of another family"),
        }
    }

    // An address as a word: 0 where the guest's memory was said to lie, `before` where it was not written.
    fn place_of(&self, guest: u32, at: *mut u8, none: *mut u8, before: u64) -> u64 {
        let said = self.memories.get(guest as usize);
        match said {
            _ if at == none => before,
            Some((said, _)) if at == *said => 0,
            _ => at as u64,
        }
    }

    fn answer_making(&mut self, call: &Call, before: Words) -> Answer {
        match *call {
            Call::New { kind, guest, payload } => {
                let new: NewCall = match kind {
                    Stream => sys::strm_stream_new,
                    Future => sys::strm_future_new,
                };
                self.pair(before, |store, out| unsafe { new(store, guest, payload, out) })
            }
            Call::NewBetween { writer, reader, ty } => self
                .pair(before, |store, out| unsafe { sys::strm_new_between(store, writer, reader, ty, out) }),
            _ => unreachable!("a call of another family"),
        }
    }

    fn answer_end(&mut self, call: &Call, before: Words) -> Answer {
        match *call {
            Call::Operate { side, kind: Stream, guest, payload, handle, address, count } => {
                let operate: StreamCall = match side {
                    Write => sys::strm_stream_write,
                    Read => sys::strm_stream_read,
                };
                let operate = |store, out: &mut u32| unsafe {
                    operate(store, guest, payload, handle, address, count, out)
                };
                self.word(before, operate)
            }
            Call::Operate { side, kind: Future, guest, payload, handle, address, .. } => {
                let operate: FutureCall = match side {
                    Write => sys::strm_future_write,
                    Read => sys::strm_future_read,
                };
                self.word(before, |store, out| unsafe {
                    operate(store, guest, payload, handle, address, out)
                })
            }
            Call::Cancel { side, kind, guest, payload, handle } => {
                let cancel: CodeCall = match (kind, side) {
                    (Stream, Write) => sys::strm_stream_cancel_write,
                    (Stream, Read) => sys::strm_stream_cancel_read,
                    (Future, Write) => sys::strm_future_cancel_write,
                    (Future, Read) => sys::strm_future_cancel_read,
                };
                self.word(before, |store, out| unsafe { cancel(store, guest, payload, handle, out) })
            }
            Call::Drop { side, kind, guest, payload, handle } => {
                let drop: EndCall = match (kind, side) {
                    (Stream, Write) => sys::strm_stream_drop_writable,
                    (Stream, Read) => sys::strm_stream_drop_readable,
                    (Future, Write) => sys::strm_future_drop_writable,
                    (Future, Read) => sys::strm_future_drop_readable,
                };
                self.done(before, |store| unsafe { drop(store, guest, payload, handle) })
            }
            Call::TakeEvent { guest, handle } => {
                self.word(before, |store, out| unsafe { sys::strm_take_event(store, guest, handle, out) })
            }
            _ => unreachable!("a call of another family"),
        }
    }

    fn answer_move(&mut self, call: &Call, before: Words) -> Answer {
        match *call {
            Call::Transfer { kind, guest, payload, handle, to } => {
                let transfer: MoveCall = match kind {
                    Stream => sys::strm_stream_transfer,
                    Future => sys::strm_future_transfer,
                };
                self.word(before, |store, out| unsafe { transfer(store, guest, payload, handle, to, out) })
            }
            Call::Lift { guest, ty, handle } => {
                self.word(before, |store, out| unsafe { sys::strm_lift(store, guest, ty, handle, out) })
            }
            Call::Lower { reader, guest, ty } => {
                self.word(before, |store, out| unsafe { sys::strm_lower(store, reader, guest, ty, out) })
            }
            Call::Close { reader } => self.done(before, |store| unsafe { sys::strm_close(store, reader) }),
            _ => unreachable!("a call of another family"),
        }
    }

    fn answer_set(&mut self, call: &Call, before: Words) -> Answer {
        match *call {
            Call::SetNew { guest } => {
                self.word(before, |store, out| unsafe { sys::strm_set_new(store, guest, out) })
            }
            Call::SetJoin { guest, set, handle } => {
                self.done(before, |store| unsafe { sys::strm_set_join(store, guest, set, handle) })
            }
            Call::SetPoll { guest, set } => {
                let out = Member { handle: before[0] as u32, code: before[1] as u32 };
                let words = |out: &Member| [out.handle, out.code].map(u64::from);
                self.put(before, out, words, |store, out| unsafe {
                    sys::strm_set_poll(store, guest, set, out)
                })
            }
            Call::SetDrop { guest, set } => {
                self.done(before, |store| unsafe { sys::strm_set_drop(store, guest, set) })
            }
            _ => unreachable!("a call of another family"),
        }
    }

    fn answer_context(&mut self, call: &Call, before: Words) -> Answer {
        match *call {
            Call::ContextNew { guest, address, len } => self.word(before, |store, out| unsafe {
                sys::strm_error_context_new(store, guest, address, len, out)
            }),
            Call::ContextMessage { guest, handle, address } => self.word(before, |store, out| unsafe {
                sys::strm_error_context_message(store, guest, handle, address, out)
            }),
            Call::ContextTransfer { guest, handle, to } => self.word(before, |store, out| unsafe {
                sys::strm_error_context_transfer(store, guest, handle, to, out)
            }),
            Call::ContextRep { guest, handle } => self
                .word(before, |store, out| unsafe { sys::strm_error_context_rep(store, guest, handle, out) }),
            Call::ContextLower { rep, guest } => self
                .word(before, |store, out| unsafe { sys::strm_error_context_lower(store, rep, guest, out) }),
            Call::ContextDrop { guest, handle } => {
                self.done(before, |store| unsafe { sys::strm_error_context_drop(store, guest, handle) })
            }
            _ => unreachable!("a call of another family"),
        }
    }
}
