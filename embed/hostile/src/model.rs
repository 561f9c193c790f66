//! What the archive should answer: the store of `differential`, written from the pages and from no code of the
//! archive, with what `strm.h` says beside them.

use crate::archive::{Answer, Words, over};
use crate::calls::Call;
use crate::lent;
use crate::limits::Limits as GuestLimits;
use crate::lives;
use crate::queries::queried;
use crate::ready::Readiness;
use crate::sys;
use crate::words::{NO_EVENT, built, event_word, payload_at, payload_word, status_of, type_at};
use plain::codes::{Refusal, StoreError};
use plain::payload::{Payload, TransmitIndex};
use plain::store::{Limits, Reply, Store};

/// A store as it should be.
pub struct Model {
    tag: u64,
    met_bad_item: bool,
    // None once it was freed.
    store: Option<Store>,
    limits: GuestLimits,
    readiness: Readiness,
}

impl Model {
    pub fn new(tag: u64, handles: usize, places: u32) -> Model {
        let limits = Limits { handles: handles as u64, places: places.into() };
        let store = Some(Store::with_limits(limits));
        let (limits, readiness) = Default::default();
        Model { tag, met_bad_item: false, store, limits, readiness }
    }

    /// The store, if it was not freed.
    pub fn store(&self) -> Option<&Store> {
        self.store.as_ref()
    }

    /// Whether a call stopped at an item that is none.
    pub fn met_bad_item(&self) -> bool {
        self.met_bad_item
    }

    /// The bytes of each guest's memory.
    pub fn memories(&self) -> impl Iterator<Item = &[u8]> {
        self.store.iter().flat_map(|store| &store.guests).map(|guest| guest.memory.as_slice())
    }

    /// What a call should answer whose `out` has these words before. What the archive may choose is taken from
    /// what it answered.
    pub fn answer(&mut self, call: &Call, before: Words, seen: &Answer) -> Answer {
        let told = |word| of(0, over(before, [word]));
        match (*call, &self.store) {
            (Call::TypeOf { words }, _) => type_of(words.list(), before),
            (_, None) => answer_of_none(call, before),
            (Call::Free, _) => {
                self.store = None;
                of(0, before)
            }
            (Call::Tag, _) => told(self.tag),
            (Call::Streams, Some(store)) => told(store.streams.len() as u64),
            _ => self.answer_with_status(call, before, seen),
        }
    }

    fn answer_with_status(&mut self, call: &Call, before: Words, seen: &Answer) -> Answer {
        let Some(store) = &mut self.store else { return answer_of_none(call, before) };
        if let Some(answer) = queried(store, call, before).or_else(|| lent::answer(store, call, before)) {
            return answer;
        }
        if lives::is_in_use(store, call) {
            return of(sys::IN_USE, before);
        }
        let of_limits = self.limits.answer(store, call, before, seen);
        if let Some(answer) = of_limits.or_else(|| self.readiness.answer(store, call, before, seen)) {
            return answer;
        }
        let Some(step) = Step::of(call) else { return of(sys::UNKNOWN_PAYLOAD, before) };
        if self.limits.is_past(store, call) {
            return of(sys::GUEST_LIMIT, before);
        }
        if seen.status == sys::OUT_OF_MEMORY && step.may_want_memory() {
            // Only what would else be done is answered so, and nothing changes.
            let answer = answered(step.on(&mut store.clone(), seen), before);
            return if answer.status == 0 { of(sys::OUT_OF_MEMORY, before) } else { answer };
        }
        let answer = answered(step.on(store, seen), before);
        self.met_bad_item |= answer.status == sys::BAD_ITEM;
        answer
    }
}

/// An answer without bytes.
pub fn of(status: u32, words: Words) -> Answer {
    Answer { status, words, bytes: Vec::new() }
}

// What words of a type should be, where there is no store too.
fn type_of(words: &[u8], before: Words) -> Answer {
    if words.len() > 7 {
        return of(sys::TYPE_TOO_LONG, before);
    }
    match built(words) {
        Some(payload) => of(0, over(before, [payload_word(&payload)])),
        None => of(sys::NO_TYPE, before),
    }
}

// Of no store nothing is told.
fn answer_of_none(call: &Call, before: Words) -> Answer {
    match *call {
        Call::Free => of(0, before),
        Call::Tag | Call::Streams => of(0, over(before, [0])),
        Call::MemoryRead { len, .. } => {
            let bytes = vec![before[0] as u8; len as usize];
            Answer { status: sys::NO_STORE, words: before, bytes }
        }
        _ => of(sys::NO_STORE, before),
    }
}

// A call whose payload or type is one.
struct Step<'a> {
    call: &'a Call,
    ty: Option<TransmitIndex>,
}

impl Step<'_> {
    fn of(call: &Call) -> Option<Step<'_>> {
        let of_kind = |kind, payload| payload_at(payload).map(|payload| TransmitIndex { kind, payload });
        let ty = match *call {
            Call::New { kind, payload, .. }
            | Call::Operate { kind, payload, .. }
            | Call::Cancel { kind, payload, .. }
            | Call::Drop { kind, payload, .. }
            | Call::Transfer { kind, payload, .. } => Some(of_kind(kind, payload)?),
            Call::NewBetween { ty, .. } | Call::Lift { ty, .. } | Call::Lower { ty, .. } => {
                Some(type_at(ty)?)
            }
            _ => None,
        };
        Some(Step { call, ty })
    }

    // An end that stays in its guest wants none; nor does a guest that ends, or begins over bytes that are lent. What else
    // wants none in any case, `strm.h` tells.
    fn may_want_memory(&self) -> bool {
        !matches!(self.call, Call::EndGuest { .. } | Call::BeginGuestAt { .. })
            && !matches!(self.call, Call::Transfer { guest, to, .. } if guest == to)
    }

    // Does the step.
    #[rustfmt::skip]
    fn on<'s>(&self, store: &'s mut Store, seen: &Answer) -> Result<Reply<'s>, StoreError> {
        let ty = self.ty.unwrap_or(TransmitIndex::stream(Payload::Nothing));
        Ok(match *self.call {
            Call::AddGuest { size } => Reply::Number(store.add_guest(size)?),
            Call::AddGuestAt { size } => Reply::Number(lent::add(store, size)?),
            Call::EndGuest { guest } => store.end_guest(guest)?,
            Call::BeginGuest { guest, size } => store.begin_guest(guest, size)?,
            Call::BeginGuestAt { guest, size } => lives::begin_at(store, guest, size)?,
            Call::MemoryWrite { guest, address, bytes } => store.poke(guest, address, &bytes.list())?,
            Call::New { guest, .. } => make(store, guest, guest, ty, seen)?,
            Call::NewBetween { writer, reader, .. } => make(store, writer, reader, ty, seen)?,
            Call::Operate { side, guest, handle, address, count, .. } => {
                Reply::Code(store.operate(side, guest, ty, handle, address, count)?)
            }
            Call::Cancel { side, guest, handle, .. } => Reply::Code(store.cancel(side, guest, ty, handle)?),
            Call::Drop { side, guest, handle, .. } => store.drop_end(side, guest, ty, handle)?,
            Call::TakeEvent { guest, handle } => Reply::Event(store.take_event(guest, handle)?),
            Call::Transfer { guest, handle, to, .. } => store.move_end(guest, ty, handle, to)?,
            Call::Lift { guest, handle, .. } => store.lift(guest, ty, handle)?,
            Call::Lower { reader, guest, .. } => store.lower(reader, guest, ty)?,
            Call::Close { reader } => store.close(reader)?,
            Call::SetNew { guest } => store.set_new(guest)?,
            Call::SetJoin { guest, set, handle } => store.set_join(guest, set, handle)?,
            Call::SetPoll { guest, set } => store.set_poll(guest, set)?,
            Call::SetDrop { guest, set } => store.set_drop(guest, set)?,
            Call::ContextNew { guest, address, len } => store.error_context_new(guest, address, len)?,
            Call::ContextMessage { guest, handle, address } => store.error_context_message(guest, handle, address)?,
            Call::ContextTransfer { guest, handle, to } => store.error_context_transfer(guest, handle, to)?,
            Call::ContextRep { guest, handle } => store.error_context_rep(guest, handle)?,
            Call::ContextLower { rep, guest } => store.error_context_lower(rep, guest)?,
            Call::ContextDrop { guest, handle } => store.error_context_drop(guest, handle)?,
            _ => Reply::Done,
        })
    }
}

// Makes a stream or future, under the number that the archive gave it if that may be.
fn make(
    store: &mut Store,
    writer: u32,
    reader: u32,
    ty: TransmitIndex,
    seen: &Answer,
) -> Result<Reply<'static>, Refusal> {
    store.may_make(writer, reader)?;
    let number = number_for(store, seen.words[2] as u32);
    Ok(store.make_at(number, writer, reader, ty))
}

// The number seen, if it is that of a stream that is gone; else one that may be given: where none is gone that
// behind the last.
fn number_for(store: &Store, seen: u32) -> u32 {
    if store.streams.get(seen as usize).is_some_and(|stream| !stream.is_live()) {
        return seen;
    }
    let gone = store.streams.iter().position(|stream| !stream.is_live());
    gone.unwrap_or(store.streams.len()) as u32
}

// An answer in words.
fn answered(reply: Result<Reply, StoreError>, before: Words) -> Answer {
    let words = match reply {
        Ok(Reply::Number(number)) => over(before, [number.into()]),
        Ok(Reply::Pair { read, write, stream }) => over(before, [read, write, stream].map(u64::from)),
        Ok(Reply::Code(code)) => over(before, [code.encode().into()]),
        Ok(Reply::Event(event)) => over(before, [event_word(event)]),
        Ok(Reply::Member(None)) => over(before, [before[0], NO_EVENT]),
        Ok(Reply::Member(Some((handle, code)))) => over(before, [handle, code.encode()].map(u64::from)),
        Ok(_) => before,
        Err(StoreError::Refused(refusal)) => return of(status_of(refusal), before),
        Err(StoreError::Stopped(_)) => return of(sys::BAD_ITEM, before),
    };
    Answer { status: 0, words, bytes: Vec::new() }
}
