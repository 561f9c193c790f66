//! The calls of the store as C makes them: a handle of a store or of none, words, results written at `out`, and a
//! status. None is inlined, as none of the archive's is.

use super::guests::GuestLimits;
use super::payloads::{Payload, Type};
use super::status::Status;
pub use super::store::Pair;
use super::store::Store;
use super::streams::{Code, Side};

pub const NO_EVENT: u32 = 3;

/// A store, or none: one word.
#[repr(transparent)]
pub struct StoreHandle(Option<Box<Store>>);

impl StoreHandle {
    pub const NONE: StoreHandle = StoreHandle(None);
}

/// A member of a set and what it was told.
#[derive(Clone, Copy, Debug, Default, PartialEq, Eq)]
#[repr(C)]
pub struct Member {
    pub handle: u32,
    pub code: u32,
}

fn done(answer: Result<(), Status>) -> u32 {
    match answer {
        Ok(()) => 0,
        Err(status) => status as u32,
    }
}

fn put<T>(answer: Result<T, Status>, out: &mut T) -> u32 {
    done(answer.map(|value| *out = value))
}

fn code(answer: Result<Code, Status>, out: &mut u32) -> u32 {
    put(answer.map(Code::word), out)
}

fn store(handle: &mut StoreHandle) -> Result<&mut Store, Status> {
    handle.0.as_deref_mut().ok_or(Status::NoStore)
}

// The store, and what the word is of.
fn with_payload(handle: &mut StoreHandle, word: u64) -> Result<(&mut Store, Payload), Status> {
    let store = store(handle)?;
    let payload = Payload::of_word(word).ok_or(Status::UnknownPayload)?;
    Ok((store, payload))
}

fn with_type(handle: &mut StoreHandle, word: u64) -> Result<(&mut Store, Type), Status> {
    let store = store(handle)?;
    let ty = Type::of_word(word).ok_or(Status::UnknownPayload)?;
    Ok((store, ty))
}

#[inline(never)]
pub extern "C" fn store_new(handle: &mut StoreHandle, handles: usize, places: u32) -> u32 {
    handle.0 = Some(Box::new(Store::new(handles, places)));
    0
}

#[inline(never)]
pub extern "C" fn store_free(handle: &mut StoreHandle) {
    handle.0 = None;
}

#[inline(never)]
pub extern "C" fn add_guest(handle: &mut StoreHandle, size: u32, out: &mut u32) -> u32 {
    put(store(handle).and_then(|store| store.add_guest(size)), out)
}

/// Where a guest's memory lies: a slice, where C gets its address and its length.
pub fn memory_mut(handle: &mut StoreHandle, guest: u32) -> Option<&mut [u8]> {
    store(handle).and_then(|store| store.memory_mut(guest)).ok()
}

#[inline(never)]
pub extern "C" fn set_guest_limits(
    handle: &mut StoreHandle,
    guest: u32,
    handles: u32,
    ends: u32,
    bytes: u64,
) -> u32 {
    let limits = GuestLimits { handles, ends, bytes };
    done(store(handle).and_then(|store| store.set_guest_limits(guest, limits)))
}

#[inline(never)]
pub extern "C" fn handle_count(handle: &mut StoreHandle, guest: u32, out: &mut u32) -> u32 {
    put(store(handle).and_then(|store| store.handle_count(guest)), out)
}

/// The items received, as one number, where C gets two words.
pub fn moved(handle: &mut StoreHandle, stream: u32) -> Option<u128> {
    store(handle).and_then(|store| store.moved(stream)).ok()
}

#[inline(never)]
pub extern "C" fn new_between(
    handle: &mut StoreHandle,
    writer: u32,
    reader: u32,
    ty: u64,
    out: &mut Pair,
) -> u32 {
    let answer = with_type(handle, ty).and_then(|(store, ty)| store.new_between(writer, reader, ty));
    put(answer, out)
}

// A call on the end that a guest has of a type, by the word of its payload and its handle, with so many words more.
macro_rules! on_end {
    (
        $name:ident($store:ident, $guest:ident, $ty:ident: $of:expr, $end:ident $(, $word:ident)*)
        => $put:ident($call:expr)
    ) => {
        #[inline(never)]
        pub extern "C" fn $name(
            store: &mut StoreHandle,
            $guest: u32,
            payload: u64,
            $end: u32,
            $($word: u32,)*
            out: &mut u32,
        ) -> u32 {
            let answer = with_payload(store, payload).and_then(|($store, payload)| {
                let $ty = $of(payload);
                $call
            });
            $put(answer, out)
        }
    };
}

on_end!(stream_write(store, guest, ty: Type::stream, end, address, count)
    => code(store.operate(Side::Writing, guest, ty, end, address, count)));
on_end!(stream_read(store, guest, ty: Type::stream, end, address, count)
    => code(store.operate(Side::Reading, guest, ty, end, address, count)));
on_end!(future_write(store, guest, ty: Type::future, end, address)
    => code(store.operate(Side::Writing, guest, ty, end, address, 1)));
on_end!(future_read(store, guest, ty: Type::future, end, address)
    => code(store.operate(Side::Reading, guest, ty, end, address, 1)));

on_end!(stream_cancel_write(store, guest, ty: Type::stream, end) => code(store.cancel(Side::Writing, guest, ty, end)));
on_end!(stream_cancel_read(store, guest, ty: Type::stream, end) => code(store.cancel(Side::Reading, guest, ty, end)));
on_end!(future_cancel_write(store, guest, ty: Type::future, end) => code(store.cancel(Side::Writing, guest, ty, end)));
on_end!(future_cancel_read(store, guest, ty: Type::future, end) => code(store.cancel(Side::Reading, guest, ty, end)));

on_end!(stream_transfer(store, guest, ty: Type::stream, end, to) => put(store.transfer(guest, ty, end, to)));
on_end!(future_transfer(store, guest, ty: Type::future, end, to) => put(store.transfer(guest, ty, end, to)));

macro_rules! drops {
    ($name:ident, $side:expr, $ty:expr) => {
        #[inline(never)]
        pub extern "C" fn $name(store: &mut StoreHandle, guest: u32, payload: u64, handle: u32) -> u32 {
            let answer = with_payload(store, payload)
                .and_then(|(store, payload)| store.drop_end($side, guest, $ty(payload), handle));
            done(answer)
        }
    };
}

drops!(stream_drop_writable, Side::Writing, Type::stream);
drops!(stream_drop_readable, Side::Reading, Type::stream);
drops!(future_drop_writable, Side::Writing, Type::future);
drops!(future_drop_readable, Side::Reading, Type::future);

#[inline(never)]
pub extern "C" fn take_event(handle: &mut StoreHandle, guest: u32, end: u32, out: &mut u32) -> u32 {
    let answer = store(handle).and_then(|store| store.take_event(guest, end));
    put(answer.map(|told| told.map_or(NO_EVENT, Code::word)), out)
}

#[inline(never)]
pub extern "C" fn lift(handle: &mut StoreHandle, guest: u32, ty: u64, end: u32, out: &mut u32) -> u32 {
    let answer = with_type(handle, ty).and_then(|(store, ty)| store.lift(guest, ty, end));
    put(answer, out)
}

#[inline(never)]
pub extern "C" fn lower(handle: &mut StoreHandle, reader: u32, guest: u32, ty: u64, out: &mut u32) -> u32 {
    let answer = with_type(handle, ty).and_then(|(store, ty)| store.lower(reader, guest, ty));
    put(answer, out)
}

#[inline(never)]
pub extern "C" fn close(handle: &mut StoreHandle, reader: u32) -> u32 {
    done(store(handle).and_then(|store| store.close(reader)))
}

#[inline(never)]
pub extern "C" fn set_new(handle: &mut StoreHandle, guest: u32, out: &mut u32) -> u32 {
    put(store(handle).and_then(|store| store.set_new(guest)), out)
}

#[inline(never)]
pub extern "C" fn set_join(handle: &mut StoreHandle, guest: u32, set: u32, end: u32) -> u32 {
    done(store(handle).and_then(|store| store.set_join(guest, set, end)))
}

#[inline(never)]
pub extern "C" fn set_poll(handle: &mut StoreHandle, guest: u32, set: u32, out: &mut Member) -> u32 {
    let told = store(handle).and_then(|store| store.set_poll(guest, set));
    done(told.map(|told| match told {
        Some((handle, code)) => {
            let code = code.word();
            *out = Member { handle, code };
        }
        None => out.code = NO_EVENT,
    }))
}

#[inline(never)]
pub extern "C" fn set_drop(handle: &mut StoreHandle, guest: u32, set: u32) -> u32 {
    done(store(handle).and_then(|store| store.set_drop(guest, set)))
}

#[inline(never)]
pub extern "C" fn error_context_new(
    handle: &mut StoreHandle,
    guest: u32,
    address: u32,
    len: u32,
    out: &mut u32,
) -> u32 {
    let answer = store(handle).and_then(|store| store.context_new(guest, address, len));
    put(answer, out)
}

#[inline(never)]
pub extern "C" fn error_context_message(
    handle: &mut StoreHandle,
    guest: u32,
    context: u32,
    address: u32,
    out: &mut u32,
) -> u32 {
    let answer = store(handle).and_then(|store| store.context_message(guest, context, address));
    put(answer, out)
}

#[inline(never)]
pub extern "C" fn error_context_transfer(
    handle: &mut StoreHandle,
    guest: u32,
    context: u32,
    to: u32,
    out: &mut u32,
) -> u32 {
    let answer = store(handle).and_then(|store| store.context_transfer(guest, context, to));
    put(answer, out)
}

#[inline(never)]
pub extern "C" fn error_context_drop(handle: &mut StoreHandle, guest: u32, context: u32) -> u32 {
    done(store(handle).and_then(|store| store.context_drop(guest, context)))
}
