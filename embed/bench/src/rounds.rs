//! What is timed: a write, a read and an event of so many items, and a stream that is made and dropped. What a runtime
//! knows only when it runs, as guests and payloads, the compiler does not see.

use crate::bare;
use crate::plain::face::{self, Pair, StoreHandle};
use std::fmt::Debug;
use std::hint::black_box;

/// The bytes of each of the two memories.
pub const MEMORY: u32 = 1 << 20;

const BYTES: bare::Payload = bare::Payload::One(bare::Scalar::U8);

/// The word of bytes.
pub const U8: u64 = 3;

/// A store with two guests and a stream of bytes from the first to the second.
pub trait Rounds {
    /// Why it does not: nothing that is timed is refused.
    type Refusal: Debug;

    fn try_round(&mut self, address: u32, count: u32) -> Result<(), Self::Refusal>;

    fn try_make_and_drop(&mut self) -> Result<(), Self::Refusal>;

    fn round(&mut self, address: u32, count: u32) {
        self.try_round(address, count).expect("no refusal");
    }

    fn make_and_drop(&mut self) {
        self.try_make_and_drop().expect("no refusal");
    }
}

// The calls that are timed. The compiler sees no more into them than into the archive's.
struct Calls {
    new_between: extern "C" fn(&mut StoreHandle, u32, u32, u64, &mut Pair) -> u32,
    stream_write: extern "C" fn(&mut StoreHandle, u32, u64, u32, u32, u32, &mut u32) -> u32,
    stream_read: extern "C" fn(&mut StoreHandle, u32, u64, u32, u32, u32, &mut u32) -> u32,
    take_event: extern "C" fn(&mut StoreHandle, u32, u32, &mut u32) -> u32,
    stream_drop_writable: extern "C" fn(&mut StoreHandle, u32, u64, u32) -> u32,
    stream_drop_readable: extern "C" fn(&mut StoreHandle, u32, u64, u32) -> u32,
}

const CALLS: Calls = Calls {
    new_between: face::new_between,
    stream_write: face::stream_write,
    stream_read: face::stream_read,
    take_event: face::take_event,
    stream_drop_writable: face::stream_drop_writable,
    stream_drop_readable: face::stream_drop_readable,
};

/// The store that keeps what the interface asks for, through its calls.
pub struct Plain {
    calls: Calls,
    store: StoreHandle,
    writer: u32,
    reader: u32,
    pair: Pair,
    payload: u64,
}

/// What a call put at `out`, or its status.
pub fn wrote<T: Default>(call: impl FnOnce(&mut T) -> u32) -> Result<T, u32> {
    let mut out = T::default();
    done(call(&mut out))?;
    Ok(out)
}

/// The status of a call that was not done.
pub fn done(status: u32) -> Result<(), u32> {
    match status {
        0 => Ok(()),
        _ => Err(status),
    }
}

impl Plain {
    pub fn new() -> Result<Plain, u32> {
        let mut store = StoreHandle::NONE;
        done(face::store_new(&mut store, 1_000_000, 1_000_000))?;
        let writer = wrote(|out| face::add_guest(&mut store, MEMORY, out))?;
        let reader = wrote(|out| face::add_guest(&mut store, MEMORY, out))?;
        for guest in [writer, reader] {
            face::memory_mut(&mut store, guest)
                .expect("no such guest")
                .fill(1);
        }
        let pair = wrote(|out| face::new_between(&mut store, writer, reader, U8, out))?;
        Ok(black_box(Plain {
            calls: CALLS,
            store,
            writer,
            reader,
            pair,
            payload: U8,
        }))
    }
}

impl Rounds for Plain {
    type Refusal = u32;

    fn try_round(&mut self, address: u32, count: u32) -> Result<(), u32> {
        let (calls, store, bytes) = (&self.calls, &mut self.store, self.payload);
        let Pair { read, write, .. } = self.pair;
        let written =
            wrote(|out| (calls.stream_write)(store, self.writer, bytes, write, address, count, out))?;
        let received =
            wrote(|out| (calls.stream_read)(store, self.reader, bytes, read, address, count, out))?;
        let told = wrote(|out| (calls.take_event)(store, self.writer, write, out))?;
        black_box((written, received, told));
        Ok(())
    }

    fn try_make_and_drop(&mut self) -> Result<(), u32> {
        let (calls, store, bytes) = (&self.calls, &mut self.store, self.payload);
        let made = wrote(|out| (calls.new_between)(store, self.writer, self.reader, bytes, out))?;
        done((calls.stream_drop_writable)(
            store,
            self.writer,
            bytes,
            made.write,
        ))?;
        done((calls.stream_drop_readable)(store, self.reader, bytes, made.read))
    }
}

/// The store that keeps none of the rest.
pub struct Bare {
    store: bare::Store,
    read: u32,
    write: u32,
    payload: bare::Payload,
}

impl Default for Bare {
    fn default() -> Bare {
        let mut store = bare::Store::new();
        store.add_guest(MEMORY as usize);
        store.add_guest(MEMORY as usize);
        for guest in &mut store.guests {
            guest.memory.fill(1);
        }
        let payload = black_box(BYTES);
        let (read, write) = store.new_between(0, 1, bare::Kind::Stream, payload);
        Bare {
            store,
            read,
            write,
            payload,
        }
    }
}

impl Rounds for Bare {
    type Refusal = bare::Refusal;

    fn try_round(&mut self, address: u32, count: u32) -> Result<(), bare::Refusal> {
        let (writing, reading) = (bare::Side::Writing, bare::Side::Reading);
        let stream = bare::Kind::Stream;
        let written = self
            .store
            .operate(writing, 0, stream, self.payload, self.write, address, count)?;
        let read = self
            .store
            .operate(reading, 1, stream, self.payload, self.read, address, count)?;
        let told = self.store.take_event(0, self.write)?;
        black_box((written.encode(), read.encode(), told.map(bare::Code::encode)));
        Ok(())
    }

    fn try_make_and_drop(&mut self) -> Result<(), bare::Refusal> {
        let (writing, reading) = (bare::Side::Writing, bare::Side::Reading);
        let stream = bare::Kind::Stream;
        self.store.may_make(0, 1)?;
        let (read, write) = self.store.new_between(0, 1, stream, self.payload);
        self.store.drop_end(writing, 0, stream, self.payload, write)?;
        self.store.drop_end(reading, 1, stream, self.payload, read)
    }
}

/// So many of what a word names, of 8 bytes where items move.
pub fn repeat(store: &mut impl Rounds, what: &str, rounds: u32) {
    match what {
        "round" => (0..rounds).for_each(|k| store.round(black_box(k % 4096 * 8), black_box(8))),
        "make" => (0..rounds).for_each(|_| store.make_and_drop()),
        _ => panic!("want round or make, not {what}"),
    }
}
