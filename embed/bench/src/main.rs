//! A write, a read and an event of some bytes, and a stream that is made and dropped: by the calls of the archive, and
//! by the same of `bench::plain`; through the crate for Rust, and by `bench::bare`, which is compiled with its caller.
//! All run in turn in this process, on one thread, whose processor time is taken; what is told is the median of 61 runs
//! of each. What a runtime knows only when it runs, as the payload, the compiler does not see in any; and all memories
//! are written before, since pages that were never written are all one page, which is read faster.
//!
//! Beside them runs the archive once more, of which it was asked which guest is ready: from then on it counts the ends
//! that are to be told something.
//!
//! With the words `round N` or `make N` it makes so many rounds by the archive's calls alone, for what counts
//! instructions; with `counting` before them, by those of an archive that counts so.

use bench::rounds::{done, repeat, wrote, Bare, Plain, Rounds, MEMORY, U8};
use std::env::args;
use std::hint::black_box;
use std::slice;
use strm::{Error, Guest, Limits, Pair, Payload, Store, Type};
use strm_sys as sys;

const RUNS: usize = 61;

/// The archive, by its calls.
struct Archive {
    store: sys::StoreHandle,
    writer: u32,
    reader: u32,
    pair: sys::Pair,
    payload: u64,
}

// SAFETY, of each call below: the handle is of a store, which is this value's alone, and what is lent is the function's
// own.
impl Archive {
    fn new() -> Result<Archive, u32> {
        let mut store = sys::StoreHandle::NONE;
        done(unsafe { sys::strm_store_new(&mut store, 0, 1_000_000, 1_000_000) })?;
        let writer = wrote(|out| unsafe { sys::strm_add_guest(&mut store, MEMORY, out) })?;
        let reader = wrote(|out| unsafe { sys::strm_add_guest(&mut store, MEMORY, out) })?;
        for guest in [writer, reader] {
            let (mut at, mut len) = (std::ptr::null_mut(), 0);
            done(unsafe { sys::strm_memory_at(&mut store, guest, &mut at, &mut len) })?;
            unsafe { slice::from_raw_parts_mut(at, len) }.fill(1);
        }
        let pair = wrote(|out| unsafe { sys::strm_new_between(&mut store, writer, reader, U8, out) })?;
        Ok(black_box(Archive {
            store,
            writer,
            reader,
            pair,
            payload: U8,
        }))
    }

    // One that counts the ends that are to be told something.
    fn counting() -> Result<Archive, u32> {
        let mut archive = Archive::new()?;
        let ready = wrote(|out| unsafe { sys::strm_next_ready_guest(&mut archive.store, 0, out) })?;
        assert_eq!(ready, sys::NO_GUEST);
        Ok(archive)
    }
}

// SAFETY, of each call below: as of those above.
impl Rounds for Archive {
    type Refusal = u32;

    fn try_round(&mut self, address: u32, count: u32) -> Result<(), u32> {
        let (store, bytes) = (&mut self.store, self.payload);
        let sys::Pair { read, write, .. } = self.pair;
        let written = wrote(|out| unsafe {
            sys::strm_stream_write(store, self.writer, bytes, write, address, count, out)
        })?;
        let received = wrote(|out| unsafe {
            sys::strm_stream_read(store, self.reader, bytes, read, address, count, out)
        })?;
        let told = wrote(|out| unsafe { sys::strm_take_event(store, self.writer, write, out) })?;
        black_box((written, received, told));
        Ok(())
    }

    fn try_make_and_drop(&mut self) -> Result<(), u32> {
        let (store, bytes) = (&mut self.store, self.payload);
        let made =
            wrote(|out| unsafe { sys::strm_new_between(store, self.writer, self.reader, bytes, out) })?;
        done(unsafe { sys::strm_stream_drop_writable(store, self.writer, bytes, made.write) })?;
        done(unsafe { sys::strm_stream_drop_readable(store, self.reader, bytes, made.read) })
    }
}

/// The archive, through the crate.
struct Proved {
    store: Store,
    writer: Guest,
    reader: Guest,
    pair: Pair,
    payload: Payload,
}

impl Proved {
    fn new() -> Result<Proved, Error> {
        let mut store = Store::new(0, Limits::default())?;
        let (writer, reader) = (store.add_guest(MEMORY)?, store.add_guest(MEMORY)?);
        for guest in [writer, reader] {
            store.memory_mut(guest)?.fill(1);
        }
        let pair = store.new_between(writer, reader, Type::Stream(Payload::U8))?;
        Ok(Proved {
            store,
            writer,
            reader,
            pair,
            payload: black_box(Payload::U8),
        })
    }
}

impl Rounds for Proved {
    type Refusal = Error;

    fn try_round(&mut self, address: u32, count: u32) -> Result<(), Error> {
        let written = self
            .store
            .stream_write(self.writer, self.payload, self.pair.write, address, count)?;
        let read = self
            .store
            .stream_read(self.reader, self.payload, self.pair.read, address, count)?;
        let told = self.store.take_event(self.writer, self.pair.write)?;
        black_box((written.word(), read.word(), told));
        Ok(())
    }

    fn try_make_and_drop(&mut self) -> Result<(), Error> {
        let ty = Type::Stream(self.payload);
        let pair = self.store.new_between(self.writer, self.reader, ty)?;
        self.store
            .stream_drop_writable(self.writer, self.payload, pair.write)?;
        self.store
            .stream_drop_readable(self.reader, self.payload, pair.read)
    }
}

// Nanoseconds of one round, of so many: of so many items, or of a stream that is made and dropped.
fn timed(store: &mut impl Rounds, rounds: u32, count: Option<u32>) -> f64 {
    let from = clock::of_thread();
    match count {
        Some(count) => (0..rounds).for_each(|k| store.round(black_box(k % 4096 * 8), black_box(count))),
        None => (0..rounds).for_each(|_| store.make_and_drop()),
    }
    (clock::of_thread() - from).as_nanos() as f64 / f64::from(rounds)
}

fn median(mut figures: Vec<f64>) -> f64 {
    figures.sort_by(f64::total_cmp);
    figures[figures.len() / 2]
}

// Those that are compared.
struct All {
    archive: Archive,
    counting: Archive,
    plain: Plain,
    proved: Proved,
    bare: Bare,
}

impl All {
    // Tells the medians, of so many rounds at a time: of the archive beside the store that keeps as much, both by their
    // calls, and of the crate beside the bare store.
    fn compare(&mut self, name: &str, rounds: u32, count: Option<u32>) {
        let mut figures = [const { Vec::new() }; 5];
        for _ in 0..RUNS {
            figures[0].push(timed(&mut self.archive, rounds, count));
            figures[1].push(timed(&mut self.plain, rounds, count));
            figures[2].push(timed(&mut self.proved, rounds, count));
            figures[3].push(timed(&mut self.bare, rounds, count));
            figures[4].push(timed(&mut self.counting, rounds, count));
        }
        let [archive, plain, proved, bare, counting] = figures.map(median);
        let (by_calls, by_crate) = (archive / plain, proved / bare);
        println!("{name}: {archive:.1} ns, plain Rust {plain:.1} ns, {by_calls:.2} times");
        println!("    through the crate {proved:.1} ns, bare plain Rust {bare:.1} ns, {by_crate:.2} times");
        println!("    while it counts which guests are ready {counting:.1} ns");
    }
}

// Whether the words ask for rounds, which are made then.
fn are_made(archive: &mut Archive, counting: &mut Archive) -> bool {
    let words: Vec<_> = args().skip(1).collect();
    let (archive, words) = match &words[..] {
        [how, rest @ ..] if how == "counting" => (counting, rest),
        all => (archive, all),
    };
    let [what, rounds] = words else { return false };
    repeat(archive, what, rounds.parse().expect("no number"));
    true
}

fn main() -> Result<(), Error> {
    let mut archive = Archive::new().expect("no refusal");
    let mut counting = Archive::counting().expect("no refusal");
    if are_made(&mut archive, &mut counting) {
        return Ok(());
    }
    let mut all = All {
        archive,
        counting,
        plain: Plain::new().expect("no refusal"),
        proved: Proved::new()?,
        bare: Bare::default(),
    };
    for (count, rounds) in [(8, 100_000), (64, 100_000), (4096, 30_000), (65536, 3_000)] {
        all.compare(&format!("{count} bytes"), rounds, Some(count));
    }
    all.compare("a stream made and dropped", 10_000, None);
    Ok(())
}
