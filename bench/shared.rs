//! The store of `store.rs` that threads share in plain Rust: behind a mutex, with a vector of all calls,
//! and a condition for those that wait. Its steps are the three kinds that are timed.
//!
//! `bench/shared` times it beside `strm_shared`.

#[allow(dead_code)]
mod store;

use std::sync::{Condvar, Mutex};
use std::thread;
use std::time::{Duration, Instant};
use store::{Code, Kind, Payload, Refusal, Scalar, Side, Store};

const BYTES: Payload = Payload::One(Scalar::U8);
const GUESTS: u32 = 4;
const SIZE: usize = 65_536;
const PLACES: u32 = 8_192;

#[derive(Clone, Copy)]
enum Step {
    Write { guest: u32, payload: Payload, handle: u32, address: u32, count: u32 },
    Read { guest: u32, payload: Payload, handle: u32, address: u32, count: u32 },
    Event { guest: u32, handle: u32 },
}

#[derive(Clone, Copy)]
enum Reply {
    Code(Code),
    Event(Option<Code>),
    #[allow(dead_code)]
    Refused(Refusal),
}

#[derive(Clone, Copy)]
#[allow(dead_code)]
struct Entry {
    seat: u64,
    step: Step,
    reply: Reply,
}

struct Desk {
    store: Store,
    history: Vec<Entry>,
}

struct Shared {
    desk: Mutex<Desk>,
    // How many wait for a report, and what wakes them.
    reported: Condvar,
}

fn apply(store: &mut Store, step: &Step) -> Reply {
    let answer = match *step {
        Step::Write { guest, payload, handle, address, count } => {
            store.operate(Side::Writing, guest, Kind::Stream, payload, handle, address, count).map(Reply::Code)
        }
        Step::Read { guest, payload, handle, address, count } => {
            store.operate(Side::Reading, guest, Kind::Stream, payload, handle, address, count).map(Reply::Code)
        }
        Step::Event { guest, handle } => store.take_event(guest, handle).map(Reply::Event),
    };
    answer.unwrap_or_else(Reply::Refused)
}

impl Desk {
    fn enter(&mut self, seat: u64, step: &Step) -> Reply {
        let reply = apply(&mut self.store, step);
        self.history.push(Entry { seat, step: *step, reply });
        reply
    }
}

impl Shared {
    fn call(&self, seat: u64, step: &Step) -> Reply {
        let reply = self.desk.lock().unwrap().enter(seat, step);
        if !matches!(step, Step::Event { .. }) {
            self.reported.notify_all();
        }
        reply
    }

    // A read or write that is answered once its report is there.
    fn sync(&self, seat: u64, step: &Step) -> Reply {
        let reply = self.call(seat, step);
        let (Reply::Code(Code::Blocked), Step::Write { guest, handle, .. } | Step::Read { guest, handle, .. }) = (reply, *step) else {
            return reply;
        };
        let event = Step::Event { guest, handle };
        let mut desk = self.desk.lock().unwrap();
        loop {
            if let Reply::Event(Some(code)) = apply(&mut desk.store, &event) {
                desk.history.push(Entry { seat, step: event, reply: Reply::Event(Some(code)) });
                return Reply::Code(code);
            }
            desk = self.reported.wait(desk).unwrap();
        }
    }
}

fn write(guest: u32, handle: u32, round: u32) -> Step {
    Step::Write { guest, payload: BYTES, handle, address: round % PLACES * 8, count: 8 }
}

fn read(guest: u32, handle: u32, round: u32) -> Step {
    Step::Read { guest, payload: BYTES, handle, address: round % PLACES * 8, count: 8 }
}

fn items(reply: Reply) -> u64 {
    match reply {
        Reply::Code(Code::Completed(count)) => u64::from(count),
        _ => 0,
    }
}

// A store with the guests, each with a stream of its own, and one from the first to the second.
fn prepared() -> Store {
    let mut store = Store::new();
    for guest in 0..GUESTS {
        store.add_guest(SIZE);
        store.new_between(guest, guest, Kind::Stream, BYTES);
    }
    store.new_between(0, 1, Kind::Stream, BYTES);
    store
}

fn shared() -> Shared {
    Shared { desk: Mutex::new(Desk { store: prepared(), history: Vec::new() }), reported: Condvar::new() }
}

fn rounds(guest: u32, rounds: u32, mut call: impl FnMut(&Step) -> Reply) -> u64 {
    (0..rounds)
        .map(|round| {
            items(call(&write(guest, 2, round))) + items(call(&read(guest, 1, round))) + items(call(&Step::Event { guest, handle: 2 }))
        })
        .sum()
}

fn tell(what: &str, moved: u64, spent: Duration, each: u64) {
    println!("{what}: moved {moved}");
    eprintln!("{what}: {} ns", spent.as_nanos() / u128::from(each.max(1)));
}

fn main() {
    let count: u32 = std::env::args().nth(1).and_then(|word| word.parse().ok()).unwrap_or(10_000);
    let mut store = prepared();
    let start = Instant::now();
    let moved = rounds(0, count, |step| apply(&mut store, step));
    tell("a bare step", moved, start.elapsed(), 3 * u64::from(count));
    for (name, threads) in [("one thread", 1), ("two threads", 2), ("four threads", 4)] {
        let shared = shared();
        let start = Instant::now();
        let moved = thread::scope(|scope| {
            let shared = &shared;
            let work = |guest| scope.spawn(move || rounds(guest, count, |step| shared.call(u64::from(guest), step)));
            let workers: Vec<_> = (0..threads).map(work).collect();
            workers.into_iter().map(|worker| worker.join().unwrap()).sum()
        });
        tell(&format!("a call of {name}"), moved, start.elapsed(), 3 * u64::from(count) * u64::from(threads));
    }
    let shared = shared();
    let start = Instant::now();
    let passes = |seat, step: Step| (0..count).map(|_| items(shared.sync(seat, &step))).sum::<u64>();
    let moved = thread::scope(|scope| {
        let taken = scope.spawn(|| passes(1, read(1, 3, 0)));
        passes(0, write(0, 3, 0)) + taken.join().unwrap()
    });
    tell("a pair of syncs", moved, start.elapsed(), u64::from(count));
}
