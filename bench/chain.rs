//! Passes its input through eight guests in plain Rust, in pieces of as many bytes as its word says, with the
//! turns of `strm_chain`: a guest writes what it has, or reads, or hears of the operation that waits. The store
//! makes the same tests of each call; steps and replies are not kept.
//!
//! `bench/chain` times both.

#[allow(dead_code)]
mod store;

use std::io::{Read, Write};
use store::{Code, Kind, Payload, Scalar, Side, Store};

const BYTES: Payload = Payload::One(Scalar::U8);

#[derive(Clone, Copy, PartialEq, Eq)]
enum Doing {
    Nothing,
    Reading,
    Writing,
    Ended,
}

struct Worker {
    read: u32,
    write: u32,
    made: Vec<u8>,
    sent: usize,
    doing: Doing,
    closed: bool,
}

struct Chain {
    store: Store,
    workers: Vec<Worker>,
    chunk: u32,
}

impl Chain {
    fn new(stages: usize, input: Vec<u8>, chunk: u32) -> Chain {
        let mut store = Store::new();
        let mut workers = Vec::new();
        for _ in 0..stages + 2 {
            store.add_guest(8192);
            workers.push(Worker { read: 0, write: 0, made: Vec::new(), sent: 0, doing: Doing::Nothing, closed: false });
        }
        for reader in 1..stages + 2 {
            let ends = store.new_between(reader as u32 - 1, reader as u32, Kind::Stream, BYTES);
            workers[reader].read = ends.0;
            workers[reader - 1].write = ends.1;
        }
        workers[0].made = input;
        workers[0].closed = true;
        Chain { store, workers, chunk }
    }

    // The bytes that a read brought go to what the guest made, and an end closes it.
    fn take(&mut self, who: usize, code: Code) {
        let worker = &mut self.workers[who];
        let (Code::Completed(count) | Code::Dropped(count)) = code else { return };
        worker.made.extend_from_slice(&self.store.guests[who].memory[..count as usize]);
        worker.closed = matches!(code, Code::Dropped(_));
    }

    fn hear(&mut self, who: usize) {
        let reads = self.workers[who].doing == Doing::Reading;
        let handle = if reads { self.workers[who].read } else { self.workers[who].write };
        let Some(code) = self.store.take_event(who as u32, handle).unwrap() else { return };
        self.workers[who].doing = Doing::Nothing;
        if reads {
            self.take(who, code);
        } else if let Code::Completed(count) | Code::Dropped(count) = code {
            self.workers[who].sent += count as usize;
        }
    }

    fn write(&mut self, who: usize) {
        let worker = &mut self.workers[who];
        let count = (worker.made.len() - worker.sent).min(self.chunk as usize);
        self.store.guests[who].memory[64..64 + count].copy_from_slice(&worker.made[worker.sent..worker.sent + count]);
        match self.store.operate(Side::Writing, who as u32, Kind::Stream, BYTES, worker.write, 64, count as u32).unwrap() {
            Code::Blocked => worker.doing = Doing::Writing,
            Code::Completed(count) | Code::Dropped(count) => worker.sent += count as usize,
        }
    }

    fn read(&mut self, who: usize) {
        let handle = self.workers[who].read;
        match self.store.operate(Side::Reading, who as u32, Kind::Stream, BYTES, handle, 0, self.chunk).unwrap() {
            Code::Blocked => self.workers[who].doing = Doing::Reading,
            code => self.take(who, code),
        }
    }

    fn turn(&mut self, who: usize) {
        let is_sink = who + 1 == self.workers.len();
        let worker = &mut self.workers[who];
        match worker.doing {
            Doing::Ended => {}
            Doing::Reading | Doing::Writing => self.hear(who),
            Doing::Nothing if !is_sink && worker.sent < worker.made.len() => self.write(who),
            Doing::Nothing if worker.closed => {
                worker.doing = Doing::Ended;
                if !is_sink {
                    self.store.streams[who].ends[Side::Writing as usize].is_gone = true;
                }
            }
            Doing::Nothing => self.read(who),
        }
    }
}

fn main() {
    let chunk = std::env::args().nth(1).unwrap().parse().unwrap();
    let mut input = Vec::new();
    std::io::stdin().read_to_end(&mut input).unwrap();
    let mut chain = Chain::new(8, input, chunk);
    while !chain.workers[9].closed {
        for who in 0..10 {
            chain.turn(who);
        }
    }
    std::io::stdout().write_all(&chain.workers[9].made).unwrap();
}
