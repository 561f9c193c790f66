//! The host writers and host readers of `strm_bench` in plain Rust: a boxed writer keeps the bytes that it is fed, with a
//! record of each feed and of each poll, and gives them to a guest's reads, with the tests that each
//! call makes; and a list is kept once as the record of what was produced and once as what is left,
//! and copied from there in pieces. A boxed reader keeps a record of each grant and of each poll, and
//! takes from a guest's writes what it has credit for; and a list is copied in pieces behind what was
//! taken of it.
//!
//! `bench/hosted` times both.

use std::hint::black_box;
use std::time::Instant;

const FED: usize = 1_048_576;
const LISTED: usize = 67_108_864;
const FEED: usize = 64;
const PIECE: usize = 65_536;
const PAGE: usize = 4_096;
const ROUNDS: u32 = 100_000;

// A memory to each page of which bytes were written.
fn touched(size: usize) -> Vec<u8> {
    let mut memory = vec![0; size];
    for page in memory.chunks_mut(PAGE) {
        page[..FEED].fill(7);
    }
    memory
}

fn sum(memory: &[u8]) -> u64 {
    memory.iter().map(|byte| u64::from(*byte)).sum()
}

// Where the bytes of a feed lie, and behind how many polls it came.
#[allow(dead_code)]
struct Feed {
    polls: usize,
    start: usize,
    len: usize,
}

// How much room a poll had, whether it was asked to finish, which bytes it gave, and its answer.
#[allow(dead_code)]
struct Poll {
    room: usize,
    finish: bool,
    start: usize,
    len: usize,
    answer: Answer,
}

#[derive(Clone, Copy, PartialEq, Eq)]
#[allow(dead_code)]
enum Answer {
    Pending,
    Completed,
    Cancelled,
    Dropped,
    Failed,
}

// A host writer of bytes.
trait Writer {
    fn held(&self) -> usize;
    fn poll(&mut self, room: &mut [u8], finish: bool) -> (Answer, usize);
    fn poll_all(&mut self) -> (Answer, Vec<u8>);
    fn feed(&mut self, bytes: &[u8]);
}

// It gives what it is fed.
#[derive(Default)]
struct Queue {
    fed: Vec<u8>,
    feeds: Vec<Feed>,
    polls: Vec<Poll>,
    given: usize,
    is_ended: bool,
}

impl Writer for Queue {
    fn held(&self) -> usize {
        0
    }

    fn poll(&mut self, room: &mut [u8], finish: bool) -> (Answer, usize) {
        let queued = self.fed.len() - self.given;
        let len = queued.min(room.len());
        room[..len].copy_from_slice(&self.fed[self.given..self.given + len]);
        let answer = match (queued, queued - len) {
            (_, 0) if self.is_ended => Answer::Dropped,
            (0, _) if finish => Answer::Cancelled,
            (0, _) => Answer::Pending,
            _ => Answer::Completed,
        };
        self.polls.push(Poll { room: room.len(), finish, start: self.given, len, answer });
        self.given += len;
        (answer, len)
    }

    fn poll_all(&mut self) -> (Answer, Vec<u8>) {
        let items = self.fed[self.given..].to_vec();
        let answer = match items.len() {
            _ if self.is_ended => Answer::Dropped,
            0 => Answer::Pending,
            _ => Answer::Completed,
        };
        self.polls.push(Poll { room: usize::MAX, finish: false, start: self.given, len: items.len(), answer });
        self.given = self.fed.len();
        (answer, items)
    }

    fn feed(&mut self, bytes: &[u8]) {
        self.feeds.push(Feed { polls: self.polls.len(), start: self.fed.len(), len: bytes.len() });
        self.fed.extend_from_slice(bytes);
        self.is_ended |= bytes.is_empty();
    }
}

// How many items it was offered and had taken since it was ready, whether it was asked to finish, how
// many it took, and its answer.
#[allow(dead_code)]
struct Taking {
    offered: usize,
    since: usize,
    finish: bool,
    taken: usize,
    answer: Answer,
}

// A host reader of bytes.
trait Reader {
    fn poll(&mut self, offered: &[u8], since: usize, finish: bool) -> (Answer, usize);
    fn grant(&mut self, count: u32);
}

// It takes what it has credit for.
#[derive(Default)]
struct Credit {
    credit: u64,
    is_ended: bool,
    takings: Vec<Taking>,
    grants: Vec<(usize, u32)>,
}

impl Reader for Credit {
    fn poll(&mut self, offered: &[u8], since: usize, finish: bool) -> (Answer, usize) {
        let taken = (offered.len() as u64).min(self.credit) as usize;
        self.credit -= taken as u64;
        let answer = if self.credit == 0 && self.is_ended {
            Answer::Dropped
        } else if taken > 0 || (offered.is_empty() && self.credit > 0) {
            Answer::Completed
        } else if finish {
            Answer::Cancelled
        } else {
            Answer::Pending
        };
        self.takings.push(Taking { offered: offered.len(), since, finish, taken, answer });
        (answer, taken)
    }

    fn grant(&mut self, count: u32) {
        self.grants.push((self.takings.len(), count));
        self.credit = self.credit.saturating_add(u64::from(count));
        self.is_ended |= count == 0;
    }
}

struct Operation {
    address: usize,
    left: usize,
    moved: usize,
    outcome: Option<Answer>,
}

struct Stream {
    writer: Option<usize>,
    is_over: bool,
    reader: Option<usize>,
    since: usize,
    is_resting: bool,
    read: Option<Operation>,
    write: Option<Operation>,
    received: u128,
}

// A guest that reads and writes, and the host ends of its streams.
struct Store {
    memory: Vec<u8>,
    handles: Vec<Option<usize>>,
    streams: Vec<Stream>,
    writers: Vec<Box<dyn Writer>>,
    readers: Vec<Box<dyn Reader>>,
    kept: Vec<u8>,
}

#[derive(Debug)]
enum Refusal {
    TooBig,
    OutOfBounds,
    UnknownHandle,
    Concurrent,
    HostBroke,
}

impl Store {
    fn read(&mut self, handle: u32, address: u32, count: u32) -> Result<u32, Refusal> {
        if count >= 1 << 28 {
            return Err(Refusal::TooBig);
        }
        let (address, left) = (address as usize, count as usize);
        if left > 0 && self.memory.len() < address + left {
            return Err(Refusal::OutOfBounds);
        }
        let Some(Some(number)) = self.handles.get((handle as usize).wrapping_sub(1)) else {
            return Err(Refusal::UnknownHandle);
        };
        let stream = &mut self.streams[*number];
        if stream.read.is_some() {
            return Err(Refusal::Concurrent);
        }
        let mut read = Operation { address, left, moved: 0, outcome: None };
        if let (Some(writer), false) = (stream.writer, stream.is_over) {
            let writer = &mut self.writers[writer];
            let (answer, marked) = writer.poll(&mut self.memory[address..address + left], false);
            if answer == Answer::Failed || (answer == Answer::Pending && marked > 0) {
                return Err(Refusal::HostBroke);
            }
            stream.is_over = answer == Answer::Dropped;
            stream.received += marked as u128;
            read.address += marked;
            read.left -= marked;
            read.moved += marked;
            let last = answer == Answer::Dropped && writer.held() == 0;
            read.outcome = match answer {
                Answer::Pending => None,
                Answer::Dropped if !last => Some(Answer::Completed),
                answer => Some(answer),
            };
            if last {
                stream.writer = None;
            }
        }
        match read.outcome {
            Some(Answer::Dropped) => Ok(16 * read.moved as u32 + 1),
            Some(_) => Ok(16 * read.moved as u32),
            None => {
                stream.read = Some(read);
                Ok(u32::MAX)
            }
        }
    }

    fn write(&mut self, handle: u32, address: u32, count: u32) -> Result<u32, Refusal> {
        if count >= 1 << 28 {
            return Err(Refusal::TooBig);
        }
        let (address, left) = (address as usize, count as usize);
        if left > 0 && self.memory.len() < address + left {
            return Err(Refusal::OutOfBounds);
        }
        let Some(Some(number)) = self.handles.get((handle as usize).wrapping_sub(1)) else {
            return Err(Refusal::UnknownHandle);
        };
        let stream = &mut self.streams[*number];
        if stream.write.is_some() {
            return Err(Refusal::Concurrent);
        }
        let mut write = Operation { address, left, moved: 0, outcome: None };
        if let Some(reader) = stream.reader {
            let reader = &mut self.readers[reader];
            let since = stream.since;
            let (answer, taken) = reader.poll(&self.memory[address..address + left], since, false);
            let is_idle = left > 0 && taken == 0 && since == 0;
            if matches!(answer, Answer::Failed | Answer::Cancelled)
                || (answer == Answer::Completed && is_idle)
            {
                return Err(Refusal::HostBroke);
            }
            stream.received += taken as u128;
            write.address += taken;
            write.left -= taken;
            write.moved += taken;
            stream.since = if answer == Answer::Completed { 0 } else { since + taken };
            if answer != Answer::Pending {
                write.outcome = Some(answer);
            }
            if answer == Answer::Dropped {
                stream.reader = None;
            }
        }
        match write.outcome {
            Some(Answer::Dropped) => Ok(16 * write.moved as u32 + 1),
            Some(_) => Ok(16 * write.moved as u32),
            None => {
                stream.write = Some(write);
                Ok(u32::MAX)
            }
        }
    }

    fn drive(&mut self) -> Result<(), Refusal> {
        for stream in &mut self.streams {
            let (Some(writer), Some(reader)) = (stream.writer, stream.reader) else {
                continue;
            };
            if self.kept.is_empty() && !stream.is_over && !stream.is_resting {
                let (answer, given) = self.writers[writer].poll_all();
                if answer == Answer::Failed || (answer == Answer::Pending && !given.is_empty()) {
                    return Err(Refusal::HostBroke);
                }
                stream.is_over = answer == Answer::Dropped;
                self.kept = given;
            }
            if self.kept.is_empty() && !stream.is_resting {
                continue;
            }
            let since = stream.since;
            let (answer, taken) = self.readers[reader].poll(&self.kept, since, false);
            if matches!(answer, Answer::Failed | Answer::Cancelled) {
                return Err(Refusal::HostBroke);
            }
            self.kept.drain(..taken);
            stream.received += taken as u128;
            stream.since = if answer == Answer::Completed { 0 } else { since + taken };
            stream.is_resting = answer == Answer::Pending;
        }
        Ok(())
    }

    fn grant(&mut self, reader: usize, count: u32) {
        if let Some(reader) = self.readers.get_mut(reader) {
            reader.grant(count);
        }
    }

    fn feed(&mut self, writer: usize, bytes: &[u8]) {
        if let Some(writer) = self.writers.get_mut(writer) {
            writer.feed(bytes);
        }
    }
}

#[inline(never)]
fn feed_and_read(store: &mut Store, rounds: u32) -> Result<u128, Refusal> {
    let bytes = [7; FEED];
    for round in 0..rounds {
        store.feed(0, black_box(&bytes));
        let address = round % (FED / FEED) as u32 * FEED as u32;
        black_box(store.read(1, address, FEED as u32)?);
    }
    Ok(store.streams[0].received)
}

#[inline(never)]
fn read_list(memory: &mut [u8], list: Vec<u8>) -> usize {
    let left = list.clone();
    let produced = black_box(list);
    let mut given = 0;
    for (target, source) in memory.chunks_mut(PIECE).zip(left.chunks(PIECE)) {
        target.copy_from_slice(black_box(source));
        given += source.len();
    }
    assert_eq!(produced.len(), given);
    given
}

#[inline(never)]
fn grant_and_write(store: &mut Store, rounds: u32) -> Result<u128, Refusal> {
    for round in 0..rounds {
        store.grant(0, black_box(FEED as u32));
        let address = round % (FED / FEED) as u32 * FEED as u32;
        black_box(store.write(1, address, FEED as u32)?);
    }
    Ok(store.streams[0].received)
}

#[inline(never)]
fn write_list(memory: &[u8], taken: &mut Vec<u8>) -> usize {
    for source in memory.chunks(PIECE) {
        taken.extend_from_slice(black_box(source));
    }
    taken.len()
}

// Feeds the writer, grants the reader as many bytes, and has what the first gives kept and offered to the
// second.
#[inline(never)]
fn feed_and_drive(store: &mut Store, rounds: u32) -> Result<u128, Refusal> {
    let bytes = [7; FEED];
    for _ in 0..rounds {
        store.feed(0, black_box(&bytes));
        store.grant(0, black_box(FEED as u32));
        store.drive()?;
    }
    Ok(store.streams[0].received)
}

// Two plain copies.
#[inline(never)]
fn pipe_list(list: Vec<u8>, taken: &mut Vec<u8>) -> usize {
    let kept = black_box(&list).clone();
    taken.extend_from_slice(black_box(&kept));
    taken.len()
}

// A store of one stream with these host ends.
fn store_of(writers: Vec<Box<dyn Writer>>, readers: Vec<Box<dyn Reader>>) -> Store {
    let stream = Stream {
        writer: (!writers.is_empty()).then_some(0),
        is_over: false,
        reader: (!readers.is_empty()).then_some(0),
        since: 0,
        is_resting: false,
        read: None,
        write: None,
        received: 0,
    };
    Store { memory: touched(FED), handles: vec![Some(0)], streams: vec![stream], writers, readers, kept: Vec::new() }
}

fn main() {
    let turns: u32 = std::env::args().nth(1).and_then(|word| word.parse().ok()).unwrap_or(2_000_000);
    let rounds = turns / 8;
    let mut store = store_of(vec![Box::<Queue>::default()], Vec::new());
    let start = Instant::now();
    let received = feed_and_read(&mut store, rounds).expect("a read is refused");
    let spent = start.elapsed().as_nanos();
    println!("fed {received}: {}", sum(&store.memory));
    eprintln!("a feed and a read of 64 bytes: {} ns", spent / u128::from(rounds.max(1)));
    let list = vec![7; LISTED];
    let mut memory = touched(LISTED);
    let start = Instant::now();
    let received = read_list(&mut memory, list);
    let spent = start.elapsed().as_nanos();
    println!("listed {received}: {}", sum(&memory));
    eprintln!("a list of 64 MiB: {spent} ns");
    let mut store = store_of(Vec::new(), vec![Box::<Credit>::default()]);
    let start = Instant::now();
    let taken = grant_and_write(&mut store, rounds).expect("a write is refused");
    let spent = start.elapsed().as_nanos();
    println!("granted {taken}");
    eprintln!("a grant and a write of 64 bytes: {} ns", spent / u128::from(rounds.max(1)));
    let mut bytes = Vec::with_capacity(LISTED);
    let memory = touched(LISTED);
    let start = Instant::now();
    let taken = write_list(&memory, &mut bytes);
    let spent = start.elapsed().as_nanos();
    println!("consumed {taken}");
    eprintln!("a consumer of 64 MiB: {spent} ns");
    let list = vec![7; LISTED];
    let mut bytes = Vec::with_capacity(LISTED);
    let start = Instant::now();
    let taken = pipe_list(list, &mut bytes);
    let spent = start.elapsed().as_nanos();
    println!("piped {taken}");
    eprintln!("a pipe of 64 MiB: {spent} ns");
    let mut store = store_of(vec![Box::<Queue>::default()], vec![Box::<Credit>::default()]);
    let start = Instant::now();
    let passed = feed_and_drive(&mut store, ROUNDS).expect("a round is refused");
    let spent = start.elapsed().as_nanos();
    println!("passed on {passed}");
    eprintln!("a round of a pipe of 64 bytes: {} ns", spent / u128::from(ROUNDS));
}
