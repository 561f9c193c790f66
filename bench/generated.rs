//! The words `gen N SEED` in plain Rust: draws the steps, does them on a store, and prints the summary.
//!
//! `bench/generated` runs both.

#[allow(dead_code)]
mod store;

use std::io::Write;
use store::{Code, Handle, Kind, Payload, Refusal, Scalar, Side, Store};

const BYTES: Payload = Payload::One(Scalar::U8);

enum Step {
    Guest { size: usize },
    Between { writer: u32, reader: u32 },
    Poke { guest: u32, address: u32, bytes: Vec<u8> },
    Write { guest: u32, handle: u32, address: u32, count: u32 },
    Read { guest: u32, handle: u32, address: u32, count: u32 },
    Event { guest: u32, handle: u32 },
    Move { guest: u32, handle: u32, to: u32 },
}

#[allow(dead_code)]
enum Reply {
    Done,
    Number(u32),
    Pair { read: u32, write: u32 },
    Code(Code),
    Event(Option<Code>),
    Refused(Refusal),
}

struct Draws {
    state: u32,
}

impl Draws {
    fn draw(&mut self) -> u32 {
        self.state = self.state.wrapping_mul(1_103_515_245).wrapping_add(12_345) % (1 << 31);
        self.state / 65_536
    }
}

fn drawn_step(first: u32, second: u32, third: u32) -> Step {
    let (address, count) = (second, third % 1024);
    match first % 8 {
        0..=2 => Step::Write { guest: 0, handle: 1, address, count },
        3..=5 => Step::Read { guest: 1, handle: 1, address, count },
        6 => Step::Event { guest: 0, handle: 1 },
        _ if second % 2 == 0 => Step::Event { guest: 1, handle: 1 },
        _ => Step::Move { guest: 0, handle: 1, to: 0 },
    }
}

fn generate(count: u32, seed: u32) -> Vec<Step> {
    let mut steps = Vec::with_capacity(count as usize + 4);
    steps.push(Step::Guest { size: 65_536 });
    steps.push(Step::Guest { size: 65_536 });
    steps.push(Step::Between { writer: 0, reader: 1 });
    steps.push(Step::Poke { guest: 0, address: 0, bytes: (0..64).collect() });
    let mut draws = Draws { state: seed % (1 << 31) };
    for _ in 0..count {
        let (first, second, third) = (draws.draw(), draws.draw(), draws.draw());
        steps.push(drawn_step(first, second, third));
    }
    steps
}

// An end that is idle and was told nothing goes to a guest.
fn move_end(store: &mut Store, guest: u32, handle: u32, to: u32) -> Result<u32, Refusal> {
    if store.is_trapped {
        return Err(Refusal::Trapped);
    }
    if store.guests.len() <= guest as usize || store.guests.len() <= to as usize {
        return Err(Refusal::UnknownGuest);
    }
    let index = (handle as usize).wrapping_sub(1);
    let Some(Some(found)) = store.guests[guest as usize].handles.get(index).copied() else {
        return Err(Refusal::UnknownHandle);
    };
    if found.kind != Kind::Stream {
        return Err(Refusal::WrongKind);
    }
    if found.payload != BYTES {
        return Err(Refusal::WrongType);
    }
    let end = &store.streams[found.stream as usize].ends[found.side as usize];
    if end.operation.is_some() {
        return Err(Refusal::Concurrent);
    }
    if end.told {
        return Err(Refusal::Ended);
    }
    store.guests[guest as usize].handles[index] = None;
    Ok(insert(&mut store.guests[to as usize].handles, found))
}

// The first free number is given.
fn insert(handles: &mut Vec<Option<Handle>>, handle: Handle) -> u32 {
    match handles.iter().position(Option::is_none) {
        Some(index) => {
            handles[index] = Some(handle);
            index as u32 + 1
        }
        None => {
            handles.push(Some(handle));
            handles.len() as u32
        }
    }
}

fn poke(store: &mut Store, guest: u32, address: u32, bytes: &[u8]) -> Result<(), Refusal> {
    let Some(holder) = store.guests.get_mut(guest as usize) else { return Err(Refusal::UnknownGuest) };
    let at = address as usize;
    match holder.memory.get_mut(at..at + bytes.len()) {
        Some(place) => place.copy_from_slice(bytes),
        None => return Err(Refusal::OutOfBounds),
    }
    Ok(())
}

fn apply(store: &mut Store, step: &Step) -> Result<Reply, Refusal> {
    let stream = Kind::Stream;
    Ok(match *step {
        Step::Guest { size } => Reply::Number(store.add_guest(size)),
        Step::Between { writer, reader } => {
            let (read, write) = store.new_between(writer, reader, stream, BYTES);
            Reply::Pair { read, write }
        }
        Step::Poke { guest, address, ref bytes } => {
            poke(store, guest, address, bytes)?;
            Reply::Done
        }
        Step::Write { guest, handle, address, count } => {
            Reply::Code(store.operate(Side::Writing, guest, stream, BYTES, handle, address, count)?)
        }
        Step::Read { guest, handle, address, count } => {
            Reply::Code(store.operate(Side::Reading, guest, stream, BYTES, handle, address, count)?)
        }
        Step::Event { guest, handle } => Reply::Event(store.take_event(guest, handle)?),
        Step::Move { guest, handle, to } => Reply::Number(move_end(store, guest, handle, to)?),
    })
}

fn main() -> std::io::Result<()> {
    let mut words = std::env::args().skip(1).filter_map(|word| word.parse().ok());
    let (count, seed) = (words.next().unwrap_or(262_140), words.next().unwrap_or(7));
    let steps = generate(count, seed);
    let mut store = Store::new();
    let mut replies = Vec::with_capacity(steps.len());
    for step in &steps {
        replies.push(apply(&mut store, step).unwrap_or_else(Reply::Refused));
    }
    let refused = replies.iter().filter(|reply| matches!(reply, Reply::Refused(_))).count();
    let blocked = replies.iter().filter(|reply| matches!(reply, Reply::Code(Code::Blocked))).count();
    let mut text = format!("refused {refused}\nblocked {blocked}\n");
    for (number, stream) in store.streams.iter().enumerate() {
        text += &format!("stream {number} moved {}\n", stream.received);
    }
    text += &format!("done {}\n", replies.len());
    std::io::stdout().write_all(text.as_bytes())
}
