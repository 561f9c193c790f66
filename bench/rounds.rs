//! The rounds of `strm_bench` in plain Rust: a write of 8 items waits, a read takes them, and the
//! write is told.
//!
//! `bench/rounds` times both.

#[allow(dead_code)]
mod store;

use std::time::Instant;
use store::{Code, Kind, Payload, Refusal, Scalar, Side, Store};

const SIZE: u32 = 1_048_576;

fn run(items: Payload, rounds: u32) -> Result<(u64, u128), Refusal> {
    let mut store = Store::new();
    let writer = store.add_guest(SIZE as usize);
    let reader = store.add_guest(SIZE as usize);
    let (read_end, write_end) = store.new_between(writer, reader, Kind::Stream, items);
    let mut words = 0u64;
    for round in 0..rounds {
        let address = round % 65_536 * 8;
        let written = store.operate(Side::Writing, writer, Kind::Stream, items, write_end, address, 8)?;
        let read = store.operate(Side::Reading, reader, Kind::Stream, items, read_end, address, 8)?;
        let told = store.take_event(writer, write_end)?.unwrap_or(Code::Blocked);
        words += u64::from(written.encode()) + u64::from(read.encode()) + u64::from(told.encode());
    }
    Ok((words, store.streams[0].received))
}

fn main() {
    let rounds = std::env::args().nth(1).and_then(|word| word.parse().ok()).unwrap_or(2_000_000);
    let payload = match std::env::args().nth(2).as_deref() {
        Some("nothing") => Payload::Nothing,
        Some("char") => Payload::One(Scalar::Char),
        Some("u16") => Payload::One(Scalar::U16),
        Some("u32") => Payload::One(Scalar::U32),
        Some("u64") => Payload::One(Scalar::U64),
        _ => Payload::One(Scalar::U8),
    };
    let start = Instant::now();
    let (words, received) = run(payload, rounds).unwrap();
    let spent = start.elapsed().as_nanos();
    println!("words {words} received {received}");
    eprintln!("a write, a read and an event of 8 items: {} ns", spent / u128::from(rounds.max(1)));
}
