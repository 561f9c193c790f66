//! Stores that live long, and the memory of the process meanwhile.
//!
//! `soak [--flat] streams N` makes, uses and drops N streams and futures in one store.
//! `soak [--flat] server SECONDS` has a server with 500 open connections, one closed for another, for so long.
//! `soak [--flat] guests N` has N guests of 256 KiB begin and end in one store, each with a stream to the next.
//! `soak [--flat] ready N` has N guests in one store, of which one at a time is ready, and finds it.
//!
//! With `--flat` the status is 1 where the process grew by more than 512 kB: behind the first thousand streams, the
//! first tenth of the time, the first tenth of the guests, or the first turns of guests that are ready; or where a guest
//! took more than twice the processor time in the end, or one that is ready was found in more than four times that which
//! it takes among a thousand guests.

mod guests;
mod process;
mod ready;
mod server;
mod streams;

use std::process::ExitCode;
use std::time::Duration;
use strm::{Error, Guest, Limits, Store};

/// By how many kB a process may seem to grow that keeps nothing: pages of the allocator's and of its own.
const MOST_GROWTH: u64 = 512;

/// How many times as long a step may take in the end: what it does is the same, and a busy machine changes its time.
const MOST_SLOWER: f64 = 2.0;

/// What a run came to.
struct Course {
    /// By how many kB the process grew.
    grown: u64,
    /// How many times as long a step took in the end as at first; 1 where that is not asked.
    slower: f64,
}

impl Course {
    fn is_flat(&self) -> bool {
        self.grown <= MOST_GROWTH && self.slower <= MOST_SLOWER
    }
}

/// A store of two guests with so many bytes each, with room for what the few streams between them take.
fn two_guests(size: u32) -> Result<(Store, Guest, Guest), Error> {
    let mut store = Store::new(0, Limits { handles: 10, places: 10 })?;
    let (first, second) = (store.add_guest(size)?, store.add_guest(size)?);
    Ok((store, first, second))
}

fn main() -> ExitCode {
    let mut words: Vec<String> = std::env::args().skip(1).collect();
    let is_flat = words.first().is_some_and(|word| word == "--flat");
    words.drain(..usize::from(is_flat));
    let number = words.get(1).and_then(|word| word.parse().ok());
    let course = match (words.first().map(String::as_str), number) {
        (Some("streams"), Some(count)) => streams::run(count),
        (Some("server"), Some(seconds)) => server::run(Duration::from_secs(seconds)),
        (Some("guests"), Some(count)) => guests::run(count),
        (Some("ready"), Some(count)) => ready::run(count as u32),
        _ => {
            eprintln!("usage: soak [--flat] streams N | server SECONDS | guests N | ready N");
            return ExitCode::from(2);
        }
    };
    match course {
        Ok(course) if is_flat && !course.is_flat() => {
            println!("it is not flat");
            ExitCode::FAILURE
        }
        Ok(_) => ExitCode::SUCCESS,
        Err(error) => told(error),
    }
}

fn told(error: Error) -> ExitCode {
    println!("{error}");
    ExitCode::FAILURE
}
