//! A scheduler of many guests in one store, of which one at a time is ready.

use crate::process::resident;
use crate::Course;
use strm::{Code, Error, Guest, Limits, Pair, Payload, Store, Type};

/// How many guests there are beside which many are compared.
const FEW: u32 = 1000;

/// How many streams there are, between guests all over the store.
const STREAMS: u32 = 1000;

/// How many turns are timed at once, and how often.
const TURNS: u32 = 20_000;
const RUNS: usize = 9;

const NOTHING: Payload = Payload::NOTHING;

/// A stream of nothing, and who has its ends.
struct Line {
    writer: Guest,
    reader: Guest,
    pair: Pair,
}

/// What a call takes, in nanoseconds.
struct Times {
    /// A write, a read and an event.
    round: f64,
    /// The same, where who is ready is asked behind the read and behind the event.
    turn: f64,
}

impl Times {
    // One that finds the guest that is ready, or that none is.
    fn ask(&self) -> f64 {
        (self.turn - self.round) / 2.0
    }
}

struct Guests {
    store: Store,
    lines: Vec<Line>,
    // How many there are, and in which order their streams have turns.
    count: u32,
    order: u32,
}

impl Guests {
    fn new(count: u32) -> Result<Guests, Error> {
        let mut store = Store::new(0, Limits { handles: 2 * STREAMS as usize, places: 3 * STREAMS })?;
        for _ in 0..count {
            store.add_guest(0)?;
        }
        let mut guests = Guests { store, lines: Vec::new(), count, order: 1 };
        for _ in 0..STREAMS {
            let line = guests.line()?;
            guests.lines.push(line);
        }
        Ok(guests)
    }

    // A number that is none's in particular.
    fn draw(&mut self) -> u32 {
        self.order = self.order.wrapping_mul(1_664_525).wrapping_add(1_013_904_223);
        self.order >> 8
    }

    fn line(&mut self) -> Result<Line, Error> {
        let (writer, reader) = (Guest(self.draw() % self.count), Guest(self.draw() % self.count));
        let pair = self.store.new_between(writer, reader, Type::Stream(NOTHING))?;
        Ok(Line { writer, reader, pair })
    }

    // The writer of a line is ready once an item is read, until it is told so.
    fn turn(&mut self, is_asked: bool) -> Result<(), Error> {
        let at = self.draw() % STREAMS;
        let Line { writer, reader, pair } = self.lines[at as usize];
        let waits = self.store.stream_write(writer, NOTHING, pair.write, 0, 1)?;
        let read = self.store.stream_read(reader, NOTHING, pair.read, 0, 1)?;
        if is_asked {
            assert_eq!(self.store.next_ready_guest(0)?, Some(writer));
        }
        let told = self.store.take_event(writer, pair.write)?;
        assert_eq!((waits, read, told), (Code::Blocked, Code::Completed(1), Some(Code::Completed(1))));
        if is_asked {
            assert_eq!(self.store.next_ready_guest(0)?, None);
        }
        Ok(())
    }

    // Nanoseconds of a turn: the least of some runs.
    fn timed(&mut self, is_asked: bool) -> Result<f64, Error> {
        let mut least = f64::INFINITY;
        for _ in 0..RUNS {
            let begun = clock::of_process();
            for _ in 0..TURNS {
                self.turn(is_asked)?;
            }
            least = least.min((clock::of_process() - begun).as_nanos() as f64 / f64::from(TURNS));
        }
        Ok(least)
    }

    // What turns take, before who is ready was ever asked and afterwards.
    fn times(&mut self) -> Result<Times, Error> {
        let uncounted = self.timed(false)?;
        let (before, begun) = (resident(), clock::of_process());
        self.store.next_ready_guest(0)?;
        let (first, grown) = ((clock::of_process() - begun).as_micros(), resident().saturating_sub(before));
        println!("{} guests: the first call took {first} us, and {grown} kB", self.count);
        let times = Times { round: self.timed(false)?, turn: self.timed(true)? };
        println!(
            "    a write, a read and an event: {:.1} ns, {uncounted:.1} ns before that call",
            times.round
        );
        println!("    who is ready: {:.1} ns", times.ask());
        Ok(times)
    }
}

/// Has so many guests: by how many kB the process grew by turns, and how many times as long it took to find the one that
/// is ready as of few. Of a million guests twice as many words are looked at, so half of that is told.
pub fn run(count: u32) -> Result<Course, Error> {
    let few = Guests::new(FEW)?.times()?;
    let mut guests = Guests::new(count)?;
    let many = guests.times()?;
    let before = resident();
    guests.timed(true)?;
    Ok(Course { grown: resident().saturating_sub(before), slower: many.ask() / few.ask() / 2.0 })
}
