//! Guests that begin and end, one after the other in one store, each with a stream to the next.

use crate::process::resident;
use crate::{two_guests, Course};
use strm::{Code, Error, Guest, Memory, Pair, Payload, Store, Type};

/// How many bytes each guest's memory has.
const SIZE: usize = 256 * 1024;

/// How many it writes at once.
const PIECE: u32 = 4096;

/// How many bytes a memory has of which none is touched.
const WIDE: usize = 1 << 30;

const BYTES: Payload = Payload::U8;

/// Two guests at a time, the older of which writes to the younger.
struct Lives {
    store: Store,
    older: Guest,
    younger: Guest,
    stream: Pair,
    // How many have ended.
    ended: u64,
}

impl Lives {
    fn new() -> Result<Lives, Error> {
        let (mut store, older, younger) = two_guests(SIZE as u32)?;
        let stream = store.new_between(older, younger, Type::Stream(BYTES))?;
        Ok(Lives { store, older, younger, stream, ended: 0 })
    }

    // The older ends with a write under way, the younger is told so, and another begins under the number.
    fn next(&mut self) -> Result<(), Error> {
        self.pass()?;
        let Lives { older, younger, stream, .. } = *self;
        let waits = self.store.stream_write(older, BYTES, stream.write, 0, PIECE)?;
        self.store.end_guest(older)?;
        let told = self.store.take_event(younger, stream.read)?;
        assert_eq!((waits, told), (Code::Blocked, Some(Code::Dropped(0))));
        self.store.stream_drop_readable(younger, BYTES, stream.read)?;
        self.ended += 1;
        self.begin(older)?;
        self.stream = self.store.new_between(younger, older, Type::Stream(BYTES))?;
        (self.older, self.younger) = (younger, older);
        Ok(())
    }

    // A piece goes from the end of the one memory to the end of the other.
    fn pass(&mut self) -> Result<(), Error> {
        let Lives { older, younger, stream, ended, .. } = *self;
        let (mark, place) = (ended as u8, SIZE as u32 - PIECE);
        self.store.memory_mut(older)?.fill(mark);
        let waits = self.store.stream_read(younger, BYTES, stream.read, place, PIECE)?;
        let written = self.store.stream_write(older, BYTES, stream.write, place, PIECE)?;
        let told = self.store.take_event(younger, stream.read)?;
        let came = Code::Completed(PIECE);
        assert_eq!((waits, written, told), (Code::Blocked, came, Some(came)));
        assert_eq!(self.store.memory(younger)?[SIZE - 1], mark);
        Ok(())
    }

    // With a memory of each kind in turn.
    fn begin(&mut self, guest: Guest) -> Result<(), Error> {
        match self.ended % 3 {
            0 => self.store.begin_guest(guest, SIZE as u32),
            1 => self.store.begin_guest_with(guest, Memory::from(vec![0; SIZE])),
            _ => self.store.begin_guest_with(guest, Memory::mapped(SIZE, WIDE)?),
        }
    }

    // By how many kB the process grows by a guest with a memory that is not touched, and by how many once it has ended.
    fn wide(&mut self) -> Result<(u64, u64), Error> {
        let before = resident();
        let guest = self.store.add_guest_with(Memory::mapped(WIDE, WIDE)?)?;
        let grown = resident().saturating_sub(before);
        self.store.end_guest(guest)?;
        Ok((grown, resident().saturating_sub(before)))
    }
}

fn least(times: &[f64]) -> f64 {
    times.iter().copied().fold(f64::INFINITY, f64::min)
}

/// Begins and ends so many, or some less: by how many kB the process grew behind the first tenth, and how many times as
/// long one of the last half took as one of the first.
pub fn run(count: u64) -> Result<Course, Error> {
    let mut lives = Lives::new()?;
    // So that all figures are taken with the same kinds of memory there.
    let tenth = (count / 60).max(1) * 6;
    let (mut figures, mut times) = (Vec::new(), Vec::new());
    for _ in 0..10 {
        let begun = clock::of_process();
        for _ in 0..tenth {
            lives.next()?;
        }
        let each = (clock::of_process() - begun).as_secs_f64() * 1e6 / tenth as f64;
        println!("{} guests have ended, {each:.1} us each, {} kB resident", lives.ended, resident());
        figures.push(resident());
        times.push(each);
    }
    let (wide, behind) = lives.wide()?;
    println!("a guest of 1 GiB that is not touched: {wide} kB more, and {behind} kB once it has ended");
    let most = figures.iter().copied().max().unwrap_or(0);
    let grown = (most - figures[0]).max(wide).max(behind);
    Ok(Course { grown, slower: least(&times[5..]) / least(&times[..5]) })
}
