//! Streams and futures, one after the other in one store, each of them used.

use crate::process::resident;
use crate::{two_guests, Course};
use std::time::Instant;
use strm::{Code, Error, Guest, Payload, Store, Type};

/// So many are made before growth is looked at.
const FIRST: u64 = 1000;

struct Guests {
    store: Store,
    writer: Guest,
    reader: Guest,
}

impl Guests {
    fn new() -> Result<Guests, Error> {
        let (mut store, writer, reader) = two_guests(4096)?;
        store.memory_mut(writer)?.fill(7);
        Ok(Guests { store, writer, reader })
    }

    // A stream passes eight bytes, and the ends are dropped in this order or the other.
    fn stream(&mut self, is_writer_first: bool) -> Result<(), Error> {
        let (writer, reader, bytes) = (self.writer, self.reader, Payload::U8);
        let pair = self.store.new_between(writer, reader, Type::Stream(bytes))?;
        let written = self.store.stream_write(writer, bytes, pair.write, 0, 8)?;
        let read = self.store.stream_read(reader, bytes, pair.read, 64, 8)?;
        let told = self.store.take_event(writer, pair.write)?;
        assert_eq!((written, read, told), (Code::Blocked, Code::Completed(8), Some(Code::Completed(8))));
        if is_writer_first {
            self.store.stream_drop_writable(writer, bytes, pair.write)?;
            return self.store.stream_drop_readable(reader, bytes, pair.read);
        }
        self.store.stream_drop_readable(reader, bytes, pair.read)?;
        self.store.stream_drop_writable(writer, bytes, pair.write)
    }

    fn future(&mut self) -> Result<(), Error> {
        let (writer, reader, word) = (self.writer, self.reader, Payload::U32);
        let pair = self.store.new_between(writer, reader, Type::Future(word))?;
        let read = self.store.future_read(reader, word, pair.read, 64)?;
        let written = self.store.future_write(writer, word, pair.write, 0)?;
        assert_eq!((read, written), (Code::Blocked, Code::Completed(0)));
        self.store.future_drop_writable(writer, word, pair.write)?;
        let told = self.store.take_event(reader, pair.read)?;
        assert_eq!(told, Some(Code::Completed(0)));
        self.store.future_drop_readable(reader, word, pair.read)
    }
}

/// Makes so many: by how many kB the process grew behind the first.
pub fn run(count: u64) -> Result<Course, Error> {
    let mut guests = Guests::new()?;
    let before = resident();
    let (mut behind_first, begun) = (before, Instant::now());
    for made in 0..count {
        match made % 4 {
            3 => guests.future()?,
            order => guests.stream(order == 0)?,
        }
        if made + 1 == FIRST {
            behind_first = resident();
        }
    }
    let (end, each) = (resident(), begun.elapsed().as_nanos() as f64 / count as f64);
    println!("{count} streams and futures made, used and dropped, {each:.0} ns each");
    println!("resident: {before} kB before, {behind_first} kB behind the first {FIRST}, {end} kB at the end");
    Ok(Course { grown: end.saturating_sub(behind_first), slower: 1.0 })
}
