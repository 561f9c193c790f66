//! Reads pieces, makes their letters upper case, and writes them on.
#![no_std]

mod canon;
use canon::{set_of, wait_for, Code, Kept, Reader, Writer, EVENT_STREAM_READ, EVENT_STREAM_WRITE, EXIT};

struct Filter {
    from: Reader,
    to: Writer,
    set: u32,
    piece: [u8; 65536],
    have: usize,
    sent: usize,
    reading: bool,
    writing: bool,
    ended: bool,
}

static FILTER: Kept<Filter> = Kept::new(Filter {
    from: Reader(0),
    to: Writer(0),
    set: 0,
    piece: [0; 65536],
    have: 0,
    sent: 0,
    reading: false,
    writing: false,
    ended: false,
});

impl Filter {
    fn begin(&mut self, from: u32, to: u32) {
        self.from = Reader(from);
        self.to = Writer(to);
        self.set = set_of(&[from, to]);
    }

    /// What a read or its event tells. An end that has nothing under way is told too that the other is gone.
    fn got(&mut self, code: Code) {
        if code.count() > 0 {
            self.have = code.count();
            self.sent = 0;
            self.piece[..self.have].make_ascii_uppercase();
        }
        self.reading = false;
        self.ended |= code.is_dropped();
    }

    /// The same of a write: where nobody reads any more, there is no more to do.
    fn gave(&mut self, code: Code) {
        self.writing = false;
        self.sent += code.count();
        if code.is_dropped() {
            self.have = self.sent;
            self.ended = true;
        }
    }

    /// Whether it goes on at once.
    fn write_on(&mut self) -> bool {
        if self.writing {
            return false;
        }
        match unsafe { self.to.write(&self.piece[self.sent..self.have]) } {
            Some(code) => self.gave(code),
            None => self.writing = true,
        }
        true
    }

    /// Whether it goes on at once.
    fn read_on(&mut self) -> bool {
        if self.reading {
            return false;
        }
        match unsafe { self.from.read(&mut self.piece) } {
            Some(code) => self.got(code),
            None => self.reading = true,
        }
        true
    }

    fn go_on(&mut self) -> u32 {
        while !self.ended || self.sent < self.have {
            let goes_on = if self.sent < self.have {
                self.write_on()
            } else {
                self.read_on()
            };
            if !goes_on {
                return wait_for(self.set);
            }
        }
        self.finish()
    }

    fn finish(&self) -> u32 {
        if self.reading {
            self.from.cancel();
        }
        self.from.drop();
        self.to.drop();
        EXIT
    }
}

#[no_mangle]
pub extern "C" fn run(from: u32, to: u32, _size: u32) -> u32 {
    FILTER.with(|filter| {
        filter.begin(from, to);
        filter.go_on()
    })
}

#[no_mangle]
pub extern "C" fn callback(event: u32, _handle: u32, word: u32) -> u32 {
    FILTER.with(|filter| {
        match (event, Code::of(word)) {
            (EVENT_STREAM_READ, Some(code)) => filter.got(code),
            (EVENT_STREAM_WRITE, Some(code)) => filter.gave(code),
            _ => (),
        }
        filter.go_on()
    })
}
