//! Writes so many bytes of a text that repeats, in pieces, and then drops its end.
#![no_std]

mod canon;
use canon::{set_of, wait_for, Code, Kept, Writer, EVENT_STREAM_WRITE, EXIT};

const TEXT: &[u8; 34] = b"a count reported is a count moved\n";
const PIECE: usize = 65536;

struct Source {
    out: Writer,
    set: u32,
    left: usize,
    at: usize,
    text: [u8; PIECE + TEXT.len()],
}

static SOURCE: Kept<Source> = Kept::new(Source {
    out: Writer(0),
    set: 0,
    left: 0,
    at: 0,
    text: [0; PIECE + TEXT.len()],
});

impl Source {
    fn begin(&mut self, out: u32, size: u32) {
        self.out = Writer(out);
        self.set = set_of(&[out]);
        self.left = size as usize;
        for (byte, letter) in self.text.iter_mut().zip(TEXT.iter().cycle()) {
            *byte = *letter;
        }
    }

    fn moved(&mut self, code: Code) {
        self.left = if code.is_dropped() {
            0
        } else {
            self.left - code.count()
        };
        self.at = (self.at + code.count()) % TEXT.len();
    }

    fn go_on(&mut self) -> u32 {
        while self.left > 0 {
            let piece = &self.text[self.at..self.at + self.left.min(PIECE)];
            match unsafe { self.out.write(piece) } {
                Some(code) => self.moved(code),
                None => return wait_for(self.set),
            }
        }
        self.out.drop();
        EXIT
    }
}

#[no_mangle]
pub extern "C" fn run(_from: u32, to: u32, size: u32) -> u32 {
    SOURCE.with(|source| {
        source.begin(to, size);
        source.go_on()
    })
}

#[no_mangle]
pub extern "C" fn callback(event: u32, _handle: u32, word: u32) -> u32 {
    SOURCE.with(|source| {
        if let (EVENT_STREAM_WRITE, Some(code)) = (event, Code::of(word)) {
            source.moved(code);
        }
        source.go_on()
    })
}
