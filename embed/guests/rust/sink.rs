//! Reads pieces until the writer is gone, and keeps their number, a hash of all bytes, and the first of them.
#![no_std]

mod canon;
use canon::{set_of, wait_for, Code, Kept, Reader, EVENT_STREAM_READ, EXIT};

struct Sink {
    from: Reader,
    set: u32,
    piece: [u8; 65536],
    first: [u8; 4096],
    total: usize,
    hash: u32,
    ended: bool,
}

static SINK: Kept<Sink> = Kept::new(Sink {
    from: Reader(0),
    set: 0,
    piece: [0; 65536],
    first: [0; 4096],
    total: 0,
    hash: 0,
    ended: false,
});

impl Sink {
    fn begin(&mut self, from: u32) {
        self.from = Reader(from);
        self.set = set_of(&[from]);
    }

    fn got(&mut self, code: Code) {
        let bytes = &self.piece[..code.count()];
        self.hash = bytes.iter().fold(self.hash, |hash, byte| {
            hash.wrapping_mul(31).wrapping_add(u32::from(*byte))
        });
        for (kept, byte) in self.first.iter_mut().skip(self.total).zip(bytes) {
            *kept = *byte;
        }
        self.total += bytes.len();
        self.ended = code.is_dropped();
    }

    fn go_on(&mut self) -> u32 {
        while !self.ended {
            match unsafe { self.from.read(&mut self.piece) } {
                Some(code) => self.got(code),
                None => return wait_for(self.set),
            }
        }
        self.from.drop();
        EXIT
    }
}

#[no_mangle]
pub extern "C" fn run(from: u32, _to: u32, _size: u32) -> u32 {
    SINK.with(|sink| {
        sink.begin(from);
        sink.go_on()
    })
}

#[no_mangle]
pub extern "C" fn callback(event: u32, _handle: u32, word: u32) -> u32 {
    SINK.with(|sink| {
        if let (EVENT_STREAM_READ, Some(code)) = (event, Code::of(word)) {
            sink.got(code);
        }
        sink.go_on()
    })
}

#[no_mangle]
pub extern "C" fn total() -> u32 {
    SINK.with(|sink| sink.total as u32)
}

#[no_mangle]
pub extern "C" fn hash() -> u32 {
    SINK.with(|sink| sink.hash)
}

#[no_mangle]
pub extern "C" fn first() -> u32 {
    SINK.with(|sink| sink.first.as_ptr() as u32)
}
