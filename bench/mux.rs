//! The demux of `strm_bench` in plain Rust: it keeps the lanes' bytes and less than a frame more, takes a
//! piece of any length whole or not at all, and answers a fault from then on.
//!
//! `bench/mux` times both.

use std::hint::black_box;
use std::time::Instant;

const FRAME: usize = 258;
const SIZES: [usize; 3] = [1, 64, 65_536];

#[derive(Clone, Copy, Debug)]
#[allow(dead_code)]
enum Fault {
    BadKind { at: u64 },
    EmptyFrame { at: u64 },
    AfterEnd { at: u64 },
}

// A frame, and how many bytes it has.
enum Front<'a> {
    Data { lane: u8, bytes: &'a [u8], len: usize },
    End { lane: u8, len: usize },
    Part,
    Other,
    Empty,
}

#[inline(always)]
fn front(bytes: &[u8]) -> Front<'_> {
    match *bytes {
        [] | [0] | [0, _] | [1] => Front::Part,
        [0, _, 0, ..] => Front::Empty,
        [0, lane, len, ..] => match bytes.get(3..3 + len as usize) {
            Some(bytes) => Front::Data { lane, bytes, len: 3 + len as usize },
            None => Front::Part,
        },
        [1, lane, ..] => Front::End { lane, len: 2 },
        _ => Front::Other,
    }
}

struct Demux {
    lanes: [Vec<u8>; 256],
    ended: [bool; 256],
    rest: Vec<u8>,
    place: u64,
    fault: Option<Fault>,
}

impl Demux {
    fn new() -> Demux {
        Demux {
            lanes: std::array::from_fn(|_| Vec::new()),
            ended: [false; 256],
            rest: Vec::new(),
            place: 0,
            fault: None,
        }
    }

    fn feed(&mut self, piece: &[u8]) -> Result<(), Fault> {
        if let Some(fault) = self.fault {
            return Err(fault);
        }
        let before = self.rest.len();
        let mut more = piece;
        if before > 0 {
            self.rest.extend_from_slice(&piece[..piece.len().min(257)]);
            let len = match front(&self.rest) {
                Front::Data { len, .. } | Front::End { len, .. } => len,
                Front::Part => return Ok(()),
                Front::Other | Front::Empty => self.rest.len(),
            };
            self.rest.truncate(len);
            more = &piece[len - before..];
        }
        let mut ended = self.ended;
        let found = survey(&self.rest, self.place, &mut ended)
            .and_then(|first| Ok((first, survey(more, self.place + first as u64, &mut ended)?)));
        let (first, used) = match found {
            Ok(found) => found,
            Err(fault) => {
                self.rest.truncate(before);
                self.fault = Some(fault);
                return Err(fault);
            }
        };
        append(&mut self.lanes, &self.rest);
        append(&mut self.lanes, &more[..used]);
        self.rest.clear();
        self.rest.extend_from_slice(&more[used..]);
        self.ended = ended;
        self.place += (first + used) as u64;
        Ok(())
    }
}

// How many bytes the whole frames have, all of which may be taken.
fn survey(bytes: &[u8], place: u64, ended: &mut [bool; 256]) -> Result<usize, Fault> {
    let mut done = 0;
    loop {
        let at = place + done as u64;
        match front(&bytes[done..]) {
            Front::Data { lane, .. } | Front::End { lane, .. } if ended[lane as usize] => {
                return Err(Fault::AfterEnd { at });
            }
            Front::Data { len, .. } => done += len,
            Front::End { lane, len } => {
                ended[lane as usize] = true;
                done += len;
            }
            Front::Part => return Ok(done),
            Front::Other => return Err(Fault::BadKind { at }),
            Front::Empty => return Err(Fault::EmptyFrame { at }),
        }
    }
}

fn append(lanes: &mut [Vec<u8>; 256], bytes: &[u8]) {
    let mut rest = bytes;
    loop {
        match front(rest) {
            Front::Data { lane, bytes, len } => {
                lanes[lane as usize].extend_from_slice(bytes);
                rest = &rest[len..];
            }
            Front::End { len, .. } => rest = &rest[len..],
            _ => return,
        }
    }
}

fn frames(bytes: usize) -> Vec<u8> {
    let mut stream = Vec::new();
    for number in 0..bytes / FRAME {
        stream.extend_from_slice(&[0, (number % 256) as u8, 255]);
        stream.extend_from_slice(&[7; 255]);
    }
    stream
}

fn main() {
    let bytes = std::env::args().nth(1).and_then(|word| word.parse().ok()).unwrap_or(4_194_304);
    let stream = black_box(frames(bytes));
    for size in SIZES {
        let mut demux = Demux::new();
        let start = Instant::now();
        for piece in stream.chunks(black_box(size)) {
            if let Err(fault) = demux.feed(piece) {
                eprintln!("{fault:?}");
            }
        }
        let spent = start.elapsed().as_nanos();
        let heard: usize = demux.lanes.iter().map(Vec::len).sum();
        println!("in pieces of {size}: {heard} bytes in the lanes");
        eprintln!("pieces of {size}: {spent} ns");
    }
}
