//! The program of lanes: what its lines put on each.

use crate::grammar::{hex_in, lines_of, number_in};
use crate::programs::Output;
use crate::session::{put_hex, put_line};

/// The most bytes of its input.
const MOST_BYTES: usize = 262_144;

#[derive(Clone, Default)]
struct Lane {
    bytes: Vec<u8>,
    is_named: bool,
    has_ended: bool,
}

// What lines put on lanes, and the bytes of their frames.
struct Lanes {
    all: Vec<Lane>,
    framed: usize,
}

impl Lanes {
    // None where the line is not in the grammar, or names a lane that ended.
    fn put(&mut self, line: &[u8]) -> Option<()> {
        let mut words = line.split(|byte| *byte == b' ');
        let command = words.next()?;
        let lane = u8::try_from(number_in(words.next()?)?).ok()?;
        let lane = &mut self.all[usize::from(lane)];
        if lane.has_ended {
            return None;
        }
        match command {
            b"lane" => self.framed += 3 + usize::from(hex_in(words.next()?, &mut lane.bytes)?),
            b"end" => {
                lane.has_ended = true;
                self.framed += 2;
            }
            _ => return None,
        }
        lane.is_named = true;
        words.next().is_none().then_some(())
    }

    fn text(&self) -> Vec<u8> {
        let mut text = Vec::new();
        for (number, lane) in self.all.iter().enumerate().filter(|(_, lane)| lane.is_named) {
            text.extend_from_slice(format!("lane {number} {}", lane.bytes.len()).as_bytes());
            if !lane.bytes.is_empty() {
                text.push(b' ');
                put_hex(&mut text, &lane.bytes);
            }
            text.extend_from_slice(if lane.has_ended { b" end\n" } else { b"\n" });
        }
        put_line(&mut text, format_args!("moved {}", self.framed));
        text
    }
}

/// What `mux` writes, given these words and this input.
pub fn mux(words: &[&[u8]], input: &[u8]) -> Output {
    let is_asked = words.len() == 2
        && words.iter().all(|word| number_in(word).is_some_and(|size| (16..=64).contains(&size)));
    if !is_asked {
        return Output::line(1, "usage: mux WRITE READ");
    }
    if input.len() > MOST_BYTES {
        return Output::line(3, "too long");
    }
    let mut lanes = Lanes { all: vec![Lane::default(); 256], framed: 0 };
    for (place, line) in lines_of(input).enumerate() {
        if lanes.put(line).is_none() {
            return Output::line(2, &format!("bad line {}", place + 1));
        }
    }
    Output { status: 0, text: lanes.text() }
}
