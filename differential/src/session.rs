//! Runs of a script, and what is written of them.

use crate::codes::{ReturnCode, Stop, StoreError};
use crate::hosts::Hosts;
use crate::steps::Script;
use crate::store::{Reply, Store};
use std::io::Write;

/// A run: the text of its replies, and what became of it.
#[derive(Debug, Default)]
pub struct Run {
    /// A line for each reply.
    pub replies: Vec<u8>,
    pub refused: usize,
    pub blocked: usize,
    /// The steps that were answered.
    pub done: usize,
    pub stop: Option<Stop>,
    /// The store as it is then; its host ends have their records.
    pub store: Store,
}

/// Runs a script among these host ends.
pub fn run(script: &Script, hosts: Hosts) -> Run {
    let mut run = Run { store: Store::new(hosts), ..Run::default() };
    run.replies.reserve(12 * script.steps.len());
    for step in &script.steps {
        match run.store.apply(script, step) {
            Ok(reply) => {
                run.blocked += usize::from(reply == Reply::Code(ReturnCode::Blocked));
                write_reply(&mut run.replies, &reply);
            }
            Err(StoreError::Refused(refusal)) => {
                run.refused += 1;
                write_reply(&mut run.replies, &Reply::Refused(refusal));
            }
            Err(StoreError::Stopped(stop)) => {
                run.stop = Some(stop);
                break;
            }
        }
        run.done += 1;
    }
    run
}

impl Run {
    /// The status of a program that made the run.
    pub fn status(&self) -> u8 {
        self.stop.map_or(0, Stop::status)
    }

    /// The text of the run: its replies, and the counts of its streams, or why it stopped.
    pub fn text(mut self) -> Vec<u8> {
        let mut text = std::mem::take(&mut self.replies);
        match self.stop {
            Some(stop) => put_line(&mut text, format_args!("stopped {} {stop}", self.done + 1)),
            None => self.write_counts(&mut text),
        }
        text
    }

    /// The summary of a run that did not stop.
    pub fn summary(&self) -> Vec<u8> {
        let mut text = Vec::new();
        put_line(&mut text, format_args!("refused {}", self.refused));
        put_line(&mut text, format_args!("blocked {}", self.blocked));
        self.write_counts(&mut text);
        text
    }

    fn write_counts(&self, text: &mut Vec<u8>) {
        for (number, stream) in self.store.streams.iter().enumerate() {
            text.extend_from_slice(b"stream ");
            put_decimal(text, number as u64);
            text.extend_from_slice(b" moved ");
            put_decimal(text, stream.moved);
            text.push(b'\n');
        }
        put_line(text, format_args!("done {}", self.done));
    }
}

/// Appends a line.
pub fn put_line(text: &mut Vec<u8>, line: std::fmt::Arguments) {
    writeln!(text, "{line}").expect("a vector takes all that is written");
}

fn put_decimal(text: &mut Vec<u8>, mut number: u64) {
    let mut digits = [0; 20];
    let mut start = digits.len();
    loop {
        start -= 1;
        digits[start] = b'0' + (number % 10) as u8;
        number /= 10;
        if number == 0 {
            break;
        }
    }
    text.extend_from_slice(&digits[start..]);
}

const DIGITS: &[u8; 16] = b"0123456789abcdef";

/// Appends bytes as pairs of hexadecimal digits.
pub fn put_hex(text: &mut Vec<u8>, bytes: &[u8]) {
    for byte in bytes {
        text.extend_from_slice(&[DIGITS[usize::from(byte >> 4)], DIGITS[usize::from(byte & 15)]]);
    }
}

fn put_event(text: &mut Vec<u8>, event: Option<ReturnCode>) {
    match event {
        Some(code) => {
            let word = code.encode();
            let digits: [u8; 8] =
                std::array::from_fn(|place| DIGITS[(word >> (28 - 4 * place) & 15) as usize]);
            text.extend_from_slice(&digits);
        }
        None => text.extend_from_slice(b"none"),
    }
}

fn write_reply(text: &mut Vec<u8>, reply: &Reply) {
    match *reply {
        Reply::Done => text.extend_from_slice(b"ok"),
        Reply::Number(number) => put_decimal(text, u64::from(number)),
        Reply::Pair { read, write, stream } => {
            for (word, number) in [("read ", read), (" write ", write), (" stream ", stream)] {
                text.extend_from_slice(word.as_bytes());
                put_decimal(text, u64::from(number));
            }
        }
        Reply::Code(code) => put_event(text, Some(code)),
        Reply::Event(event) => put_event(text, event),
        Reply::Member(None) => put_event(text, None),
        Reply::Member(Some((handle, code))) => {
            put_decimal(text, u64::from(handle));
            text.push(b' ');
            put_event(text, Some(code));
        }
        Reply::Bytes(bytes) => put_hex(text, bytes),
        Reply::Refused(refusal) => {
            text.extend_from_slice(b"refused ");
            text.extend_from_slice(refusal.name().as_bytes());
        }
    }
    text.push(b'\n');
}
