//! The program of tapes: a run as bytes, and bytes that are played again.

mod reading;
mod writing;

use crate::hosts::{HostReader, HostWriter, Hosts};
use crate::payload::TransmitIndex;
use crate::programs::{Output, script_of};
use crate::records::{ReaderRecord, WriterRecord};
use crate::session::run;
use crate::steps::{Script, Step};

/// The most bytes of a tape.
const MOST_BYTES: usize = 1 << 26;

/// What a tape begins with, by its version: the first knows neither floats nor types that hold others.
const HEADS: [&[u8]; 2] = [b"STRT\x01", b"STRT\x02"];

/// The steps of a run, and what its host ends recorded.
#[derive(Clone, Debug, Default)]
pub struct Tape {
    pub script: Script,
    pub writers: Vec<(TransmitIndex, Vec<WriterRecord>)>,
    pub readers: Vec<(TransmitIndex, Vec<ReaderRecord>)>,
}

impl Tape {
    /// Its spelling.
    pub fn bytes(&self) -> Vec<u8> {
        writing::bytes_of(self)
    }

    // What it begins with: the least version that can say it.
    fn head(&self) -> &'static [u8] {
        let ends = self.writers.iter().map(|(ty, _)| *ty).chain(self.readers.iter().map(|(ty, _)| *ty));
        let is_new = self.script.steps.iter().filter_map(Step::ty).chain(ends).any(|ty| ty.payload.is_new());
        HEADS[usize::from(is_new)]
    }

    // The host ends that follow it.
    fn hosts(&self) -> Hosts {
        let writers = self.writers.iter().map(|(ty, plan)| HostWriter::replay(*ty, plan.clone()));
        let readers = self.readers.iter().map(|(ty, plan)| HostReader::replay(*ty, plan.clone()));
        Hosts { writers: writers.collect(), readers: readers.collect() }
    }

    // Whether host ends recorded what it says, and no more.
    fn is_of(&self, hosts: &Hosts) -> bool {
        self.writers.iter().zip(&hosts.writers).all(|((_, plan), writer)| *plan == writer.records)
            && self.readers.iter().zip(&hosts.readers).all(|((_, plan), reader)| *plan == reader.records)
    }
}

/// What `tape` writes, given these words and this input.
pub fn tape(words: &[&[u8]], input: &[u8]) -> Output {
    match words {
        [b"take"] => match script_of(input) {
            Ok(script) => Output { status: 0, text: taken(script).bytes() },
            Err(output) => output,
        },
        [b"play"] if input.len() > MOST_BYTES => Output::line(3, "too long"),
        [b"play"] => match reading::tape_of(input) {
            Some(tape) => played(&tape),
            None => Output::line(11, "not a tape"),
        },
        _ => Output::line(1, "usage: tape take | tape play"),
    }
}

fn taken(script: Script) -> Tape {
    let hosts = run(&script, Hosts::of_program()).store.hosts;
    Tape {
        script,
        writers: hosts.writers.into_iter().map(|writer| (writer.ty, writer.records)).collect(),
        readers: hosts.readers.into_iter().map(|reader| (reader.ty, reader.records)).collect(),
    }
}

fn played(tape: &Tape) -> Output {
    let run = run(&tape.script, tape.hosts());
    if !tape.is_of(&run.store.hosts) {
        return Output::line(10, "differs");
    }
    Output { status: run.status(), text: run.text() }
}
