//! The programs: what each writes, and its status.

use crate::generated::{MOST_DRAWN, generated};
use crate::grammar::{ParseError, number_in, parse};
use crate::hosts::Hosts;
use crate::session::run;
use crate::steps::Script;
use crate::{chain, lanes, tape};
use std::fmt;

/// What a program wrote, and its status.
#[derive(Clone, Debug, PartialEq, Eq)]
pub struct Output {
    pub status: u8,
    pub text: Vec<u8>,
}

impl Output {
    /// One line.
    pub fn line(status: u8, line: &str) -> Output {
        Output { status, text: format!("{line}\n").into_bytes() }
    }
}

/// One of the programs.
#[derive(Clone, Copy, Debug, PartialEq, Eq)]
pub enum Program {
    Strm,
    Chain,
    Mux,
    Tape,
}

impl Program {
    pub const ALL: [Program; 4] = [Program::Strm, Program::Chain, Program::Mux, Program::Tape];

    /// What it writes, given the words behind its name and its input.
    pub fn output(self, words: &[&[u8]], input: &[u8]) -> Output {
        match self {
            Program::Strm => strm(words, input),
            Program::Chain => chain::chain(words, input),
            Program::Mux => lanes::mux(words, input),
            Program::Tape => tape::tape(words, input),
        }
    }

    /// The most bytes that it reads.
    pub fn most_read(self) -> u64 {
        1 + match self {
            Program::Strm => 1 << 24,
            Program::Chain => 1 << 16,
            Program::Mux => 1 << 18,
            Program::Tape => 1 << 26,
        }
    }
}

impl fmt::Display for Program {
    fn fmt(&self, f: &mut fmt::Formatter<'_>) -> fmt::Result {
        f.write_str(match self {
            Program::Strm => "strm",
            Program::Chain => "chain",
            Program::Mux => "mux",
            Program::Tape => "tape",
        })
    }
}

/// The script that an input is, or what is written in place of its run.
pub fn script_of(input: &[u8]) -> Result<Script, Output> {
    parse(input).map_err(|error| match error {
        ParseError::TooLong => Output::line(3, "too long"),
        ParseError::BadLine(number) => Output::line(2, &format!("bad line {number}")),
    })
}

fn strm(words: &[&[u8]], input: &[u8]) -> Output {
    match words {
        [b"run"] => match script_of(input) {
            Ok(script) => {
                let run = run(&script, Hosts::of_program());
                Output { status: run.status(), text: run.text() }
            }
            Err(output) => output,
        },
        [b"gen", count, seed] if let (Some(count), Some(seed)) = (number_in(count), number_in(seed)) => {
            if count > MOST_DRAWN {
                return Output::line(3, "too long");
            }
            let run = run(&generated(count, seed), Hosts::of_program());
            Output { status: 0, text: run.summary() }
        }
        _ => Output::line(1, "usage: strm run | strm gen N SEED"),
    }
}
