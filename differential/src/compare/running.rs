//! Runs of the programs that are compared.

use super::cases::Case;
use crate::programs::{Output, Program};
use std::fs::File;
use std::io::{self, Read};
use std::os::unix::ffi::OsStrExt;
use std::os::unix::process::ExitStatusExt;
use std::path::PathBuf;
use std::process::{Command, Stdio};

/// How a program is started: a command and its first words, the program's own to come behind them.
#[derive(Clone, Debug)]
pub struct Start {
    pub program: Program,
    pub command: Vec<String>,
}

/// Starts programs, one after the other, with an input that lies in a file of its own.
#[derive(Debug)]
pub struct Runner {
    starts: Vec<Start>,
    input: PathBuf,
}

impl Runner {
    /// One that keeps its inputs in this file.
    pub fn new(starts: &[Start], input: PathBuf) -> Runner {
        Runner { starts: starts.to_vec(), input }
    }

    /// What the program wrote, and its status: 128 and the signal's number where one ended it.
    pub fn output(&self, case: &Case) -> io::Result<Output> {
        let start = self.starts.iter().find(|start| start.program == case.program);
        let Some((command, words)) = start.and_then(|start| start.command.split_first()) else {
            return Err(io::Error::other(format!("it was not said how {} is started", case.program)));
        };
        std::fs::write(&self.input, &case.input)?;
        let mut running = Command::new(command)
            .args(words)
            .args(case.words.iter().map(|word| std::ffi::OsStr::from_bytes(word)))
            .stdin(File::open(&self.input)?)
            .stdout(Stdio::piped())
            .stderr(Stdio::null())
            .spawn()?;
        let mut text = Vec::new();
        if let Some(mut stdout) = running.stdout.take() {
            stdout.read_to_end(&mut text)?;
        }
        let ended = running.wait()?;
        let status = ended.code().unwrap_or_else(|| 128 + ended.signal().unwrap_or(0));
        Ok(Output { status: status as u8, text })
    }

    /// Whether the program and the second implementation differ.
    pub fn differs(&self, case: &Case) -> io::Result<bool> {
        Ok(self.output(case)? != case.output())
    }
}

impl Drop for Runner {
    fn drop(&mut self) {
        // A file that is not there needs no removal.
        drop(std::fs::remove_file(&self.input));
    }
}
