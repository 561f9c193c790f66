//! Cases that differ, made small.

use super::cases::Case;
use super::references::Traced;
use super::running::Runner;
use crate::grammar::parse;
use crate::programs::Program;
use std::collections::BTreeSet;
use std::io;

/// The most runs that a case is given.
const MOST_RUNS: usize = 2000;

/// The smallest case that was found to differ still.
pub fn shrunk(runner: &Runner, case: &Case) -> io::Result<Case> {
    let mut search = Search { runner, best: case.clone(), runs: 0 };
    loop {
        let before = search.best.input.clone();
        if case.program != Program::Mux && case.has_lines() {
            search.leave_out_steps()?;
        }
        let separator = if case.has_lines() { Some(b'\n') } else { None };
        search.leave_out(separator)?;
        if case.has_lines() {
            search.simplify_types()?;
            search.simplify_words()?;
        }
        if search.best.input == before || search.runs >= MOST_RUNS {
            return Ok(search.best);
        }
    }
}

struct Search<'a> {
    runner: &'a Runner,
    best: Case,
    runs: usize,
}

impl Search<'_> {
    // Takes this input in place of the best one, where it differs too.
    fn takes(&mut self, input: Vec<u8>) -> io::Result<bool> {
        if self.runs >= MOST_RUNS || input == self.best.input {
            return Ok(false);
        }
        self.runs += 1;
        let case = Case { input, ..self.best.clone() };
        let differs = self.runner.differs(&case)?;
        if differs {
            self.best = case;
        }
        Ok(differs)
    }

    // Leaves out runs of steps, the longest first; what the others name is named by its new number.
    fn leave_out_steps(&mut self) -> io::Result<()> {
        let Ok(script) = parse(&self.best.input) else { return Ok(()) };
        let traced = Traced::new(script);
        let mut is_kept = vec![true; traced.len()];
        let mut length = traced.len().div_ceil(2);
        while length > 0 {
            for start in (0..traced.len()).step_by(length) {
                let mut fewer = is_kept.clone();
                let end = (start + length).min(fewer.len());
                fewer[start..end].fill(false);
                if fewer != is_kept && self.takes(traced.kept(&fewer).text())? {
                    is_kept = fewer;
                }
            }
            length /= 2;
        }
        Ok(())
    }

    // Leaves out runs of lines, or of bytes where nothing parts them, the longest first.
    fn leave_out(&mut self, separator: Option<u8>) -> io::Result<()> {
        let mut length = pieces_of(&self.best.input, separator).len() / 2;
        while length > 0 {
            let mut start = 0;
            loop {
                let mut pieces = pieces_of(&self.best.input, separator);
                if start >= pieces.len() {
                    break;
                }
                let end = (start + length).min(pieces.len());
                drop(pieces.drain(start..end));
                if !self.takes(pieces.concat())? {
                    start += length;
                }
            }
            length /= 2;
        }
        Ok(())
    }

    // Gives each type a simpler one, wherever it stands.
    fn simplify_types(&mut self) -> io::Result<()> {
        let text = String::from_utf8_lossy(&self.best.input).into_owned();
        let types: BTreeSet<&str> = text.split_ascii_whitespace().filter(|word| word.contains(':')).collect();
        for ty in types {
            for simpler in simpler_than(ty.as_bytes()) {
                let changed = text.replace(ty, &String::from_utf8_lossy(&simpler));
                if self.takes(changed.into_bytes())? {
                    return Ok(());
                }
            }
        }
        Ok(())
    }

    // Gives each word a smaller one.
    fn simplify_words(&mut self) -> io::Result<()> {
        for at in 0..pieces_of(&self.best.input, Some(b'\n')).len() {
            for place in 1..6 {
                self.simplify_word(at, place)?;
            }
        }
        Ok(())
    }

    fn simplify_word(&mut self, at: usize, place: usize) -> io::Result<()> {
        let lines = pieces_of(&self.best.input, Some(b'\n'));
        let Some(line) = lines.get(at) else { return Ok(()) };
        let words: Vec<&[u8]> = line.trim_ascii_end().split(|byte| *byte == b' ').collect();
        let Some(word) = words.get(place) else { return Ok(()) };
        for simpler in simpler_than(word) {
            let mut words = words.clone();
            words[place] = &simpler;
            let mut line = words.join(&b' ');
            line.push(b'\n');
            let mut lines = lines.clone();
            lines[at] = line;
            if self.takes(lines.concat())? {
                break;
            }
        }
        Ok(())
    }
}

fn pieces_of(input: &[u8], separator: Option<u8>) -> Vec<Vec<u8>> {
    match separator {
        Some(separator) => input.split_inclusive(|byte| *byte == separator).map(<[u8]>::to_vec).collect(),
        None => input.iter().map(|byte| vec![*byte]).collect(),
    }
}

fn simpler_than(word: &[u8]) -> Vec<Vec<u8>> {
    let text = String::from_utf8_lossy(word);
    if let Ok(number) = text.parse::<u32>() {
        let smaller = [0, 1, 2, 4, 8, 16, number / 2, number.saturating_sub(1)];
        return smaller
            .iter()
            .filter(|found| **found < number)
            .map(|found| found.to_string().into())
            .collect();
    }
    if let Some((kind, payload)) = text.split_once(':') {
        let simple = ["none", "u8", "u16", "bool", "char", "(u8)"];
        let before = simple.iter().position(|name| *name == payload).unwrap_or(simple.len());
        return simple[..before].iter().map(|name| format!("{kind}:{name}").into_bytes()).collect();
    }
    // Bytes: fewer of them.
    if word.len() > 2 && word.iter().all(u8::is_ascii_hexdigit) {
        return vec![
            word[..2].to_vec(),
            word[..word.len() / 4 * 2].to_vec(),
            word[..word.len() - 2].to_vec(),
        ];
    }
    Vec::new()
}
