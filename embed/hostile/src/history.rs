//! A store's calls, made of the archive and of the model, and what the two differ in.

use crate::archive::{Answer, Archive, Words};
use crate::calls::Call;
use crate::model::Model;
use crate::sys;
use crate::words::name_of;
use std::fmt;

/// A call, and how many of its allocations are granted: all, if nothing is said.
#[derive(Clone, Copy, Debug)]
pub struct Step {
    pub call: Call,
    pub granted: Option<u32>,
}

/// What `strm_store_new` is given.
#[derive(Clone, Copy, Debug)]
pub struct Beginning {
    pub tag: u64,
    pub handles: usize,
    pub places: u32,
}

/// A store's calls from the first on.
#[derive(Clone, Debug)]
pub struct History {
    pub beginning: Beginning,
    pub steps: Vec<Step>,
}

/// What the archive did otherwise than the model.
#[derive(Clone, Debug)]
pub struct Difference(pub String);

/// A store of both.
pub struct Run {
    archive: Archive,
    pub model: Model,
    made: u32,
}

impl Run {
    /// A new store; before it one whose allocations are refused, if that is wanted.
    pub fn begin(beginning: Beginning, is_scarce: bool) -> Result<Run, Difference> {
        let Beginning { tag, handles, places } = beginning;
        let new = |granted| Archive::new(tag, handles, places, granted);
        if is_scarce && new(Some(0)).1 != sys::OUT_OF_MEMORY {
            return Err(Difference("a store is made without memory".to_owned()));
        }
        let (archive, status) = new(None);
        if status != 0 {
            return Err(Difference(format!("no store is made: {}", name_of(status))));
        }
        Ok(Run { archive, model: Model::new(tag, handles, places), made: 0 })
    }

    // What lies at `out` before the next call: other words each time.
    fn before(&mut self) -> Words {
        self.made = self.made.wrapping_add(1);
        std::array::from_fn(|place| {
            self.made.wrapping_mul(0x9e37_79b9).wrapping_mul(2 * place as u32 + 1).into()
        })
    }

    /// Makes a call: what both answered.
    pub fn step(&mut self, step: &Step) -> Result<Answer, Difference> {
        let before = self.before();
        let seen = self.archive.answer(&step.call, before, step.granted);
        let expected = self.model.answer(&step.call, before, &seen);
        if seen != expected {
            return Err(Difference(told(&seen, &expected)));
        }
        if seen.status == sys::OUT_OF_MEMORY && !self.archive.was_refused() {
            return Err(Difference("answers OUT_OF_MEMORY, and no allocation was refused".to_owned()));
        }
        self.compare_memories()?;
        Ok(seen)
    }

    fn compare_memories(&self) -> Result<(), Difference> {
        for (guest, (seen, expected)) in self.archive.memories().zip(self.model.memories()).enumerate() {
            if seen != expected {
                let at = seen.iter().zip(expected).position(|(seen, expected)| seen != expected);
                let at = at.unwrap_or(seen.len().min(expected.len()));
                return Err(Difference(format!("guest {guest} has another byte at {at} than it should")));
            }
        }
        Ok(())
    }
}

// In what an answer differs from the one expected.
fn told(seen: &Answer, expected: &Answer) -> String {
    let mut text = format!("answers {}", name_of(seen.status));
    if seen.status != expected.status {
        text += &format!(" and not {}", name_of(expected.status));
    }
    for (place, (seen, expected)) in seen.words.iter().zip(&expected.words).enumerate() {
        if seen != expected {
            text += &format!(", with {seen:#x} and not {expected:#x} in word {place}");
        }
    }
    if seen.bytes != expected.bytes {
        text += &format!(", with {:02x?} and not {:02x?}", seen.bytes, expected.bytes);
    }
    text
}

impl fmt::Display for Step {
    fn fmt(&self, f: &mut fmt::Formatter<'_>) -> fmt::Result {
        write!(f, "{}", self.call)?;
        match self.granted {
            Some(granted) => write!(f, ", all allocations but {granted} refused"),
            None => Ok(()),
        }
    }
}

impl fmt::Display for History {
    fn fmt(&self, f: &mut fmt::Formatter<'_>) -> fmt::Result {
        let Beginning { tag, handles, places } = self.beginning;
        writeln!(f, "    strm_store_new({tag:#x}, {handles}, {places})")?;
        self.steps.iter().try_for_each(|step| writeln!(f, "    {step}"))
    }
}
