//! What host ends record of their polls.

use crate::hosts::Answer;

/// One poll of a host writer.
#[derive(Clone, Debug, PartialEq, Eq)]
pub struct WriterRecord {
    /// None where it may give as many items as it likes.
    pub room: Option<u32>,
    /// Whether it was asked to finish.
    pub finish: bool,
    /// Items that it gave.
    pub count: u32,
    pub items: Vec<u8>,
    pub answer: Answer,
}

/// One poll of a host reader.
#[derive(Clone, Copy, Debug, PartialEq, Eq)]
pub struct ReaderRecord {
    pub offered: u32,
    pub since: u32,
    pub finish: bool,
    pub taken: u32,
    /// Whether it asked for an item that is none.
    pub bad: bool,
    pub answer: Answer,
}

impl ReaderRecord {
    /// How many items it asked for.
    pub fn asked(&self) -> u32 {
        self.taken.saturating_add(u32::from(self.bad))
    }
}
