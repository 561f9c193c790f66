//! Faults that can be planted, to see that a comparison finds them.

/// What is done wrong.
#[derive(Clone, Copy, Debug, PartialEq, Eq)]
pub enum Fault {
    /// A call that meets another is answered the items that it asked for, and not those that moved.
    CountsAskedItems,
    /// A read of no items completes a write that waits.
    EmptyReadCompletesWrite,
    /// The report of an open write stays where its stream goes to a host reader.
    KeepsReportAtPipe,
    /// Tuples are copied with their padding.
    WritesPadding,
    /// An end that was told by an event that the other one is gone is told so again.
    TellsTwice,
    /// Of the freed handles the one that was freed first is given first.
    GivesOldestHandle,
    /// NotAligned comes before OutOfBounds.
    TestsAlignmentFirst,
    /// A poll of a set tells the member with the greatest handle.
    PollsGreatestMember,
    /// A queue that was told that no more will come takes nothing more.
    TakesNothingBehindEnd,
    /// All items of a write are looked at, and not only those that move.
    TestsItemsThatStay,
}

impl Fault {
    /// All of them, in the order of their numbers, from 1.
    pub const ALL: [Fault; 10] = [
        Fault::CountsAskedItems,
        Fault::EmptyReadCompletesWrite,
        Fault::KeepsReportAtPipe,
        Fault::WritesPadding,
        Fault::TellsTwice,
        Fault::GivesOldestHandle,
        Fault::TestsAlignmentFirst,
        Fault::PollsGreatestMember,
        Fault::TakesNothingBehindEnd,
        Fault::TestsItemsThatStay,
    ];
}

#[cfg(feature = "faults")]
mod chosen {
    use super::Fault;
    use std::sync::OnceLock;

    static CHOSEN: OnceLock<Fault> = OnceLock::new();

    /// Plants a fault, until the program ends; one at most.
    pub fn plant(fault: Fault) {
        CHOSEN.set(fault).expect("a fault was planted before");
    }

    /// Whether this fault is planted.
    pub fn planted(fault: Fault) -> bool {
        CHOSEN.get() == Some(&fault)
    }
}

#[cfg(feature = "faults")]
pub use chosen::{plant, planted};

/// Whether this fault is planted: none can be.
#[cfg(not(feature = "faults"))]
#[inline(always)]
pub const fn planted(_fault: Fault) -> bool {
    false
}
