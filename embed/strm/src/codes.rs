//! What a read, a write, a cancel or an event tells.

use core::fmt;

/// What a read, a write or a cancel answers, and what an event tells. Counts are in items, below 2^28; those of a
/// future are always 0.
///
/// It goes to the Canonical ABI's word, which a guest is answered, and back:
///
/// ```
/// use strm::Code;
///
/// assert_eq!(u32::from(Code::Completed(3)), 0x30);
/// assert_eq!(Code::try_from(0x21), Ok(Code::Dropped(2)));
/// assert_eq!(Code::Blocked.word(), 0xffff_ffff);
/// assert_eq!(Code::Dropped(2).count(), 2);
/// assert_eq!(Code::Cancelled(1).to_string(), "cancelled, 1 item");
/// ```
#[derive(Clone, Copy, Debug, PartialEq, Eq, Hash)]
#[must_use = "items may have moved, or the operation may wait"]
pub enum Code {
    /// So many items moved.
    Completed(u32),
    /// So many items moved, and the other end is gone.
    Dropped(u32),
    /// So many items moved before it was cancelled.
    Cancelled(u32),
    /// It waits, and an event will tell its end.
    Blocked,
}

impl Code {
    /// The Canonical ABI's word, which a guest is answered.
    #[inline]
    #[must_use]
    pub const fn word(self) -> u32 {
        let result = match self {
            Code::Blocked => return u32::MAX,
            Code::Completed(_) => 0,
            Code::Dropped(_) => 1,
            Code::Cancelled(_) => 2,
        };
        self.count() << 4 | result
    }

    /// How many items moved.
    #[inline]
    #[must_use]
    pub const fn count(self) -> u32 {
        match self {
            Code::Blocked => 0,
            Code::Completed(count) | Code::Dropped(count) | Code::Cancelled(count) => count,
        }
    }

    // Of a word of the archive's. Two bits tell its codes apart, since Blocked has all bits: so no branch is taken.
    #[inline]
    pub(crate) const fn of(word: u32) -> Code {
        let count = word >> 4;
        match word & 3 {
            0 => Code::Completed(count),
            1 => Code::Dropped(count),
            2 => Code::Cancelled(count),
            _ => Code::Blocked,
        }
    }

    // The word 3, which no code has, is no event.
    #[inline]
    pub(crate) const fn told(word: u32) -> Option<Code> {
        if word == 3 { None } else { Some(Code::of(word)) }
    }
}

impl From<Code> for u32 {
    fn from(code: Code) -> u32 {
        code.word()
    }
}

impl TryFrom<u32> for Code {
    type Error = UnknownCode;

    fn try_from(word: u32) -> Result<Code, UnknownCode> {
        match (word, word & 15) {
            (u32::MAX, _) | (_, 0..=2) => Ok(Code::of(word)),
            _ => Err(UnknownCode(word)),
        }
    }
}

impl fmt::Display for Code {
    fn fmt(&self, f: &mut fmt::Formatter<'_>) -> fmt::Result {
        let (what, count) = match *self {
            Code::Blocked => return f.write_str("blocked"),
            Code::Completed(count) => ("completed", count),
            Code::Dropped(count) => ("dropped", count),
            Code::Cancelled(count) => ("cancelled", count),
        };
        let items = if count == 1 { "item" } else { "items" };
        write!(f, "{what}, {count} {items}")
    }
}

/// A word that no [`Code`] has.
///
/// ```
/// use strm::{Code, UnknownCode};
///
/// assert_eq!(Code::try_from(7), Err(UnknownCode(7)));
/// assert_eq!(UnknownCode(7).to_string(), "no code has the word 0x7");
/// ```
#[derive(Clone, Copy, Debug, PartialEq, Eq, Hash)]
pub struct UnknownCode(pub u32);

impl fmt::Display for UnknownCode {
    fn fmt(&self, f: &mut fmt::Formatter<'_>) -> fmt::Result {
        write!(f, "no code has the word {:#x}", self.0)
    }
}

impl core::error::Error for UnknownCode {}
