//! The lines of a script: which are in the grammar, and what steps they spell.

use crate::compound::Tree;
use crate::payload::{Fields, Payload, Scalar, TransmitIndex};
use crate::steps::{Chunk, Script, Step};

/// The most bytes of a script.
pub const MOST_BYTES: usize = 16_777_216;

/// The most lines of a script.
pub const MOST_LINES: usize = 262_144;

/// Why an input is no script.
#[derive(Clone, Copy, Debug, PartialEq, Eq)]
pub enum ParseError {
    TooLong,
    /// The first that is not in the grammar, from 1.
    BadLine(usize),
}

/// The lines of an input: each ends with a line feed, which the last one may lack.
pub fn lines_of(input: &[u8]) -> impl Iterator<Item = &[u8]> {
    let ended = input.strip_suffix(b"\n").unwrap_or(input);
    ended.split(|byte| *byte == b'\n').take(if input.is_empty() { 0 } else { usize::MAX })
}

/// The steps that the lines of an input spell.
pub fn parse(input: &[u8]) -> Result<Script, ParseError> {
    if input.len() > MOST_BYTES {
        return Err(ParseError::TooLong);
    }
    let mut script = Script::default();
    let mut rest = input;
    while !rest.is_empty() {
        let (step, behind) = parse_line(rest, &mut script.bytes).ok_or_else(|| bad_line(input, &script))?;
        script.steps.push(step);
        rest = behind;
    }
    if script.steps.len() > MOST_LINES { Err(ParseError::TooLong) } else { Ok(script) }
}

// The line behind these steps is bad, if there are not too many.
#[cold]
fn bad_line(input: &[u8], script: &Script) -> ParseError {
    if lines_of(input).nth(MOST_LINES).is_some() {
        return ParseError::TooLong;
    }
    ParseError::BadLine(script.steps.len() + 1)
}

/// The number that a word spells: in decimal, without leading zeros, at most 2^32 - 1.
pub fn number_in(word: &[u8]) -> Option<u32> {
    if word.is_empty() || word.len() > 10 || (word[0] == b'0' && word.len() > 1) {
        return None;
    }
    let mut number = 0_u64;
    for digit in word {
        let value = digit.wrapping_sub(b'0');
        if value > 9 {
            return None;
        }
        number = 10 * number + u64::from(value);
    }
    number.try_into().ok()
}

/// The type that a word spells.
pub fn type_in(word: &[u8]) -> Option<TransmitIndex> {
    if let Some(payload) = word.strip_prefix(b"stream:") {
        Some(TransmitIndex::stream(payload_in(payload)?))
    } else {
        Some(TransmitIndex::future(payload_in(word.strip_prefix(b"future:")?)?))
    }
}

fn payload_in(word: &[u8]) -> Option<Payload> {
    if let Some(scalar) = Scalar::named(word) {
        return Some(Payload::One(scalar));
    }
    if word == b"none" {
        return Some(Payload::Nothing);
    }
    let Some(fields) = word.strip_prefix(b"(") else {
        return Tree::named(word).map(Payload::compound);
    };
    let mut scalars = Vec::with_capacity(8);
    for name in fields.strip_suffix(b")")?.split(|byte| *byte == b',') {
        scalars.push(Scalar::named(name)?);
    }
    Fields::new(&scalars).map(Payload::Tuple)
}

/// What a hexadecimal digit stands for; more than 15 where the byte is none.
const DIGITS: [u8; 256] = {
    let mut digits = [255; 256];
    let mut value = 0;
    while value < 16 {
        digits[b"0123456789abcdef"[value] as usize] = value as u8;
        value += 1;
    }
    digits
};

/// Appends the bytes that pairs of hexadecimal digits spell, 1 to 64 of them, and says how many they are.
pub fn hex_in(word: &[u8], bytes: &mut Vec<u8>) -> Option<u8> {
    if word.is_empty() || !word.len().is_multiple_of(2) || word.len() > 128 {
        return None;
    }
    let mut all = 0;
    let start = bytes.len();
    bytes.resize(start + word.len() / 2, 0);
    for (byte, pair) in bytes[start..].iter_mut().zip(word.chunks_exact(2)) {
        let (high, low) = (DIGITS[usize::from(pair[0])], DIGITS[usize::from(pair[1])]);
        all |= high | low;
        *byte = high << 4 | low;
    }
    (all < 16).then_some((word.len() / 2) as u8)
}

// The words of a line that are still to be read, and all lines behind it.
struct Words<'a, 'b> {
    rest: &'a [u8],
    // Whether the word that was read last is the line's last one.
    is_ended: bool,
    bytes: &'b mut Vec<u8>,
}

impl<'a> Words<'a, '_> {
    fn word(&mut self) -> Option<&'a [u8]> {
        if self.is_ended {
            return None;
        }
        let end = self.rest.iter().position(|byte| matches!(byte, b' ' | b'\n')).unwrap_or(self.rest.len());
        let word = &self.rest[..end];
        self.pass(end);
        Some(word)
    }

    // Goes on behind a word of this length, and what ends it.
    fn pass(&mut self, end: usize) {
        self.is_ended = self.rest.get(end) != Some(&b' ');
        self.rest = self.rest.get(end + 1..).unwrap_or_default();
    }

    // As `number_in`, of the next word, while it is read.
    fn number(&mut self) -> Option<u32> {
        if self.is_ended {
            return None;
        }
        let (mut number, mut end) = (0_u64, 0);
        while let Some(byte) = self.rest.get(end) {
            let digit = byte.wrapping_sub(b'0');
            if digit > 9 {
                break;
            }
            if end == 10 {
                return None;
            }
            number = 10 * number + u64::from(digit);
            end += 1;
        }
        let is_word = matches!(self.rest.get(end), None | Some(b' ' | b'\n'));
        if end == 0 || !is_word || (end > 1 && self.rest[0] == b'0') {
            return None;
        }
        self.pass(end);
        number.try_into().ok()
    }

    fn ty(&mut self) -> Option<TransmitIndex> {
        type_in(self.word()?)
    }

    fn chunk(&mut self, word: &[u8]) -> Option<Chunk> {
        let start = self.bytes.len() as u32;
        let len = hex_in(word, self.bytes)?;
        Some(Chunk { start, len })
    }

    fn guest_and_end(&mut self) -> Option<(u32, TransmitIndex, u32)> {
        Some((self.number()?, self.ty()?, self.number()?))
    }

    // A future's read or write has no count in its line, and is one of one item.
    fn moving(&mut self) -> Option<(u32, TransmitIndex, u32, u32, u32)> {
        let (guest, ty, handle) = self.guest_and_end()?;
        let address = self.number()?;
        let count = if ty.is_future() { 1 } else { self.number()? };
        Some((guest, ty, handle, address, count))
    }
}

// The step of the first line, and the lines behind it.
fn parse_line<'a>(lines: &'a [u8], bytes: &mut Vec<u8>) -> Option<(Step, &'a [u8])> {
    let mut words = Words { rest: lines, is_ended: false, bytes };
    let command = words.word()?;
    let step = of_ends(command, &mut words).or_else(|| of_others(command, &mut words))?;
    words.is_ended.then_some((step, words.rest))
}

// The commands that name an end by its handle.
fn of_ends(command: &[u8], words: &mut Words) -> Option<Step> {
    match command {
        b"write" => {
            let (guest, ty, handle, address, count) = words.moving()?;
            Some(Step::Write { guest, ty, handle, address, count })
        }
        b"read" => {
            let (guest, ty, handle, address, count) = words.moving()?;
            Some(Step::Read { guest, ty, handle, address, count })
        }
        b"event" => Some(Step::Event { guest: words.number()?, handle: words.number()? }),
        b"cancel-write" | b"cancel-read" | b"drop-write" | b"drop-read" | b"move" | b"lift" => {
            let (guest, ty, handle) = words.guest_and_end()?;
            Some(match command {
                b"cancel-write" => Step::CancelWrite { guest, ty, handle },
                b"cancel-read" => Step::CancelRead { guest, ty, handle },
                b"drop-write" => Step::DropWrite { guest, ty, handle },
                b"drop-read" => Step::DropRead { guest, ty, handle },
                b"lift" => Step::Lift { guest, ty, handle },
                _ => Step::Move { guest, ty, handle, to: words.number()? },
            })
        }
        _ => None,
    }
}

fn of_others(command: &[u8], words: &mut Words) -> Option<Step> {
    Some(match command {
        b"guest" => Step::Guest { size: words.number()? },
        b"new" => Step::New { guest: words.number()?, ty: words.ty()? },
        b"pair" => Step::Pair { writer: words.number()?, reader: words.number()?, ty: words.ty()? },
        b"poke" => {
            let (guest, address, word) = (words.number()?, words.number()?, words.word()?);
            Step::Poke { guest, address, bytes: words.chunk(word)? }
        }
        b"dump" => {
            let (guest, address, len) = (words.number()?, words.number()?, words.number()?);
            (1..=64).contains(&len).then_some(Step::Dump { guest, address, len })?
        }
        _ => return of_hosts(command, words).or_else(|| of_sets(command, words)),
    })
}

fn of_hosts(command: &[u8], words: &mut Words) -> Option<Step> {
    Some(match command {
        b"lower" => Step::Lower { reader: words.number()?, guest: words.number()?, ty: words.ty()? },
        b"pipe" => Step::Pipe { reader: words.number()?, host: words.number()? },
        b"close" => Step::Close { reader: words.number()? },
        b"host" => Step::Host { host: words.number()? },
        b"drive" => Step::Drive,
        b"feed" => {
            let host = words.number()?;
            let bytes = match words.word()? {
                b"end" => Chunk { start: 0, len: 0 },
                word => words.chunk(word)?,
            };
            Step::Feed { host, bytes }
        }
        b"grant" => Step::Grant { host: words.number()?, count: words.number()? },
        _ => return None,
    })
}

fn of_sets(command: &[u8], words: &mut Words) -> Option<Step> {
    let mut next = || words.number();
    Some(match command {
        b"set-new" => Step::SetNew { guest: next()? },
        b"set-join" => Step::SetJoin { guest: next()?, set: next()?, handle: next()? },
        b"set-poll" => Step::SetPoll { guest: next()?, set: next()? },
        b"set-drop" => Step::SetDrop { guest: next()?, set: next()? },
        b"err-new" => Step::ErrNew { guest: next()?, address: next()?, len: next()? },
        b"err-text" => Step::ErrText { guest: next()?, handle: next()?, address: next()? },
        b"err-move" => Step::ErrMove { guest: next()?, handle: next()?, to: next()? },
        b"err-drop" => Step::ErrDrop { guest: next()?, handle: next()? },
        _ => return None,
    })
}
