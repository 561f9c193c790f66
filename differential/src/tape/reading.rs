//! Bytes as tapes: those that are the spelling of one.

use super::writing::NO_ROOM;
use super::{HEADS, Tape};
use crate::compound::Tree;
use crate::hosts::Answer;
use crate::payload::{Fields, Payload, Scalar, TransmitIndex};
use crate::records::{ReaderRecord, WriterRecord};
use crate::steps::{Chunk, Script, Step};

/// The tape that these bytes spell.
pub fn tape_of(bytes: &[u8]) -> Option<Tape> {
    let head = bytes.get(..HEADS[0].len())?;
    let mut rest = Rest(&bytes[head.len()..]);
    let mut tape = Tape::default();
    for _ in 0..rest.number()? {
        let step = rest.step(&mut tape.script)?;
        tape.script.steps.push(step);
    }
    tape.writers = rest.ends(Rest::writer_record)?;
    tape.readers = rest.ends(|rest, _| rest.reader_record())?;
    (rest.0.is_empty() && tape.head() == head).then_some(tape)
}

// The bytes that are still to be read.
struct Rest<'a>(&'a [u8]);

impl<'a> Rest<'a> {
    fn byte(&mut self) -> Option<u8> {
        let (byte, rest) = self.0.split_first()?;
        self.0 = rest;
        Some(*byte)
    }

    fn bytes(&mut self, count: usize) -> Option<&'a [u8]> {
        let (bytes, rest) = self.0.split_at_checked(count)?;
        self.0 = rest;
        Some(bytes)
    }

    fn number(&mut self) -> Option<u32> {
        let (number, rest) = self.0.split_first_chunk()?;
        self.0 = rest;
        Some(u32::from_le_bytes(*number))
    }

    fn numbers<const N: usize>(&mut self) -> Option<[u32; N]> {
        let mut numbers = [0; N];
        for number in &mut numbers {
            *number = self.number()?;
        }
        Some(numbers)
    }

    fn flag(&mut self) -> Option<bool> {
        match self.byte()? {
            0 => Some(false),
            1 => Some(true),
            _ => None,
        }
    }

    fn answer(&mut self) -> Option<Answer> {
        let answers =
            [Answer::Pending, Answer::Completed, Answer::Cancelled, Answer::Dropped, Answer::Failed];
        answers.get(usize::from(self.byte()?)).copied()
    }

    fn scalar(&mut self) -> Option<Scalar> {
        Scalar::ALL.get(usize::from(self.byte()?)).copied()
    }

    fn ty(&mut self) -> Option<TransmitIndex> {
        let is_future = self.flag()?;
        let payload = match self.byte()? {
            0 => Payload::Nothing,
            1 => Payload::One(self.scalar()?),
            2 => {
                let count = self.byte()?;
                let scalars: Vec<Scalar> = (0..count).map(|_| self.scalar()).collect::<Option<_>>()?;
                Payload::Tuple(Fields::new(&scalars)?)
            }
            3 => {
                let count = usize::from(self.byte()?);
                Payload::compound(Tree::of_words(self.bytes(count)?)?)
            }
            _ => return None,
        };
        Some(if is_future { TransmitIndex::future(payload) } else { TransmitIndex::stream(payload) })
    }

    fn chunk(&mut self, script: &mut Script, least: u8) -> Option<Chunk> {
        let len = self.byte()?;
        if !(least..=64).contains(&len) {
            return None;
        }
        Some(script.keep(self.bytes(usize::from(len))?))
    }

    fn ends<R>(
        &mut self,
        mut record: impl FnMut(&mut Self, &Payload) -> Option<R>,
    ) -> Option<Vec<(TransmitIndex, Vec<R>)>> {
        let count = self.byte()?;
        if count > 64 {
            return None;
        }
        let mut ends = Vec::new();
        for _ in 0..count {
            let ty = self.ty()?;
            let mut records = Vec::new();
            for _ in 0..self.number()? {
                records.push(record(self, &ty.payload)?);
            }
            ends.push((ty, records));
        }
        Some(ends)
    }

    fn writer_record(&mut self, payload: &Payload) -> Option<WriterRecord> {
        let room = match self.number()? {
            NO_ROOM => None,
            room => (room < 1 << 28).then_some(Some(room))?,
        };
        let finish = self.flag()?;
        let count = self.number()?;
        if count == u32::MAX {
            return None;
        }
        let items = self.bytes((count as usize).checked_mul(payload.size())?)?;
        if !are_in_zeros(payload, items) {
            return None;
        }
        Some(WriterRecord { room, finish, count, items: items.to_vec(), answer: self.answer()? })
    }

    fn reader_record(&mut self) -> Option<ReaderRecord> {
        let [offered, since] = self.numbers()?;
        let finish = self.flag()?;
        let taken = self.number()?;
        let record =
            ReaderRecord { offered, since, finish, taken, bad: self.flag()?, answer: self.answer()? };
        (taken <= offered).then_some(record)
    }

    fn guest_and_end(&mut self) -> Option<(u32, TransmitIndex, u32)> {
        Some((self.number()?, self.ty()?, self.number()?))
    }

    fn step(&mut self, script: &mut Script) -> Option<Step> {
        Some(match self.byte()? {
            1 => Step::Guest { size: self.number()? },
            2 => Step::New { guest: self.number()?, ty: self.ty()? },
            3 => {
                let [writer, reader] = self.numbers()?;
                Step::Pair { writer, reader, ty: self.ty()? }
            }
            place @ 4..=9 | place @ 11..=12 => self.step_of_end(place)?,
            13 => {
                let [reader, guest] = self.numbers()?;
                Step::Lower { reader, guest, ty: self.ty()? }
            }
            17 => Step::Drive,
            18 => Step::Feed { host: self.number()?, bytes: self.chunk(script, 0)? },
            28 => {
                let [guest, address] = self.numbers()?;
                Step::Poke { guest, address, bytes: self.chunk(script, 1)? }
            }
            place => self.step_of_numbers(place)?,
        })
    }

    fn step_of_end(&mut self, place: u8) -> Option<Step> {
        let (guest, ty, handle) = self.guest_and_end()?;
        Some(match place {
            4 | 5 => {
                let [address, count] = self.numbers()?;
                if ty.is_future() && count != 1 {
                    return None;
                }
                match place {
                    4 => Step::Write { guest, ty, handle, address, count },
                    _ => Step::Read { guest, ty, handle, address, count },
                }
            }
            6 => Step::CancelWrite { guest, ty, handle },
            7 => Step::CancelRead { guest, ty, handle },
            8 => Step::DropWrite { guest, ty, handle },
            9 => Step::DropRead { guest, ty, handle },
            11 => Step::Move { guest, ty, handle, to: self.number()? },
            _ => Step::Lift { guest, ty, handle },
        })
    }

    // The steps whose arguments are numbers alone.
    fn step_of_numbers(&mut self, place: u8) -> Option<Step> {
        let mut next = || self.number();
        Some(match place {
            10 => Step::Event { guest: next()?, handle: next()? },
            14 => Step::Pipe { reader: next()?, host: next()? },
            15 => Step::Close { reader: next()? },
            16 => Step::Host { host: next()? },
            19 => Step::Grant { host: next()?, count: next()? },
            20 => Step::SetNew { guest: next()? },
            21 => Step::SetJoin { guest: next()?, set: next()?, handle: next()? },
            22 => Step::SetPoll { guest: next()?, set: next()? },
            23 => Step::SetDrop { guest: next()?, set: next()? },
            24 => Step::ErrNew { guest: next()?, address: next()?, len: next()? },
            25 => Step::ErrText { guest: next()?, handle: next()?, address: next()? },
            26 => Step::ErrMove { guest: next()?, handle: next()?, to: next()? },
            27 => Step::ErrDrop { guest: next()?, handle: next()? },
            29 => {
                let (guest, address, len) = (next()?, next()?, next()?);
                (1..=64).contains(&len).then_some(Step::Dump { guest, address, len })?
            }
            _ => return None,
        })
    }
}

// Whether these are items as they lie in a memory of zeros.
fn are_in_zeros(payload: &Payload, items: &[u8]) -> bool {
    let mut lowered = vec![0; items.len()];
    payload.copy(items, &mut lowered);
    payload.first_bad(items).is_none() && lowered == items
}
