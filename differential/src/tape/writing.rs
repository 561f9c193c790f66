//! Tapes as bytes.

use super::Tape;
use crate::payload::{Payload, Scalar, TransmitIndex};
use crate::records::{ReaderRecord, WriterRecord};
use crate::steps::{Script, Step};

/// The room of a poll without limit.
pub const NO_ROOM: u32 = u32::MAX;

/// The bytes of a tape.
pub fn bytes_of(tape: &Tape) -> Vec<u8> {
    let mut bytes = tape.head().to_vec();
    put_count(&mut bytes, tape.script.steps.len());
    for step in &tape.script.steps {
        put_step(&mut bytes, &tape.script, step);
    }
    bytes.push(tape.writers.len() as u8);
    for (ty, records) in &tape.writers {
        put_type(&mut bytes, *ty);
        put_count(&mut bytes, records.len());
        records.iter().for_each(|record| put_writer_record(&mut bytes, record));
    }
    bytes.push(tape.readers.len() as u8);
    for (ty, records) in &tape.readers {
        put_type(&mut bytes, *ty);
        put_count(&mut bytes, records.len());
        records.iter().for_each(|record| put_reader_record(&mut bytes, record));
    }
    bytes
}

fn put_number(bytes: &mut Vec<u8>, number: u32) {
    bytes.extend_from_slice(&number.to_le_bytes());
}

fn put_count(bytes: &mut Vec<u8>, count: usize) {
    put_number(bytes, count as u32);
}

fn put_type(bytes: &mut Vec<u8>, ty: TransmitIndex) {
    bytes.push(u8::from(ty.is_future()));
    match ty.payload {
        Payload::Nothing => bytes.push(0),
        Payload::One(scalar) => bytes.extend([1, place_of(scalar)]),
        Payload::Tuple(fields) => {
            let scalars = fields.as_slice();
            bytes.extend([2, scalars.len() as u8]);
            bytes.extend(scalars.iter().map(|scalar| place_of(*scalar)));
        }
        Payload::Compound(tree) => {
            let words = tree.words();
            bytes.extend([3, words.len() as u8]);
            bytes.extend(words);
        }
    }
}

fn place_of(scalar: Scalar) -> u8 {
    scalar as u8
}

fn put_writer_record(bytes: &mut Vec<u8>, record: &WriterRecord) {
    put_number(bytes, record.room.unwrap_or(NO_ROOM));
    bytes.push(u8::from(record.finish));
    put_number(bytes, record.count);
    bytes.extend_from_slice(&record.items);
    bytes.push(record.answer as u8);
}

fn put_reader_record(bytes: &mut Vec<u8>, record: &ReaderRecord) {
    put_number(bytes, record.offered);
    put_number(bytes, record.since);
    bytes.push(u8::from(record.finish));
    put_number(bytes, record.taken);
    bytes.extend([u8::from(record.bad), record.answer as u8]);
}

// The place of a command, and its numbers; a type stands behind the first of them, or behind all.
#[rustfmt::skip]
fn put_step(bytes: &mut Vec<u8>, script: &Script, step: &Step) {
    let mut put = |place: u8, before: &[u32], ty: Option<TransmitIndex>, behind: &[u32]| {
        bytes.push(place);
        before.iter().for_each(|number| put_number(bytes, *number));
        ty.into_iter().for_each(|ty| put_type(bytes, ty));
        behind.iter().for_each(|number| put_number(bytes, *number));
    };
    match *step {
        Step::Guest { size } => put(1, &[size], None, &[]),
        Step::New { guest, ty } => put(2, &[guest], Some(ty), &[]),
        Step::Pair { writer, reader, ty } => put(3, &[writer, reader], Some(ty), &[]),
        Step::Write { guest, ty, handle, address, count } => put(4, &[guest], Some(ty), &[handle, address, count]),
        Step::Read { guest, ty, handle, address, count } => put(5, &[guest], Some(ty), &[handle, address, count]),
        Step::CancelWrite { guest, ty, handle } => put(6, &[guest], Some(ty), &[handle]),
        Step::CancelRead { guest, ty, handle } => put(7, &[guest], Some(ty), &[handle]),
        Step::DropWrite { guest, ty, handle } => put(8, &[guest], Some(ty), &[handle]),
        Step::DropRead { guest, ty, handle } => put(9, &[guest], Some(ty), &[handle]),
        Step::Event { guest, handle } => put(10, &[guest, handle], None, &[]),
        Step::Move { guest, ty, handle, to } => put(11, &[guest], Some(ty), &[handle, to]),
        Step::Lift { guest, ty, handle } => put(12, &[guest], Some(ty), &[handle]),
        Step::Lower { reader, guest, ty } => put(13, &[reader, guest], Some(ty), &[]),
        Step::Pipe { reader, host } => put(14, &[reader, host], None, &[]),
        Step::Close { reader } => put(15, &[reader], None, &[]),
        Step::Host { host } => put(16, &[host], None, &[]),
        Step::Drive => put(17, &[], None, &[]),
        Step::Feed { host, bytes: chunk } => {
            put(18, &[host], None, &[]);
            bytes.push(chunk.len);
            bytes.extend_from_slice(script.bytes_of(chunk));
        }
        Step::Grant { host, count } => put(19, &[host, count], None, &[]),
        Step::SetNew { guest } => put(20, &[guest], None, &[]),
        Step::SetJoin { guest, set, handle } => put(21, &[guest, set, handle], None, &[]),
        Step::SetPoll { guest, set } => put(22, &[guest, set], None, &[]),
        Step::SetDrop { guest, set } => put(23, &[guest, set], None, &[]),
        Step::ErrNew { guest, address, len } => put(24, &[guest, address, len], None, &[]),
        Step::ErrText { guest, handle, address } => put(25, &[guest, handle, address], None, &[]),
        Step::ErrMove { guest, handle, to } => put(26, &[guest, handle, to], None, &[]),
        Step::ErrDrop { guest, handle } => put(27, &[guest, handle], None, &[]),
        Step::Poke { guest, address, bytes: chunk } => {
            put(28, &[guest, address], None, &[]);
            bytes.push(chunk.len);
            bytes.extend_from_slice(script.bytes_of(chunk));
        }
        Step::Dump { guest, address, len } => put(29, &[guest, address, len], None, &[]),
    }
}
