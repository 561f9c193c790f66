//! Host ends: what they answer when they are polled, and what they may answer.

use crate::faults::{Fault, planted};
use crate::items::Items;
use crate::payload::{Payload, Scalar, TransmitIndex};
use crate::records::{ReaderRecord, WriterRecord};
use std::collections::VecDeque;

/// What a host end answers a poll.
#[derive(Clone, Copy, Debug, PartialEq, Eq)]
pub enum Answer {
    Pending,
    Completed,
    Cancelled,
    Dropped,
    Failed,
}

/// The most items of one poll.
const MOST_ITEMS: u64 = u32::MAX as u64 - 1;

/// How a host writer goes about it.
#[derive(Clone, Debug)]
enum Writing {
    /// It gives what it was fed.
    Queue { fed: Items, is_ended: bool },
    /// It gives all items that it has at once, and no more come.
    Ready,
    /// It follows a tape.
    Replay(VecDeque<WriterRecord>),
}

/// A host writer.
#[derive(Clone, Debug)]
pub struct HostWriter {
    pub ty: TransmitIndex,
    writing: Writing,
    /// Its items that no reader got yet.
    pub held: Items,
    /// It answered that there is no more.
    pub is_over: bool,
    /// The stream that it writes, or wrote.
    pub stream: Option<u32>,
    pub records: Vec<WriterRecord>,
    ready: Vec<u8>,
}

impl HostWriter {
    fn new(ty: TransmitIndex, writing: Writing, ready: &[u8]) -> HostWriter {
        HostWriter {
            ty,
            writing,
            held: Items::new(ty.payload.size()),
            is_over: false,
            stream: None,
            records: Vec::new(),
            ready: ready.to_vec(),
        }
    }

    pub fn queue(ty: TransmitIndex) -> HostWriter {
        let fed = Items::new(ty.payload.size());
        HostWriter::new(ty, Writing::Queue { fed, is_ended: false }, &[])
    }

    /// One of a stream of u8 that has these items, and no more.
    pub fn ready(items: &[u8]) -> HostWriter {
        HostWriter::new(TransmitIndex::stream(Payload::One(Scalar::U8)), Writing::Ready, items)
    }

    pub fn replay(ty: TransmitIndex, plan: Vec<WriterRecord>) -> HostWriter {
        HostWriter::new(ty, Writing::Replay(plan.into()), &[])
    }

    /// Takes bytes from outside; none where no more will come.
    pub fn feed(&mut self, bytes: &[u8]) {
        let Writing::Queue { fed, is_ended } = &mut self.writing else { return };
        if bytes.is_empty() {
            *is_ended = true;
            return;
        }
        if *is_ended && planted(Fault::TakesNothingBehindEnd) {
            return;
        }
        match self.ty.payload.size() {
            0 => fed.extend(bytes.len() as u64, &[]),
            size => {
                let whole = bytes.len() / size;
                let count = self.ty.payload.first_bad(&bytes[..whole * size]).unwrap_or(whole);
                fed.extend(count as u64, &bytes[..count * size]);
            }
        }
    }

    /// Has it give items, which are held; nothing is held before.
    pub fn poll(&mut self, room: Option<u32>, finish: bool) -> Answer {
        let is_future = self.ty.is_future();
        let answer = match &mut self.writing {
            Writing::Queue { fed, is_ended } => poll_queue(
                fed,
                *is_ended && !is_future,
                is_future,
                room.map_or(MOST_ITEMS, u64::from),
                finish,
                &mut self.held,
            ),
            Writing::Ready => {
                self.held.extend(self.ready.len() as u64, &self.ready);
                self.ready.clear();
                Answer::Dropped
            }
            Writing::Replay(plan) => match plan.pop_front() {
                Some(record) => {
                    self.held.extend(u64::from(record.count), &record.items);
                    record.answer
                }
                None => Answer::Pending,
            },
        };
        let count = self.held.len();
        let items = self.held.first(count).to_vec();
        self.records.push(WriterRecord { room, finish, count: count as u32, items, answer });
        answer
    }

    /// Whether its last record breaks the rules of host writers.
    pub fn broke(&self) -> bool {
        let Some(record) = self.records.last() else { return false };
        let is_future = self.ty.is_future();
        match record.answer {
            Answer::Pending => record.count > 0,
            Answer::Cancelled => record.count > 0 || !record.finish,
            Answer::Completed if is_future => record.count != 1,
            Answer::Completed => record.count == 0 && record.room.is_some_and(|room| room >= 2),
            Answer::Dropped => is_future,
            Answer::Failed => false,
        }
    }
}

fn poll_queue(
    fed: &mut Items,
    is_ended: bool,
    is_future: bool,
    room: u64,
    finish: bool,
    held: &mut Items,
) -> Answer {
    if fed.is_empty() {
        return match (is_ended, finish) {
            (true, _) => Answer::Dropped,
            (false, true) => Answer::Cancelled,
            (false, false) => Answer::Pending,
        };
    }
    let count = room.min(fed.len()).min(if is_future { 1 } else { MOST_ITEMS });
    held.extend(count, fed.first(count));
    fed.skip(count);
    if fed.is_empty() && is_ended { Answer::Dropped } else { Answer::Completed }
}

/// How a host reader goes about it.
#[derive(Clone, Debug)]
enum Reading {
    /// It takes as many items as it was granted.
    Credit { credit: u64, is_ended: bool },
    /// It follows a tape.
    Replay(VecDeque<ReaderRecord>),
}

/// A host reader.
#[derive(Clone, Debug)]
pub struct HostReader {
    pub ty: TransmitIndex,
    reading: Reading,
    /// Items that it took since it was last ready.
    pub since: u32,
    /// Its last answer was Pending.
    pub is_resting: bool,
    /// The stream that it reads, or read.
    pub stream: Option<u32>,
    pub records: Vec<ReaderRecord>,
}

impl HostReader {
    fn new(ty: TransmitIndex, reading: Reading) -> HostReader {
        HostReader { ty, reading, since: 0, is_resting: false, stream: None, records: Vec::new() }
    }

    pub fn credit(ty: TransmitIndex) -> HostReader {
        HostReader::new(ty, Reading::Credit { credit: 0, is_ended: false })
    }

    pub fn replay(ty: TransmitIndex, plan: Vec<ReaderRecord>) -> HostReader {
        HostReader::new(ty, Reading::Replay(plan.into()))
    }

    /// Lets it take so many items more, or with 0 end.
    pub fn grant(&mut self, count: u32) {
        if let Reading::Credit { credit, is_ended } = &mut self.reading {
            *credit = credit.saturating_add(u64::from(count));
            *is_ended |= count == 0;
        }
    }

    /// Offers it items; its record says what it took.
    pub fn poll(&mut self, offered: u32, items: &[u8], finish: bool) -> ReaderRecord {
        let size = self.ty.payload.size();
        let asked = match &self.reading {
            Reading::Credit { credit, .. } => (*credit).min(u64::from(offered)) as u32,
            Reading::Replay(plan) => plan.front().map_or(0, ReaderRecord::asked).min(offered),
        };
        let bad = self.ty.payload.first_bad(&items[..asked as usize * size]);
        let taken = bad.map_or(asked, |place| place as u32);
        let answer = match &mut self.reading {
            Reading::Credit { credit, is_ended } => {
                *credit -= u64::from(taken);
                answer_of_credit(*credit, *is_ended && !self.ty.is_future(), offered, taken, finish, self.ty)
            }
            Reading::Replay(plan) => plan.pop_front().map_or(Answer::Pending, |record| record.answer),
        };
        let record = ReaderRecord { offered, since: self.since, finish, taken, bad: bad.is_some(), answer };
        self.since = self.since.saturating_add(taken);
        if matches!(answer, Answer::Completed | Answer::Cancelled) {
            self.since = 0;
        }
        self.is_resting = answer == Answer::Pending;
        self.records.push(record);
        record
    }

    /// Whether a record of its breaks the rules of host readers.
    pub fn breaks(&self, record: &ReaderRecord) -> bool {
        let took = record.taken > 0 || record.since > 0;
        let is_future = self.ty.is_future();
        match record.answer {
            Answer::Cancelled => !record.finish || (is_future && took),
            Answer::Completed if is_future => !took,
            Answer::Completed => record.offered > 0 && !took,
            Answer::Dropped => is_future,
            Answer::Pending | Answer::Failed => false,
        }
    }
}

fn answer_of_credit(
    credit: u64,
    is_ended: bool,
    offered: u32,
    taken: u32,
    finish: bool,
    ty: TransmitIndex,
) -> Answer {
    if credit == 0 && is_ended {
        Answer::Dropped
    } else if taken > 0 || (offered == 0 && credit > 0 && !ty.is_future()) {
        Answer::Completed
    } else if finish {
        Answer::Cancelled
    } else {
        Answer::Pending
    }
}

/// The host ends that a run has.
#[derive(Clone, Debug, Default)]
pub struct Hosts {
    pub writers: Vec<HostWriter>,
    pub readers: Vec<HostReader>,
}

impl Hosts {
    /// Those of the program: eight of each side.
    pub fn of_program() -> Hosts {
        let one = |scalar| TransmitIndex::stream(Payload::One(scalar));
        let byte = Scalar::U8;
        let none = TransmitIndex::stream(Payload::Nothing);
        let word = TransmitIndex::future(Payload::One(Scalar::U32));
        let mixed = crate::payload::Fields::new(&[byte, Scalar::U32]).expect("two fields");
        let queues = [one(byte), one(Scalar::U32), none, one(Scalar::Char), word];
        let five = [1, 2, 3, 4, 5];
        let ready = [&five[..], &five[..], &[]];
        let credits = [
            one(byte),
            one(Scalar::U32),
            none,
            one(Scalar::Char),
            word,
            one(byte),
            TransmitIndex::stream(Payload::Tuple(mixed)),
            TransmitIndex::future(Payload::Nothing),
        ];
        Hosts {
            writers: queues.map(HostWriter::queue).into_iter().chain(ready.map(HostWriter::ready)).collect(),
            readers: credits.map(HostReader::credit).into(),
        }
    }
}
