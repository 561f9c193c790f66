//! Tapes that are drawn: of runs, of host ends that answer what they like, and spoiled ones.

use super::actions::fill;
use super::profiles::Profile;
use super::random::Random;
use super::scenes::Scene;
use crate::hosts::{Answer, HostReader, HostWriter, Hosts};
use crate::payload::{Payload, TransmitIndex};
use crate::records::{ReaderRecord, WriterRecord};
use crate::steps::Step;
use crate::tape::Tape;

/// The tape of a run among host ends that answer what was drawn, mostly within their rules.
pub fn invented(random: &mut Random) -> Tape {
    let profile = random.pick(&[Profile::Hosts, Profile::Pipes, Profile::Pipes, Profile::Futures]);
    let types = Scene::new(profile, random.clone(), Hosts::default());
    let hosts = drawn_hosts(types, random);
    let mut scene = Scene::new(profile, Random::new(random.draw()), hosts);
    if random.chance(50) {
        lead_out(&mut scene);
    }
    let steps = random.within(10, 60) as usize;
    fill(&mut scene, steps);
    let hosts = scene.store.hosts;
    Tape {
        script: scene.script,
        writers: hosts.writers.into_iter().map(|writer| (writer.ty, writer.records)).collect(),
        readers: hosts.readers.into_iter().map(|reader| (reader.ty, reader.records)).collect(),
    }
}

// Each host writer gets a stream, which goes to a host reader or to a guest.
fn lead_out(scene: &mut Scene) {
    for host in 0..scene.store.hosts.writers.len() as u32 {
        let reader = scene.store.streams.len() as u32;
        let ty = scene.store.hosts.writers[host as usize].ty;
        scene.put(Step::Host { host });
        let unused =
            (0..).zip(&scene.store.hosts.readers).find(|(_, end)| end.ty == ty && end.stream.is_none());
        match unused.map(|(number, _)| number) {
            Some(host) if scene.random.chance(60) => scene.put(Step::Pipe { reader, host }),
            _ => scene.put(Step::Lower { reader, guest: 0, ty }),
        }
    }
}

fn drawn_hosts(mut types: Scene, random: &mut Random) -> Hosts {
    let mut hosts = Hosts::default();
    // Few types, so that writers meet readers of theirs.
    let few: Vec<TransmitIndex> = (0..random.within(1, 3)).map(|_| types.ty()).collect();
    for _ in 0..random.within(1, 6) {
        let ty = random.pick(&few);
        let plan = (0..random.below(8)).map(|_| writer_record(random, &mut types, &ty)).collect();
        hosts.writers.push(HostWriter::replay(ty, plan));
    }
    for _ in 0..random.within(1, 6) {
        let ty = random.pick(&few);
        let plan = (0..random.below(8)).map(|_| reader_record(random, &ty)).collect();
        hosts.readers.push(HostReader::replay(ty, plan));
    }
    hosts
}

fn writer_record(random: &mut Random, types: &mut Scene, ty: &TransmitIndex) -> WriterRecord {
    let answer = random.pick(&[
        Answer::Completed,
        Answer::Completed,
        Answer::Completed,
        Answer::Completed,
        Answer::Pending,
        Answer::Pending,
        Answer::Dropped,
        Answer::Cancelled,
        Answer::Failed,
    ]);
    let is_fair = !random.chance(6);
    let count = match answer {
        Answer::Pending | Answer::Cancelled if is_fair => 0,
        _ if ty.is_future() && is_fair => 1,
        _ => random.below(9),
    };
    let items = items_in_zeros(types, &ty.payload, count);
    WriterRecord { room: None, finish: false, count: count as u32, items, answer }
}

fn reader_record(random: &mut Random, ty: &TransmitIndex) -> ReaderRecord {
    let answer = random.pick(&[
        Answer::Completed,
        Answer::Completed,
        Answer::Completed,
        Answer::Pending,
        Answer::Pending,
        Answer::Dropped,
        Answer::Cancelled,
        Answer::Failed,
    ]);
    let least = u32::from(!random.chance(8) && answer == Answer::Completed);
    let taken = if ty.is_future() { least } else { random.within(least, 6) };
    ReaderRecord { offered: 0, since: 0, finish: false, taken, bad: false, answer }
}

// Items as they lie in a memory of zeros.
fn items_in_zeros(types: &mut Scene, payload: &Payload, count: usize) -> Vec<u8> {
    let mut drawn = types.items(payload, count);
    if payload.first_bad(&drawn).is_some() {
        drawn.fill(0);
    }
    let mut items = vec![0; drawn.len()];
    payload.copy(&drawn, &mut items);
    items
}

/// Changes one thing of a tape to another that a tape may say.
pub fn alter(random: &mut Random, tape: &mut Tape) {
    let mut written: Vec<_> = tape.writers.iter_mut().flat_map(|(_, records)| records).collect();
    let mut read: Vec<_> = tape.readers.iter_mut().flat_map(|(_, records)| records).collect();
    match random.below(6) {
        0 | 1 if let Some(at) = place_in(random, &written) => alter_writer_record(random, written[at]),
        2 | 3 if let Some(at) = place_in(random, &read) => alter_reader_record(random, read[at]),
        4 => {
            for (_, records) in &mut tape.writers {
                drop(records.pop());
            }
        }
        _ => {
            let place = place_in(random, &tape.script.steps);
            if let Some(place) = place {
                tape.script.steps.remove(place);
            }
        }
    }
}

fn place_in<T>(random: &mut Random, records: &[T]) -> Option<usize> {
    (!records.is_empty()).then(|| random.below(records.len()))
}

const ANSWERS: [Answer; 5] =
    [Answer::Pending, Answer::Completed, Answer::Cancelled, Answer::Dropped, Answer::Failed];

fn alter_writer_record(random: &mut Random, record: &mut WriterRecord) {
    match random.below(4) {
        0 => record.room = random.pick(&[None, Some(0), Some(1), Some((1 << 28) - 1)]),
        1 => record.finish ^= true,
        2 if record.count > 0 => {
            let size = record.items.len() / record.count as usize;
            record.count -= 1;
            record.items.truncate(record.count as usize * size);
        }
        _ => record.answer = random.pick(&ANSWERS),
    }
}

fn alter_reader_record(random: &mut Random, record: &mut ReaderRecord) {
    match random.below(6) {
        0 => record.offered = record.offered.saturating_add(1),
        1 => record.since = random.within(0, 3),
        2 => record.finish ^= true,
        3 => record.taken = random.within(0, record.offered),
        4 => record.bad ^= true,
        _ => record.answer = random.pick(&ANSWERS),
    }
}
