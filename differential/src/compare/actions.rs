//! The steps that a script is drawn from.

use super::profiles::Profile;
use super::scenes::Scene;
use crate::payload::{Payload, TransmitIndex};
use crate::steps::{Chunk, Step};
use crate::streams::{Owner, Side, Stream};
use crate::tables::Entry;

/// A kind of step.
#[derive(Clone, Copy, Debug, PartialEq, Eq)]
pub enum Action {
    Guest,
    Pair,
    Poke,
    Dump,
    Write,
    Read,
    Event,
    Cancel,
    Drop,
    Move,
    Lift,
    Lower,
    Pipe,
    /// A write that is read in part, and goes on to a host reader then.
    PartPipe,
    /// Two reads from host writers, of one region, that one drive round ends.
    Race,
    Close,
    Host,
    Drive,
    Feed,
    Grant,
    SetNew,
    SetJoin,
    SetPoll,
    SetDrop,
    ErrNew,
    ErrText,
    ErrMove,
    ErrDrop,
}

/// Adds so many steps of the profile's, and dumps of what the guests have then.
pub fn fill(scene: &mut Scene, steps: usize) {
    let actions = scene.profile.actions();
    let weights: usize = actions.iter().map(|(weight, _)| weight).sum();
    for _ in 0..steps {
        if scene.has_stopped {
            // What stands behind a stop is not run, and no difference either.
            return;
        }
        let mut drawn = scene.random.below(weights);
        for (weight, action) in actions {
            if drawn < *weight {
                act(scene, *action);
                break;
            }
            drawn -= weight;
        }
    }
    for guest in 0..scene.store.guests.len().min(3) as u32 {
        let size = scene.store.guests[guest as usize].memory.len() as u32;
        for address in (0..size.min(256)).step_by(64) {
            scene.put(Step::Dump { guest, address, len: 64.min(size - address) });
        }
    }
}

fn act(scene: &mut Scene, action: Action) {
    let step = match action {
        Action::Guest => new_guest(scene),
        Action::Pair => pair(scene),
        Action::Poke => poke(scene),
        Action::Dump => dump(scene),
        Action::Write => operate(scene, Side::Write),
        Action::Read => operate(scene, Side::Read),
        Action::Event => event(scene),
        Action::Cancel => cancel(scene),
        Action::Drop => drop_end(scene),
        Action::Move => move_end(scene),
        Action::Lift => lift(scene),
        _ => return act_aside(scene, action),
    };
    scene.put(step);
}

fn act_aside(scene: &mut Scene, action: Action) {
    let writers = scene.store.hosts.writers.len();
    let readers = scene.store.hosts.readers.len();
    let step = match action {
        Action::Lower => lower(scene),
        Action::Pipe => {
            let step = pipe(scene, readers);
            scene.put(step);
            return ask_behind_pipe(scene, step);
        }
        Action::PartPipe => return part_pipe(scene, readers),
        Action::Race => return race(scene),
        Action::Close => Step::Close { reader: scene.loose() },
        Action::Host => Step::Host { host: scene.host(writers) },
        Action::Feed => feed(scene, writers),
        Action::Grant => {
            let host = scene.host(readers);
            let count = if scene.random.chance(95) { scene.random.within(0, 9) } else { scene.any_number() };
            Step::Grant { host, count }
        }
        Action::SetNew => Step::SetNew { guest: scene.guest() },
        Action::SetJoin => set_join(scene),
        Action::SetPoll => {
            let (guest, set) = of_entry(scene, |entry| matches!(entry, Entry::Set(_)));
            Step::SetPoll { guest, set }
        }
        Action::SetDrop => {
            let (guest, set) = of_entry(scene, |entry| matches!(entry, Entry::Set(_)));
            Step::SetDrop { guest, set }
        }
        Action::ErrNew => error_context(scene),
        Action::ErrText => {
            let (guest, handle) = of_entry(scene, |entry| matches!(entry, Entry::Context(_)));
            let address = scene.address(guest, 4, 1);
            Step::ErrText { guest, handle, address }
        }
        Action::ErrMove => {
            let (guest, handle) = of_entry(scene, |entry| matches!(entry, Entry::Context(_)));
            Step::ErrMove { guest, handle, to: scene.guest() }
        }
        Action::ErrDrop => {
            let (guest, handle) = of_entry(scene, |entry| matches!(entry, Entry::Context(_)));
            Step::ErrDrop { guest, handle }
        }
        _ => Step::Drive,
    };
    scene.put(step);
}

// Seldom one of many bytes: to make its memory takes long.
fn new_guest(scene: &mut Scene) -> Step {
    let size = if scene.is_wrong() { scene.any_number() } else { scene.memory_size() };
    let memory: usize = scene.store.guests.iter().map(|guest| guest.memory.len()).sum();
    let is_dear = size > 1 << 20 && memory + size as usize <= 1 << 28;
    Step::Guest { size: if is_dear && !scene.random.chance(1) { size % 4096 } else { size } }
}

// A guest's handle to an entry like this, each of the two perhaps wrong.
fn of_entry(scene: &mut Scene, is_wanted: impl Fn(Entry) -> bool) -> (u32, u32) {
    match scene.entry(is_wanted) {
        Some((guest, handle)) if !scene.is_wrong() => (guest, scene.handle_of(guest, handle)),
        _ => {
            let guest = scene.guest();
            (guest, scene.any_handle(guest))
        }
    }
}

// An end of this side: its guest, its type and its handle, each perhaps wrong. One that is idle is wanted, or
// one that is busy.
fn of_end(scene: &mut Scene, side: Option<Side>, busy: bool) -> (u32, TransmitIndex, u32) {
    let side = side.filter(|_| !scene.is_wrong());
    let wanted = scene.held(|stream, found| {
        side.is_none_or(|side| side == found) && stream[found].operation.is_some() == busy
    });
    let found = match wanted {
        Some(held) if !scene.random.chance(6) => Some(held),
        _ => scene.held(|_, found| side.is_none_or(|side| side == found)),
    };
    match found {
        Some(held) => {
            let ty = scene.store.streams[held.stream as usize].ty;
            let guest = if scene.is_wrong() { scene.guest() } else { held.guest };
            (guest, scene.ty_of(ty), scene.handle_of(guest, held.handle))
        }
        None => {
            let guest = scene.guest();
            (guest, scene.ty(), scene.any_handle(guest))
        }
    }
}

fn pair(scene: &mut Scene) -> Step {
    let (writer, ty) = (scene.guest(), scene.ty());
    if scene.random.chance(25) {
        return Step::New { guest: writer, ty };
    }
    Step::Pair { writer, reader: scene.guest(), ty }
}

fn poke(scene: &mut Scene) -> Step {
    let guest = scene.guest();
    let payload = scene.payload();
    let bytes = match payload {
        Payload::Nothing => {
            let count = scene.random.within(1, 64) as usize;
            // Text, for error contexts.
            (0..count).map(|_| scene.random.within(0x20, 0x7e) as u8).collect()
        }
        _ => {
            let most = (64 / payload.size()).max(1) as u32;
            let count = scene.random.within(1, most) as usize;
            scene.items(&payload, count)
        }
    };
    let bytes = if scene.is_wrong() { scene.random.bytes(64) } else { bytes };
    let address = scene.address(guest, bytes.len() as u64, payload.align());
    Step::Poke { guest, address, bytes: scene.script.keep(&bytes) }
}

fn dump(scene: &mut Scene) -> Step {
    let guest = scene.guest();
    let len = if scene.profile == Profile::Big { 64 } else { scene.random.within(1, 64) };
    let address = scene.address(guest, u64::from(len), 1);
    Step::Dump { guest, address, len }
}

fn count(scene: &mut Scene, side: Side) -> u32 {
    if scene.is_wrong() {
        return scene.any_number();
    }
    match scene.profile {
        Profile::Big => match scene.random.below(4) {
            0 => scene.random.within(0, 100),
            1 => scene.random.pick(&[4095, 4096, 4097, 8191, 8192, 1024]),
            2 => (1 << 28) - 1,
            _ => scene.random.within(0, 20_000),
        },
        _ if scene.random.chance(12) => 0,
        // So that much is read in part, and goes on to a host reader then.
        Profile::Pipes if side == Side::Read => scene.random.within(1, 3),
        _ if scene.random.chance(10) => scene.random.within(9, 40),
        _ => scene.random.within(1, 8),
    }
}

fn operate(scene: &mut Scene, side: Side) -> Step {
    let (guest, ty, handle) = of_end(scene, Some(side), false);
    let mut count = if ty.is_future() { 1 } else { count(scene, side) };
    let (size, align) = (ty.payload.size() as u64, ty.payload.align());
    if size > 0 && !scene.is_wrong() {
        let room = scene.store.guests.get(guest as usize).map_or(0, |guest| guest.memory.len() as u64 / size);
        count = count.min(room as u32).max(u32::from(ty.is_future()));
    }
    // Such a read or write at a host end takes seconds, since its items are taken one by one.
    let is_dear = size == 0 && (1 << 20..1 << 28).contains(&count) && scene.profile != Profile::Big;
    if is_dear && !scene.random.chance(5) {
        count %= 1 << 16;
    }
    let address = scene.address(guest, u64::from(count) * size, align);
    match side {
        Side::Write => Step::Write { guest, ty, handle, address, count },
        Side::Read => Step::Read { guest, ty, handle, address, count },
    }
}

fn event(scene: &mut Scene) -> Step {
    let reported = scene.held(|stream, side| stream.report(side).is_some());
    let held = match reported {
        Some(held) if scene.random.chance(75) => Some(held),
        _ => scene.held(|_, _| true),
    };
    let (guest, handle) = held.map_or((0, 1), |held| (held.guest, held.handle));
    let guest = if scene.is_wrong() { scene.guest() } else { guest };
    Step::Event { guest, handle: scene.handle_of(guest, handle) }
}

fn cancel(scene: &mut Scene) -> Step {
    let side = scene.random.pick(&[Side::Write, Side::Read]);
    let (guest, ty, handle) = of_end(scene, Some(side), true);
    match side {
        Side::Write => Step::CancelWrite { guest, ty, handle },
        Side::Read => Step::CancelRead { guest, ty, handle },
    }
}

fn drop_end(scene: &mut Scene) -> Step {
    let side = scene.random.pick(&[Side::Write, Side::Read]);
    let (guest, ty, handle) = of_end(scene, Some(side), false);
    match side {
        Side::Write => Step::DropWrite { guest, ty, handle },
        Side::Read => Step::DropRead { guest, ty, handle },
    }
}

fn move_end(scene: &mut Scene) -> Step {
    let (guest, ty, handle) = of_end(scene, None, false);
    Step::Move { guest, ty, handle, to: scene.guest() }
}

// Often one of whose stream a write waits.
fn lift(scene: &mut Scene) -> Step {
    let waiting = scene.held(|stream, side| {
        let write = &stream[Side::Write].operation;
        side == Side::Read && stream[side].operation.is_none() && write.is_some_and(|write| write.is_open)
    });
    let takes_it = !scene.is_wrong() && scene.random.chance(60);
    if let Some(held) = waiting.filter(|_| takes_it) {
        let ty = scene.store.streams[held.stream as usize].ty;
        return Step::Lift { guest: held.guest, ty, handle: held.handle };
    }
    let (guest, ty, handle) = of_end(scene, Some(Side::Read), false);
    Step::Lift { guest, ty, handle }
}

fn lower(scene: &mut Scene) -> Step {
    let reader = scene.loose();
    let found = scene.store.streams.get(reader as usize).map(|stream| stream.ty);
    let ty = match found {
        Some(ty) => scene.ty_of(ty),
        None => scene.ty(),
    };
    Step::Lower { reader, guest: scene.guest(), ty }
}

// Mostly a host reader of the stream's type.
fn pipe(scene: &mut Scene, readers: usize) -> Step {
    let reader = scene.loose();
    pipe_of(scene, reader, readers)
}

fn pipe_of(scene: &mut Scene, reader: u32, readers: usize) -> Step {
    let ty = scene.store.streams.get(reader as usize).map(|stream| stream.ty);
    let fitting: Vec<u32> = (0..)
        .zip(&scene.store.hosts.readers)
        .filter(|(_, host)| Some(host.ty) == ty && host.stream.is_none())
        .map(|(number, _)| number)
        .collect();
    let host = if fitting.is_empty() || scene.is_wrong() {
        scene.host(readers)
    } else {
        scene.random.pick(&fitting)
    };
    Step::Pipe { reader, host }
}

// Up to five steps on one stream, which is made for a host reader that has none.
fn part_pipe(scene: &mut Scene, readers: usize) {
    let unused: Vec<TransmitIndex> =
        scene.store.hosts.readers.iter().filter(|host| host.stream.is_none()).map(|host| host.ty).collect();
    if unused.is_empty() {
        return;
    }
    let ty = scene.random.pick(&unused);
    let (writer, reader) = (scene.guest(), scene.guest());
    scene.put(Step::Pair { writer, reader, ty });
    let number = scene.store.streams.len().wrapping_sub(1) as u32;
    let Some(stream) = scene.store.streams.last() else { return };
    let (Owner::Guest { guest: writer, handle: write }, Owner::Guest { guest: reader, handle: read }) =
        (stream[Side::Write].owner, stream[Side::Read].owner)
    else {
        return;
    };
    let ty = stream.ty;
    let (size, align) = (ty.payload.size() as u64, ty.payload.align());
    let count = if ty.is_future() { 1 } else { scene.random.within(2, 5) };
    let address = scene.address(writer, u64::from(count) * size, align);
    scene.put(Step::Write { guest: writer, ty, handle: write, address, count });
    if !ty.is_future() {
        let count = scene.random.within(1, count);
        let address = scene.address(reader, u64::from(count) * size, align);
        scene.put(Step::Read { guest: reader, ty, handle: read, address, count });
    }
    scene.put(Step::Lift { guest: reader, ty, handle: read });
    let step = pipe_of(scene, number, readers);
    scene.put(step);
    ask_behind_pipe(scene, step);
}

// A guest reads from each of two host writers to one place, both are fed, and a drive round comes.
fn race(scene: &mut Scene) {
    let hosted = |stream: &Stream, side| {
        side == Side::Read
            && stream[side].operation.is_none()
            && matches!(stream[Side::Write].owner, Owner::Host(_))
    };
    let Some(first) = scene.held(hosted) else { return };
    let second = scene.held(|stream, side| {
        let of_guest = matches!(stream[side].owner, Owner::Guest { guest, .. } if guest == first.guest);
        hosted(stream, side) && of_guest
    });
    let address = scene.address(first.guest, 16, 8);
    let (guest, count) = (first.guest, scene.random.within(1, 4));
    let reads = [Some(first), second].into_iter().flatten();
    for held in reads.clone() {
        let ty = scene.store.streams[held.stream as usize].ty;
        scene.put(Step::Read { guest, ty, handle: held.handle, address, count });
    }
    for held in reads {
        if let Owner::Host(host) = scene.store.streams[held.stream as usize][Side::Write].owner {
            let bytes = scene.random.bytes(4);
            let bytes = scene.script.keep(&bytes);
            scene.put(Step::Feed { host, bytes });
        }
    }
    scene.put(Step::Drive);
    let size = scene.store.guests[guest as usize].memory.len() as u32;
    scene.put(Step::Dump { guest, address, len: 16.min(size.saturating_sub(address)).max(1) });
}

// Often its writer asks at once what the pipe left of its write.
fn ask_behind_pipe(scene: &mut Scene, step: Step) {
    let Step::Pipe { reader, .. } = step else { return };
    let held = scene.held(|stream, side| {
        side == Side::Write
            && stream[side].operation.is_some()
            && matches!(stream[Side::Read].owner, Owner::Host(_))
    });
    let Some(held) = held.filter(|held| held.stream == reader) else { return };
    let (guest, handle, ty) = (held.guest, held.handle, scene.store.streams[reader as usize].ty);
    match scene.random.below(4) {
        0 => scene.put(Step::Event { guest, handle }),
        1 => scene.put(Step::CancelWrite { guest, ty, handle }),
        _ => {}
    }
}

// Mostly a host writer that is the end of a stream.
fn feed(scene: &mut Scene, writers: usize) -> Step {
    let used: Vec<u32> = (0..)
        .zip(&scene.store.streams)
        .filter_map(|(_, stream): (u32, _)| match stream[Side::Write].owner {
            Owner::Host(number) => Some(number),
            _ => None,
        })
        .collect();
    let host = if used.is_empty() || scene.random.chance(25) {
        scene.host(writers)
    } else {
        scene.random.pick(&used)
    };
    if scene.random.chance(12) {
        return Step::Feed { host, bytes: Chunk { start: 0, len: 0 } };
    }
    let payload =
        scene.store.hosts.writers.get(host as usize).map_or(Payload::Nothing, |host| host.ty.payload);
    let count = scene.random.within(1, 8) as usize;
    let mut bytes = scene.items(&payload, count);
    if bytes.is_empty() || scene.is_wrong() {
        let count = scene.random.within(1, 64) as usize;
        bytes = scene.random.bytes(count);
    }
    bytes.truncate(64);
    Step::Feed { host, bytes: scene.script.keep(&bytes) }
}

fn set_join(scene: &mut Scene) -> Step {
    let (guest, set) = of_entry(scene, |entry| matches!(entry, Entry::Set(_)));
    let set = if scene.random.chance(20) { 0 } else { set };
    let member = scene.held(
        |stream, side| matches!(stream[side].owner, Owner::Guest { guest: found, .. } if found == guest),
    );
    let handle = match member {
        Some(held) => scene.handle_of(guest, held.handle),
        None => scene.any_handle(guest),
    };
    Step::SetJoin { guest, set, handle }
}

fn error_context(scene: &mut Scene) -> Step {
    let guest = scene.guest();
    let len = if scene.is_wrong() {
        scene.random.pick(&[4096, 4097, 5000, u32::MAX])
    } else {
        scene.random.within(0, 12)
    };
    let address = scene.address(guest, u64::from(len), 1);
    Step::ErrNew { guest, address, len }
}
