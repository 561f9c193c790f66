//! A task that waits for a guest's set is woken when the set may have something to tell, and takes what it tells.

mod tasks;

use strm::{
    Code, End, Error, Guest, Handle, Payload, Refusal, Share, StreamReader, StreamWriter, Type, WaitableSet,
};
use tasks::{Draws, Shared, Tasks, hosts};

type Bytes = (StreamWriter<u8>, StreamReader<u8>);

struct World {
    store: Shared,
    writer: Guest,
    reader: Guest,
    set: WaitableSet,
}

// Two guests, of which the second has a set, and a stream from the first to it.
fn world() -> (World, Bytes) {
    let (store, [writer, reader]) = hosts::<2>();
    let (set, ends) = store.with(|store| {
        (
            store.set_new(reader).unwrap(),
            store.stream_between(writer, reader).unwrap(),
        )
    });
    let world = World {
        store,
        writer,
        reader,
        set,
    };
    (world, ends)
}

impl World {
    fn join<K: strm::Kind>(&self, end: &End<K, u8>) {
        self.store.with(|store| end.join(store, self.set)).unwrap();
    }

    async fn waits_for(&self, wanted: Result<(Handle, Code), Error>) -> Result<(), Error> {
        let told = strm::set_wait(&self.store, self.reader, self.set).await;
        assert_eq!(told.map(|told| (told.handle, told.code)), wanted);
        Ok(())
    }

    // A task waits, a call is made, and the task is woken by it.
    fn is_woken_by(&self, wanted: Result<(Handle, Code), Error>, call: impl FnOnce(&World)) {
        let mut tasks = Tasks::default();
        tasks.spawn(self.waits_for(wanted));
        assert_eq!(tasks.run(), [0]);
        call(self);
        assert!(tasks.run().is_empty(), "the wake was missed");
    }
}

#[test]
fn by_a_write() {
    let (world, (mut writer, mut reader)) = world();
    world.join(&reader);
    let code = world.store.with(|store| reader.read(store, 0, 4));
    assert_eq!(code, Ok(Code::Blocked));
    world.is_woken_by(Ok((reader.handle(), Code::Completed(3))), |world| {
        let code = world.store.with(|store| writer.write(store, 0, 3));
        assert_eq!(code, Ok(Code::Completed(3)));
    });
}

#[test]
fn by_a_dropped_end() {
    let (world, (writer, reader)) = world();
    world.join(&reader);
    world.is_woken_by(Ok((reader.handle(), Code::Dropped(0))), |world| {
        world.store.with(|store| writer.close(store)).unwrap();
    });
}

#[test]
fn by_a_guest_that_ends() {
    let (world, (_, reader)) = world();
    world.join(&reader);
    world.is_woken_by(Ok((reader.handle(), Code::Dropped(0))), |world| {
        assert_eq!(world.store.with(|store| store.end_guest(world.writer)), Ok(()));
    });
}

#[test]
fn by_its_own_guest_that_ends() {
    let (world, _) = world();
    world.is_woken_by(Err(Error::Refused(Refusal::UnknownHandle)), |world| {
        assert_eq!(world.store.with(|store| store.end_guest(world.reader)), Ok(()));
    });
}

#[test]
fn by_a_loose_end_that_is_closed() {
    let (world, _) = world();
    let (writer, reader) = world
        .store
        .with(|store| store.stream_between::<u8>(world.reader, world.writer))
        .unwrap();
    world.join(&writer);
    let loose = world.store.with(|store| reader.lift(store)).unwrap();
    world.is_woken_by(Ok((writer.handle(), Code::Dropped(0))), |world| {
        world.store.with(|store| loose.close(store)).unwrap();
    });
}

#[test]
fn by_an_end_that_joins_with_something_to_be_told() {
    let (world, (writer, reader)) = world();
    world.store.with(|store| writer.close(store)).unwrap();
    world.is_woken_by(Ok((reader.handle(), Code::Dropped(0))), |world| {
        world.join(&reader)
    });
}

#[test]
fn by_the_set_being_dropped() {
    let (world, _) = world();
    world.is_woken_by(Err(Error::Refused(Refusal::UnknownHandle)), |world| {
        world
            .store
            .with(|store| store.set_drop(world.reader, world.set))
            .unwrap();
    });
}

#[test]
fn each_of_two_tasks_gets_an_event() {
    let (world, (writer, reader)) = world();
    let (other_writer, other_reader): Bytes = world
        .store
        .with(|store| store.stream_between(world.writer, world.reader))
        .unwrap();
    world.join(&reader);
    world.join(&other_reader);
    let mut tasks = Tasks::default();
    tasks.spawn(world.waits_for(Ok((reader.handle(), Code::Dropped(0)))));
    tasks.spawn(world.waits_for(Ok((other_reader.handle(), Code::Dropped(0)))));
    assert_eq!(tasks.run(), [0, 1]);
    world.store.with(|store| writer.close(store)).unwrap();
    assert_eq!(tasks.run(), [1]);
    world.store.with(|store| other_writer.close(store)).unwrap();
    assert!(tasks.run().is_empty());
}

#[test]
fn not_by_what_is_of_another_guest() {
    let (world, (_, reader)) = world();
    world.join(&reader);
    let mut tasks = Tasks::default();
    tasks.spawn(world.waits_for(Ok((reader.handle(), Code::Dropped(0)))));
    tasks.run();
    tasks.polls();
    let (writer, reader): Bytes = world
        .store
        .with(|store| store.stream_between(world.writer, world.writer))
        .unwrap();
    world.store.with(|store| writer.close(store)).unwrap();
    world.store.with(|store| reader.close(store)).unwrap();
    assert_eq!((tasks.run(), tasks.polls()), (vec![0], 0));
}

#[test]
fn one_that_is_dropped_takes_nothing_and_keeps_no_waker() {
    let (world, (writer, reader)) = world();
    world.join(&reader);
    let mut tasks = Tasks::default();
    let waits = tasks.spawn(world.waits_for(Ok((reader.handle(), Code::Dropped(0)))));
    tasks.run();
    tasks.drop_task(waits);
    world.store.with(|store| writer.close(store)).unwrap();
    assert!(!tasks.step(), "a task that is gone was woken");
    let told = world
        .store
        .with(|store| store.set_poll(world.reader, world.set))
        .unwrap();
    assert_eq!(told.map(|told| told.code), Some(Code::Dropped(0)));
}

// A task that takes whatever a guest's set tells, for ever.
async fn takes_all(store: Shared, guest: Guest, set: WaitableSet) -> Result<(), Error> {
    loop {
        let _ = strm::set_wait(&store, guest, set).await?;
    }
}

// One call that is drawn, on an end that is drawn; what is refused is.
fn call(store: &mut strm::Store, draws: &mut Draws, guests: &[Guest], sets: &[WaitableSet]) {
    let at = draws.below(guests.len());
    let (guest, handle) = (guests[at], Handle(1 + draws.below(12) as u32));
    let to = guests[draws.below(guests.len())];
    let bytes = Type::Stream(Payload::U8);
    let _ = match draws.below(14) {
        0 | 1 => store.new_between(guest, to, bytes).map(drop),
        2 => store.new_between(guest, to, Type::Future(Payload::U8)).map(drop),
        3 | 4 => store.set_join(guest, sets[at], handle),
        5 => store.stream_write(guest, Payload::U8, handle, 0, 2).map(drop),
        6 => store.stream_read(guest, Payload::U8, handle, 8, 3).map(drop),
        7 => store.future_write(guest, Payload::U8, handle, 0).map(drop),
        8 => store.future_read(guest, Payload::U8, handle, 8).map(drop),
        9 => store.stream_drop_writable(guest, Payload::U8, handle),
        10 => store.stream_drop_readable(guest, Payload::U8, handle),
        11 => store.stream_cancel_read(guest, Payload::U8, handle).map(drop),
        12 => store
            .lift(guest, bytes, handle)
            .and_then(|stream| store.close(stream)),
        _ => store.stream_transfer(guest, Payload::U8, handle, to).map(drop),
    };
}

#[test]
fn no_wake_is_missed_in_any_run() {
    for seed in 1..200 {
        let (store, guests) = hosts::<3>();
        let sets = guests.map(|guest| store.with(|store| store.set_new(guest)).unwrap());
        let mut draws = Draws(seed);
        let mut tasks = Tasks::default();
        for (guest, set) in guests.iter().zip(sets) {
            tasks.spawn(takes_all(store.clone(), *guest, set));
        }
        for _ in 0..300 {
            store.with(|store| call(store, &mut draws, &guests, &sets));
            assert_eq!(tasks.run(), [0, 1, 2]);
            for (guest, set) in guests.iter().zip(sets) {
                let left = store.with(|store| store.set_poll(*guest, set));
                assert_eq!(left, Ok(None), "seed {seed}: a wake was missed");
            }
        }
    }
}
