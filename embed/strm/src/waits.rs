//! Who waits for an end to have something to be told.

use crate::rooms::Room;
use crate::{Guest, Handle, Payload, Side, StreamId};
use alloc::collections::BTreeMap;
use alloc::vec::Vec;
use core::mem;
use core::task::Waker;

/// One of the two ends of a stream, wherever it moves.
pub(crate) type Place = (StreamId, Side);

/// What happens once an end has something to be told.
pub(crate) enum Waiter {
    /// A task is woken: by its waker, until it was.
    Task(Option<Waker>),
    /// Nothing: what a task waited for was taken away, which it does not know yet.
    TakenAway,
    /// A future's last value was received, and its write end is dropped.
    Last(LastValue),
}

/// The value that a future's owned write end left to be read, and that end.
pub(crate) struct LastValue {
    pub guest: Guest,
    pub handle: Handle,
    pub payload: Payload,
    pub room: Room,
}

/// Those who wait, and the wakers that are to be used or dropped once the store is free: either may run code of an
/// executor's, which may drop the last end of a task.
#[derive(Default)]
pub(crate) struct Waits {
    waiters: BTreeMap<Place, Waiter>,
    // Those who wait for a set of a guest, each under a key of its own.
    set_waiters: BTreeMap<Guest, BTreeMap<u64, Waker>>,
    next_key: u64,
    released: Released,
    is_deferred: bool,
}

/// Wakers that no end keeps any more.
#[derive(Default)]
pub(crate) struct Released {
    woken: Vec<Waker>,
    dropped: Vec<Waker>,
}

impl Released {
    pub fn wake(self) {
        self.woken.into_iter().for_each(Waker::wake);
    }
}

impl Waits {
    #[inline]
    pub fn is_empty(&self) -> bool {
        self.waiters.is_empty() && self.set_waiters.is_empty()
    }

    pub fn has(&self, place: Place) -> bool {
        self.waiters.contains_key(&place)
    }

    pub fn insert(&mut self, place: Place, waiter: Waiter) {
        if let Some(Waiter::Task(waker)) = self.waiters.insert(place, waiter) {
            self.released.dropped.extend(waker);
        }
    }

    pub fn remove(&mut self, place: Place) -> Option<Waiter> {
        self.waiters.remove(&place)
    }

    pub fn forget(&mut self, place: Place) {
        if let Some(Waiter::Task(waker)) = self.waiters.remove(&place) {
            self.released.dropped.extend(waker);
        }
    }

    pub fn drop_later(&mut self, waker: Waker) {
        self.released.dropped.push(waker);
    }

    /// The end has something to be told: its task is woken. Answers the last value that goes so.
    pub fn ready(&mut self, place: Place) -> Option<LastValue> {
        match self.waiters.get_mut(&place)? {
            Waiter::Task(waker) => self.released.woken.extend(waker.take()),
            Waiter::TakenAway => {}
            Waiter::Last(_) => {
                if let Some(Waiter::Last(last)) = self.waiters.remove(&place) {
                    return Some(last);
                }
            }
        }
        None
    }

    /// Another than the task that waits took what it waits for: it is woken to learn that. Answers the last value that
    /// went so.
    pub fn take_away(&mut self, place: Place) -> Option<LastValue> {
        let last = self.ready(place);
        if let Some(waiter) = self.waiters.get_mut(&place) {
            *waiter = Waiter::TakenAway;
        }
        last
    }

    /// The end is gone with its guest: a task that waits is woken to learn that, and a last value goes.
    pub fn end(&mut self, place: Place) {
        if let Some(Waiter::Task(waker)) = self.waiters.remove(&place) {
            self.released.woken.extend(waker);
        }
    }

    /// A task waits for a set of a guest, under a key that it gets where it has none.
    pub fn keep_set(&mut self, guest: Guest, key: &mut Option<u64>, waker: &Waker) {
        let key = *key.get_or_insert_with(|| {
            self.next_key += 1;
            self.next_key
        });
        let waiters = self.set_waiters.entry(guest).or_default();
        self.released.dropped.extend(waiters.insert(key, waker.clone()));
    }

    pub fn forget_set(&mut self, guest: Guest, key: u64) {
        if let Some(waiters) = self.set_waiters.get_mut(&guest) {
            self.released.dropped.extend(waiters.remove(&key));
            if waiters.is_empty() {
                self.set_waiters.remove(&guest);
            }
        }
    }

    pub fn has_sets(&self, guest: Guest) -> bool {
        self.set_waiters.contains_key(&guest)
    }

    /// A set of the guest may have something to tell: the tasks that wait for its sets are woken, to ask them.
    pub fn ready_sets(&mut self, guest: Guest) {
        let waiters = self.set_waiters.remove(&guest);
        self.released
            .woken
            .extend(waiters.into_iter().flat_map(BTreeMap::into_values));
    }

    /// The same of all guests.
    pub fn ready_all_sets(&mut self) {
        for guest in mem::take(&mut self.set_waiters).into_values() {
            self.released.woken.extend(guest.into_values());
        }
    }

    /// From now on wakers are left to who asks for them with [`Waits::released`], or used by each call again.
    pub fn defer(&mut self, is_deferred: bool) {
        self.is_deferred = is_deferred;
    }

    pub fn released(&mut self) -> Released {
        mem::take(&mut self.released)
    }

    /// Wakes whom the last call made ready, unless it is left to another.
    pub fn flush(&mut self) {
        if !self.is_deferred {
            self.released().wake();
        }
    }
}
