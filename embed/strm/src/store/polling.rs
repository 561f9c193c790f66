//! What owned ends do with a store.

use crate::rooms::Room;
use crate::store::Named;
use crate::waits::{LastValue, Place, Waiter};
use crate::{Code, Error, Guest, Member, Refusal, Store, WaitableSet};
use core::task::Waker;

impl Store {
    // Begins a read or write, of so many items at an address, or goes on with one: its code, or none while it waits,
    // and then the waker is kept. Where nothing is begun and nothing is under way it waits for the other end to go.
    pub(crate) fn poll_end(
        &mut self,
        end: Named,
        place: Place,
        begin: Option<(u32, u32)>,
        waker: &Waker,
    ) -> Result<Option<Code>, Error> {
        let waiter = self.waits.remove(place);
        let told = match (begin, &waiter) {
            (Some((address, count)), _) => self.operate(end, address, count).map(Some),
            (None, Some(Waiter::TakenAway)) => Err(Error::Refused(Refusal::NoPending)),
            (None, _) => self.take_event(end.guest, end.handle),
        };
        let waits = matches!(told, Ok(None | Some(Code::Blocked)));
        let kept = match waiter {
            Some(Waiter::Task(kept)) => kept,
            _ => None,
        };
        if waits {
            self.keep(place, kept, waker);
            return Ok(None);
        }
        // The task is polled now, so a waker of its own is not its last one.
        kept.filter(|kept| !kept.will_wake(waker))
            .into_iter()
            .for_each(|other| self.waits.drop_later(other));
        told
    }

    // Keeps a waker for a place: the one that was there, if it wakes the same task.
    fn keep(&mut self, place: Place, kept: Option<Waker>, waker: &Waker) {
        let waker = match kept {
            Some(kept) if kept.will_wake(waker) => kept,
            Some(other) => {
                self.waits.drop_later(other);
                waker.clone()
            }
            None => waker.clone(),
        };
        self.waits.insert(place, Waiter::Task(Some(waker)));
    }

    // Polls a set: where no member has an event, the waker is kept under a key.
    pub(crate) fn poll_set(
        &mut self,
        guest: Guest,
        set: WaitableSet,
        key: &mut Option<u64>,
        waker: &Waker,
    ) -> Result<Option<Member>, Error> {
        let told = self.set_poll(guest, set)?;
        if told.is_none() {
            self.waits.keep_set(guest, key, waker);
        }
        Ok(told)
    }

    // Nobody waits for a set under this key any more.
    pub(crate) fn unwait_set(&mut self, guest: Guest, key: u64) {
        self.waits.forget_set(guest, key);
    }

    // Nobody waits at this end any more.
    pub(crate) fn unwait(&mut self, place: Place) {
        self.waits.forget(place);
    }

    // Gives up an end and its room; of a future's write end the value to be left lies at an address.
    pub(crate) fn release(
        &mut self,
        end: Named,
        place: Place,
        room: Room,
        last: Option<u32>,
    ) -> Result<(), Error> {
        self.unwait(place);
        match (self.give_up(end), last) {
            (Err(Error::Refused(Refusal::FutureWithoutValue)), Some(address)) => {
                self.leave(end, place, room, address)
            }
            (answer, _) => {
                self.give_room(room);
                answer
            }
        }
    }

    // Writes a future's last value, and drops the write end, at once or when it was received.
    fn leave(&mut self, end: Named, place: Place, room: Room, address: u32) -> Result<(), Error> {
        let answer = match self.operate(end, address, 1) {
            Ok(Code::Blocked) => {
                let Named { guest, handle, .. } = end;
                let last = LastValue {
                    guest,
                    handle,
                    payload: end.ty.payload(),
                    room,
                };
                self.waits.insert(place, Waiter::Last(last));
                return Ok(());
            }
            Ok(_) => self.drop_end(end),
            Err(error) => Err(error),
        };
        self.give_room(room);
        answer
    }

    // Moves an end to another guest, with what lies in its room.
    pub(crate) fn move_end(&mut self, end: Named, room: Room, to: Guest) -> Result<(Named, Room), Error> {
        let there = self.take_room(to, room.len)?;
        let moved = self.transfer(end, to).and_then(|handle| {
            let from = room.address as usize;
            let bytes = self.memory(room.guest)?[from..from + room.len as usize].to_vec();
            self.memory_write(to, there.address, &bytes)?;
            Ok(handle)
        });
        match moved {
            Ok(handle) => {
                self.give_room(room);
                Ok((
                    Named {
                        guest: to,
                        handle,
                        ..end
                    },
                    there,
                ))
            }
            Err(error) => {
                self.give_room(there);
                Err(error)
            }
        }
    }
}
