//! Who is woken by a call.
//!
//! An end gets something to be told by a call on the other end alone. So after each such call the store is asked who
//! has the other end, and whether that is to be told something now: then the task that waits there is woken, and those
//! that wait for a set of its guest. Where no task waits, nothing is asked, nor where the call was refused, since that
//! changes nothing. A guest that ends is such a call on each of its ends.

use crate::waits::{LastValue, Place, Released};
use crate::{EndInfo, Error, Guest, Handle, HandleInfo, OtherEnd, Side, Store, StreamId};
use alloc::vec::Vec;

impl Store {
    // What of an end has to be asked before its handle goes.
    #[inline]
    pub(crate) fn waited(&self, guest: Guest, handle: Handle) -> Option<EndInfo> {
        if self.waits.is_empty() {
            return None;
        }
        self.end_info(guest, handle)
    }

    // An end was called.
    #[inline]
    pub(crate) fn called<R>(
        &mut self,
        guest: Guest,
        handle: Handle,
        answer: Result<R, Error>,
    ) -> Result<R, Error> {
        if answer.is_ok() && !self.waits.is_empty() {
            let end = self.end_info(guest, handle);
            self.tell(end, false);
        }
        answer
    }

    // An end's operation or event was taken, perhaps from a task that waits for it.
    #[inline]
    pub(crate) fn taken<R>(
        &mut self,
        guest: Guest,
        handle: Handle,
        answer: Result<R, Error>,
    ) -> Result<R, Error> {
        let end = self.waited(guest, handle);
        self.gone(end, answer)
    }

    // An end has another handle now, or none.
    #[inline]
    pub(crate) fn gone<R>(&mut self, end: Option<EndInfo>, answer: Result<R, Error>) -> Result<R, Error> {
        if answer.is_ok() && !self.waits.is_empty() {
            self.tell(end, true);
        }
        answer
    }

    // What of the ends of a guest has to be asked before it ends.
    pub(crate) fn waited_ends(&self, guest: Guest) -> Vec<EndInfo> {
        let mut ends = Vec::new();
        if self.waits.is_empty() {
            return ends;
        }
        let mut after = Handle(0);
        while let Ok(Some((handle, info))) = self.next_handle(guest, after) {
            if let HandleInfo::End(end) = info {
                ends.push(end);
            }
            after = handle;
        }
        ends
    }

    // A guest ended, which had these ends: who waits at them or at the others is told, and who waits for its sets.
    pub(crate) fn ended_with(&mut self, guest: Guest, ends: Vec<EndInfo>) {
        for end in ends {
            self.waits.end((end.stream, end.side));
            self.tell_other(end);
        }
        self.waits.ready_sets(guest);
        self.waits.flush();
    }

    // The loose read end of a stream was closed: the write end is to be told so.
    #[inline]
    pub(crate) fn closed(&mut self, stream: StreamId, answer: Result<(), Error>) -> Result<(), Error> {
        if answer.is_ok() && !self.waits.is_empty() {
            self.take_away((stream, Side::Reading));
            self.ready((stream, Side::Writing));
            // Which guest has the write end is not asked.
            self.waits.ready_all_sets();
            self.waits.flush();
        }
        answer
    }

    // The sets of a guest have other members now, or are fewer.
    #[inline]
    pub(crate) fn set_changed(&mut self, guest: Guest, answer: Result<(), Error>) -> Result<(), Error> {
        if answer.is_ok() && !self.waits.is_empty() {
            self.waits.ready_sets(guest);
            self.waits.flush();
        }
        answer
    }

    // Makes calls, and answers the wakers that are to be used when nobody uses the store.
    pub(crate) fn deferred<R>(&mut self, calls: impl FnOnce(&mut Store) -> R) -> (R, Released) {
        struct Deferral<'a>(&'a mut Store);
        impl Drop for Deferral<'_> {
            fn drop(&mut self) {
                self.0.waits.defer(false);
            }
        }
        self.waits.defer(true);
        let deferral = Deferral(self);
        let result = calls(deferral.0);
        drop(deferral);
        (result, self.waits.released())
    }

    fn end_info(&self, guest: Guest, handle: Handle) -> Option<EndInfo> {
        match self.handle(guest, handle) {
            Ok(HandleInfo::End(end)) => Some(end),
            _ => None,
        }
    }

    #[cold]
    fn tell(&mut self, end: Option<EndInfo>, is_taken: bool) {
        let Some(end) = end else { return };
        if is_taken {
            self.take_away((end.stream, end.side));
        }
        self.tell_other(end);
        self.waits.flush();
    }

    fn take_away(&mut self, place: Place) {
        if let Some(last) = self.waits.take_away(place) {
            self.give_room(last.room);
        }
    }

    fn tell_other(&mut self, end: EndInfo) {
        let place = (end.stream, end.side.other());
        let OtherEnd::Guest { guest, handle } = end.other else {
            return;
        };
        if !self.waits.has(place) && !self.waits.has_sets(guest) {
            return;
        }
        if self
            .end_info(guest, handle)
            .is_some_and(|other| other.event.is_some())
        {
            self.ready(place);
            self.waits.ready_sets(guest);
        }
    }

    fn ready(&mut self, place: Place) {
        if let Some(last) = self.waits.ready(place) {
            self.finish(last);
        }
    }

    // The value that a write end left was received, or nobody will receive it.
    fn finish(&mut self, last: LastValue) {
        let LastValue {
            guest,
            handle,
            payload,
            room,
        } = last;
        let told = self.take_event(guest, handle);
        if told.is_ok() {
            let _ = self.future_drop_writable(guest, payload, handle);
        }
        self.give_room(room);
    }
}
