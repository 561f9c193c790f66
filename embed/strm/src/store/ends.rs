//! The calls on an end by its type and side, and all the ends of a guest.

use crate::{Code, Error, Guest, Handle, Refusal, Side, Store, Type};

/// An end, as the calls name it.
#[derive(Clone, Copy, Debug, PartialEq, Eq, Hash)]
pub(crate) struct Named {
    pub guest: Guest,
    pub handle: Handle,
    pub ty: Type,
    pub side: Side,
}

impl Store {
    // A read or write; of a future the count is 1.
    pub(crate) fn operate(&mut self, end: Named, address: u32, count: u32) -> Result<Code, Error> {
        let Named {
            guest,
            handle,
            ty,
            side,
        } = end;
        match (ty, side) {
            (Type::Stream(payload), Side::Writing) => {
                self.stream_write(guest, payload, handle, address, count)
            }
            (Type::Stream(payload), Side::Reading) => {
                self.stream_read(guest, payload, handle, address, count)
            }
            (Type::Future(payload), Side::Writing) => self.future_write(guest, payload, handle, address),
            (Type::Future(payload), Side::Reading) => self.future_read(guest, payload, handle, address),
        }
    }

    pub(crate) fn cancel(&mut self, end: Named) -> Result<Code, Error> {
        let Named {
            guest,
            handle,
            ty,
            side,
        } = end;
        match (ty, side) {
            (Type::Stream(payload), Side::Writing) => self.stream_cancel_write(guest, payload, handle),
            (Type::Stream(payload), Side::Reading) => self.stream_cancel_read(guest, payload, handle),
            (Type::Future(payload), Side::Writing) => self.future_cancel_write(guest, payload, handle),
            (Type::Future(payload), Side::Reading) => self.future_cancel_read(guest, payload, handle),
        }
    }

    pub(crate) fn drop_end(&mut self, end: Named) -> Result<(), Error> {
        let Named {
            guest,
            handle,
            ty,
            side,
        } = end;
        match (ty, side) {
            (Type::Stream(payload), Side::Writing) => self.stream_drop_writable(guest, payload, handle),
            (Type::Stream(payload), Side::Reading) => self.stream_drop_readable(guest, payload, handle),
            (Type::Future(payload), Side::Writing) => self.future_drop_writable(guest, payload, handle),
            (Type::Future(payload), Side::Reading) => self.future_drop_readable(guest, payload, handle),
        }
    }

    pub(crate) fn transfer(&mut self, end: Named, to: Guest) -> Result<Handle, Error> {
        match end.ty {
            Type::Stream(payload) => self.stream_transfer(end.guest, payload, end.handle, to),
            Type::Future(payload) => self.future_transfer(end.guest, payload, end.handle, to),
        }
    }

    // Cancels what waits, and drops the end. A future's write end is asked whether its read end is gone, since it
    // can be dropped without a value then.
    pub(crate) fn give_up(&mut self, end: Named) -> Result<(), Error> {
        match self.cancel(end) {
            Ok(_) | Err(Error::Refused(Refusal::NoPending)) => {}
            Err(error) => return Err(error),
        }
        match self.drop_end(end) {
            Err(Error::Refused(Refusal::FutureWithoutValue)) => {
                let _ = self.take_event(end.guest, end.handle)?;
                self.drop_end(end)
            }
            answer => answer,
        }
    }
}
