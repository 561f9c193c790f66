//! What the examples of the docs begin with.

use crate::{Error, Guest, Limits, Pair, Payload, Share, Store, Type};
use alloc::rc::Rc;
use core::cell::RefCell;
use core::pin::pin;
use core::task::{Context, Poll, Waker};

// Two guests of 64 KiB, and a stream of bytes from the first to the second.
#[doc(hidden)]
pub fn example() -> Result<(Store, Guest, Guest, Pair), Error> {
    let mut store = Store::new(0, Limits::default())?;
    let (writer, reader) = (store.add_guest(65536)?, store.add_guest(65536)?);
    let pair = store.new_between(writer, reader, Type::Stream(Payload::U8))?;
    Ok((store, writer, reader, pair))
}

// A store that is shared, and two guests of the runtime's own.
#[doc(hidden)]
pub fn example_shared() -> Result<(Rc<RefCell<Store>>, Guest, Guest), Error> {
    let store = Rc::new(RefCell::new(Store::new(0, Limits::default())?));
    let (a, b) = store.with(|store| Ok::<_, Error>((store.add_host(65536)?, store.add_host(65536)?)))?;
    Ok((store, a, b))
}

// What a call that is awaited answers if it is polled once.
#[doc(hidden)]
pub fn example_poll<R>(call: impl Future<Output = R>) -> Poll<R> {
    pin!(call).poll(&mut Context::from_waker(Waker::noop()))
}

// Runs two tasks in turn, the first of them first: what the second answers.
#[doc(hidden)]
pub fn example_run<R>(first: impl Future, second: impl Future<Output = R>) -> R {
    let (mut first, mut second) = (pin!(first), pin!(second));
    let mut cx = Context::from_waker(Waker::noop());
    let mut is_done = false;
    loop {
        is_done = is_done || first.as_mut().poll(&mut cx).is_ready();
        if let Poll::Ready(result) = second.as_mut().poll(&mut cx) {
            return result;
        }
    }
}
