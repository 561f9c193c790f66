//! Items go through a sink and a stream, and bytes through a writer and a reader.

use std::cell::RefCell;
use std::future::poll_fn;
use std::pin::pin;
use std::rc::Rc;
use std::task::{Context, Poll, Waker};
use strm::{Error, Guest, Limits, Store};

type Shared = Rc<RefCell<Store>>;

fn hosts() -> Result<(Shared, Guest, Guest), Error> {
    let mut store = Store::new(0, Limits::default())?;
    let (a, b) = (store.add_host(4096)?, store.add_host(4096)?);
    Ok((Rc::new(RefCell::new(store)), a, b))
}

// Polls both in turn until both are done.
fn run<A, B>(a: impl Future<Output = A>, b: impl Future<Output = B>) -> (A, B) {
    let (mut a, mut b) = (pin!(a), pin!(b));
    let (mut first, mut second) = (None, None);
    let mut cx = Context::from_waker(Waker::noop());
    for _ in 0..100_000 {
        if first.is_none() {
            first = done(a.as_mut().poll(&mut cx));
        }
        if second.is_none() {
            second = done(b.as_mut().poll(&mut cx));
        }
    }
    (first.expect("the first ends"), second.expect("the second ends"))
}

fn done<R>(poll: Poll<R>) -> Option<R> {
    match poll {
        Poll::Ready(result) => Some(result),
        Poll::Pending => None,
    }
}

#[cfg(feature = "futures")]
#[test]
fn items_go_through_a_sink_and_a_stream() -> Result<(), Error> {
    use futures_core::Stream;
    use futures_sink::Sink;
    use strm_adapters::{Items, Sending};

    let (store, a, b) = hosts()?;
    let (sender, receiver) = strm::stream::<u32, _>(&store, a, b, 3)?;
    let send = async {
        let mut sink = pin!(Sending::new(sender));
        for number in 0..100 {
            poll_fn(|cx| sink.as_mut().poll_ready(cx)).await?;
            sink.as_mut().start_send(number)?;
        }
        poll_fn(|cx| sink.as_mut().poll_close(cx)).await
    };
    let receive = async {
        let (mut items, mut all) = (pin!(Items::new(receiver)), Vec::new());
        while let Some(item) = poll_fn(|cx| items.as_mut().poll_next(cx)).await {
            all.push(item?);
        }
        Ok::<_, Error>(all)
    };
    let (sent, received) = run(send, receive);
    sent?;
    assert_eq!(received?, (0..100).collect::<Vec<u32>>());
    Ok(())
}

#[cfg(feature = "tokio")]
#[test]
fn bytes_go_through_a_writer_and_a_reader() -> Result<(), Box<dyn std::error::Error>> {
    use strm_adapters::Bytes;
    use tokio::io::{AsyncRead, AsyncWrite, ReadBuf};

    let (store, a, b) = hosts()?;
    let (sender, receiver) = strm::stream::<u8, _>(&store, a, b, 100)?;
    let bytes: Vec<u8> = (0..10_000).map(|number| (number % 251) as u8).collect();
    let write = async {
        let mut writer = pin!(Bytes::new(sender));
        let mut rest = &bytes[..];
        while !rest.is_empty() {
            let count = poll_fn(|cx| writer.as_mut().poll_write(cx, rest)).await?;
            rest = &rest[count..];
        }
        poll_fn(|cx| writer.as_mut().poll_shutdown(cx)).await
    };
    let read = async {
        let (mut reader, mut all) = (pin!(Bytes::new(receiver)), Vec::new());
        let mut room = [0; 37];
        while all.len() < 10_000 {
            let mut into = ReadBuf::new(&mut room);
            poll_fn(|cx| reader.as_mut().poll_read(cx, &mut into)).await?;
            all.extend_from_slice(into.filled());
        }
        Ok::<_, std::io::Error>(all)
    };
    let (written, read) = run(write, read);
    written?;
    assert_eq!(read?, bytes);
    Ok(())
}
