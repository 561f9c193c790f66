//! For the crate `futures`.

use core::pin::Pin;
use core::task::{Context, Poll, ready};
use futures_core::Stream;
use futures_sink::Sink;
use strm::{Error, Item, Receiver, Sender, Share};

/// The items of a receiver, as a stream that ends where its write end is gone. After an error it ends, too.
pub struct Items<T: Item, S: Share>(Option<Receiver<T, S>>);

impl<T: Item, S: Share> Items<T, S> {
    /// The items of this receiver, which has room.
    pub fn new(receiver: Receiver<T, S>) -> Items<T, S> {
        Items(Some(receiver))
    }

    /// The receiver, if it has not ended.
    pub fn into_inner(self) -> Option<Receiver<T, S>> {
        self.0
    }
}

impl<T: Item, S: Share + Unpin> Stream for Items<T, S> {
    type Item = Result<T, Error>;

    fn poll_next(mut self: Pin<&mut Self>, cx: &mut Context<'_>) -> Poll<Option<Result<T, Error>>> {
        let Some(receiver) = &mut self.0 else {
            return Poll::Ready(None);
        };
        let item = ready!(receiver.poll_recv(cx)).transpose();
        if !matches!(item, Some(Ok(_))) {
            self.0 = None;
        }
        Poll::Ready(item)
    }
}

/// The items of a sender, as a sink. Closing it flushes it and drops the write end.
pub struct Sending<T: Item, S: Share>(Option<Sender<T, S>>);

impl<T: Item, S: Share> Sending<T, S> {
    /// Sends by this sender, which has room.
    pub fn new(sender: Sender<T, S>) -> Sending<T, S> {
        Sending(Some(sender))
    }

    fn poll_sent(&mut self, cx: &mut Context<'_>) -> Poll<Result<(), Error>> {
        self.0
            .as_mut()
            .map_or(Poll::Ready(Err(Error::Closed)), |sender| sender.poll_flush(cx))
    }
}

impl<T: Item, S: Share + Unpin> Sink<T> for Sending<T, S> {
    type Error = Error;

    fn poll_ready(mut self: Pin<&mut Self>, cx: &mut Context<'_>) -> Poll<Result<(), Error>> {
        self.poll_sent(cx)
    }

    fn start_send(mut self: Pin<&mut Self>, item: T) -> Result<(), Error> {
        self.0
            .as_mut()
            .ok_or(Error::Closed)?
            .start_send(&[item])
            .map(|_| ())
    }

    fn poll_flush(mut self: Pin<&mut Self>, cx: &mut Context<'_>) -> Poll<Result<(), Error>> {
        self.poll_sent(cx)
    }

    fn poll_close(mut self: Pin<&mut Self>, cx: &mut Context<'_>) -> Poll<Result<(), Error>> {
        if self.0.is_some() {
            ready!(self.poll_sent(cx))?;
            self.0 = None;
        }
        Poll::Ready(Ok(()))
    }
}
