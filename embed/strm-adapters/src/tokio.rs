//! For the crate `tokio`.

use core::pin::Pin;
use core::task::{Context, Poll, ready};
use std::io;
use strm::{Error, Receiver, Sender, Share};
use tokio::io::{AsyncRead, AsyncWrite, ReadBuf};

/// An end of a stream of bytes: of a receiver what is read, of a sender what is written.
pub struct Bytes<E>(E);

impl<E> Bytes<E> {
    /// The bytes of this end, which has room.
    pub fn new(end: E) -> Bytes<E> {
        Bytes(end)
    }

    /// The end.
    pub fn into_inner(self) -> E {
        self.0
    }
}

fn failed(error: Error) -> io::Error {
    match error {
        Error::Closed => io::Error::new(io::ErrorKind::BrokenPipe, error),
        _ => io::Error::other(error),
    }
}

impl<S: Share + Unpin> AsyncRead for Bytes<Receiver<u8, S>> {
    fn poll_read(
        mut self: Pin<&mut Self>,
        cx: &mut Context<'_>,
        into: &mut ReadBuf<'_>,
    ) -> Poll<io::Result<()>> {
        if into.remaining() > 0 {
            let count = ready!(self.0.poll_recv_into(cx, into.initialize_unfilled())).map_err(failed)?;
            into.advance(count);
        }
        Poll::Ready(Ok(()))
    }
}

impl<S: Share + Unpin> AsyncWrite for Bytes<Sender<u8, S>> {
    fn poll_write(mut self: Pin<&mut Self>, cx: &mut Context<'_>, from: &[u8]) -> Poll<io::Result<usize>> {
        self.0.poll_send(cx, from).map_err(failed)
    }

    fn poll_flush(mut self: Pin<&mut Self>, cx: &mut Context<'_>) -> Poll<io::Result<()>> {
        self.0.poll_flush(cx).map_err(failed)
    }

    fn poll_shutdown(self: Pin<&mut Self>, cx: &mut Context<'_>) -> Poll<io::Result<()>> {
        self.poll_flush(cx)
    }
}
