//! Streams and futures between the guests of a WebAssembly component runtime, by a library whose every call is
//! proved to be one step of its machine: a count reported is a count moved.
//!
//! A [`Store`] has guests, each with a memory, a table of handles and waitable sets. What a guest gets wrong is an
//! [`Error`] and changes nothing. The runtime's own ends are those of a guest too, whose memory is its buffer. A
//! memory is the store's own, or the host's: a [`Memory`] that it gives away, or any bytes, by `unsafe` calls. There
//! are three layers, each made of the one below:
//!
//! **Calls by numbers**, for runtimes whose guests bring them: the Canonical ABI's built-ins, by guest, payload and
//! handle.
//!
//! ```
//! use strm::{Code, Limits, Payload, Store, Type};
//!
//! let mut store = Store::new(0, Limits::default())?;
//! let writer = store.add_guest(65536)?;
//! let reader = store.add_guest(65536)?;
//! let pair = store.new_between(writer, reader, Type::Stream(Payload::U8))?;
//!
//! store.memory_mut(writer)?[..5].copy_from_slice(b"hello");
//! let code = store.stream_write(writer, Payload::U8, pair.write, 0, 5)?;
//! assert_eq!(code, Code::Blocked);
//!
//! let code = store.stream_read(reader, Payload::U8, pair.read, 100, 8)?;
//! assert_eq!(code, Code::Completed(5));
//! assert_eq!(&store.memory(reader)?[100..105], b"hello");
//! assert_eq!(store.take_event(writer, pair.write)?, Some(Code::Completed(5)));
//! # Ok::<(), strm::Error>(())
//! ```
//!
//! **Typed ends**: a [`StreamWriter<T>`](StreamWriter) is the write end of a stream of `T`, wherever it is. It takes
//! `&mut Store` with each call, and stays until it is closed. That is the form for a runtime that holds its store in
//! one place and whose ends mostly belong to guests: no lock, no count of shares, and no borrow of the store between
//! calls. Dropping the value does nothing, since it may not call a store that it does not have.
//!
//! **Owned ends**: a [`Sender<T, S>`](Sender) keeps a [`Share`] of its store, `Rc<RefCell<Store>>` or
//! `Arc<Mutex<Store>>`, so it can be awaited by any executor, and it drops itself: what it has under way is cancelled
//! first. That is the form for tasks of the runtime. An end that borrowed its store would keep every other end from
//! being used; one that had no store could not be dropped with its task.
//!
//! ```
//! use std::{cell::RefCell, rc::Rc};
//! use strm::{Error, Limits, Share, Store};
//!
//! let store = Rc::new(RefCell::new(Store::new(0, Limits::default())?));
//! let (a, b) = store.with(|store| Ok::<_, Error>((store.add_host(4096)?, store.add_host(4096)?)))?;
//! let (mut sender, mut receiver) = strm::stream::<(u8, char), _>(&store, a, b, 4)?;
//!
//! let write = async { sender.send_all(&[(1, 'a'), (2, 'b')]).await };
//! let read = async { receiver.recv().await };
//! # let item = strm::example_run(write, read);
//! assert_eq!(item?, Some((1, 'a'))); // of the second, when any executor ran both
//! # Ok::<(), Error>(())
//! ```
//!
//! # What it stands on
//!
//! What is proved is the archive that `strm-sys` links; this crate is plain Rust over it, with one `unsafe` block a
//! call, and no other dependency. There are archives for Linux on x86-64 of the level x86-64-v2, on every x86-64, and on
//! arm64.
//! The crate needs `alloc`; without its feature `std` threads share a store by a lock of their own.
#![no_std]

extern crate alloc;
#[cfg(feature = "std")]
extern crate std;

mod codes;
mod ends;
mod errors;
mod examples;
mod item;
mod loose;
mod memory;
mod numbers;
mod owned;
mod payload;
mod record;
mod rooms;
mod set_wait;
mod share;
mod store;
mod types;
mod version;
mod waits;

pub use codes::{Code, UnknownCode};
pub use ends::{
    End, EndError, FutureReader, FutureWriter, Kind, ReadFuture, ReadStream, StreamReader, StreamWriter,
    WriteFuture, WriteStream,
};
pub use errors::{BadItem, Error};
pub use item::{Field, Item};
pub use loose::{Loose, LooseError, LooseFuture, LooseStream, ReadKind};
pub use memory::Memory;
pub use numbers::{ErrorContext, ErrorContextId, Guest, Handle, Member, Pair, StreamId, WaitableSet};
pub use owned::{Owned, Receiver, Sender, ValueReceiver, ValueSender, future, stream};
pub use payload::{Payload, Scalar, Type};
pub use set_wait::{SetWait, set_wait};
pub use share::Share;
pub use store::{EndInfo, GuestLimits, HandleInfo, Limits, OtherEnd, Side, Store};
pub use strm_sys::Refusal;
pub use types::TypeError;
pub use version::{Version, version};

#[doc(hidden)]
pub use examples::{example, example_poll, example_run, example_shared};
#[doc(hidden)]
pub use item::enumeration_of;
