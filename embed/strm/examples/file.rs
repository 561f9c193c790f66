//! A file is read as the components of today read it: a stream of its bytes, and beside it a future of a result that
//! says how the reading ended.

use strm::{Error, Item, Limits, Payload, Store, Type, enumeration};

enumeration! {
    /// WASI has more cases.
    #[derive(Clone, Copy, Debug, PartialEq)]
    enum ErrorCode { Io, IllegalByteSequence, Pipe }
}

/// How the reading ended.
type Done = Result<(), ErrorCode>;

fn main() -> Result<(), Error> {
    let mut store = Store::new(0, Limits::default())?;
    let host = store.add_guest(65536)?;
    let guest = store.add_guest(65536)?;
    let bytes = store.new_between(host, guest, Type::Stream(Payload::U8))?;
    let done = store.new_between(host, guest, Type::Future(Done::PAYLOAD))?;
    println!("{}", Type::Future(Done::PAYLOAD));

    let reading = store.stream_read(guest, Payload::U8, bytes.read, 0, 100)?;
    let _ = store.future_read(guest, Done::PAYLOAD, done.read, 200)?;
    store.memory_mut(host)?[..10].copy_from_slice(b"half of it");
    let written = store.stream_write(host, Payload::U8, bytes.write, 0, 10)?;
    store.stream_drop_writable(host, Payload::U8, bytes.write)?;
    let told: Done = Err(ErrorCode::Pipe);
    told.put(&mut store.memory_mut(host)?[16..16 + Done::SIZE]);
    let _ = store.future_write(host, Done::PAYLOAD, done.write, 16)?;

    let read = store.take_event(guest, bytes.read)?;
    println!("read {reading:?}, write {written:?}, event {read:?}");
    println!("{}", String::from_utf8_lossy(&store.memory(guest)?[..10]));
    let ended = store.take_event(guest, done.read)?;
    println!(
        "{ended:?}: {:?}",
        Done::get(&store.memory(guest)?[200..200 + Done::SIZE])
    );
    Ok(())
}
