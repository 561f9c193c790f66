//! Two guests pass five bytes.

use strm::{Error, Limits, Payload, Store, Type};

fn main() -> Result<(), Error> {
    let mut store = Store::new(0, Limits::default())?;
    let writer = store.add_guest(65536)?;
    let reader = store.add_guest(65536)?;
    let pair = store.new_between(writer, reader, Type::Stream(Payload::U8))?;
    store.memory_mut(writer)?[..5].copy_from_slice(b"hello");
    let written = store.stream_write(writer, Payload::U8, pair.write, 0, 5)?;
    let read = store.stream_read(reader, Payload::U8, pair.read, 0, 8)?;
    let told = store.take_event(writer, pair.write)?;
    println!("write {written:?}, read {read:?}, event {told:?}");
    println!("{}", String::from_utf8_lossy(&store.memory(reader)?[..5]));
    if let Err(error) = store.stream_write(writer, Payload::U32, pair.write, 0, 1) {
        println!("{error}");
    }
    Ok(())
}
