//! Items of types that hold others: how they lie, and that they move as they are.

use strm::{Code, Error, Item, Limits, Payload, Store, Type, TypeError};

strm::enumeration! {
    #[derive(Clone, Copy, Debug, PartialEq)]
    enum Colour {
        Red,
        Green,
        Blue,
    }
}

strm::record! {
    #[derive(Clone, Copy, Debug, PartialEq)]
    struct Pixel {
        at: (u16, u16),
        colour: Option<Colour>,
        depth: f64,
    }
}

// An item is got as it was put, and what is not written stays.
fn lies_as<T: Item + PartialEq + std::fmt::Debug>(item: &T, expected: &[u8]) {
    let mut bytes = vec![0xaa; T::SIZE];
    item.put(&mut bytes);
    assert_eq!(bytes, expected, "{item:?}");
    assert_eq!(T::get(&bytes).as_ref(), Some(item));
}

#[test]
fn items_lie_as_the_canonical_abi_lays_them_out() {
    const A: u8 = 0xaa;
    lies_as(&Some(7_u64), &[1, A, A, A, A, A, A, A, 7, 0, 0, 0, 0, 0, 0, 0]);
    lies_as(&None::<u32>, &[0, A, A, A, A, A, A, A]);
    lies_as(&Some(Some(())), &[1, 1]);
    lies_as(&Ok::<u8, u16>(5), &[0, A, 5, A]);
    lies_as(&Err::<(), Colour>(Colour::Blue), &[1, 2]);
    lies_as(&Ok::<(), ()>(()), &[0]);
    lies_as(&[(); 3], &[]);
    lies_as(&[3_u16, 4], &[3, 0, 4, 0]);
    lies_as(&(1_u8, (2_u8, 3_u32)), &[1, A, A, A, 2, A, A, A, 3, 0, 0, 0]);
    lies_as(&(Some(true), 'x'), &[1, 1, A, A, 0x78, 0, 0, 0]);
    let pixel = Pixel {
        at: (1, 2),
        colour: Some(Colour::Green),
        depth: 1.0,
    };
    lies_as(&pixel, &[1, 0, 2, 0, 1, 1, A, A, 0, 0, 0, 0, 0, 0, 0xf0, 0x3f]);
}

#[test]
fn bytes_that_are_no_item_are_none() {
    assert_eq!(Option::<u8>::get(&[2, 0]), None);
    assert_eq!(Result::<(), Colour>::get(&[1, 3]), None);
    assert_eq!(Result::<(), Colour>::get(&[0, 3]), Some(Ok(())));
    assert_eq!(Option::<char>::get(&[1, 0, 0, 0, 0, 0xd8, 0, 0]), None);
    assert_eq!(Option::<char>::get(&[0, 0, 0, 0, 0, 0xd8, 0, 0]), Some(None));
    assert_eq!(Option::<u64>::get(&[1]), None);
}

#[test]
fn types_are_named_by_their_parts() {
    assert_eq!(
        Pixel::PAYLOAD.to_string(),
        "record<record<u16,u16>,option<enum3>,f64>"
    );
    assert_eq!((Pixel::SIZE, Pixel::PAYLOAD.align()), (16, 8));
    assert_eq!(<[u8; 2]>::PAYLOAD, <(u8, u8)>::PAYLOAD);
    let colour = Payload::enumeration(3).unwrap();
    let by_hand = Payload::variant(&[None, Some(Payload::U8), Some(colour)]).unwrap();
    assert_eq!(by_hand.to_string(), "variant<_,u8,enum3>");
    assert_eq!(Payload::flags(33), Err(TypeError::Count));
    assert_eq!(Payload::record(&[]), Err(TypeError::Count));
    assert_eq!(Payload::record(&[colour; 7]), Err(TypeError::TooLong));
    let eight = Payload::tuple(&[strm::Scalar::U64; 6]).unwrap();
    assert_eq!(eight.option().unwrap_err(), TypeError::TooLong);
}

#[test]
fn items_move_and_a_wrong_one_stops() -> Result<(), Error> {
    let mut store = Store::new(0, Limits::default())?;
    let (a, b) = (store.add_guest(256)?, store.add_guest(256)?);
    let (mut writer, mut reader) = store.stream_between::<Option<Colour>>(a, b)?;
    let sent = [Some(Colour::Blue), None, Some(Colour::Red)];
    store.put_items(a, 0, &sent)?;
    assert_eq!(writer.write(&mut store, 0, 3)?, Code::Blocked);
    assert_eq!(reader.read(&mut store, 0, 3)?, Code::Completed(3));
    assert_eq!(store.get_items::<Option<Colour>>(b, 0, 3)?, sent);
    assert_eq!(writer.take_event(&mut store)?, Some(Code::Completed(3)));

    store.memory_mut(a)?[..6].copy_from_slice(&[1, 0, 0, 9, 1, 3]);
    store.memory_mut(b)?[3] = 7;
    assert_eq!(writer.write(&mut store, 0, 3)?, Code::Blocked);
    let Err(stopped) = reader.read(&mut store, 0, 3) else {
        panic!("the third is no item")
    };
    assert!(stopped.to_string().contains("none of its type"), "{stopped}");
    assert_eq!(reader.read(&mut store, 0, 2)?, Code::Completed(2));
    assert_eq!(store.memory(b)?[..4], [1, 0, 0, 7], "the value of no case stays");
    Ok(())
}

#[test]
fn bits_of_floats_stay() -> Result<(), Error> {
    let mut store = Store::new(0, Limits::default())?;
    let (a, b) = (store.add_guest(64)?, store.add_guest(64)?);
    let ty = Type::Stream(Payload::F32);
    let pair = store.new_between(a, b, ty)?;
    let signalling = 0x7f80_0001_u32.to_le_bytes();
    store.memory_mut(a)?[..4].copy_from_slice(&signalling);
    assert_eq!(
        store.stream_write(a, Payload::F32, pair.write, 0, 1)?,
        Code::Blocked
    );
    assert_eq!(
        store.stream_read(b, Payload::F32, pair.read, 8, 1)?,
        Code::Completed(1)
    );
    assert_eq!(store.memory(b)?[8..12], signalling);
    Ok(())
}
