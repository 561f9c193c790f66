//! The types of Rust that are items of a stream.

use crate::{Payload, Scalar, TypeError};

/// A type of Rust whose values are the items of a stream, or the value of a future.
///
/// It says which payload its items are, and how one lies in memory by the Canonical ABI. A wrong one gives wrong
/// values and nothing worse. It is there for nothing `()`, `bool`, the integers of 8 to 64 bits, `char`, `f32` and `f64`
/// as their bits, `Option`, `Result`, arrays and tuples of items, and structs and enums that
/// [`record!`](crate::record) and [`enumeration!`](crate::enumeration) make.
///
/// Another type composed of others needs no more than their [`SIZE`](Item::SIZE), [`put`](Item::put) and
/// [`get`](Item::get), as here a record by hand:
///
/// ```
/// use strm::{Field, Item, Payload};
///
/// #[derive(Debug, PartialEq)]
/// struct Point { x: i16, y: i32 }
///
/// impl Item for Point {
///     const PAYLOAD: Payload = Payload::tuple(&[i16::SCALAR, i32::SCALAR]).unwrap();
///     fn put(&self, bytes: &mut [u8]) {
///         (self.x, self.y).put(bytes)
///     }
///     fn get(bytes: &[u8]) -> Option<Point> {
///         <(i16, i32)>::get(bytes).map(|(x, y)| Point { x, y })
///     }
/// }
///
/// let mut bytes = [0; Point::SIZE];
/// Point { x: 1, y: -2 }.put(&mut bytes);
/// assert_eq!(bytes, [1, 0, 0, 0, 0xfe, 0xff, 0xff, 0xff]);
/// assert_eq!(Point::get(&bytes), Some(Point { x: 1, y: -2 }));
/// ```
pub trait Item: Sized {
    /// What one item is.
    const PAYLOAD: Payload;

    /// The bytes of an item, and of those that lie between it and the next.
    const SIZE: usize = Self::PAYLOAD.size() as usize;

    /// Puts the item into its bytes, which are [`SIZE`](Item::SIZE) many. Padding stays as it was.
    fn put(&self, bytes: &mut [u8]);

    /// The item that its bytes are, if they are one. No bits of a `bool` are false and all others true, as they are
    /// lifted.
    fn get(bytes: &[u8]) -> Option<Self>;
}

/// An item that may be the field of a tuple: a scalar.
///
/// ```
/// use strm::{Field, Scalar};
///
/// assert_eq!(<u64 as Field>::SCALAR, Scalar::U64);
/// ```
pub trait Field: Item {
    /// Which scalar it is.
    const SCALAR: Scalar;
}

impl Item for () {
    const PAYLOAD: Payload = Payload::NOTHING;

    fn put(&self, _: &mut [u8]) {}

    fn get(_: &[u8]) -> Option<()> {
        Some(())
    }
}

impl Item for bool {
    const PAYLOAD: Payload = Payload::BOOL;

    fn put(&self, bytes: &mut [u8]) {
        bytes[0] = u8::from(*self);
    }

    fn get(bytes: &[u8]) -> Option<bool> {
        bytes.first().map(|byte| *byte != 0)
    }
}

impl Field for bool {
    const SCALAR: Scalar = Scalar::Bool;
}

impl Item for char {
    const PAYLOAD: Payload = Payload::CHAR;

    fn put(&self, bytes: &mut [u8]) {
        u32::from(*self).put(bytes);
    }

    fn get(bytes: &[u8]) -> Option<char> {
        u32::get(bytes).and_then(char::from_u32)
    }
}

impl Field for char {
    const SCALAR: Scalar = Scalar::Char;
}

macro_rules! numbers {
    ($($number:ident $scalar:ident),+) => {$(
        impl Item for $number {
            const PAYLOAD: Payload = Payload::one(Scalar::$scalar);

            #[inline]
            fn put(&self, bytes: &mut [u8]) {
                bytes.copy_from_slice(&self.to_le_bytes());
            }

            #[inline]
            fn get(bytes: &[u8]) -> Option<$number> {
                bytes.try_into().ok().map($number::from_le_bytes)
            }
        }

        impl Field for $number {
            const SCALAR: Scalar = Scalar::$scalar;
        }
    )+};
}

numbers!(i8 S8, u8 U8, i16 S16, u16 U16, i32 S32, u32 U32, i64 S64, u64 U64, f32 F32, f64 F64);

// A payload, or the end of a compilation that names one that there is not.
const fn known(payload: Result<Payload, TypeError>) -> Payload {
    match payload {
        Ok(payload) => payload,
        Err(TypeError::TooLong) => panic!("a type of more than seven words"),
        Err(_) => panic!("a type without parts, or with too many"),
    }
}

/// An enum of so many cases.
#[doc(hidden)]
#[must_use]
pub const fn enumeration_of(cases: usize) -> Payload {
    known(Payload::enumeration(if cases > 128 { 0 } else { cases as u8 }))
}

// What a case holds, if it holds something.
const fn held(payload: Payload) -> Option<Payload> {
    if payload.word() == 0 { None } else { Some(payload) }
}

// Where the value of a case begins, behind its number.
const fn value_at(alignments: &[u32]) -> usize {
    let (mut align, mut k) = (1, 0);
    while k < alignments.len() {
        if alignments[k] > align {
            align = alignments[k];
        }
        k += 1;
    }
    align as usize
}

impl<T: Item> Item for Option<T> {
    const PAYLOAD: Payload = known(T::PAYLOAD.option());

    fn put(&self, bytes: &mut [u8]) {
        let at = const { value_at(&[T::PAYLOAD.align()]) };
        bytes[0] = u8::from(self.is_some());
        if let Some(value) = self {
            value.put(&mut bytes[at..at + T::SIZE]);
        }
    }

    fn get(bytes: &[u8]) -> Option<Option<T>> {
        let at = const { value_at(&[T::PAYLOAD.align()]) };
        match bytes.first()? {
            0 => Some(None),
            1 => T::get(bytes.get(at..at + T::SIZE)?).map(Some),
            _ => None,
        }
    }
}

impl<T: Item, E: Item> Item for Result<T, E> {
    const PAYLOAD: Payload = known(Payload::result(held(T::PAYLOAD), held(E::PAYLOAD)));

    fn put(&self, bytes: &mut [u8]) {
        let at = const { value_at(&[T::PAYLOAD.align(), E::PAYLOAD.align()]) };
        bytes[0] = u8::from(self.is_err());
        match self {
            Ok(value) if T::SIZE > 0 => value.put(&mut bytes[at..at + T::SIZE]),
            Err(error) if E::SIZE > 0 => error.put(&mut bytes[at..at + E::SIZE]),
            _ => {}
        }
    }

    fn get(bytes: &[u8]) -> Option<Result<T, E>> {
        let at = const { value_at(&[T::PAYLOAD.align(), E::PAYLOAD.align()]) };
        match bytes.first()? {
            0 => T::get(bytes.get(at..at + T::SIZE)?).map(Ok),
            1 => E::get(bytes.get(at..at + E::SIZE)?).map(Err),
            _ => None,
        }
    }
}

impl<T: Item, const N: usize> Item for [T; N] {
    const PAYLOAD: Payload = known(Payload::record(&[T::PAYLOAD; N]));

    fn put(&self, bytes: &mut [u8]) {
        for (item, bytes) in self.iter().zip(bytes.chunks_mut(T::SIZE.max(1))) {
            item.put(bytes);
        }
    }

    fn get(bytes: &[u8]) -> Option<[T; N]> {
        let mut items = [const { None }; N];
        for (k, item) in items.iter_mut().enumerate() {
            *item = Some(T::get(bytes.get(k * T::SIZE..(k + 1) * T::SIZE)?)?);
        }
        let mut left = items.into_iter().flatten();
        Some(core::array::from_fn(|_| match left.next() {
            Some(item) => item,
            None => unreachable!(),
        }))
    }
}

// The fields of a tuple.
trait Fields {
    const FIELDS: &'static [Payload];
}

macro_rules! tuples {
    ($($field:ident $index:tt),+) => {
        impl<$($field: Item),+> Fields for ($($field,)+) {
            const FIELDS: &'static [Payload] = &[$($field::PAYLOAD),+];
        }

        impl<$($field: Item),+> Item for ($($field,)+) {
            const PAYLOAD: Payload = known(Payload::record(<Self as Fields>::FIELDS));

            fn put(&self, bytes: &mut [u8]) {
                $(
                    let at = const { Payload::field_offset(<Self as Fields>::FIELDS, $index) };
                    self.$index.put(&mut bytes[at..at + $field::SIZE]);
                )+
            }

            fn get(bytes: &[u8]) -> Option<Self> {
                Some(($({
                    let at = const { Payload::field_offset(<Self as Fields>::FIELDS, $index) };
                    $field::get(bytes.get(at..at + $field::SIZE)?)?
                },)+))
            }
        }
    };
}

tuples!(A 0);
tuples!(A 0, B 1);
tuples!(A 0, B 1, C 2);
tuples!(A 0, B 1, C 2, D 3);
tuples!(A 0, B 1, C 2, D 3, E 4);
tuples!(A 0, B 1, C 2, D 3, E 4, F 5);
tuples!(A 0, B 1, C 2, D 3, E 4, F 5, G 6);
tuples!(A 0, B 1, C 2, D 3, E 4, F 5, G 6, H 7);
