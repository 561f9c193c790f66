//! What one item of a stream is, and how it lies in memory.

use core::fmt;

/// A scalar type of the Component Model. Floats are moved as their bits.
///
/// ```
/// use strm::Scalar;
///
/// assert_eq!(Scalar::Char.size(), 4);
/// assert_eq!(Scalar::S64.to_string(), "s64");
/// ```
#[derive(Clone, Copy, Debug, PartialEq, Eq, Hash)]
#[non_exhaustive]
#[repr(u8)]
#[allow(missing_docs)]
pub enum Scalar {
    Bool = 1,
    S8,
    U8,
    S16,
    U16,
    S32,
    U32,
    S64,
    U64,
    Char,
    F32,
    F64,
}

/// The scalars by their numbers, from 1.
const SCALARS: [Scalar; 12] = [
    Scalar::Bool,
    Scalar::S8,
    Scalar::U8,
    Scalar::S16,
    Scalar::U16,
    Scalar::S32,
    Scalar::U32,
    Scalar::S64,
    Scalar::U64,
    Scalar::Char,
    Scalar::F32,
    Scalar::F64,
];

impl Scalar {
    /// The bytes that one takes, which is its alignment too.
    ///
    /// ```
    /// assert_eq!(strm::Scalar::U16.size(), 2);
    /// ```
    #[must_use]
    pub const fn size(self) -> u32 {
        match self {
            Scalar::Bool | Scalar::S8 | Scalar::U8 => 1,
            Scalar::S16 | Scalar::U16 => 2,
            Scalar::S32 | Scalar::U32 | Scalar::Char | Scalar::F32 => 4,
            Scalar::S64 | Scalar::U64 | Scalar::F64 => 8,
        }
    }
}

impl fmt::Display for Scalar {
    fn fmt(&self, f: &mut fmt::Formatter<'_>) -> fmt::Result {
        f.write_str(match self {
            Scalar::Bool => "bool",
            Scalar::S8 => "s8",
            Scalar::U8 => "u8",
            Scalar::S16 => "s16",
            Scalar::U16 => "u16",
            Scalar::S32 => "s32",
            Scalar::U32 => "u32",
            Scalar::S64 => "s64",
            Scalar::U64 => "u64",
            Scalar::Char => "char",
            Scalar::F32 => "f32",
            Scalar::F64 => "f64",
        })
    }
}

const TUPLE: u64 = 1 << 32;
const FUTURE: u64 = 1 << 33;

// The most fields of a tuple.
const FIELDS: u32 = 8;

/// What one item is: nothing, a scalar, a tuple of one to eight scalars, or any other type of a fixed size that holds
/// no pointer and no handle, as [`option`](Payload::option) and [`result`](Payload::result) build them.
///
/// ```
/// use strm::{Payload, Scalar};
///
/// let pair = Payload::tuple(&[Scalar::U8, Scalar::S32]).unwrap();
/// assert_eq!(pair.scalars().collect::<Vec<_>>(), [Scalar::U8, Scalar::S32]);
/// assert_eq!((pair.size(), pair.align()), (8, 4));
/// assert_eq!(pair.to_string(), "(u8,s32)");
/// assert_eq!(Payload::tuple(&[]), None);
/// assert_ne!(Payload::tuple(&[Scalar::U8]), Some(Payload::U8));
/// ```
#[derive(Clone, Copy, PartialEq, Eq, Hash)]
pub struct Payload(u64);

#[allow(missing_docs)]
impl Payload {
    pub const NOTHING: Payload = Payload(0);
    pub const BOOL: Payload = Payload::one(Scalar::Bool);
    pub const S8: Payload = Payload::one(Scalar::S8);
    pub const U8: Payload = Payload::one(Scalar::U8);
    pub const S16: Payload = Payload::one(Scalar::S16);
    pub const U16: Payload = Payload::one(Scalar::U16);
    pub const S32: Payload = Payload::one(Scalar::S32);
    pub const U32: Payload = Payload::one(Scalar::U32);
    pub const S64: Payload = Payload::one(Scalar::S64);
    pub const U64: Payload = Payload::one(Scalar::U64);
    pub const CHAR: Payload = Payload::one(Scalar::Char);
    pub const F32: Payload = Payload::one(Scalar::F32);
    pub const F64: Payload = Payload::one(Scalar::F64);
}

impl Payload {
    /// A scalar that stands alone.
    ///
    /// ```
    /// assert_eq!(strm::Payload::one(strm::Scalar::Char), strm::Payload::CHAR);
    /// ```
    #[must_use]
    pub const fn one(scalar: Scalar) -> Payload {
        Payload(scalar as u64)
    }

    /// A tuple of these scalars; none for no field, or more than eight.
    #[must_use]
    pub const fn tuple(fields: &[Scalar]) -> Option<Payload> {
        if fields.is_empty() || fields.len() > FIELDS as usize {
            return None;
        }
        let mut word = TUPLE;
        let mut k = 0;
        while k < fields.len() {
            word |= (fields[k] as u64) << (4 * k);
            k += 1;
        }
        Some(Payload(word))
    }

    /// A tuple of these, if all are scalars and there are one to eight of them.
    pub(crate) const fn tuple_of(fields: &[Payload]) -> Option<Payload> {
        if fields.is_empty() || fields.len() > FIELDS as usize {
            return None;
        }
        let (mut word, mut k) = (TUPLE, 0);
        while k < fields.len() {
            if fields[k].0 == 0 || fields[k].0 > SCALARS.len() as u64 {
                return None;
            }
            word |= fields[k].0 << (4 * k);
            k += 1;
        }
        Some(Payload(word))
    }

    // A type that holds others, by its word.
    pub(crate) const fn compound(word: u64) -> Payload {
        Payload(word)
    }

    // The scalar of a number, from 1.
    pub(crate) const fn scalar_of(number: u8) -> Scalar {
        SCALARS[number as usize - 1]
    }

    // How many scalars there are, of a payload that holds nothing else.
    pub(crate) const fn fields(self) -> u32 {
        let mut count = 0;
        while self.scalar(count).is_some() {
            count += 1;
        }
        count
    }

    // The number of the scalar of this index, which is there.
    pub(crate) const fn scalar_number(self, index: u32) -> u8 {
        (self.0 >> (4 * index) & 15) as u8
    }

    /// Whether it is a tuple of scalars, of one field or more.
    ///
    /// ```
    /// use strm::{Payload, Scalar};
    ///
    /// assert!(!Payload::U8.is_tuple());
    /// assert!(Payload::tuple(&[Scalar::U8]).unwrap().is_tuple());
    /// ```
    #[must_use]
    pub const fn is_tuple(self) -> bool {
        self.0 >= TUPLE && !self.is_compound()
    }

    /// The scalars of an item that is nothing, a scalar or a tuple of scalars, in order; of any other none.
    pub fn scalars(self) -> impl Iterator<Item = Scalar> {
        (0..FIELDS).map_while(move |index| self.scalar(index))
    }

    // The scalar of this index, if there is one.
    const fn scalar(self, index: u32) -> Option<Scalar> {
        if index >= FIELDS || self.is_compound() {
            return None;
        }
        match (self.0 >> (4 * index) & 15) as usize {
            0 => None,
            number => Some(SCALARS[number - 1]),
        }
    }

    /// The word by which C and the archive name it (`strm_payload` of `strm.h`).
    ///
    /// ```
    /// use strm::Payload;
    ///
    /// assert_eq!(Payload::U8.word(), 3);
    /// assert_eq!(Payload::from_word(3), Some(Payload::U8));
    /// assert_eq!(Payload::from_word(12), Some(Payload::F64));
    /// assert_eq!(Payload::from_word(13), None);
    /// ```
    #[must_use]
    pub const fn word(self) -> u64 {
        self.0
    }

    /// The payload of a word, if one has it.
    #[must_use]
    pub const fn from_word(word: u64) -> Option<Payload> {
        if Payload(word).is_compound() {
            return if Payload::has_words(word) {
                Some(Payload(word))
            } else {
                None
            };
        }
        let mut numbers = word & (TUPLE - 1);
        let is_one = word == 0 || word <= SCALARS.len() as u64;
        let is_tuple = word >> 32 == 1 && numbers > 0;
        while numbers > 0 {
            let number = numbers & 15;
            if number == 0 || number > SCALARS.len() as u64 {
                return None;
            }
            numbers >>= 4;
        }
        if is_one || is_tuple {
            Some(Payload(word))
        } else {
            None
        }
    }

    /// The bytes of an item, and of those that lie between it and the next.
    #[must_use]
    pub const fn size(self) -> u32 {
        if self.is_compound() {
            return self.measures().0;
        }
        self.offset(FIELDS).next_multiple_of(self.align())
    }

    /// An item lies at a multiple of it.
    #[must_use]
    pub const fn align(self) -> u32 {
        if self.is_compound() {
            return self.measures().1;
        }
        let (mut align, mut index) = (1, 0);
        while let Some(scalar) = self.scalar(index) {
            if scalar.size() > align {
                align = scalar.size();
            }
            index += 1;
        }
        align
    }

    /// Where the scalar of this index begins, in bytes from the item's first; where there is none, the bytes up to
    /// the last one's end.
    ///
    /// ```
    /// use strm::{Payload, Scalar};
    ///
    /// let three = Payload::tuple(&[Scalar::U8, Scalar::U32, Scalar::Bool]).unwrap();
    /// assert_eq!([0, 1, 2, 3].map(|index| three.offset(index)), [0, 4, 8, 9]);
    /// ```
    #[must_use]
    pub const fn offset(self, index: u32) -> u32 {
        let (mut at, mut k) = (0u32, 0);
        while let Some(scalar) = self.scalar(k) {
            at = at.next_multiple_of(scalar.size());
            if k == index {
                return at;
            }
            at += scalar.size();
            k += 1;
        }
        at
    }
}

impl fmt::Debug for Payload {
    fn fmt(&self, f: &mut fmt::Formatter<'_>) -> fmt::Result {
        match self.scalar(0) {
            None if self.is_compound() => self.write_words(f),
            None => f.write_str("Nothing"),
            Some(scalar) if !self.is_tuple() => scalar.fmt(f),
            Some(_) => f.debug_list().entries(self.scalars()).finish(),
        }
    }
}

impl fmt::Display for Payload {
    fn fmt(&self, f: &mut fmt::Formatter<'_>) -> fmt::Result {
        match self.scalar(0) {
            None if self.is_compound() => return self.write_words(f),
            None => return f.write_str("none"),
            Some(scalar) if !self.is_tuple() => return write!(f, "{scalar}"),
            Some(first) => write!(f, "({first}")?,
        }
        self.scalars()
            .skip(1)
            .try_for_each(|scalar| write!(f, ",{scalar}"))?;
        f.write_str(")")
    }
}

/// The type of a stream or future.
///
/// ```
/// use strm::{Payload, Type};
///
/// let ty = Type::Future(Payload::CHAR);
/// assert_eq!(ty.payload(), Payload::CHAR);
/// assert_eq!(ty.to_string(), "future:char");
/// assert_eq!(Type::from_word(ty.word()), Some(ty));
/// ```
#[derive(Clone, Copy, Debug, PartialEq, Eq, Hash)]
pub enum Type {
    /// A stream of such items.
    Stream(Payload),
    /// One such value.
    Future(Payload),
}

impl Type {
    /// What one item is.
    #[must_use]
    pub const fn payload(self) -> Payload {
        match self {
            Type::Stream(payload) | Type::Future(payload) => payload,
        }
    }

    /// The word by which C and the archive name it (`strm_type` of `strm.h`).
    #[must_use]
    pub const fn word(self) -> u64 {
        match self {
            Type::Stream(payload) => payload.0,
            Type::Future(payload) => payload.0 | FUTURE,
        }
    }

    /// The type of a word, if one has it.
    #[must_use]
    pub const fn from_word(word: u64) -> Option<Type> {
        match Payload::from_word(word & !FUTURE) {
            None => None,
            Some(payload) if word & FUTURE == 0 => Some(Type::Stream(payload)),
            Some(payload) => Some(Type::Future(payload)),
        }
    }

    // Of a word of the archive's.
    pub(crate) const fn of(word: u64) -> Type {
        if word & FUTURE == 0 {
            Type::Stream(Payload(word))
        } else {
            Type::Future(Payload(word & !FUTURE))
        }
    }
}

impl fmt::Display for Type {
    fn fmt(&self, f: &mut fmt::Formatter<'_>) -> fmt::Result {
        match self {
            Type::Stream(payload) => write!(f, "stream:{payload}"),
            Type::Future(payload) => write!(f, "future:{payload}"),
        }
    }
}
