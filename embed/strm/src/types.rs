//! Types that hold other types: how they are built, and how their items lie in memory.
//!
//! A payload that is neither nothing, a scalar nor a tuple of scalars is spelled by words, each of them a byte, a type
//! before those that it holds. Its word for the archive has these bytes.

use core::fmt;

use crate::{Payload, Scalar};

/// The most words of a type.
const WORDS: usize = 7;

/// The bit of the word of such a type.
const COMPOUND: u64 = 1 << 34;

const NOTHING: u8 = 13;
const OPTION: u8 = 14;
const RESULT: u8 = 15;
const RECORD: u8 = 16;
const VARIANT: u8 = 32;
const FLAGS: u8 = 47;
const ENUM: u8 = 127;

/// Why there is no such payload.
#[derive(Clone, Copy, Debug, PartialEq, Eq, Hash)]
#[non_exhaustive]
pub enum TypeError {
    /// It has more than seven words: itself, and each type in it.
    TooLong,
    /// A record has no fields, a variant or an enum no cases, flags have no names; or an enum has more than 128 cases,
    /// flags have more than 32 names.
    Count,
}

impl fmt::Display for TypeError {
    fn fmt(&self, f: &mut fmt::Formatter<'_>) -> fmt::Result {
        f.write_str(match self {
            TypeError::TooLong => "a type of more than seven words",
            TypeError::Count => "no parts, or too many",
        })
    }
}

impl core::error::Error for TypeError {}

/// The words of a type, as many as there is room for.
#[derive(Clone, Copy)]
pub(crate) struct Words {
    bytes: [u8; WORDS],
    len: usize,
}

/// What the type at a place is made of: the place behind it, the bytes of an item, and its alignment.
#[derive(Clone, Copy)]
struct Extent {
    next: usize,
    size: u32,
    align: u32,
}

impl Words {
    const fn of(word: u8) -> Words {
        let mut bytes = [0; WORDS];
        bytes[0] = word;
        Words { bytes, len: 1 }
    }

    /// One word more, also where there is no room for it.
    const fn with(mut self, word: u8) -> Words {
        if self.len < WORDS {
            self.bytes[self.len] = word;
        }
        self.len += 1;
        self
    }

    /// Those of a payload behind them; of none the word for nothing.
    const fn with_part(mut self, part: Option<Payload>) -> Words {
        let part = match part {
            None => return self.with(NOTHING),
            Some(part) => part,
        };
        if part.is_compound() {
            let words = part.words();
            let mut k = 0;
            while k < words.len {
                self = self.with(words.bytes[k]);
                k += 1;
            }
            return self;
        }
        let fields = part.fields();
        if part.is_tuple() {
            self = self.with(RECORD + fields as u8);
        } else if fields == 0 {
            return self.with(NOTHING);
        }
        let mut k = 0;
        while k < fields {
            self = self.with(part.scalar_number(k));
            k += 1;
        }
        self
    }

    /// The payload that they spell.
    const fn payload(self) -> Result<Payload, TypeError> {
        if self.len > WORDS {
            return Err(TypeError::TooLong);
        }
        let (mut word, mut k) = (COMPOUND, 0);
        while k < self.len {
            let shift = if k < 4 { 8 * k } else { 8 * k + 8 };
            word |= (self.bytes[k] as u64) << shift;
            k += 1;
        }
        Ok(Payload::compound(word))
    }

    /// How the type at a place lies.
    const fn extent(&self, place: usize) -> Extent {
        let next = place + 1;
        match self.bytes[place] {
            NOTHING => Extent {
                next,
                size: 0,
                align: 1,
            },
            OPTION => self.cases(next, 1),
            RESULT => self.cases(next, 2),
            word if word < NOTHING => {
                let size = Payload::scalar_of(word).size();
                Extent {
                    next,
                    size,
                    align: size,
                }
            }
            word if word < VARIANT => self.fields(next, word - RECORD),
            word if word <= FLAGS => self.cases(next, word - VARIANT),
            word if word <= ENUM => {
                let size = match word - FLAGS {
                    0..=8 => 1,
                    9..=16 => 2,
                    _ => 4,
                };
                Extent {
                    next,
                    size,
                    align: size,
                }
            }
            _ => Extent {
                next,
                size: 1,
                align: 1,
            },
        }
    }

    const fn fields(&self, first: usize, count: u8) -> Extent {
        let (mut next, mut size, mut align, mut k) = (first, 0u32, 1, 0);
        while k < count {
            let part = self.extent(next);
            size = size.next_multiple_of(part.align) + part.size;
            align = if part.align > align { part.align } else { align };
            next = part.next;
            k += 1;
        }
        Extent {
            next,
            size: size.next_multiple_of(align),
            align,
        }
    }

    // A variant of which the types of so many cases are spelled.
    const fn cases(&self, first: usize, count: u8) -> Extent {
        let (mut next, mut size, mut align, mut k) = (first, 0u32, 1, 0);
        while k < count {
            let part = self.extent(next);
            size = if part.size > size { part.size } else { size };
            align = if part.align > align { part.align } else { align };
            next = part.next;
            k += 1;
        }
        let value = 1u32.next_multiple_of(align);
        Extent {
            next,
            size: (value + size).next_multiple_of(align),
            align,
        }
    }

    /// The spelling of the type at a place, and the place behind it.
    fn write(&self, f: &mut fmt::Formatter<'_>, place: usize) -> Result<usize, fmt::Error> {
        let next = place + 1;
        match self.bytes[place] {
            NOTHING => f.write_str("_").map(|()| next),
            OPTION => self.write_parts(f, "option", next, 1),
            RESULT => self.write_result(f, next),
            word if word < NOTHING => write!(f, "{}", Payload::scalar_of(word)).map(|()| next),
            word if word < VARIANT => self.write_parts(f, "record", next, word - RECORD),
            word if word <= FLAGS => self.write_parts(f, "variant", next, word - VARIANT),
            word if word <= ENUM => write!(f, "flags{}", word - FLAGS).map(|()| next),
            word => write!(f, "enum{}", word - ENUM).map(|()| next),
        }
    }

    fn write_result(&self, f: &mut fmt::Formatter<'_>, first: usize) -> Result<usize, fmt::Error> {
        let second = self.extent(first).next;
        if self.bytes[second] != NOTHING {
            return self.write_parts(f, "result", first, 2);
        }
        if self.bytes[first] != NOTHING {
            self.write_parts(f, "result", first, 1)?;
        } else {
            f.write_str("result")?;
        }
        Ok(second + 1)
    }

    fn write_parts(
        &self,
        f: &mut fmt::Formatter<'_>,
        name: &str,
        first: usize,
        count: u8,
    ) -> Result<usize, fmt::Error> {
        let mut next = first;
        for k in 0..count {
            f.write_str(if k == 0 { name } else { "," })?;
            if k == 0 {
                f.write_str("<")?;
            }
            next = self.write(f, next)?;
        }
        f.write_str(">")?;
        Ok(next)
    }
}

impl Payload {
    /// A value that may be there.
    ///
    /// # Errors
    ///
    /// [`TypeError::TooLong`].
    ///
    /// ```
    /// use strm::Payload;
    ///
    /// let some = Payload::F64.option().unwrap();
    /// assert_eq!((some.size(), some.align()), (16, 8));
    /// assert_eq!(some.to_string(), "option<f64>");
    /// ```
    pub const fn option(self) -> Result<Payload, TypeError> {
        Words::of(OPTION).with_part(Some(self)).payload()
    }

    /// A result: what it holds of `ok` and of `error`, if it holds something.
    ///
    /// # Errors
    ///
    /// [`TypeError::TooLong`].
    ///
    /// ```
    /// use strm::Payload;
    ///
    /// let done = Payload::result(None, Some(Payload::enumeration(3).unwrap())).unwrap();
    /// assert_eq!((done.size(), done.align()), (2, 1));
    /// assert_eq!(done.to_string(), "result<_,enum3>");
    /// ```
    pub const fn result(ok: Option<Payload>, error: Option<Payload>) -> Result<Payload, TypeError> {
        Words::of(RESULT).with_part(ok).with_part(error).payload()
    }

    /// A record of these fields, which is a tuple of them; of one to eight scalars, [`tuple`](Payload::tuple).
    ///
    /// # Errors
    ///
    /// [`TypeError::TooLong`], [`TypeError::Count`].
    ///
    /// ```
    /// use strm::Payload;
    ///
    /// let pair = Payload::record(&[Payload::U8, Payload::F64.option().unwrap()]).unwrap();
    /// assert_eq!((pair.size(), pair.align()), (24, 8));
    /// assert_eq!(pair.to_string(), "record<u8,option<f64>>");
    /// ```
    pub const fn record(fields: &[Payload]) -> Result<Payload, TypeError> {
        if fields.is_empty() {
            return Err(TypeError::Count);
        }
        if let Some(tuple) = Payload::tuple_of(fields) {
            return Ok(tuple);
        }
        if fields.len() > WORDS {
            return Err(TypeError::TooLong);
        }
        let (mut words, mut k) = (Words::of(RECORD + fields.len() as u8), 0);
        while k < fields.len() {
            words = words.with_part(Some(fields[k]));
            k += 1;
        }
        words.payload()
    }

    /// A variant of these cases, each with the value that it holds, if it holds one.
    ///
    /// # Errors
    ///
    /// [`TypeError::TooLong`], [`TypeError::Count`].
    pub const fn variant(cases: &[Option<Payload>]) -> Result<Payload, TypeError> {
        if cases.is_empty() {
            return Err(TypeError::Count);
        }
        if cases.len() > WORDS {
            return Err(TypeError::TooLong);
        }
        let (mut words, mut k) = (Words::of(VARIANT + cases.len() as u8), 0);
        while k < cases.len() {
            words = words.with_part(cases[k]);
            k += 1;
        }
        words.payload()
    }

    /// So many flags, 1 to 32.
    ///
    /// # Errors
    ///
    /// [`TypeError::Count`].
    pub const fn flags(count: u8) -> Result<Payload, TypeError> {
        if count == 0 || count > 32 {
            return Err(TypeError::Count);
        }
        Words::of(FLAGS + count).payload()
    }

    /// So many cases without values, 1 to 128.
    ///
    /// # Errors
    ///
    /// [`TypeError::Count`].
    pub const fn enumeration(cases: u8) -> Result<Payload, TypeError> {
        if cases == 0 || cases > 128 {
            return Err(TypeError::Count);
        }
        Words::of(ENUM + cases).payload()
    }

    /// Whether it holds other types than scalars.
    #[must_use]
    pub const fn is_compound(self) -> bool {
        self.word() & COMPOUND != 0
    }

    // The words that the word of a compound has.
    pub(crate) const fn words(self) -> Words {
        let (mut bytes, mut len) = ([0; WORDS], 0);
        while len < WORDS {
            let shift = if len < 4 { 8 * len } else { 8 * len + 8 };
            bytes[len] = (self.word() >> shift) as u8;
            if bytes[len] == 0 {
                break;
            }
            len += 1;
        }
        Words { bytes, len }
    }

    // How an item of a compound lies: its bytes, and its alignment.
    pub(crate) const fn measures(self) -> (u32, u32) {
        let extent = self.words().extent(0);
        (extent.size, extent.align)
    }

    // The spelling of a compound.
    pub(crate) fn write_words(self, f: &mut fmt::Formatter<'_>) -> fmt::Result {
        self.words().write(f, 0).map(|_| ())
    }

    // Whether the bytes of a word are those of a type, and of one only.
    pub(crate) const fn has_words(word: u64) -> bool {
        let words = Payload::compound(word).words();
        let mut known = COMPOUND;
        let mut k = 0;
        let mut open = 1;
        while k < words.len {
            let shift = if k < 4 { 8 * k } else { 8 * k + 8 };
            known |= (words.bytes[k] as u64) << shift;
            if open == 0 {
                return false;
            }
            open -= 1;
            open += match words.bytes[k] {
                1..=NOTHING | 48..=79 | 128..=255 => 0,
                OPTION => 1,
                RESULT => 2,
                parts @ 17..=31 => (parts - RECORD) as usize,
                parts @ 33..=47 => (parts - VARIANT) as usize,
                _ => return false,
            };
            k += 1;
        }
        known == word && open == 0 && words.len > 0 && !words.is_flat()
    }

    // Where the field of this index of a record of these begins.
    pub(crate) const fn field_offset(fields: &[Payload], index: usize) -> usize {
        let (mut at, mut k) = (0u32, 0);
        loop {
            at = at.next_multiple_of(fields[k].align());
            if k == index {
                return at as usize;
            }
            at += fields[k].size();
            k += 1;
        }
    }
}

impl Words {
    // Nothing, a scalar, or a tuple of one to eight scalars, which have words of their own.
    const fn is_flat(&self) -> bool {
        match self.bytes[0] {
            1..=NOTHING => true,
            17..=31 => {
                let mut k = 1;
                while k < self.len {
                    if self.bytes[k] >= NOTHING {
                        return false;
                    }
                    k += 1;
                }
                self.len <= 9
            }
            _ => false,
        }
    }
}

// The scalars are words by their numbers.
const _: () = assert!(Scalar::F64 as u8 == NOTHING - 1);
