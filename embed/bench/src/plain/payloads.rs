//! What the items of a stream or future are, and the words for it.

use super::streams::Kind;

const TUPLE: u64 = 1 << 32;
const FUTURE: u64 = 1 << 33;

fn is_char(bytes: &[u8]) -> bool {
    let number = u32::from_le_bytes([bytes[0], bytes[1], bytes[2], bytes[3]]);
    char::from_u32(number).is_some()
}

// What has to be done to items that move.
#[derive(Clone, Copy, Debug, PartialEq, Eq)]
enum Form {
    Nothing,
    Number,
    Flag,
    Char,
    Tuple,
}

/// What one item is: its word, and what that comes to.
#[derive(Clone, Copy, Debug)]
pub struct Payload {
    word: u64,
    form: Form,
    size: u8,
    align: u8,
}

// No other payload has the same word.
impl PartialEq for Payload {
    #[inline]
    fn eq(&self, other: &Payload) -> bool {
        self.word == other.word
    }
}

/// What is no tuple, by its word.
const PLAIN: [Payload; 11] = [
    Payload::new(0, Form::Nothing, 0, 1),
    Payload::new(1, Form::Flag, 1, 1),
    Payload::new(2, Form::Number, 1, 1),
    Payload::new(3, Form::Number, 1, 1),
    Payload::new(4, Form::Number, 2, 2),
    Payload::new(5, Form::Number, 2, 2),
    Payload::new(6, Form::Number, 4, 4),
    Payload::new(7, Form::Number, 4, 4),
    Payload::new(8, Form::Number, 8, 8),
    Payload::new(9, Form::Number, 8, 8),
    Payload::new(10, Form::Char, 4, 4),
];

impl Payload {
    const fn new(word: u64, form: Form, size: u8, align: u8) -> Payload {
        Payload {
            word,
            form,
            size,
            align,
        }
    }

    #[inline]
    pub fn of_word(word: u64) -> Option<Payload> {
        match PLAIN.get(word as usize) {
            Some(payload) => Some(*payload),
            None => Payload::of_tuple(word),
        }
    }

    #[cold]
    fn of_tuple(word: u64) -> Option<Payload> {
        let mut fields = word
            .checked_sub(TUPLE)
            .filter(|fields| (1..TUPLE).contains(fields))?;
        let (mut end, mut align) = (0usize, 1);
        while fields != 0 {
            let size = Payload::of_field(fields)?.size();
            end = end.next_multiple_of(size) + size;
            align = align.max(size);
            fields >>= 4;
        }
        let size = end.next_multiple_of(align) as u8;
        Some(Payload::new(word, Form::Tuple, size, align as u8))
    }

    // The first of these fields, four bits each.
    fn of_field(fields: u64) -> Option<&'static Payload> {
        PLAIN.get(fields as usize & 15).filter(|field| field.size > 0)
    }

    #[inline]
    pub fn size(&self) -> usize {
        usize::from(self.size)
    }

    #[inline]
    pub fn align(&self) -> usize {
        usize::from(self.align)
    }

    /// Whether any bytes are items.
    #[inline]
    pub fn is_number_or_none(&self) -> bool {
        matches!(self.form, Form::Number | Form::Nothing)
    }

    // The fields of a tuple, with where each begins and ends.
    fn fields(&self) -> impl Iterator<Item = (Form, usize, usize)> {
        let fields = self.word & (TUPLE - 1);
        let mut end = 0;
        (0..8)
            .map_while(move |k| Payload::of_field(fields >> (4 * k)))
            .map(move |field| {
                let begin = usize::next_multiple_of(end, field.size());
                end = begin + field.size();
                (field.form, begin, end)
            })
    }

    /// Copies items between memories: a flag as 0 or 1, and no padding. False, and nothing is copied, where one of
    /// them is none.
    #[inline]
    pub fn copy(&self, source: &[u8], target: &mut [u8]) -> bool {
        match self.form {
            Form::Nothing => {}
            Form::Number => target.copy_from_slice(source),
            Form::Flag => {
                for (from, to) in source.iter().zip(target) {
                    *to = u8::from(*from != 0);
                }
            }
            Form::Char => {
                if !source.chunks_exact(4).all(is_char) {
                    return false;
                }
                target.copy_from_slice(source);
            }
            Form::Tuple => return self.copy_fields(source, target),
        }
        true
    }

    fn copy_fields(&self, source: &[u8], target: &mut [u8]) -> bool {
        for (_, begin, end) in self.fields().filter(|field| field.0 == Form::Char) {
            let mut items = source.chunks_exact(self.size());
            if !items.all(|item| is_char(&item[begin..end])) {
                return false;
            }
        }
        let places = target.chunks_exact_mut(self.size());
        for (item, place) in source.chunks_exact(self.size()).zip(places) {
            for (form, begin, end) in self.fields() {
                match form {
                    Form::Flag => place[begin] = u8::from(item[begin] != 0),
                    _ => place[begin..end].copy_from_slice(&item[begin..end]),
                }
            }
        }
        true
    }
}

/// A stream or a future, and of what.
#[derive(Clone, Copy, Debug, PartialEq)]
pub struct Type {
    pub kind: Kind,
    pub payload: Payload,
}

impl Type {
    pub fn stream(payload: Payload) -> Type {
        let kind = Kind::Stream;
        Type { kind, payload }
    }

    pub fn future(payload: Payload) -> Type {
        let kind = Kind::Future;
        Type { kind, payload }
    }

    #[inline]
    pub fn of_word(word: u64) -> Option<Type> {
        match word {
            FUTURE.. => Payload::of_word(word - FUTURE).map(Type::future),
            _ => Payload::of_word(word).map(Type::stream),
        }
    }
}
