//! Types that hold other types, as trees: where their parts lie, and how they are spelled.

use crate::payload::Scalar;
use std::fmt;

/// The most words of a type.
const WORDS: usize = 16;

/// The most bytes of an item.
const BYTES: usize = 128;

/// A type, or a part of one.
#[derive(Clone, Debug, PartialEq, Eq)]
pub enum Tree {
    Nothing,
    Plain(Scalar),
    Flags(u8),
    Enum(u8),
    Option(Box<Tree>),
    Result(Box<Tree>, Box<Tree>),
    Record(Vec<Tree>),
    Variant(Vec<Tree>),
}

impl Tree {
    /// The type that a word spells, where it is none of nothing, a scalar and a tuple of scalars.
    pub fn named(word: &[u8]) -> Option<Tree> {
        let (tree, rest) = front(word)?;
        (rest.is_empty() && tree.is_known()).then_some(tree)
    }

    /// The type whose words these bytes are.
    pub fn of_words(words: &[u8]) -> Option<Tree> {
        let (tree, rest) = from_words(words)?;
        (rest.is_empty() && tree.is_known()).then_some(tree)
    }

    // Whether a payload may be it: neither too long, nor too large, nor spelled as another form.
    fn is_known(&self) -> bool {
        let is_flat = match self {
            Tree::Nothing | Tree::Plain(_) => true,
            Tree::Record(fields) => fields.len() <= 8 && fields.iter().all(|field| matches!(field, Tree::Plain(_))),
            _ => false,
        };
        !is_flat && self.words().len() <= WORDS && self.size() <= BYTES
    }

    /// Its words, a byte each, a type before its parts.
    pub fn words(&self) -> Vec<u8> {
        let mut words = vec![match self {
            Tree::Nothing => 13,
            Tree::Plain(scalar) => 1 + *scalar as u8,
            Tree::Flags(names) => 47 + names,
            Tree::Enum(cases) => 127 + cases,
            Tree::Option(_) => 14,
            Tree::Result(..) => 15,
            Tree::Record(fields) => 16 + fields.len() as u8,
            Tree::Variant(cases) => 32 + cases.len() as u8,
        }];
        words.extend(self.parts().into_iter().flat_map(Tree::words));
        words
    }

    fn parts(&self) -> Vec<&Tree> {
        match self {
            Tree::Nothing | Tree::Plain(_) | Tree::Flags(_) | Tree::Enum(_) => Vec::new(),
            Tree::Option(value) => vec![value],
            Tree::Result(ok, error) => vec![ok, error],
            Tree::Record(parts) | Tree::Variant(parts) => parts.iter().collect(),
        }
    }

    // What each case holds, by its number.
    fn cases(&self) -> Option<Vec<&Tree>> {
        match self {
            Tree::Enum(cases) => Some(vec![&Tree::Nothing; usize::from(*cases)]),
            Tree::Option(value) => Some(vec![&Tree::Nothing, value]),
            Tree::Result(..) | Tree::Variant(_) => Some(self.parts()),
            _ => None,
        }
    }

    /// An item's address is a multiple of this.
    pub fn align(&self) -> usize {
        match self {
            Tree::Plain(scalar) => scalar.size(),
            Tree::Flags(_) => self.size(),
            _ => self.parts().into_iter().map(Tree::align).max().unwrap_or(1),
        }
    }

    /// The bytes of an item.
    pub fn size(&self) -> usize {
        match self {
            Tree::Nothing => 0,
            Tree::Plain(scalar) => scalar.size(),
            Tree::Flags(names) => match names {
                0..=8 => 1,
                9..=16 => 2,
                _ => 4,
            },
            Tree::Record(_) => {
                let end = self.places().last().map_or(0, |(place, part)| place + part.size());
                end.next_multiple_of(self.align())
            }
            _ => {
                let most = self.parts().into_iter().map(Tree::size).max().unwrap_or(0);
                (self.value_at() + most).next_multiple_of(self.align())
            }
        }
    }

    // Where the value of a case begins: its number takes one byte, of at most 128 cases.
    fn value_at(&self) -> usize {
        self.align()
    }

    // The fields of a record, each with the place where it begins.
    fn places(&self) -> Vec<(usize, &Tree)> {
        let mut end = 0_usize;
        let mut places = Vec::new();
        for part in self.parts() {
            let place = end.next_multiple_of(part.align());
            places.push((place, part));
            end = place + part.size();
        }
        places
    }

    /// Whether the first bytes are an item.
    pub fn is_item(&self, bytes: &[u8]) -> bool {
        match self {
            Tree::Nothing | Tree::Flags(_) => true,
            Tree::Plain(scalar) => scalar.is_item(bytes),
            Tree::Record(_) => self.places().into_iter().all(|(place, part)| part.is_item(&bytes[place..])),
            _ => self.held(bytes).is_some_and(|part| part.size() == 0 || part.is_item(&bytes[self.value_at()..])),
        }
    }

    /// Makes the bytes an item, by as little as it takes.
    pub fn mend(&self, bytes: &mut [u8]) {
        match self {
            Tree::Nothing | Tree::Flags(_) => {}
            Tree::Plain(scalar) if scalar.is_item(bytes) => {}
            Tree::Plain(scalar) => bytes[..scalar.size()].fill(0),
            Tree::Record(_) => self.places().into_iter().for_each(|(place, part)| part.mend(&mut bytes[place..])),
            _ => {
                bytes[0] %= self.cases().map_or(1, |cases| cases.len()) as u8;
                let place = self.value_at();
                if let Some(part) = self.held(bytes).filter(|part| part.size() > 0) {
                    part.mend(&mut bytes[place..]);
                }
            }
        }
    }

    // What the case whose number stands there holds.
    fn held(&self, bytes: &[u8]) -> Option<&Tree> {
        self.cases()?.get(usize::from(bytes[0])).copied()
    }

    /// Lifts the item and lowers it elsewhere. Bytes of other cases and padding stay.
    pub fn copy(&self, from: &[u8], to: &mut [u8]) {
        match self {
            Tree::Nothing => {}
            Tree::Plain(scalar) => scalar.copy(from, to),
            Tree::Flags(names) => {
                for (k, (to, from)) in to[..self.size()].iter_mut().zip(from).enumerate() {
                    let named = usize::from(*names).saturating_sub(8 * k).min(8);
                    *to = from & ((1_u16 << named) - 1) as u8;
                }
            }
            Tree::Record(_) => {
                for (place, part) in self.places() {
                    part.copy(&from[place..], &mut to[place..]);
                }
            }
            _ => {
                to[0] = from[0];
                let place = self.value_at();
                if let Some(part) = self.held(from).filter(|part| part.size() > 0) {
                    part.copy(&from[place..], &mut to[place..]);
                }
            }
        }
    }
}

impl fmt::Display for Tree {
    fn fmt(&self, f: &mut fmt::Formatter<'_>) -> fmt::Result {
        match self {
            Tree::Nothing => f.write_str("_"),
            Tree::Plain(scalar) => scalar.fmt(f),
            Tree::Flags(names) => write!(f, "flags{names}"),
            Tree::Enum(cases) => write!(f, "enum{cases}"),
            Tree::Option(value) => write!(f, "option<{value}>"),
            Tree::Result(ok, error) => match (&**ok, &**error) {
                (Tree::Nothing, Tree::Nothing) => f.write_str("result"),
                (ok, Tree::Nothing) => write!(f, "result<{ok}>"),
                (ok, error) => write!(f, "result<{ok},{error}>"),
            },
            Tree::Record(parts) | Tree::Variant(parts) => {
                f.write_str(if matches!(self, Tree::Record(_)) { "record" } else { "variant" })?;
                let mut before = '<';
                for part in parts {
                    write!(f, "{before}{part}")?;
                    before = ',';
                }
                f.write_str(">")
            }
        }
    }
}

// A type at the front of a text, and what follows it.
fn front(text: &[u8]) -> Option<(Tree, &[u8])> {
    let end = text.iter().position(|byte| b"<,>".contains(byte)).unwrap_or(text.len());
    let (name, rest) = text.split_at(end);
    if let Some(tree) = plain(name) {
        return Some((tree, rest));
    }
    if name == b"result" && rest.first() != Some(&b'<') {
        return Some((Tree::Result(Box::new(Tree::Nothing), Box::new(Tree::Nothing)), rest));
    }
    let (parts, rest) = brackets(rest.strip_prefix(b"<")?)?;
    Some((holding(name, parts)?, rest))
}

fn plain(name: &[u8]) -> Option<Tree> {
    if name == b"_" {
        return Some(Tree::Nothing);
    }
    if let Some(names) = name.strip_prefix(b"flags") {
        return count(names, 32).map(Tree::Flags);
    }
    if let Some(cases) = name.strip_prefix(b"enum") {
        return count(cases, 128).map(Tree::Enum);
    }
    Scalar::named(name).map(Tree::Plain)
}

// A number from 1 on, without leading zeros.
fn count(digits: &[u8], most: u8) -> Option<u8> {
    let number: u8 = std::str::from_utf8(digits).ok()?.parse().ok()?;
    (number.to_string().as_bytes() == digits && (1..=most).contains(&number)).then_some(number)
}

// The types up to the closing bracket, and what follows that.
fn brackets(text: &[u8]) -> Option<(Vec<Tree>, &[u8])> {
    let mut parts = Vec::new();
    let mut rest = text;
    loop {
        let (part, behind) = front(rest)?;
        parts.push(part);
        if parts.len() > WORDS {
            return None;
        }
        match behind.split_first()? {
            (b'>', behind) => return Some((parts, behind)),
            (b',', behind) => rest = behind,
            _ => return None,
        }
    }
}

fn holding(name: &[u8], mut parts: Vec<Tree>) -> Option<Tree> {
    match (name, parts.len()) {
        (b"option", 1) => Some(Tree::Option(Box::new(parts.remove(0)))),
        (b"result", 1) if parts[0] != Tree::Nothing => {
            Some(Tree::Result(Box::new(parts.remove(0)), Box::new(Tree::Nothing)))
        }
        (b"result", 2) if parts[1] != Tree::Nothing => {
            Some(Tree::Result(Box::new(parts.remove(0)), Box::new(parts.remove(0))))
        }
        (b"record", _) => Some(Tree::Record(parts)),
        (b"variant", _) => Some(Tree::Variant(parts)),
        _ => None,
    }
}

fn from_words(words: &[u8]) -> Option<(Tree, &[u8])> {
    let (word, mut rest) = words.split_first()?;
    let mut parts = |count: u8| -> Option<Vec<Tree>> {
        (0..count)
            .map(|_| {
                let (part, behind) = from_words(rest)?;
                rest = behind;
                Some(part)
            })
            .collect()
    };
    let tree = match *word {
        13 => Tree::Nothing,
        14 => Tree::Option(Box::new(parts(1)?.remove(0))),
        15 => {
            let mut sides = parts(2)?;
            Tree::Result(Box::new(sides.remove(0)), Box::new(sides.remove(0)))
        }
        17..=31 => Tree::Record(parts(word - 16)?),
        33..=47 => Tree::Variant(parts(word - 32)?),
        48..=79 => Tree::Flags(word - 47),
        128..=255 => Tree::Enum(word - 127),
        _ => Tree::Plain(*Scalar::ALL.get(usize::from(word.checked_sub(1)?))?),
    };
    Some((tree, rest))
}
