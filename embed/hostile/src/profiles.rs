//! What the calls of one store are like, so that each store comes to other things.

use crate::calls::Likeness;
use crate::words::built;
use plain::compare::random::Random;
use plain::compound::Tree;
use plain::payload::{Fields, Payload, Scalar, TransmitIndex};

/// Calls of a kind.
#[derive(Clone, Copy, Debug)]
pub enum Family {
    Operate,
    Event,
    /// A cancel or a drop of an end.
    End,
    New,
    Move,
    Set,
    Context,
    Memory,
    AddGuest,
    /// A guest ends, or begins under the number of one that has ended.
    Life,
    /// A memory that is lent grows.
    Grow,
    Query,
    /// Which guest is ready. Where a store draws none, nothing is counted before its end.
    Ready,
    /// The limits of a guest, set or told.
    Limits,
}

/// How often each family is drawn where the store is not drawn to make more or less of it.
const SHARES: [(Family, u32); 14] = [
    (Family::Operate, 450),
    (Family::Event, 150),
    (Family::End, 120),
    (Family::New, 40),
    (Family::Move, 70),
    (Family::Set, 100),
    (Family::Context, 60),
    (Family::Memory, 40),
    (Family::AddGuest, 3),
    (Family::Life, 6),
    (Family::Grow, 6),
    (Family::Query, 60),
    (Family::Ready, 100),
    (Family::Limits, 4),
];

/// The sizes of memories, which are compared after each call.
pub const SIZES: [u32; 9] = [0, 1, 16, 64, 255, 512, 1024, 1024, 4160];

/// What is drawn for one store.
#[derive(Clone, Debug)]
pub struct Profile {
    pub tag: u64,
    pub handles: usize,
    pub places: u32,
    /// The guests that it begins with.
    pub guests: u32,
    /// How many calls it gets.
    pub calls: u32,
    /// How many of a hundred calls have something wrong in them.
    pub hostility: usize,
    /// In how many of a hundred draws a cancel is drawn, and not a drop.
    pub cancels: usize,
    /// How many of a hundred times chars are written where the store has streams of them.
    chars: usize,
    /// Whether allocations are refused.
    pub is_scarce: bool,
    types: Vec<TransmitIndex>,
    shares: Vec<(Family, u32)>,
}

/// What payloads there are in a store.
#[derive(Clone, Copy)]
enum Payloads {
    /// Numbers, and nothing.
    Plain,
    /// Chars, alone and in tuples.
    Chars,
    /// Types that hold others.
    Compounds,
    All,
}

/// The most words of a type that C names.
const WORDS: usize = 7;

/// A type of so many words at most.
pub fn some_tree(random: &mut Random, words: usize) -> Tree {
    let kinds = if words < 2 { 4 } else { 9 };
    match random.below(kinds) {
        0 | 1 => Tree::Plain(random.pick(&Scalar::ALL)),
        2 => Tree::Flags(random.pick(&[1, 3, 8, 9, 16, 17, 32])),
        3 => Tree::Enum(random.pick(&[1, 2, 3, 4, 128])),
        4 => Tree::Option(Box::new(some_case(random, words - 1))),
        5 | 6 if words > 2 => {
            let ok = some_case(random, words - 2);
            let left = words - 1 - ok.words().len();
            Tree::Result(Box::new(ok), Box::new(some_case(random, left)))
        }
        7 => Tree::Variant(some_parts(random, words - 1, some_case)),
        _ => Tree::Record(some_parts(random, words - 1, some_tree)),
    }
}

// The type of a case, or nothing.
fn some_case(random: &mut Random, words: usize) -> Tree {
    if random.chance(30) { Tree::Nothing } else { some_tree(random, words) }
}

// One part or more.
fn some_parts(random: &mut Random, words: usize, some: fn(&mut Random, usize) -> Tree) -> Vec<Tree> {
    let mut parts = Vec::new();
    let mut left = words;
    while left > 0 && (parts.is_empty() || random.chance(70)) {
        let most = random.within(1, left as u32) as usize;
        let part = some(random, most);
        left -= part.words().len();
        parts.push(part);
    }
    parts
}

fn some_payload(random: &mut Random, payloads: Payloads) -> Payload {
    let scalar = |random: &mut Random| match payloads {
        Payloads::Chars => random.pick(&[Scalar::Char, Scalar::Char, Scalar::U8, Scalar::U64]),
        _ => random.pick(&Scalar::ALL),
    };
    let (first, last) = match payloads {
        Payloads::Plain => (0, 3),
        Payloads::Chars => (4, 9),
        Payloads::Compounds => (10, 13),
        Payloads::All => (0, 13),
    };
    match random.within(first, last) {
        0 => Payload::Nothing,
        1..4 => Payload::One(random.pick(&[
            Scalar::U8,
            Scalar::U8,
            Scalar::U16,
            Scalar::U32,
            Scalar::U64,
            Scalar::F32,
        ])),
        4..7 => Payload::One(scalar(random)),
        10.. => built(&some_tree(random, WORDS).words()).unwrap_or(Payload::Nothing),
        _ => {
            let len = random.within(1, 8);
            let fields: Vec<_> = (0..len).map(|_| scalar(random)).collect();
            Fields::new(&fields).map_or(Payload::Nothing, Payload::Tuple)
        }
    }
}

impl Profile {
    /// One that is drawn.
    pub fn draw(random: &mut Random, is_scarce: bool) -> Profile {
        let payloads = random.pick(&[
            Payloads::Plain,
            Payloads::Chars,
            Payloads::Compounds,
            Payloads::All,
            Payloads::All,
        ]);
        let types = (0..random.within(1, 4))
            .map(|_| {
                let payload = some_payload(random, payloads);
                if random.chance(30) {
                    TransmitIndex::future(payload)
                } else {
                    TransmitIndex::stream(payload)
                }
            })
            .collect();
        let shares = SHARES.map(|(family, share)| (family, share * random.pick(&[0, 1, 1, 1, 3])));
        let handles = random.pick(&[2, 8, 20, 100, 100, 1_000_000, usize::MAX]);
        let places = random.pick(&[3, 10, 40, 300, 300, 1_000_000, u32::MAX]);
        // What may keep little is soon the same again.
        let most_calls = if handles.min(places as usize) < 20 { 300 } else { 20_000 };
        Profile {
            tag: random.draw(),
            handles,
            places,
            guests: random.within(1, 5),
            calls: random.pick(&[40, 200, 1000, 1000, 5000, 20_000]).min(most_calls),
            hostility: random.pick(&[0, 5, 20, 50]),
            cancels: random.pick(&[20, 50, 80]),
            chars: random.pick(&[20, 80, 95, 100]),
            is_scarce,
            types,
            shares: [&shares[..], &[(Family::Operate, 1)]].concat(),
        }
    }

    pub fn some_type(&self, random: &mut Random) -> TransmitIndex {
        random.pick(&self.types)
    }

    pub fn some_family(&self, random: &mut Random) -> Family {
        let all: u32 = self.shares.iter().map(|(_, share)| share).sum();
        let mut drawn = random.within(0, all - 1);
        for (family, share) in &self.shares {
            if drawn < *share {
                return *family;
            }
            drawn -= share;
        }
        Family::Operate
    }

    /// What bytes that are written are like: chars often where the store has streams of them, numbers of cases where
    /// it has types that hold others.
    pub fn likeness(&self, random: &mut Random) -> Likeness {
        let has_chars = self.types.iter().any(|ty| match &ty.payload {
            Payload::Nothing | Payload::Compound(_) => false,
            Payload::One(scalar) => *scalar == Scalar::Char,
            Payload::Tuple(fields) => fields.as_slice().contains(&Scalar::Char),
        });
        let has_cases = self.types.iter().any(|ty| matches!(ty.payload, Payload::Compound(_)));
        if has_cases && random.chance(self.chars) {
            return Likeness::Cases;
        }
        if has_chars && random.chance(self.chars) {
            return Likeness::Chars;
        }
        random.pick(&[Likeness::Any, Likeness::Text, Likeness::Text, Likeness::Chars])
    }
}
