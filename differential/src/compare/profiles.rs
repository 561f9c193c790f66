//! What kinds of scripts are drawn.

use super::actions::Action;
use crate::compound::Tree;
use crate::payload::{Fields, Payload, Scalar};
use std::fmt;

/// What a script is mostly about.
#[derive(Clone, Copy, Debug, PartialEq, Eq)]
pub enum Profile {
    /// Reads, writes and events that are mostly in order.
    Happy,
    /// A quarter of all arguments is wrong.
    Hostile,
    /// One guest has both ends, and regions overlap.
    OneGuest,
    /// Host writers and host readers, with guests on the other side.
    Hosts,
    Futures,
    /// Items that may be none.
    Chars,
    /// Waitable sets and error contexts.
    Sets,
    Moves,
    /// Many items, and large regions.
    Big,
    /// Streams that go to host readers, from guests and from host writers.
    Pipes,
    /// Several arguments of one step are wrong.
    Order,
    /// Numbers at the limits.
    Edges,
}

/// Types that hold others, by their spelling.
const COMPOUNDS: [&str; 14] = [
    "result<_,enum3>",
    "result",
    "result<u8>",
    "option<char>",
    "option<f64>",
    "enum128",
    "flags3",
    "flags17",
    "record<u8,option<f64>>",
    "record<bool,record<u8,u32>,flags9>",
    "variant<_,u8,record<char,u64>>",
    "option<option<option<bool>>>",
    "result<record<u64,u8>,variant<char,_>>",
    "record<u8,u8,u8,u8,u8,u8,u8,u8,u8>",
];

impl Profile {
    pub const ALL: [Profile; 12] = [
        Profile::Happy,
        Profile::Hostile,
        Profile::OneGuest,
        Profile::Hosts,
        Profile::Futures,
        Profile::Chars,
        Profile::Sets,
        Profile::Moves,
        Profile::Big,
        Profile::Pipes,
        Profile::Order,
        Profile::Edges,
    ];

    /// How many arguments of a hundred are wrong.
    pub fn wrong(self) -> usize {
        match self {
            Profile::Hostile => 25,
            Profile::Order => 40,
            Profile::Edges => 15,
            Profile::Happy | Profile::Big => 1,
            _ => 4,
        }
    }

    /// How many of a hundred streams are futures.
    pub fn futures(self) -> usize {
        match self {
            Profile::Futures => 90,
            Profile::Big => 0,
            _ => 20,
        }
    }

    /// The least and the most guests that a script begins with.
    pub fn guests(self) -> (u32, u32) {
        if self == Profile::OneGuest { (1, 1) } else { (1, 3) }
    }

    /// The payloads of its streams.
    pub fn payloads(self) -> Vec<Payload> {
        use Scalar::{Bool, Char, F32, F64, S8, S16, S32, S64, U8, U16, U32, U64};
        let one = |scalars: &[Scalar]| scalars.iter().copied().map(Payload::One).collect::<Vec<_>>();
        let tuples = |tuples: &[&[Scalar]]| -> Vec<Payload> {
            tuples.iter().filter_map(|fields| Fields::new(fields).map(Payload::Tuple)).collect()
        };
        let mut payloads = vec![Payload::Nothing];
        match self {
            Profile::OneGuest => payloads.extend(one(&[U8, U8, U16, U32, U64, S64, F64, Bool, Char])),
            Profile::Hosts | Profile::Pipes => {
                payloads.extend(one(&[U8, U8, U32, Char]));
                payloads.extend(tuples(&[&[U8, U32]]));
            }
            Profile::Chars => {
                payloads.clear();
                payloads.extend(one(&[Char, Char, Bool]));
                payloads.extend(tuples(&[&[Char], &[U8, Char], &[Char, Bool, Char], &[Bool, U8]]));
            }
            Profile::Big => {
                payloads.extend(one(&[U8, U64, Bool, Char]));
                payloads.extend(tuples(&[&[U8, U32], &[U64, U8, U64, U8, U64, U8, U64, U8]]));
            }
            _ => {
                payloads.extend(one(&[Bool, S8, U8, U8, S16, U16, S32, U32, S64, U64, Char, F32, F64]));
                payloads.extend(tuples(&[&[U8, U32], &[U32, U8], &[U8, U16, U8], &[U8], &[Bool, Char, S64], &[U8, F64, F32]]));
                payloads.extend(COMPOUNDS.iter().filter_map(|name| Tree::named(name.as_bytes()).map(Payload::compound)));
            }
        }
        payloads
    }

    /// The actions that it is made of, each with its weight.
    #[rustfmt::skip]
    pub fn actions(self) -> &'static [(usize, Action)] {
        use Action::*;
        match self {
            Profile::Happy | Profile::OneGuest => &[
                (6, Pair), (12, Poke), (12, Dump), (30, Write), (30, Read), (16, Event), (4, Cancel), (4, Drop),
                (1, Move), (1, SetPoll),
            ],
            Profile::Hostile | Profile::Order | Profile::Edges => &[
                (1, Guest), (8, Pair), (6, Poke), (6, Dump), (16, Write), (16, Read), (10, Event), (10, Cancel),
                (8, Drop), (6, Move), (4, Lift), (5, Lower), (4, Pipe), (2, Close), (3, Host), (4, Drive), (4, Feed),
                (4, Grant), (3, SetNew), (5, SetJoin), (5, SetPoll), (3, SetDrop), (4, ErrNew), (4, ErrText),
                (4, ErrMove), (4, ErrDrop),
            ],
            Profile::Hosts => &[
                (2, Pair), (4, Poke), (8, Dump), (16, Write), (26, Read), (14, Event), (10, Cancel), (4, Drop),
                (3, Move), (4, Lift), (10, Lower), (5, Pipe), (1, PartPipe), (4, Race), (1, Close), (9, Host), (14, Drive), (16, Feed),
                (8, Grant), (1, SetNew), (2, SetJoin), (3, SetPoll),
            ],
            Profile::Futures => &[
                (14, Pair), (6, Poke), (6, Dump), (22, Write), (22, Read), (14, Event), (9, Cancel), (14, Drop),
                (5, Move), (3, Lift), (4, Lower), (3, Pipe), (1, Close), (3, Host), (5, Drive), (4, Feed), (4, Grant),
            ],
            Profile::Chars => &[
                (6, Pair), (18, Poke), (10, Dump), (26, Write), (26, Read), (12, Event), (4, Cancel), (3, Drop),
                (2, Move), (1, Lift), (1, Lower), (1, Pipe), (1, PartPipe), (1, Host), (2, Drive), (3, Feed), (3, Grant),
            ],
            Profile::Sets => &[
                (7, Pair), (6, Poke), (3, Dump), (22, Write), (22, Read), (2, Event), (4, Cancel), (6, Drop),
                (4, Move), (2, Lift), (2, Lower), (4, SetNew), (26, SetJoin), (9, SetPoll), (4, SetDrop),
                (7, ErrNew), (7, ErrText), (6, ErrMove), (6, ErrDrop),
            ],
            Profile::Moves => &[
                (6, Pair), (4, Poke), (6, Dump), (18, Write), (18, Read), (10, Event), (6, Cancel), (4, Drop),
                (24, Move), (6, Lift), (8, Lower), (2, Close), (2, SetNew), (3, SetJoin), (2, SetPoll),
            ],
            Profile::Big => &[
                (3, Pair), (14, Poke), (14, Dump), (34, Write), (34, Read), (14, Event), (4, Cancel), (1, Drop),
                (2, Move),
            ],
            Profile::Pipes => &[
                (7, Pair), (6, Poke), (3, Dump), (20, Write), (10, Read), (10, Event), (8, Cancel), (3, Drop),
                (2, Move), (9, Lift), (2, Lower), (14, Pipe), (5, PartPipe), (1, Close), (8, Host), (20, Drive), (14, Feed),
                (16, Grant),
            ],
        }
    }
}

impl fmt::Display for Profile {
    fn fmt(&self, f: &mut fmt::Formatter<'_>) -> fmt::Result {
        f.pad(match self {
            Profile::Happy => "happy",
            Profile::Hostile => "hostile",
            Profile::OneGuest => "one guest",
            Profile::Hosts => "hosts",
            Profile::Futures => "futures",
            Profile::Chars => "chars",
            Profile::Sets => "sets",
            Profile::Moves => "moves",
            Profile::Big => "big",
            Profile::Pipes => "pipes",
            Profile::Order => "order of refusals",
            Profile::Edges => "edges",
        })
    }
}
