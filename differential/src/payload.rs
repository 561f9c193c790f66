//! What one item is, where its fields lie, and items that are copied or looked at.

use crate::compound::Tree;
use crate::faults::{Fault, planted};
use std::fmt;

/// A number, a flag or a character.
#[derive(Clone, Copy, Debug, PartialEq, Eq)]
pub enum Scalar {
    Bool,
    S8,
    U8,
    S16,
    U16,
    S32,
    U32,
    S64,
    U64,
    Char,
    F32,
    F64,
}

impl Scalar {
    /// All of them, each at the place by which a tape names it.
    pub const ALL: [Scalar; 12] = [
        Scalar::Bool,
        Scalar::S8,
        Scalar::U8,
        Scalar::S16,
        Scalar::U16,
        Scalar::S32,
        Scalar::U32,
        Scalar::S64,
        Scalar::U64,
        Scalar::Char,
        Scalar::F32,
        Scalar::F64,
    ];

    const NAMES: [&str; 12] = ["bool", "s8", "u8", "s16", "u16", "s32", "u32", "s64", "u64", "char", "f32", "f64"];

    /// The scalar that a line names so.
    pub fn named(name: &[u8]) -> Option<Scalar> {
        Some(match name {
            b"bool" => Scalar::Bool,
            b"s8" => Scalar::S8,
            b"u8" => Scalar::U8,
            b"s16" => Scalar::S16,
            b"u16" => Scalar::U16,
            b"s32" => Scalar::S32,
            b"u32" => Scalar::U32,
            b"s64" => Scalar::S64,
            b"u64" => Scalar::U64,
            b"char" => Scalar::Char,
            b"f32" => Scalar::F32,
            b"f64" => Scalar::F64,
            _ => return None,
        })
    }

    /// Its bytes, a multiple of which its address is.
    pub const fn size(self) -> usize {
        match self {
            Scalar::Bool | Scalar::S8 | Scalar::U8 => 1,
            Scalar::S16 | Scalar::U16 => 2,
            Scalar::S32 | Scalar::U32 | Scalar::Char | Scalar::F32 => 4,
            Scalar::S64 | Scalar::U64 | Scalar::F64 => 8,
        }
    }

    const fn is_float(self) -> bool {
        matches!(self, Scalar::F32 | Scalar::F64)
    }

    const fn is_number(self) -> bool {
        !matches!(self, Scalar::Bool | Scalar::Char)
    }

    // Whether the first bytes are an item: all are, but characters that are no Unicode scalar value.
    pub fn is_item(self, bytes: &[u8]) -> bool {
        self != Scalar::Char
            || bytes.first_chunk().is_some_and(|word| char::from_u32(u32::from_le_bytes(*word)).is_some())
    }

    pub fn copy(self, from: &[u8], to: &mut [u8]) {
        match self {
            Scalar::Bool => to[0] = u8::from(from[0] != 0),
            Scalar::S8 | Scalar::U8 => to[0] = from[0],
            Scalar::S16 | Scalar::U16 => to[..2].copy_from_slice(&from[..2]),
            Scalar::S32 | Scalar::U32 | Scalar::Char | Scalar::F32 => to[..4].copy_from_slice(&from[..4]),
            Scalar::S64 | Scalar::U64 | Scalar::F64 => to[..8].copy_from_slice(&from[..8]),
        }
    }
}

impl fmt::Display for Scalar {
    fn fmt(&self, f: &mut fmt::Formatter<'_>) -> fmt::Result {
        f.write_str(Scalar::NAMES[*self as usize])
    }
}

/// One to eight scalars in a row.
#[derive(Clone, Copy, Debug, PartialEq, Eq)]
pub struct Fields {
    len: u8,
    size: u8,
    align: u8,
    // Behind the first `len` of them `Bool`.
    scalars: [Scalar; 8],
}

impl Fields {
    /// None where there are none, or more than eight.
    pub fn new(given: &[Scalar]) -> Option<Fields> {
        if given.is_empty() || given.len() > 8 {
            return None;
        }
        let mut scalars = [Scalar::Bool; 8];
        scalars[..given.len()].copy_from_slice(given);
        let mut fields = Fields { len: given.len() as u8, size: 0, align: 1, scalars };
        let (place, last) = fields.places().last()?;
        let align = given.iter().map(|scalar| scalar.size()).max()?;
        fields.size = (place + last.size()).next_multiple_of(align) as u8;
        fields.align = align as u8;
        Some(fields)
    }

    pub fn as_slice(&self) -> &[Scalar] {
        &self.scalars[..self.len as usize]
    }

    // Each with the place where it begins in an item.
    fn places(&self) -> impl Iterator<Item = (usize, Scalar)> {
        let mut end = 0_usize;
        self.as_slice().iter().map(move |scalar| {
            let place = end.next_multiple_of(scalar.size());
            end = place + scalar.size();
            (place, *scalar)
        })
    }
}

/// What one item consists of.
#[derive(Clone, Copy, Debug, PartialEq, Eq)]
pub enum Payload {
    Nothing,
    One(Scalar),
    Tuple(Fields),
    Compound(&'static Tree),
}

impl Payload {
    /// A type that holds others, which is kept for good.
    pub fn compound(tree: Tree) -> Payload {
        Payload::Compound(Box::leak(Box::new(tree)))
    }

    /// The bytes of an item.
    pub fn size(&self) -> usize {
        match self {
            Payload::Nothing => 0,
            Payload::One(scalar) => scalar.size(),
            Payload::Tuple(fields) => usize::from(fields.size),
            Payload::Compound(tree) => tree.size(),
        }
    }

    /// An item's address is a multiple of this.
    pub fn align(&self) -> usize {
        match self {
            Payload::Nothing => 1,
            Payload::One(scalar) => scalar.size(),
            Payload::Tuple(fields) => usize::from(fields.align),
            Payload::Compound(tree) => tree.align(),
        }
    }

    /// Whether the first version of tapes does not know it: it has a float, or holds other types.
    pub fn is_new(&self) -> bool {
        match self {
            Payload::Nothing => false,
            Payload::One(scalar) => scalar.is_float(),
            Payload::Tuple(fields) => fields.as_slice().iter().any(|scalar| scalar.is_float()),
            Payload::Compound(_) => true,
        }
    }

    /// Whether items move within one guest: those that are a number, or nothing.
    pub fn moves_within(&self) -> bool {
        match self {
            Payload::Nothing => true,
            Payload::One(scalar) => scalar.is_number(),
            Payload::Tuple(_) | Payload::Compound(_) => false,
        }
    }

    /// The place of the first of these items that is none.
    pub fn first_bad(&self, bytes: &[u8]) -> Option<usize> {
        match self {
            Payload::One(Scalar::Char) => bytes.chunks_exact(4).position(|item| !Scalar::Char.is_item(item)),
            Payload::Tuple(fields) if fields.as_slice().contains(&Scalar::Char) => bytes
                .chunks_exact(self.size())
                .position(|item| fields.places().any(|(place, scalar)| !scalar.is_item(&item[place..]))),
            Payload::Compound(tree) if tree.size() > 0 => {
                bytes.chunks_exact(tree.size()).position(|item| !tree.is_item(item))
            }
            _ => None,
        }
    }

    /// Lifts the items that lie in the one region, and lowers them into the other, which is as long. The
    /// padding of the second stays.
    pub fn copy(&self, from: &[u8], to: &mut [u8]) {
        match self {
            Payload::Nothing => {}
            Payload::One(Scalar::Bool) => {
                for (to, from) in to.iter_mut().zip(from) {
                    *to = u8::from(*from != 0);
                }
            }
            Payload::Tuple(fields) if !planted(Fault::WritesPadding) => {
                let size = self.size();
                for (from, to) in from.chunks_exact(size).zip(to.chunks_exact_mut(size)) {
                    for (place, scalar) in fields.places() {
                        scalar.copy(&from[place..], &mut to[place..]);
                    }
                }
            }
            Payload::Compound(tree) if tree.size() > 0 && !planted(Fault::WritesPadding) => {
                for (from, to) in from.chunks_exact(tree.size()).zip(to.chunks_exact_mut(tree.size())) {
                    tree.copy(from, to);
                }
            }
            Payload::One(_) | Payload::Tuple(_) | Payload::Compound(_) => to.copy_from_slice(from),
        }
    }
}

impl fmt::Display for Payload {
    fn fmt(&self, f: &mut fmt::Formatter<'_>) -> fmt::Result {
        match self {
            Payload::Nothing => f.write_str("none"),
            Payload::One(scalar) => scalar.fmt(f),
            Payload::Tuple(fields) => {
                let mut before = '(';
                for scalar in fields.as_slice() {
                    write!(f, "{before}{scalar}")?;
                    before = ',';
                }
                f.write_str(")")
            }
            Payload::Compound(tree) => tree.fmt(f),
        }
    }
}

/// Many items, or one.
#[derive(Clone, Copy, Debug, PartialEq, Eq)]
pub enum TransmitKind {
    Stream,
    Future,
}

/// The type of a stream or future.
#[derive(Clone, Copy, Debug, PartialEq, Eq)]
pub struct TransmitIndex {
    pub kind: TransmitKind,
    pub payload: Payload,
}

impl TransmitIndex {
    pub const fn stream(payload: Payload) -> TransmitIndex {
        TransmitIndex { kind: TransmitKind::Stream, payload }
    }

    pub const fn future(payload: Payload) -> TransmitIndex {
        TransmitIndex { kind: TransmitKind::Future, payload }
    }

    pub fn is_future(&self) -> bool {
        self.kind == TransmitKind::Future
    }
}

impl fmt::Display for TransmitIndex {
    fn fmt(&self, f: &mut fmt::Formatter<'_>) -> fmt::Result {
        let kind = match self.kind {
            TransmitKind::Stream => "stream",
            TransmitKind::Future => "future",
        };
        write!(f, "{kind}:{}", self.payload)
    }
}
