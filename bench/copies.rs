//! The copies of `strm_bench` in plain Rust, twice: a loop over the items and their fields where the layout is
//! known only as it runs, as a runtime has it; and for each layout a loop of its own, as one would write it for
//! that layout alone. Characters are looked at before anything is written.
//!
//! `bench/copies` times all three.

use std::time::Instant;

const COUNTS: [usize; 4] = [8, 64, 512, 4096];

struct BadItem;

type Copies = fn(&[u8], &mut [u8]) -> Result<(), BadItem>;

fn is_char(bytes: &[u8]) -> bool {
    char::from_u32(u32::from_le_bytes([bytes[0], bytes[1], bytes[2], bytes[3]])).is_some()
}

#[inline(never)]
fn bools(source: &[u8], destination: &mut [u8]) -> Result<(), BadItem> {
    for (to, from) in destination.iter_mut().zip(source) {
        *to = u8::from(*from != 0);
    }
    Ok(())
}

#[inline(never)]
fn chars(source: &[u8], destination: &mut [u8]) -> Result<(), BadItem> {
    if !source.chunks_exact(4).fold(true, |good, item| good & is_char(item)) {
        return Err(BadItem);
    }
    destination.copy_from_slice(source);
    Ok(())
}

#[inline(never)]
fn bytes_and_words(source: &[u8], destination: &mut [u8]) -> Result<(), BadItem> {
    for (to, from) in destination.chunks_exact_mut(8).zip(source.chunks_exact(8)) {
        to[0] = from[0];
        to[4..8].copy_from_slice(&from[4..8]);
    }
    Ok(())
}

#[inline(never)]
fn bytes_round_halves(source: &[u8], destination: &mut [u8]) -> Result<(), BadItem> {
    for (to, from) in destination.chunks_exact_mut(6).zip(source.chunks_exact(6)) {
        to[0] = from[0];
        to[2..4].copy_from_slice(&from[2..4]);
        to[4] = from[4];
    }
    Ok(())
}

#[inline(never)]
fn longs_and_bytes(source: &[u8], destination: &mut [u8]) -> Result<(), BadItem> {
    for (to, from) in destination.chunks_exact_mut(16).zip(source.chunks_exact(16)) {
        to[0..8].copy_from_slice(&from[0..8]);
        to[8] = from[8];
    }
    Ok(())
}

/// (bool,u16,u8,u32,char,s8,s64,u8): fields at 0, 2, 4, 8, 12, 16, 24 and 32, of 40 bytes.
#[inline(never)]
fn mixed(source: &[u8], destination: &mut [u8]) -> Result<(), BadItem> {
    if !source.chunks_exact(40).fold(true, |good, item| good & is_char(&item[12..16])) {
        return Err(BadItem);
    }
    for (to, from) in destination.chunks_exact_mut(40).zip(source.chunks_exact(40)) {
        to[0] = u8::from(from[0] != 0);
        to[2..4].copy_from_slice(&from[2..4]);
        to[4] = from[4];
        to[8..12].copy_from_slice(&from[8..12]);
        to[12..16].copy_from_slice(&from[12..16]);
        to[16] = from[16];
        to[24..32].copy_from_slice(&from[24..32]);
        to[32] = from[32];
    }
    Ok(())
}

#[derive(Clone, Copy, PartialEq)]
enum Kind {
    Flag,
    One,
    Two,
    Four,
    Eight,
    Char,
}

use Kind::{Char, Eight, Flag, Four, One, Two};

/// A field: where it begins, and what it is.
type Field = (usize, Kind);

/// The layout is known as it runs.
#[inline(never)]
fn by_fields(source: &[u8], destination: &mut [u8], fields: &[Field], size: usize) -> Result<(), BadItem> {
    for &(at, kind) in fields {
        if kind == Char && !source.chunks_exact(size).all(|item| is_char(&item[at..at + 4])) {
            return Err(BadItem);
        }
    }
    for (to, from) in destination.chunks_exact_mut(size).zip(source.chunks_exact(size)) {
        for &(at, kind) in fields {
            match kind {
                Flag => to[at] = u8::from(from[at] != 0),
                One => to[at] = from[at],
                Two => to[at..at + 2].copy_from_slice(&from[at..at + 2]),
                Four | Char => to[at..at + 4].copy_from_slice(&from[at..at + 4]),
                Eight => to[at..at + 8].copy_from_slice(&from[at..at + 8]),
            }
        }
    }
    Ok(())
}

struct Layout {
    name: &'static str,
    size: usize,
    fields: &'static [Field],
    copies: Copies,
}

const LAYOUTS: [Layout; 6] = [
    Layout { name: "bool", size: 1, fields: &[(0, Flag)], copies: bools },
    Layout { name: "char", size: 4, fields: &[(0, Char)], copies: chars },
    Layout { name: "(u8,u32)", size: 8, fields: &[(0, One), (4, Four)], copies: bytes_and_words },
    Layout { name: "(u8,u16,u8)", size: 6, fields: &[(0, One), (2, Two), (4, One)], copies: bytes_round_halves },
    Layout { name: "(u64,u8)", size: 16, fields: &[(0, Eight), (8, One)], copies: longs_and_bytes },
    Layout {
        name: "(bool,u16,u8,u32,char,s8,s64,u8)",
        size: 40,
        fields: &[(0, Flag), (2, Two), (4, One), (8, Four), (12, Char), (16, One), (24, Eight), (32, One)],
        copies: mixed,
    },
];

/// Picoseconds an item of so many copies, and the sum of the bytes that items were copied to.
fn timed(size: usize, count: usize, rounds: usize, copy: impl Fn(&[u8], &mut [u8]) -> Result<(), BadItem>) -> (u128, u64) {
    let source: Vec<u8> = (0..size * count).map(|k| if k % 4 == 0 { (k / 4 % 256) as u8 } else { 0 }).collect();
    let mut destination = vec![7u8; size * count];
    let start = Instant::now();
    for _ in 0..rounds {
        if copy(std::hint::black_box(&source), std::hint::black_box(&mut destination)).is_err() {
            eprintln!("a bad item");
        }
    }
    let spent = start.elapsed().as_nanos();
    let sum = destination.iter().map(|byte| u64::from(*byte)).sum();
    (spent * 1000 / (rounds * count).max(1) as u128, sum)
}

fn main() {
    let items: usize = std::env::args().nth(1).and_then(|word| word.parse().ok()).unwrap_or(10_000);
    for Layout { name, size, fields, copies } in LAYOUTS {
        for count in COUNTS {
            let rounds = items / count;
            let (general, sum) = timed(size, count, rounds, |from, to| {
                by_fields(from, to, std::hint::black_box(fields), std::hint::black_box(size))
            });
            let (own, same) = timed(size, count, rounds, copies);
            println!("copied {count} of {name}: {sum}, {same}");
            eprintln!("{name} {count} {general}");
            eprintln!("{name}/own {count} {own}");
        }
    }
}
