//! Items whose bytes are tested, moved between two guests: by the archive, and by a loop in plain Rust which is compiled
//! for that one type, with the same tests: the number of a case is that of one, and the value of another case stays.
//!
//! `items HOW TYPE COUNT`: HOW is archive or plain, TYPE one of those of `TYPES`. It moves so many items once, for what
//! counts instructions.

use bench::rounds::{done, wrote};
use std::env::args;
use std::hint::black_box;
use strm_sys as sys;

const MEMORY: u32 = 1 << 20;

/// Copies so many items from one memory to another; false at one that is none.
type Copy = fn(&[u8], &mut [u8]) -> bool;

struct Tested {
    name: &'static str,
    /// The words of the type.
    words: &'static [u8],
    size: usize,
    copy: Copy,
}

const TYPES: [Tested; 3] = [
    Tested {
        name: "result",
        words: &[15, 13, 127 + 38],
        size: 2,
        copy: results,
    },
    Tested {
        name: "option",
        words: &[14, 9],
        size: 16,
        copy: options,
    },
    Tested {
        name: "record",
        words: &[16 + 2, 3, 16 + 2, 3, 7],
        size: 12,
        copy: records,
    },
];

// `result<_,enum38>`.
fn results(from: &[u8], to: &mut [u8]) -> bool {
    for (from, to) in from.chunks_exact(2).zip(to.chunks_exact_mut(2)) {
        match from[0] {
            0 => to[0] = 0,
            1 if from[1] < 38 => to.copy_from_slice(from),
            _ => return false,
        }
    }
    true
}

// `option<u64>`.
fn options(from: &[u8], to: &mut [u8]) -> bool {
    for (from, to) in from.chunks_exact(16).zip(to.chunks_exact_mut(16)) {
        match from[0] {
            0 => to[0] = 0,
            1 => {
                to[0] = 1;
                to[8..].copy_from_slice(&from[8..]);
            }
            _ => return false,
        }
    }
    true
}

// `record<u8,record<u8,u32>>`, of which all bytes but the padding move.
fn records(from: &[u8], to: &mut [u8]) -> bool {
    for (from, to) in from.chunks_exact(12).zip(to.chunks_exact_mut(12)) {
        (to[0], to[4]) = (from[0], from[4]);
        to[8..].copy_from_slice(&from[8..]);
    }
    true
}

// Items in turn of each case, the last of an enum's among them.
fn fill(memory: &mut [u8], size: usize) {
    for (k, item) in memory.chunks_exact_mut(size).enumerate() {
        item.fill(k as u8 % 38);
        item[0] = (k % 2) as u8;
    }
}

// SAFETY, of each call below: the handle is of a store, which is this function's alone, and what is lent is its own.
fn by_archive(tested: &Tested, count: u32) -> Result<(), u32> {
    let mut store = sys::StoreHandle::NONE;
    let payload = wrote(|out| unsafe { sys::strm_type_of(tested.words.as_ptr(), tested.words.len(), out) })?;
    done(unsafe { sys::strm_store_new(&mut store, 0, 100, 100) })?;
    let writer = wrote(|out| unsafe { sys::strm_add_guest(&mut store, MEMORY, out) })?;
    let reader = wrote(|out| unsafe { sys::strm_add_guest(&mut store, MEMORY, out) })?;
    let (mut at, mut len) = (std::ptr::null_mut(), 0);
    done(unsafe { sys::strm_memory_at(&mut store, writer, &mut at, &mut len) })?;
    fill(unsafe { std::slice::from_raw_parts_mut(at, len) }, tested.size);
    let pair = wrote(|out| unsafe { sys::strm_new_between(&mut store, writer, reader, payload, out) })?;
    let (writing, reading) = (pair.write, pair.read);
    wrote(|out| unsafe { sys::strm_stream_write(&mut store, writer, payload, writing, 0, count, out) })?;
    wrote(|out| unsafe { sys::strm_stream_read(&mut store, reader, payload, reading, 0, count, out) })?;
    unsafe { sys::strm_store_free(&mut store) };
    Ok(())
}

fn by_loop(tested: &Tested, count: u32) {
    let (mut from, mut to) = (vec![0; MEMORY as usize], vec![0; MEMORY as usize]);
    fill(&mut from, tested.size);
    let len = count as usize * tested.size;
    assert!(copied(black_box(tested.copy), &from[..len], &mut to[..len]));
    black_box(&mut to);
}

// What is counted.
#[inline(never)]
fn copied(copy: Copy, from: &[u8], to: &mut [u8]) -> bool {
    copy(from, to)
}

fn main() {
    let words: Vec<_> = args().skip(1).collect();
    let [how, name, count] = &words[..] else {
        panic!("want HOW TYPE COUNT")
    };
    let tested = TYPES
        .iter()
        .find(|tested| tested.name == name)
        .expect("no such type");
    let count = count.parse().expect("no number");
    match &how[..] {
        "archive" => by_archive(tested, count).expect("no refusal"),
        "plain" => by_loop(tested, count),
        _ => panic!("want archive or plain"),
    }
}
