//! So many rounds of one of the two stores in plain Rust, for what counts instructions: it needs no archive.
//!
//!     plain plain|bare round|make N

use bench::rounds::{repeat, Bare, Plain};
use std::env::args;

fn main() {
    let words: Vec<String> = args().skip(1).collect();
    let [store, what, rounds] = &words[..] else {
        panic!("want plain or bare, round or make, and how many");
    };
    let rounds = rounds.parse().expect("no number");
    match &store[..] {
        "plain" => repeat(&mut Plain::new().expect("no refusal"), what, rounds),
        "bare" => repeat(&mut Bare::default(), what, rounds),
        _ => panic!("want plain or bare, not {store}"),
    }
}
