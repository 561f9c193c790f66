//! The programs `strm`, `chain`, `mux` and `tape` once more, in plain Rust and without proofs, written from
//! `docs/FORMATS.md` and `docs/DEFINITIONS.md` and from no code in Rattle; and what holds the two against each
//! other on scripts that are drawn.

pub mod chain;
pub mod codes;
pub mod compare;
pub mod compound;
pub mod faults;
pub mod generated;
pub mod grammar;
pub mod hosts;
pub mod items;
pub mod lanes;
pub mod payload;
pub mod programs;
pub mod records;
pub mod session;
pub mod sets;
pub mod steps;
pub mod store;
pub mod streams;
pub mod tables;
pub mod tape;
