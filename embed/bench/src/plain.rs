//! A store in plain Rust, without proofs, that keeps what every store with the archive's interface has to: a table of
//! handles of several kinds for each guest, the limits of guests and of the store, waitable sets whose ready members
//! are known, error contexts, who has each end, and room taken before anything changes. `face` has its calls as C
//! makes them, with the names and the statuses of `strm.h`; what only asks of handles is left out, and so is whose a
//! bad item is.

pub mod face;
mod guests;
mod payloads;
mod status;
mod store;
mod streams;
mod tables;
#[cfg(test)]
mod tests;
