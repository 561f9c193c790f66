//! Two stores in plain Rust, which are timed beside the archive, and the rounds of each. `plain` keeps what every store
//! with the archive's interface has to, and is called as the archive is; `bare` is the store of `bench/store.rs`, which
//! makes the same tests of a read or write, keeps none of the rest, and is compiled with its caller.

#[allow(clippy::new_without_default, clippy::too_many_arguments)]
#[rustfmt::skip]
#[path = "../../../bench/store.rs"]
pub mod bare;
pub mod plain;
pub mod rounds;
