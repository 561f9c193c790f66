//! What holds the programs against this second implementation: cases that are drawn, by profile.

pub mod actions;
pub mod cases;
pub mod malformed;
pub mod profiles;
pub mod random;
pub mod references;
pub mod running;
pub mod scenes;
pub mod shrinking;
pub mod tally;
pub mod tapes;
