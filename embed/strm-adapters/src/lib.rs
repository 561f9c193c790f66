#![doc = include_str!("../README.md")]

#[cfg(feature = "futures")]
mod futures;
#[cfg(feature = "tokio")]
mod tokio;

#[cfg(feature = "futures")]
pub use futures::{Items, Sending};
#[cfg(feature = "tokio")]
pub use tokio::Bytes;
