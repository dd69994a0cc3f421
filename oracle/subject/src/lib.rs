//! The Rust that judges, compiled where it stands, with the parts of its crate that it leans on.
//!
//! `mmio`, `notifier` and the constants come from the folder that the build script finds; `crate_parts` has what the
//! crate's own lib.rs and device.rs would give them, in our words; `device` is the device behind the transport;
//! `transport` makes one and drives it.

mod crate_parts;
mod device;
mod transport;

pub use crate_parts::*;
pub use transport::{Queue, Setup, Transport};

include!(concat!(env!("OUT_DIR"), "/rust.rs"));

/// The folder that the Rust was compiled from.
pub const SOURCE: &str = env!("RUST_SOURCE");
