//! Wire tags and delays.

pub mod protocol;

pub use protocol::{WireDelay, WireTag};
