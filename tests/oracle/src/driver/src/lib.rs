//! The oracle: the Rust behind 01's bytes and words.

pub mod plan;
pub mod session;
pub mod text;
