//! The federation graph's analysis.

pub mod compiler;
