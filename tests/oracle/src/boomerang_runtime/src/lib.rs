//! The compiled image's tables.

pub mod image;
