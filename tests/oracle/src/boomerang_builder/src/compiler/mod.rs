//! Identities and analysis.

pub mod federation;
pub mod identity;

pub use identity::{BoundaryId, FederateId};
