//! Keys and identities that the RTI tables name.

tinymap::key_type!(
    /// Position of a member in canonical order.
    pub FederateIndex
);

/// Stable identity of a route.
#[derive(Clone, Copy, Debug, Eq, PartialEq)]
pub struct BoundaryId<'a>(
    /// Its text.
    pub &'a str,
);
