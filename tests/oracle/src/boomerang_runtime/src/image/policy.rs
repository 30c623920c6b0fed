//! Policies, each with the accepted choice alone.

/// What becomes of a member that fails.
#[derive(Clone, Copy, Debug, Eq, PartialEq)]
pub enum RecoveryPolicy {
    /// The session stops.
    FailStop,
}
/// What becomes of a route that fails.
#[derive(Clone, Copy, Debug, Eq, PartialEq)]
pub enum BoundaryFailurePolicy {
    /// The stop is passed on.
    PropagateStop,
}
/// How a route is carried.
#[derive(Clone, Copy, Debug, Eq, PartialEq)]
pub enum TransportPolicy {
    /// In order.
    Ordered,
}
/// How a payload is written.
#[derive(Clone, Copy, Debug, Eq, PartialEq)]
pub enum CodecPolicy {
    /// As it comes.
    Opaque,
}
/// What a route owes to physical time.
#[derive(Clone, Copy, Debug, Eq, PartialEq)]
pub enum TimingPolicy {
    /// Nothing.
    BestEffort,
}
/// How a route is guarded.
#[derive(Clone, Copy, Debug, Eq, PartialEq)]
pub enum SecurityPolicy {
    /// Not at all.
    None,
}
