//! Requests and replies, read off from their use in state/mod.rs.

pub use crate::WireTag;
pub use boomerang_runtime::image::{FederateIndex, RtiRouteIndex};

/// The Rust's session, and beside it what loads and dumps member records.
pub mod state {
    include!("state/mod.rs");
    include!("access.rs");
}
pub use state::{CompiledRti, MemberRecord, RtiResourceError};

/// Identity of one coordination.
#[derive(Clone, Copy, Debug, Eq, PartialEq)]
pub struct CoordinationIdentity(
    /// Its number.
    pub u64,
);
impl CoordinationIdentity {
    /// The number as bytes.
    pub fn bytes(&self) -> [u8; 8] {
        self.0.to_le_bytes()
    }
}

/// Why a session failed.
#[derive(Debug, thiserror::Error)]
pub enum CentralRtiError {
    /// A broken rule, in words.
    #[error("{0}")]
    Coordination(String),
    /// A full resource.
    #[error(transparent)]
    Resource(#[from] RtiResourceError),
}
impl CentralRtiError {
    /// The failure with this message.
    pub fn new(message: impl Into<String>) -> Self {
        Self::Coordination(message.into())
    }
}

/// What a member asks.
#[derive(Clone, Debug)]
pub enum RtiRequest {
    /// Joins the session.
    Hello {
        /// The coordination that the member was compiled for.
        identity: CoordinationIdentity,
    },
    /// Says what comes next.
    Publish {
        /// Number of the publication.
        revision: u64,
        /// Next event, if any.
        next_event: Option<WireTag>,
    },
    /// Says what is done.
    Complete {
        /// Everything up to here.
        tag: WireTag,
    },
    /// Sends a payload.
    Payload {
        /// Along this route.
        route: RtiRouteIndex,
        /// At this tag.
        tag: WireTag,
        /// Handle of the payload.
        payload: u64,
    },
    /// Agrees to a global idle stop.
    ConfirmIdle {
        /// Number of the publication.
        revision: u64,
    },
    /// Commits the stop.
    Stop,
    /// Ends the session.
    Abort {
        /// Why.
        message: String,
    },
}
impl RtiRequest {
    /// Name of the kind.
    pub fn kind_str(&self) -> &'static str {
        match self {
            Self::Hello { .. } => "hello",
            Self::Publish { .. } => "publish",
            Self::Complete { .. } => "complete",
            Self::Payload { .. } => "payload",
            Self::ConfirmIdle { .. } => "confirm_idle",
            Self::Stop => "stop",
            Self::Abort { .. } => "abort",
        }
    }
}

/// What a member is told.
#[derive(Clone, Debug)]
pub enum RtiReply {
    /// All have joined.
    Started,
    /// Authority up to a tag.
    Grant {
        /// Publication that it answers.
        revision: u64,
        /// Last tag of the authority.
        tag: WireTag,
    },
    /// A payload of another member.
    Payload {
        /// Along this route.
        route: RtiRouteIndex,
        /// At this tag.
        tag: WireTag,
        /// Handle of the payload.
        payload: u64,
    },
    /// Global idle is reached.
    Idle {
        /// Publication that it answers.
        revision: u64,
    },
    /// The stop is committed.
    Stopped,
    /// Publications up to this tag are not needed.
    SuppressPublication {
        /// The bound.
        tag: WireTag,
    },
    /// The session failed.
    Failed {
        /// Why.
        message: String,
    },
}

/// One reply to one member.
#[derive(Clone, Debug)]
pub struct RtiDelivery {
    /// Who is told.
    pub member: FederateIndex,
    /// What.
    pub reply: RtiReply,
}
