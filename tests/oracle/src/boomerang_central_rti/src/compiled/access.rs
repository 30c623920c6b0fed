/// One member's record in plain values.
#[derive(Clone, Debug, Default)]
#[allow(missing_docs)]
pub struct MemberRecord {
    pub joined: bool,
    pub publication: Option<(u64, Option<WireTag>)>,
    pub granted_revision: Option<u64>,
    pub granted: Option<WireTag>,
    pub bound: Option<WireTag>,
    pub completed: Option<WireTag>,
    pub in_transit: Vec<WireTag>,
    pub idle_request: Option<u64>,
    pub idle: Option<u64>,
    pub stopped: bool,
}

impl CompiledRti<'_> {
    /// Every member's record, in order.
    pub fn records(&self) -> Vec<MemberRecord> {
        let record = |state: &MemberState| MemberRecord {
            joined: state.joined,
            publication: state.publication,
            granted_revision: state.granted_revision,
            granted: state.granted,
            bound: state.dnet,
            completed: state.completed,
            in_transit: state.in_transit.clone(),
            idle_request: state.idle_request,
            idle: state.idle,
            stopped: state.stopped,
        };
        self.states.values().map(record).collect()
    }

    /// Puts a record in place of a member's.
    pub fn put(&mut self, member: FederateIndex, record: MemberRecord) {
        self.states[member] = MemberState {
            joined: record.joined,
            publication: record.publication,
            granted_revision: record.granted_revision,
            granted: record.granted,
            dnet: record.bound,
            completed: record.completed,
            in_transit: record.in_transit,
            idle_request: record.idle_request,
            idle: record.idle,
            stopped: record.stopped,
        };
    }

    /// The message of the first failure.
    pub fn failure(&self) -> Option<&str> {
        self.failure.as_deref()
    }

    /// Puts the message of a failure in place.
    pub fn set_failure(&mut self, failure: Option<String>) {
        self.failure = failure;
    }
}
