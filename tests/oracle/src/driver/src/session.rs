//! States as the script has them, and the Rust's session over a compiled plan.

use crate::plan::{refusal, Compiled, Refusal, MEMBERS, TAGS};
use boomerang_central_rti::compiled::{
    CompiledRti, CoordinationIdentity, FederateIndex, MemberRecord, RtiDelivery, RtiReply, RtiRequest, RtiRouteIndex,
};
use boomerang_central_rti::WireTag;
use boomerang_runtime::image::{
    BoundaryFailurePolicy, BoundaryId, CodecCapabilityIndex, CodecPolicy, FlowIndex, RecoveryPolicy,
    RtiDependencyImage, RtiImage, RtiImageView, RtiMemberImage, RtiRouteImage, SecurityPolicy, TimingPolicy,
    TransportCapabilityIndex, TransportPolicy,
};
use tinymap::{SliceRange, TinyMapRef};

pub const STRETCH: usize = 2 * TAGS;
pub const SLAB: usize = 2112;
pub const LIMIT: u64 = (1 << 63) - 1;

/// One delivery in seven words.
pub type Words = [u64; 7];

/// A record as dumped; its tags are in the slab.
#[derive(Clone, Debug, Default)]
pub struct Record {
    pub values: MemberRecord,
    pub held: usize,
}

/// The whole state with its slab.
pub struct State {
    pub count: usize,
    pub identity: u64,
    pub cause: u64,
    pub code: u64,
    pub members: Vec<Record>,
    pub slab: Vec<u64>,
}
impl State {
    pub fn new() -> Self {
        Self {
            count: 0,
            identity: 0,
            cause: 0,
            code: 0,
            members: vec![Record::default(); MEMBERS],
            slab: vec![0; SLAB],
        }
    }

    pub fn finished(&self) -> bool {
        self.cause != 0 || self.members[..self.count].iter().all(|member| member.values.stopped)
    }

    fn tags(&self, at: usize) -> Vec<WireTag> {
        let words = &self.slab[STRETCH * at..STRETCH * at + 2 * self.members[at].held];
        words.chunks(2).map(|pair| WireTag::finite(pair[0].into(), pair[1])).collect()
    }

    /// Refusal 14.
    pub fn well_formed(&self, plan: &Compiled) -> bool {
        let n = plan.members.len();
        self.count == n
            && self.members[n..].iter().all(blank)
            && (0..n).all(|at| self.member_well_formed(at, plan.members[at].1))
    }

    fn member_well_formed(&self, at: usize, capacity: u32) -> bool {
        let within = |tag: WireTag| tag.offset_ns().is_some_and(|offset| offset <= LIMIT.into());
        let record = &self.members[at];
        let member = &record.values;
        if record.held > capacity as usize {
            return false;
        }
        let tags = self.tags(at);
        let rest = &self.slab[STRETCH * at + 2 * record.held..STRETCH * (at + 1)];
        let rising = tags.windows(2).all(|pair| pair[0] < pair[1]);
        let above = member.completed.is_none_or(|completed| tags.iter().all(|tag| *tag > completed));
        let event = member.publication.and_then(|publication| publication.1);
        rising
            && above
            && tags.into_iter().all(within)
            && rest.iter().all(|word| *word == 0)
            && event.is_none_or(within)
            && member.completed.is_none_or(within)
            && member.completed.unwrap_or(WireTag::NEVER) <= member.granted.unwrap_or(WireTag::NEVER)
            && (!member.stopped || member.idle.is_some())
    }
}

fn blank(record: &Record) -> bool {
    let member = &record.values;
    !member.joined
        && member.publication.is_none()
        && member.granted_revision.is_none()
        && member.granted.is_none()
        && member.bound.is_none()
        && member.completed.is_none()
        && member.idle_request.is_none()
        && member.idle.is_none()
        && !member.stopped
        && record.held == 0
}

/// The Rust's tables of one plan.
pub struct Tables {
    members: Vec<RtiMemberImage>,
    dependencies: Vec<RtiDependencyImage>,
    downstream: Vec<FederateIndex>,
    routes: Vec<RtiRouteImage<'static>>,
    names: Vec<&'static str>,
}
impl Tables {
    pub fn new(plan: &Compiled) -> Self {
        let mut tables = Self {
            members: Vec::new(),
            dependencies: Vec::new(),
            downstream: Vec::new(),
            routes: Vec::new(),
            names: vec![""; plan.members.len()],
        };
        for (at, &(_, capacity)) in plan.members.iter().enumerate() {
            let direct = tables.depend(&plan.direct[at]);
            let transitive = tables.depend(&plan.transitive[at]);
            let downstream = SliceRange::new(tables.downstream.len(), plan.downstream[at].len());
            tables.downstream.extend(plan.downstream[at].iter().map(|target| FederateIndex::new(*target)));
            let member = RtiMemberImage::new(RecoveryPolicy::FailStop, direct, transitive, downstream, capacity);
            tables.members.push(member);
        }
        tables.routes = plan.edges.iter().map(route).collect();
        tables
    }

    fn depend(&mut self, rows: &[(u32, u64)]) -> SliceRange<RtiDependencyImage> {
        let range = SliceRange::new(self.dependencies.len(), rows.len());
        let row = |&(source, delay): &(u32, u64)| RtiDependencyImage::new(FederateIndex::new(source), delay);
        self.dependencies.extend(rows.iter().map(row));
        range
    }

    pub fn open(&self, identity: u64) -> CompiledRti<'_> {
        let image = RtiImage::new(
            TinyMapRef::new(&self.members),
            &self.dependencies,
            &self.downstream,
            TinyMapRef::new(&self.routes),
            TinyMapRef::new(&["flow"]),
            TinyMapRef::new(&[]),
            TinyMapRef::new(&["transport"]),
            TinyMapRef::new(&["codec"]),
        );
        let view = RtiImageView::new(image, TinyMapRef::new(&self.names));
        CompiledRti::from_image(view, CoordinationIdentity(identity)).expect("accepted policies")
    }
}

fn route(&(_, source, target, delay): &(u64, u32, u32, u64)) -> RtiRouteImage<'static> {
    RtiRouteImage::new(
        BoundaryId("route"),
        FlowIndex::new(0),
        None,
        None,
        BoundaryFailurePolicy::PropagateStop,
        TransportPolicy::Ordered,
        CodecPolicy::Opaque,
        TimingPolicy::BestEffort,
        SecurityPolicy::None,
        TransportCapabilityIndex::new(0),
        CodecCapabilityIndex::new(0),
        FederateIndex::new(source),
        FederateIndex::new(target),
        delay,
    )
}

/// Puts a state into the Rust's session.
pub fn load(rti: &mut CompiledRti<'_>, state: &State) {
    for at in 0..state.count {
        let mut record = state.members[at].values.clone();
        record.in_transit = state.tags(at);
        rti.put(FederateIndex::new(at as u32), record);
    }
    rti.set_failure((state.cause != 0).then(|| message(state.cause, state.code)));
}

/// Takes the state back from the Rust's session.
pub fn dump(rti: &CompiledRti<'_>, state: &mut State) {
    for (at, mut values) in rti.records().into_iter().enumerate() {
        let tags = std::mem::take(&mut values.in_transit);
        let stretch = &mut state.slab[STRETCH * at..STRETCH * (at + 1)];
        stretch.fill(0);
        for (pair, tag) in stretch.chunks_mut(2).zip(&tags) {
            pair[0] = tag.offset_ns().expect("a finite tag").try_into().expect("an offset of 64 bits");
            pair[1] = tag.microstep().expect("a finite tag");
        }
        state.members[at] = Record { values, held: tags.len() };
    }
    if state.cause == 0 {
        (state.cause, state.code) = rti.failure().map_or((0, state.code), cause);
    }
}

const MESSAGES: [(u64, &str); 11] = [
    (21, "unknown member binding"),
    (22, "coordination identity mismatch or duplicate admission"),
    (23, "request outside admitted member lifecycle"),
    (24, "invalid compiled publication"),
    (25, "invalid compiled completion"),
    (26, "unknown RTI route key"),
    (27, "payload route belongs to another source"),
    (28, "payload violates compiled source route or grant"),
    (29, "payload reached a completed or stopped destination"),
    (31, "idle confirmation does not match publication"),
    (32, "stop without global idle authority"),
];

/// The message of a cause; causes that no message has are kept as numbers.
fn message(cause: u64, code: u64) -> String {
    if cause == 20 {
        return format!("abort {code}");
    }
    let known = MESSAGES.iter().find(|entry| entry.0 == cause);
    known.map_or_else(|| format!("cause {cause}"), |entry| entry.1.to_string())
}

/// The message of an abort with this code.
pub fn abort_message(code: u64) -> String {
    message(20, code)
}

/// Cause and code of a message.
pub fn cause(message: &str) -> (u64, u64) {
    if let Some(code) = message.strip_prefix("abort ") {
        return (20, code.parse().expect("our own number"));
    }
    if let Some(cause) = message.strip_prefix("cause ") {
        return (cause.parse().expect("our own number"), 0);
    }
    if message.starts_with("in-transit tag capacity") {
        return (30, 0);
    }
    match MESSAGES.iter().find(|entry| entry.1 == message) {
        Some(entry) => (entry.0, 0),
        None => panic!("a message without a cause: {message}"),
    }
}

/// Refusals 16 and 17, then the Rust's request.
pub fn request(words: &[u64]) -> Result<RtiRequest, Refusal> {
    let &[_, kind, number, class, offset, micro, extra] = words else {
        return Err(refusal(16));
    };
    let tag = match (class, offset, micro) {
        (0, 0, 0) => Some(WireTag::NEVER),
        (1, _, _) => Some(WireTag::finite(offset.into(), micro)),
        (2, 0, 0) => Some(WireTag::FOREVER),
        (3, 0, 0) => None,
        _ => return Err(refusal(16)),
    };
    let request = match (kind, tag, extra) {
        (1, None, 0) => RtiRequest::Hello { identity: CoordinationIdentity(number) },
        (2, next_event, 0) => RtiRequest::Publish { revision: number, next_event },
        (3, Some(tag), 0) if number == 0 => RtiRequest::Complete { tag },
        (4, Some(tag), payload) => RtiRequest::Payload { route: RtiRouteIndex::new(narrow(number)), tag, payload },
        (5, None, 0) => RtiRequest::ConfirmIdle { revision: number },
        (6, None, 0) if number == 0 => RtiRequest::Stop,
        (7, None, 0) => RtiRequest::Abort { message: message(20, number) },
        _ => return Err(refusal(16)),
    };
    if class == 1 && offset > LIMIT {
        return Err(refusal(17));
    }
    Ok(request)
}

/// A word as a key; what does not fit is a key that no table has.
pub fn narrow(word: u64) -> u32 {
    u32::try_from(word).unwrap_or(u32::MAX)
}

pub fn tag_words(tag: Option<WireTag>) -> [u64; 3] {
    match tag {
        Some(WireTag::Never) => [0, 0, 0],
        Some(WireTag::Finite { offset_ns, microstep }) => {
            [1, offset_ns.try_into().expect("an offset of 64 bits"), microstep]
        }
        Some(WireTag::Forever) => [2, 0, 0],
        None => [3, 0, 0],
    }
}

/// A delivery in words; `asker` is the member word that was asked with.
pub fn delivery(delivery: &RtiDelivery, asker: Option<u64>) -> Words {
    let key = delivery.member.as_u32();
    let member = asker.filter(|word| narrow(*word) == key).unwrap_or(key.into());
    let (kind, number, tag, extra) = match &delivery.reply {
        RtiReply::Started => (1, 0, None, 0),
        RtiReply::Grant { revision, tag } => (2, *revision, Some(*tag), 0),
        RtiReply::Payload { route, tag, payload } => (3, route.as_u32().into(), Some(*tag), *payload),
        RtiReply::Idle { revision } => (4, *revision, None, 0),
        RtiReply::Stopped => (5, 0, None, 0),
        RtiReply::SuppressPublication { tag } => (6, 0, Some(*tag), 0),
        RtiReply::Failed { message } => {
            let (cause, code) = cause(message);
            (7, cause, None, code)
        }
    };
    let [class, offset, micro] = tag_words(tag);
    [member, kind, number, class, offset, micro, extra]
}
