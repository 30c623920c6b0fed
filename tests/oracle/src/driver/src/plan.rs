//! Plan bytes in, compiled bytes out. Layouts and 1 to 4 are this file's own; 5 to 9 and every row are the Rust's.

use boomerang_builder::compiler::federation::{
    analyze_federation_graph, AnalyzedFederationGraph, FederationAnalysisError, FederationDelay, FederationEdge,
};
use boomerang_builder::compiler::{BoundaryId, FederateId};

pub const MEMBERS: usize = 32;
pub const EDGES: usize = 256;
pub const TAGS: usize = 32;

/// Number, mask, first, second.
pub type Refusal = [u64; 4];

pub fn refusal(number: u64) -> Refusal {
    [number, 0, 0, 0]
}

/// Rows as they came.
pub struct Rows {
    pub members: Vec<(u64, u32)>,
    pub edges: Vec<[u64; 4]>,
}

/// The Rust's analysis in positions.
pub struct Compiled {
    pub members: Vec<(u64, u32)>,
    /// Id, source, target, delay.
    pub edges: Vec<(u64, u32, u32, u64)>,
    pub direct: Vec<Vec<(u32, u64)>>,
    pub transitive: Vec<Vec<(u32, u64)>>,
    pub downstream: Vec<Vec<u32>>,
}

fn u32_at(bytes: &[u8], at: usize) -> u32 {
    u32::from_le_bytes(bytes[at..at + 4].try_into().unwrap())
}
fn u64_at(bytes: &[u8], at: usize) -> u64 {
    u64::from_le_bytes(bytes[at..at + 8].try_into().unwrap())
}

/// Refusals 1 to 4, then the rows.
pub fn read(bytes: &[u8]) -> Result<Rows, Refusal> {
    if bytes.len() < 24 || u32_at(bytes, 0) != 1 {
        return Err(refusal(1));
    }
    let (n, e) = (u32_at(bytes, 4) as usize, u32_at(bytes, 8) as usize);
    if n > MEMBERS {
        return Err(refusal(2));
    }
    if e > EDGES {
        return Err(refusal(3));
    }
    let first_edge = 24 + 16 * n;
    let total = first_edge + 32 * e;
    let header = [u32_at(bytes, 12), u32_at(bytes, 16), u32_at(bytes, 20)];
    if header.map(|word| word as usize) != [24, first_edge, total] || bytes.len() != total {
        return Err(refusal(1));
    }
    let mut members = Vec::new();
    for row in (24..first_edge).step_by(16) {
        if u32_at(bytes, row + 12) != 0 {
            return Err(refusal(1));
        }
        if u32_at(bytes, row + 8) as usize > TAGS {
            return Err(refusal(4));
        }
        members.push((u64_at(bytes, row), u32_at(bytes, row + 8)));
    }
    let edge = |row| [0, 8, 16, 24].map(|field| u64_at(bytes, row + field));
    Ok(Rows { members, edges: (first_edge..total).step_by(32).map(edge).collect() })
}

/// Text of a number, in the order of numbers.
fn text(number: u64) -> String {
    format!("{number:020}")
}
fn member_id(number: u64) -> FederateId {
    FederateId::new(text(number)).expect("digits are a stable text")
}
fn edge_id(number: u64) -> BoundaryId {
    BoundaryId::new(text(number)).expect("digits are a stable path")
}
fn member_number(id: &FederateId) -> u64 {
    id.as_str().parse().expect("our own digits")
}
fn edge_number(id: &BoundaryId) -> u64 {
    id.to_canonical_string().parse().expect("our own digits")
}

/// What the Rust's analysis is given: members and edges by identities of its own.
pub type Declared = (Vec<FederateId>, Vec<FederationEdge>);

pub fn declare(rows: &Rows) -> Declared {
    let edge = |&[id, source, target, delay]: &[u64; 4]| {
        FederationEdge::new(member_id(source), member_id(target), edge_id(id), FederationDelay::from_nanos(delay))
    };
    (rows.members.iter().map(|&(id, _)| member_id(id)).collect(), rows.edges.iter().map(edge).collect())
}

/// The Rust's own analysis.
pub fn analyze((members, edges): Declared) -> Result<AnalyzedFederationGraph, FederationAnalysisError> {
    analyze_federation_graph(members, edges)
}

/// Refusals 5 to 9 as the Rust gives them.
fn numbered(rows: &Rows, error: FederationAnalysisError) -> Refusal {
    match error {
        FederationAnalysisError::DuplicateFederateId { federate } => [5, 0, member_number(&federate), 0],
        FederationAnalysisError::DuplicateEdgeId { edge } => [6, 0, edge_number(&edge), 0],
        FederationAnalysisError::UndeclaredEdgeMember { edge, federate } => {
            [7, 0, edge_number(&edge), member_number(&federate)]
        }
        FederationAnalysisError::ZeroDelayCycle { federates } => {
            let mut ids: Vec<u64> = rows.members.iter().map(|member| member.0).collect();
            ids.sort_unstable();
            let bit = |id: &FederateId| 1u64 << ids.binary_search(&member_number(id)).expect("a declared member");
            [8, federates.iter().map(bit).sum(), 0, 0]
        }
        FederationAnalysisError::AccumulatedDelayOverflow { from, target } => {
            [9, 0, member_number(&from), member_number(&target)]
        }
    }
}

/// Refusals 5 to 9, then the analysis in positions.
pub fn compile(rows: &Rows) -> Result<Compiled, Refusal> {
    let graph = analyze(declare(rows)).map_err(|error| numbered(rows, error))?;
    Ok(positions(rows, &graph))
}

fn positions(rows: &Rows, graph: &AnalyzedFederationGraph) -> Compiled {
    let at = |id: &FederateId| graph.members().binary_search(id).expect("a declared member") as u32;
    let capacity = |id: u64| rows.members.iter().find(|member| member.0 == id).expect("a declared member").1;
    let list = |rows: Option<&[(FederateId, FederationDelay)]>| -> Vec<(u32, u64)> {
        rows.expect("a declared member").iter().map(|(source, delay)| (at(source), delay.as_nanos())).collect()
    };
    let each = graph.members();
    Compiled {
        members: each.iter().map(|id| (member_number(id), capacity(member_number(id)))).collect(),
        edges: graph
            .edges()
            .iter()
            .map(|edge| (edge_number(edge.id()), at(edge.source()), at(edge.target()), edge.delay().as_nanos()))
            .collect(),
        direct: each.iter().map(|id| list(graph.direct_incoming(id))).collect(),
        transitive: each.iter().map(|id| list(graph.transitive_incoming(id))).collect(),
        downstream: each
            .iter()
            .map(|id| graph.affected_downstream(id).expect("a declared member").iter().map(at).collect())
            .collect(),
    }
}

/// The compiled plan's bytes by 01's layout.
pub fn image(plan: &Compiled) -> Vec<u8> {
    let counts = [
        plan.members.len(),
        plan.edges.len(),
        plan.direct.iter().map(Vec::len).sum(),
        plan.transitive.iter().map(Vec::len).sum(),
        plan.downstream.iter().map(Vec::len).sum(),
    ];
    let mut header = vec![1];
    header.extend(counts);
    let mut offset = 48;
    for (count, width) in counts.into_iter().zip([40, 24, 16, 16, 4]) {
        header.push(offset);
        offset += count * width;
    }
    header.push(offset);
    let mut out = Vec::new();
    for word in header {
        out.extend((word as u32).to_le_bytes());
    }
    let mut firsts = [0u32; 3];
    for (position, &(id, capacity)) in plan.members.iter().enumerate() {
        let sizes = [plan.direct[position].len(), plan.transitive[position].len(), plan.downstream[position].len()];
        out.extend(id.to_le_bytes());
        out.extend(capacity.to_le_bytes());
        for (first, size) in firsts.iter_mut().zip(sizes) {
            out.extend(first.to_le_bytes());
            out.extend((size as u32).to_le_bytes());
            *first += size as u32;
        }
        out.extend(0u32.to_le_bytes());
    }
    for &(id, source, target, delay) in &plan.edges {
        out.extend(id.to_le_bytes());
        out.extend(source.to_le_bytes());
        out.extend(target.to_le_bytes());
        out.extend(delay.to_le_bytes());
    }
    for &(source, delay) in plan.direct.iter().chain(&plan.transitive).flatten() {
        out.extend(source.to_le_bytes());
        out.extend(0u32.to_le_bytes());
        out.extend(delay.to_le_bytes());
    }
    for target in plan.downstream.iter().flatten() {
        out.extend(target.to_le_bytes());
    }
    out
}

/// The plan that these bytes were compiled from, if they are a compiled plan.
pub fn recognise(bytes: &[u8]) -> Option<Compiled> {
    let word = |at: usize| bytes.get(at..at + 4).map(|part| u32::from_le_bytes(part.try_into().unwrap()) as usize);
    let (n, e) = (word(4)?, word(8)?);
    if n > MEMBERS || e > EDGES || bytes.len() < 48 + 40 * n + 24 * e {
        return None;
    }
    let members: Vec<(u64, u32)> =
        (0..n).map(|at| (u64_at(bytes, 48 + 40 * at), u32_at(bytes, 56 + 40 * at))).collect();
    if members.iter().any(|member| member.1 as usize > TAGS) {
        return None;
    }
    let mut edges = Vec::new();
    for row in (0..e).map(|at| 48 + 40 * n + 24 * at) {
        let source = members.get(u32_at(bytes, row + 8) as usize)?.0;
        let target = members.get(u32_at(bytes, row + 12) as usize)?.0;
        edges.push([u64_at(bytes, row), source, target, u64_at(bytes, row + 16)]);
    }
    let plan = compile(&Rows { members, edges }).ok()?;
    (image(&plan) == bytes).then_some(plan)
}
