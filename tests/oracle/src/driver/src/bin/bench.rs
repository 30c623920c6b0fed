//! bench < WORKLOAD: what crates/bench says of the coordinator, said of the Rust: how the workload is answered, in numbers, and,
//! for a line `passes N`, the least times of N passes in microseconds of processor time.
//! A request is decoded beforehand, and its deliveries are dropped. Of compiling, the analysis alone is timed,
//! without making the identities that it is given.

use boomerang_central_rti::compiled::{CompiledRti, FederateIndex, RtiRequest};
use driver::plan::{analyze, compile, declare, image, read, Declared, Rows};
use driver::session::{cause, delivery, narrow, request, Tables};
use driver::text;
use std::hint::black_box;

const COMPILES: usize = 100;
const PRIME: u64 = 2147483647;
const FACTOR: u64 = 1000003;

extern "C" {
    /// The C library's processor time of this process, in microseconds.
    fn clock() -> i64;
}

/// A member's request, and its member word.
type Call = (FederateIndex, RtiRequest, u64);

#[derive(Default)]
struct Workload {
    data: Vec<u8>,
    identity: u64,
    start: Vec<Call>,
    steady: Vec<Call>,
    passes: u64,
}

fn parse(script: &str) -> Workload {
    let mut workload = Workload::default();
    let mut steady = false;
    for line in script.lines() {
        let words: Vec<&str> = line.split(' ').collect();
        let number = |at: usize| text::number(words[at]).expect("a number");
        match words[0] {
            "plan" => workload.data = text::bytes(words[1]).expect("hex"),
            "open" => workload.identity = number(1),
            "passes" => workload.passes = number(1),
            "request" => {
                let words: Vec<u64> = (1..words.len()).map(number).collect();
                let call = (FederateIndex::new(narrow(words[0])), request(&words).expect("a request"), words[0]);
                if steady { &mut workload.steady } else { &mut workload.start }.push(call);
            }
            _ => steady |= line == "# steady",
        }
    }
    workload
}

/// How long some work takes, in microseconds.
fn time(work: impl FnOnce()) -> i64 {
    let start = unsafe { clock() };
    work();
    unsafe { clock() - start }
}

/// The least time of so many passes.
fn least(passes: u64, pass: impl FnMut(u64) -> i64) -> i64 {
    (0..passes).map(pass).min().expect("a pass")
}

fn ask(rti: &mut CompiledRti<'_>, calls: &[Call]) {
    for (member, request, _) in calls {
        black_box(rti.handle(*member, request.clone()));
    }
}

/// The time of the steady requests of one session.
fn session(tables: &Tables, workload: &Workload) -> i64 {
    let mut rti = tables.open(workload.identity);
    ask(&mut rti, &workload.start);
    time(|| ask(&mut rti, &workload.steady))
}

/// Says how many deliveries are sent, the digest of their words, and what ended the session.
fn answers(tables: &Tables, workload: &Workload) {
    let mut rti = tables.open(workload.identity);
    let (mut sent, mut digest) = (0, 0);
    for (member, request, asker) in workload.start.iter().chain(&workload.steady) {
        let deliveries = rti.handle(*member, request.clone());
        sent += deliveries.len();
        let words = deliveries.iter().flat_map(|one| delivery(one, Some(*asker)));
        digest = words.fold(digest, |digest, word| (digest * FACTOR + word % PRIME) % PRIME);
    }
    println!("cause {}\ndeliveries {sent}\ndigest {digest}", rti.failure().map_or(0, |text| cause(text).0));
}

/// The time of analysing the plan so many times; what it is given is made before, what it gives is dropped after.
fn analysis(rows: &Rows) -> i64 {
    let given: Vec<Declared> = (0..COMPILES).map(|_| declare(rows)).collect();
    let mut found = Vec::with_capacity(COMPILES);
    time(|| found.extend(given.into_iter().map(|plan| black_box(analyze(plan)))))
}

fn times(rows: &Rows, tables: &Tables, workload: &Workload) {
    let asked = least(workload.passes, |_| session(tables, workload));
    println!("time request {} {asked}", workload.steady.len());
    let analysed = least(workload.passes, |_| analysis(rows));
    println!("time analysis {COMPILES} {analysed}");
}

fn main() {
    let workload = parse(&std::io::read_to_string(std::io::stdin()).expect("a workload"));
    let rows: Rows = read(&workload.data).expect("a plan");
    let plan = compile(&rows).expect("a plan");
    println!("compiled {}\nsteady {}\nrefused 0", image(&plan).len(), workload.steady.len());
    let tables = Tables::new(&plan);
    answers(&tables, &workload);
    if workload.passes > 0 {
        times(&rows, &tables, &workload);
    }
}
