//! Speaks the script's language on standard input and output, with the Rust behind it.
//! `witness`, `check` and `path` have no counterpart in the Rust: they are answered with `skipped`.

use boomerang_central_rti::compiled::{CompiledRti, FederateIndex, MemberRecord};
use boomerang_central_rti::WireTag;
use driver::plan::{compile, image, read, recognise, refusal, Compiled, Refusal, MEMBERS, TAGS};
use driver::session::{
    abort_message, delivery, dump, load, narrow, request, tag_words, Record, State, Tables, LIMIT, SLAB, STRETCH,
};
use driver::text;
use std::io::{BufRead, Write};

const LINE: usize = 65_600;
const IMAGE: u64 = 31_920;
const ROOM: u64 = 512;

/// Why a line has no plain answer.
enum Trouble {
    Unreadable,
    Refused(Refusal),
}
use Trouble::{Refused, Unreadable};

type Answer = Result<Vec<String>, Trouble>;

/// The Rust's session, live from call to call; it borrows from its tables.
struct Live {
    rti: Option<CompiledRti<'static>>,
    tables: *mut Tables,
}
impl Live {
    fn new(plan: &Compiled, state: &State) -> Self {
        let tables = Box::into_raw(Box::new(Tables::new(plan)));
        // The tables stay until this value is dropped, after the session.
        let mut rti = unsafe { &*tables }.open(state.identity);
        load(&mut rti, state);
        Self { rti: Some(rti), tables }
    }
}
impl Drop for Live {
    fn drop(&mut self) {
        self.rti = None;
        drop(unsafe { Box::from_raw(self.tables) });
    }
}

struct Machine {
    plan: Option<Compiled>,
    lent: Option<u64>,
    room: Option<u64>,
    state: State,
    /// Gone whenever a line changes the plan or the state.
    live: Option<Live>,
}

fn number(word: &str) -> Result<u64, Trouble> {
    text::number(word).ok_or(Unreadable)
}
fn at_most(word: &str, most: u64) -> Result<u64, Trouble> {
    number(word).and_then(|value| if value <= most { Ok(value) } else { Err(Unreadable) })
}
fn numbers(words: &[&str]) -> Result<Vec<u64>, Trouble> {
    words.iter().map(|word| number(word)).collect()
}
fn bytes(word: &str) -> Result<Vec<u8>, Trouble> {
    text::bytes(word).ok_or(Unreadable)
}
fn tag(words: &[u64]) -> Result<Option<WireTag>, Trouble> {
    match *words {
        [0, 0, 0] => Ok(Some(WireTag::NEVER)),
        [1, offset, micro] => Ok(Some(WireTag::finite(offset.into(), micro))),
        [2, 0, 0] => Ok(Some(WireTag::FOREVER)),
        [3, 0, 0] => Ok(None),
        _ => Err(Unreadable),
    }
}
fn optional(words: &[u64]) -> Result<Option<u64>, Trouble> {
    match *words {
        [0, 0] => Ok(None),
        [1, value] => Ok(Some(value)),
        _ => Err(Unreadable),
    }
}
fn flag(word: u64) -> Result<bool, Trouble> {
    if word > 1 {
        Err(Unreadable)
    } else {
        Ok(word == 1)
    }
}

impl Machine {
    fn new() -> Self {
        Self { plan: None, lent: None, room: None, state: State::new(), live: None }
    }

    fn answer(&mut self, line: &str) -> Answer {
        let words: Vec<&str> = line.split(' ').collect();
        if words.contains(&"") {
            return Err(Unreadable);
        }
        let rest = &words[1..];
        match (words[0], rest) {
            ("plan", [data]) => self.compile(data, IMAGE),
            ("plan", [data, room]) => self.compile(data, number(room)?),
            ("image", [data]) => {
                let data = bytes(data)?;
                self.take(&data);
                Ok(vec![format!("image {}", data.len())])
            }
            ("witness" | "check" | "path", _) => Ok(vec!["skipped".into()]),
            ("slab", [count]) => {
                let count = at_most(count, SLAB as u64)?;
                self.lent = Some(count);
                Ok(vec![format!("slab {count}")])
            }
            ("room", [count]) => {
                let count = at_most(count, ROOM)?;
                self.room = Some(count);
                Ok(vec![format!("room {count}")])
            }
            ("open", [identity]) => self.open(number(identity)?),
            ("request", words) if words.len() <= 16 => self.request(&numbers(words)?),
            ("abort", [code]) => self.abort(number(code)?),
            ("dump", []) => Ok(self.dump()),
            ("state", [count, identity, cause, code]) => {
                let count = at_most(count, MEMBERS as u64)? as usize;
                let (identity, cause, code) = (number(identity)?, number(cause)?, number(code)?);
                self.live = None;
                let state = &mut self.state;
                (state.count, state.identity, state.cause, state.code) = (count, identity, cause, code);
                Ok(vec!["state".into()])
            }
            ("member", words) => self.member(&numbers(words)?),
            ("word", [index, value]) => {
                let (index, value) = (at_most(index, SLAB as u64 - 1)? as usize, number(value)?);
                self.live = None;
                self.state.slab[index] = value;
                Ok(vec!["word".into()])
            }
            _ => Err(Unreadable),
        }
    }

    fn take(&mut self, data: &[u8]) {
        self.live = None;
        self.plan = recognise(data);
    }

    fn compile(&mut self, data: &str, room: u64) -> Answer {
        let rows = read(&bytes(data)?).map_err(Refused)?;
        let out = image(&compile(&rows).map_err(Refused)?);
        if room < out.len() as u64 {
            return Err(Refused(refusal(10)));
        }
        self.take(&out);
        Ok(vec![format!("compiled {} {}", out.len(), text::hex(&out))])
    }

    /// Refusals 11 to 13.
    fn plan(&self) -> Result<&Compiled, Trouble> {
        let plan = self.plan.as_ref().ok_or(Refused(refusal(11)))?;
        let edges = plan.edges.iter().map(|edge| edge.3);
        let least = plan.transitive.iter().flatten().map(|row| row.1);
        if edges.chain(least).any(|delay| delay > LIMIT) {
            return Err(Refused(refusal(12)));
        }
        if self.lent.is_some_and(|lent| lent < (STRETCH * plan.members.len()) as u64) {
            return Err(Refused(refusal(13)));
        }
        Ok(plan)
    }

    fn open(&mut self, identity: u64) -> Answer {
        let plan = self.plan()?;
        let n = plan.members.len();
        let mut slab = std::mem::take(&mut self.state.slab);
        slab[..STRETCH * n].fill(0);
        self.state = State { count: n, identity, slab, ..State::new() };
        self.live = None;
        Ok(vec!["opened".into()])
    }

    /// Refusals 11 to 15.
    fn ready(&self) -> Result<(), Trouble> {
        let plan = self.plan()?;
        if !self.state.well_formed(plan) {
            return Err(Refused(refusal(14)));
        }
        if self.room.is_some_and(|room| room < 7 * (2 * plan.members.len() as u64 + 1)) {
            return Err(Refused(refusal(15)));
        }
        Ok(())
    }

    fn rti(&mut self) -> &mut CompiledRti<'static> {
        let (plan, state) = (self.plan.as_ref().expect("a plan"), &self.state);
        let live = self.live.get_or_insert_with(|| Live::new(plan, state));
        live.rti.as_mut().expect("a session")
    }

    fn request(&mut self, words: &[u64]) -> Answer {
        self.ready()?;
        let request = request(words).map_err(Refused)?;
        let member = FederateIndex::new(narrow(words[0]));
        let out = self.rti().handle(member, request);
        Ok(self.answered(out.iter().map(|one| delivery(one, Some(words[0]))).collect()))
    }

    fn abort(&mut self, code: u64) -> Answer {
        self.ready()?;
        let out = self.rti().abort(abort_message(code));
        Ok(self.answered(out.iter().map(|one| delivery(one, None)).collect()))
    }

    fn answered(&mut self, out: Vec<[u64; 7]>) -> Vec<String> {
        let rti = self.live.as_ref().and_then(|live| live.rti.as_ref()).expect("a session");
        let finished = rti.is_finished();
        dump(rti, &mut self.state);
        assert_eq!(finished, self.state.finished());
        let mut lines: Vec<String> =
            out.iter().map(|words| format!("deliver {}", words.map(|word| word.to_string()).join(" "))).collect();
        lines.push(format!("answered {} {}", out.len(), u8::from(finished)));
        lines
    }

    fn dump(&self) -> Vec<String> {
        let state = &self.state;
        let mut lines = vec![format!("state {} {} {} {}", state.count, state.identity, state.cause, state.code)];
        for at in 0..state.count {
            let record = &state.members[at];
            let stretch = &state.slab[STRETCH * at..STRETCH * at + 2 * record.held];
            let mut words = vec![at as u64];
            words.extend(record_words(record));
            words.extend(stretch);
            let words: Vec<String> = words.iter().map(u64::to_string).collect();
            lines.push(format!("member {}", words.join(" ")));
        }
        lines
    }

    fn member(&mut self, words: &[u64]) -> Answer {
        let (Some(&at), Some(&held)) = (words.first(), words.get(23)) else {
            return Err(Unreadable);
        };
        if at >= MEMBERS as u64 || held > TAGS as u64 || words.len() as u64 != 24 + 2 * held {
            return Err(Unreadable);
        }
        let event = tag(&words[4..7])?;
        let publication = match (words[2], words[3], event) {
            (0, 0, None) => None,
            (1, revision, None) => Some((revision, None)),
            (2, revision, Some(event)) => Some((revision, Some(event))),
            _ => return Err(Unreadable),
        };
        let values = MemberRecord {
            joined: flag(words[1])?,
            publication,
            granted_revision: optional(&words[7..9])?,
            granted: tag(&words[9..12])?,
            bound: tag(&words[12..15])?,
            completed: tag(&words[15..18])?,
            idle_request: optional(&words[18..20])?,
            idle: optional(&words[20..22])?,
            stopped: flag(words[22])?,
            in_transit: Vec::new(),
        };
        let (at, held) = (at as usize, held as usize);
        self.live = None;
        self.state.members[at] = Record { values, held };
        let stretch = &mut self.state.slab[STRETCH * at..STRETCH * (at + 1)];
        stretch.fill(0);
        stretch[..2 * held].copy_from_slice(&words[24..]);
        Ok(vec!["member".into()])
    }
}

/// A record's words from JOINED to K.
fn record_words(record: &Record) -> Vec<u64> {
    let optional = |value: Option<u64>| value.map_or([0, 0], |value| [1, value]);
    let member = &record.values;
    let (published, revision, event) = match member.publication {
        None => (0, 0, None),
        Some((revision, None)) => (1, revision, None),
        Some((revision, event)) => (2, revision, event),
    };
    let mut words = vec![member.joined.into(), published, revision];
    words.extend(tag_words(event));
    words.extend(optional(member.granted_revision));
    words.extend(tag_words(member.granted));
    words.extend(tag_words(member.bound));
    words.extend(tag_words(member.completed));
    words.extend(optional(member.idle_request));
    words.extend(optional(member.idle));
    words.extend([u64::from(member.stopped), record.held as u64]);
    words
}

fn main() {
    let mut input = std::io::stdin().lock();
    let mut output = std::io::BufWriter::new(std::io::stdout().lock());
    let mut machine = Machine::new();
    let mut line = Vec::new();
    for count in 1u64.. {
        line.clear();
        if input.read_until(b'\n', &mut line).expect("standard input") == 0 {
            break;
        }
        if line.last() == Some(&b'\n') {
            line.pop();
        }
        let answer = match std::str::from_utf8(&line) {
            _ if line.len() > LINE => Err(Unreadable),
            _ if line.is_empty() || line[0] == b'#' => continue,
            Ok(text) => machine.answer(text),
            Err(_) => Err(Unreadable),
        };
        let lines = match answer {
            Ok(lines) => lines,
            Err(Unreadable) => vec![format!("error {count}")],
            Err(Refused([number, mask, first, second])) => vec![format!("refused {number} {mask} {first} {second}")],
        };
        for line in lines {
            writeln!(output, "{line}").expect("standard output");
        }
    }
}
