//! What a comparison says: nothing, or the two answers that differ.

use std::{collections::BTreeMap, fmt::Debug};

use crate::{
    calls::{Answer, Call, LIST_KINDS, SET_KINDS},
    zero_wire,
};

/// Two answers that should have been one.
#[derive(Debug)]
pub struct Difference(pub String);

/// An answer, unless two of them differed on the way.
pub type Outcome<T> = Result<T, Difference>;
pub type Compared = Outcome<()>;

/// Compares two answers, each under the name of the side that gave it.
pub fn same<T: PartialEq + Debug>(what: &str, left: (&str, T), right: (&str, T)) -> Compared {
    if left.1 == right.1 {
        return Ok(());
    }
    Err(Difference(format!(
        "{what}\n  {}: {:?}\n  {}: {:?}",
        left.0, left.1, right.0, right.1
    )))
}

/// A condition on one side's answer alone.
pub fn holds(what: &str, yes: bool, answer: impl Debug) -> Compared {
    if yes {
        return Ok(());
    }
    Err(Difference(format!("{what}: {answer:?}")))
}

/// The gates of relations of which something was withdrawn before, told apart.
const GATE_AFTER: &str = "gate after withdrawal";
const STRICT_READ: &str = "strict read SFRI";

/// Where a call is answered 11, which part is unsound.
pub const UNSOUND_GATE: &str = "gate, unsound";
pub const UNSOUND_SFRI: &str = "write SFRI, unsound";
pub const UNSOUND_SFRW: &str = "write SFRW, unsound";
pub const UNSOUND_CHECK: &str = "check, unsound";

/// The kinds that something comes in.
fn kinds(name: &str) -> &'static [&'static str] {
    match name {
        "set" => SET_KINDS,
        UNSOUND_GATE => &["equations", "queries", "slots", "label"],
        UNSOUND_SFRI => &["equations", "publics", "queries", "label"],
        UNSOUND_SFRW => &["trace"],
        UNSOUND_CHECK => &["equations", "publics", "queries", "label", "trace"],
        _ => LIST_KINDS,
    }
}

/// The numbers that withdrawals, gates after them and strict reads have to be answered by in a
/// command, and those of the plain read where the strict one says 46.
type Numbers = &'static [(&'static str, &'static [u32])];

/// Where calls alone have made the record.
const MADE: Numbers = &[
    ("withdraw query", &[0, 45]),
    ("withdraw equation", &[0, 45]),
    (GATE_AFTER, &[0, 13, 15]),
    (STRICT_READ, &[0, 27, 28, 46]),
];

/// Where records and stores go astray too.
const ASTRAY: Numbers = &[
    ("withdraw query", &[0, 10, 11, 45]),
    ("withdraw equation", &[0, 11, 45]),
    ("record", &[0, 10, 11]),
    ("mint", &[0, 10, 11]),
    (GATE_AFTER, &[0, 13, 15]),
];

/// Where files break the strict read's rule in each of the ways: nothing else is wrong with some, some
/// have bytes left over, which is asked last, and some another fault that is asked about later. No
/// public is beyond the wires where there is none, and no scratch too short where there are no wires.
const READ: Numbers = &[
    (STRICT_READ, &[0, 12, 13, 16, 20, 27, 28, 46]),
    (zero_wire::NO_PUBLICS, &[0, 13, 15, 16, 28]),
    (zero_wire::MISSING, &[0, 12, 13, 16, 28]),
    (zero_wire::UNEQUAL, &[0, 12, 13, 16, 28]),
    (zero_wire::NO_WIRES, &[0, 12, 28]),
];

/// The numbers that have to be seen in a command.
fn expected(command: &str) -> Numbers {
    match command {
        "self" | "whole" => MADE,
        "relation" | "shared" => ASTRAY,
        "instance" => READ,
        _ => &[],
    }
}

/// What a run has seen: how often each call answered each number, how often what of a set, a set
/// list or a ticket text was fresh, and how often which part was unsound.
#[derive(Default)]
pub struct Seen {
    answers: BTreeMap<(&'static str, u32), u64>,
    kinds: BTreeMap<&'static str, BTreeMap<&'static str, u64>>,
    pub total: u64,
}

impl Seen {
    fn count(&mut self, call: &'static str, number: u32) {
        *self.answers.entry((call, number)).or_default() += 1;
    }

    pub fn answered(&mut self, call: &'static str, number: u32) {
        self.count(call, number);
        self.total += 1;
    }

    /// A gate, and whether anything was withdrawn from the relation before it.
    pub fn gated(&mut self, number: u32, struck: bool) {
        self.answered("gate", number);
        if struck {
            self.count(GATE_AFTER, number);
        }
    }

    /// The plain and the strict read of a file, one command, and where the strict one says 46, what
    /// the plain one does.
    pub fn read(&mut self, bytes: &[u8], plain: u32, strict: u32) {
        self.answered("read SFRI", plain);
        self.count(STRICT_READ, strict);
        if let (46, Some(way)) = (strict, zero_wire::broken(bytes)) {
            self.count(way, plain);
        }
    }

    /// A call on a relation and its answer.
    pub fn called(&mut self, call: &Call, answer: &Answer) {
        self.answered(call.name(), answer.number);
        if let Some(kind) = call.freshness(answer) {
            self.kind(call.name(), Some(kind));
        }
    }

    /// What kind it was, if any: from now on all of them have to be seen.
    pub fn kind(&mut self, name: &'static str, kind: Option<&'static str>) {
        let kinds = self.kinds.entry(name).or_default();
        if let Some(kind) = kind {
            *kinds.entry(kind).or_default() += 1;
        }
    }

    /// A kind of set, set list, ticket text or unsound part that was looked for and never seen, or a
    /// number of a withdrawal, of a gate after one, or of a read.
    pub fn missing(&self, command: &str) -> Option<String> {
        let mut missing = self.kinds.iter().flat_map(|(&name, seen)| {
            let kinds = kinds(name).iter();
            let missing = kinds.filter(|kind| !seen.contains_key(*kind));
            missing.map(move |kind| format!("{name}: {kind}"))
        });
        missing.next().or_else(|| self.unanswered(command))
    }

    /// A number that the command has to see and didn't.
    fn unanswered(&self, command: &str) -> Option<String> {
        let numbers = expected(command).iter();
        let numbers =
            numbers.flat_map(|&(name, numbers)| numbers.iter().map(move |&number| (name, number)));
        let mut missing = numbers.filter(|key| !self.answers.contains_key(key));
        missing
            .next()
            .map(|(name, number)| format!("{name}: {number}"))
    }

    /// One line per call: its answers, and how often each was given.
    pub fn print(&self) {
        let mut line = String::new();
        let mut last = "";
        for (&(call, number), times) in &self.answers {
            if call != last {
                if !line.is_empty() {
                    println!("{line}");
                }
                line = format!("  {call:<22}");
                last = call;
            }
            line += &format!(" {number}:{times}");
        }
        println!("{line}");
        for (name, kinds) in &self.kinds {
            let kinds = kinds.iter();
            let kinds: Vec<String> = kinds.map(|(kind, n)| format!("{kind}:{n}")).collect();
            println!("  {name:<22} {}", kinds.join(", "));
        }
    }
}

/// Tells the commands of a list as they are run, where that is asked for.
pub struct Log(pub bool);

impl Log {
    pub fn say(&self, line: impl FnOnce() -> String) {
        if self.0 {
            println!("  {}", line());
        }
    }
}
