//! How often which call had which outcome, and which must not be missing.

use std::collections::BTreeMap;

use crate::{calls::*, source::player::permute};

/// Counts by call and outcome.
#[derive(Default)]
pub struct Counts(BTreeMap<String, BTreeMap<String, u64>>);

/// In so many calls none of them may be missing.
pub const ENOUGH: u64 = 10_000;

const UNALLOCATED: &str = "unallocated variable #";
const CONFLICT: &str = "conflicting assignment for variable #";
const LENGTHS: &str = "set_vars: variables and values differ in length";
const TOO_MANY: &str = "variable count exceeds supported maximum #";

/// Calls and their outcomes.
const REQUIRED: &[(&str, &[&str])] = &[
    ("new allocator", &["done"]),
    ("clone allocator", &["done"]),
    ("allocator of relation", &["done"]),
    ("new relation", &["done"]),
    ("relation on allocator", &["done"]),
    ("clone relation", &["done"]),
    ("allocate one", &["done"]),
    ("allocate array", &["done"]),
    (
        "allocate list",
        &["done", TOO_MANY, "variable count overflow"],
    ),
    ("allocate one with", &["done"]),
    ("allocate array with", &["done"]),
    ("allocate list with", &["done"]),
    ("set", &["done", UNALLOCATED, CONFLICT]),
    ("set list, way 0", &["done", UNALLOCATED, CONFLICT, LENGTHS]),
    ("set list, way 1", &["done", UNALLOCATED, CONFLICT, LENGTHS]),
    ("set list, way 2", &["done", UNALLOCATED, CONFLICT, LENGTHS]),
    ("set list, way 3", &["done", UNALLOCATED, CONFLICT, LENGTHS]),
    ("query, allocate", &["done"]),
    ("query, permute", &["done"]),
    ("query, permute_mut", &["done"]),
    ("query, add", &["done"]),
    (
        "compile",
        &[
            "done",
            "query # references unallocated variable #",
            "equation # references unallocated variable #",
            "equation # weights variable #, which no query or assignment binds",
        ],
    ),
    ("new builder", &["done"]),
    ("clone builder", &["done"]),
    ("step, allocate", &["done"]),
    ("step, permute", &["done"]),
    ("step, permute_mut", &["done"]),
    ("step, add", &["done"]),
    ("snapshot", &["done"]),
    (
        "read instance",
        &[
            "done",
            "more than 2^30 wires",
            "public variable # is unallocated",
            "query # references unallocated variable #",
            "equation # references unallocated variable #",
            "equation # weights variable #, which no query or assignment binds",
            "malformed encoding: wrong magic",
            "malformed encoding: unsupported version",
            "malformed encoding: width does not match the type",
            "malformed encoding: unit length does not match the type",
            "malformed encoding: label",
            "malformed encoding: label is not UTF-#",
            "malformed encoding: wire index",
            "malformed encoding: wire index out of range",
            "malformed encoding: unit value",
            "malformed encoding: public wires must be strictly increasing",
            "malformed encoding: trailing bytes",
        ],
    ),
    (
        "read witness",
        &[
            "done",
            "malformed encoding: wrong magic",
            "malformed encoding: width does not match the type",
            "malformed encoding: unit value",
            "malformed encoding: trailing bytes",
        ],
    ),
    ("check, own", &["0", "31", "32", "33", "34", "35"]),
    ("check, recording", &["0", "31", "32", "33", "34", "35"]),
    ("check, parameters", &["0", "31", "32", "33", "34", "35"]),
    ("check, hidden", &["0", "31", "32", "33", "34", "35"]),
    ("same", &["true, true", "false, false"]),
];

fn name(call: &Call) -> String {
    let name = match call {
        Call::NewAllocator => "new allocator",
        Call::CloneAllocator(_) => "clone allocator",
        Call::AllocatorOf(_) => "allocator of relation",
        Call::NewRelation(..) => "new relation",
        Call::RelationOn(..) => "relation on allocator",
        Call::CloneRelation(_) => "clone relation",
        Call::Wires(_, call) => match call {
            Wires::One => "allocate one",
            Wires::Array(_) => "allocate array",
            Wires::List(_) => "allocate list",
            Wires::OneWith(_) => "allocate one with",
            Wires::ArrayWith(_) => "allocate array with",
            Wires::ListWith(_) => "allocate list with",
            Wires::Set(..) => "set",
            Wires::SetList(.., way) => return format!("set list, way {way}"),
        },
        Call::Query(_, call) => return format!("query, {}", evaluation(call)),
        Call::Equation(_, expression, _) => return format!("equation, shape {}", expression.shape),
        Call::Compile(_) => "compile",
        Call::NewBuilder(..) => "new builder",
        Call::CloneBuilder(_) => "clone builder",
        Call::Step(_, call) => return format!("step, {}", evaluation(call)),
        Call::Snapshot(_) => "snapshot",
        Call::ReadInstance(..) => "read instance",
        Call::ReadWitness(..) => "read witness",
        Call::Check(.., kind) => match kind {
            Kind::Own(_) => "check, own",
            Kind::Recording(_) => "check, recording",
            Kind::Parameters(..) => "check, parameters",
            Kind::Hidden(..) => "check, hidden",
        },
        Call::Same(..) => "same",
    };
    name.to_string()
}

fn evaluation(call: &Evaluation) -> &'static str {
    match call {
        Evaluation::Allocate(_) => "allocate",
        Evaluation::Permute(_) => "permute",
        Evaluation::PermuteMut(_) => "permute_mut",
        Evaluation::Add(..) => "add",
    }
}

/// A message with a # for each number in it.
fn without_numbers(message: &str) -> String {
    let mut out = String::new();
    for letter in message.chars() {
        match letter {
            '0'..='9' if out.ends_with('#') => {}
            '0'..='9' => out.push('#'),
            _ => out.push(letter),
        }
    }
    out
}

impl Counts {
    /// Counts a call's outcome; a check's is the number that `why` gives.
    pub fn add(&mut self, call: &Call, answer: &Answer, why: Option<u32>) {
        let outcome = match (why, answer) {
            (Some(number), _) => number.to_string(),
            (None, Answer::Panicked(message) | Answer::Refused(message)) => {
                without_numbers(message)
            }
            (None, Answer::Yes(answers)) => {
                let answers: Vec<String> = answers.iter().map(bool::to_string).collect();
                answers.join(", ")
            }
            (None, _) => "done".to_string(),
        };
        self.count(name(call), outcome);
    }

    /// A file that the source alone takes.
    pub fn add_huge(&mut self) {
        let call = "read instance".to_string();
        self.count(call, "more than 2^30 wires".to_string());
    }

    fn count(&mut self, call: String, outcome: String) {
        let outcomes = self.0.entry(call).or_default();
        *outcomes.entry(outcome).or_default() += 1;
    }

    /// What is missing, of what must be there.
    pub fn missing(&self) -> Vec<String> {
        let seen = |call: &str, outcome: &str| {
            let outcomes = self.0.get(call);
            outcomes.is_some_and(|outcomes| outcomes.contains_key(outcome))
        };
        let shapes = (0..SHAPES).map(|shape| (format!("equation, shape {shape}"), "done"));
        let required = REQUIRED.iter().flat_map(|(call, outcomes)| {
            let outcomes = outcomes.iter();
            outcomes.map(|outcome| (call.to_string(), *outcome))
        });
        let required = required.chain(shapes);
        let missing = required.filter(|(call, outcome)| !seen(call, outcome));
        missing
            .map(|(call, outcome)| format!("{call}: {outcome}"))
            .collect()
    }

    pub fn print(&self) {
        for (call, outcomes) in &self.0 {
            let outcomes = outcomes.iter();
            let outcomes: Vec<String> = outcomes
                .map(|(outcome, count)| format!("{count} {outcome}"))
                .collect();
            println!("  {call}: {}", outcomes.join("; "));
        }
    }
}

/// The first question of the check that says no, 31 to 35; 0 where none does. For the counts alone, which are to tell the ways
/// in which a witness fails.
pub fn why(width: usize, instance: &SeenInstance, witness: &SeenWitness, kind: &Kind) -> u32 {
    if instance.queries.len() != witness.steps.len() {
        return 31;
    }
    let mut values: BTreeMap<u32, u32> = instance.publics.iter().copied().collect();
    for (query, step) in instance.queries.iter().zip(&witness.steps) {
        let (input, output) = step.split_at(width);
        if permute(width, kind, input) != output {
            return 32;
        }
        for (&var, &value) in query.iter().zip(step) {
            if *values.entry(var).or_insert(value) != value {
                return 33;
            }
        }
    }
    for (terms, image) in &instance.equations {
        let mut sum = 0;
        for (var, weight) in terms {
            let Some(&value) = values.get(var) else {
                return 34;
            };
            sum = (sum + u64::from(*weight) * u64::from(value)) % u64::from(reading::P);
        }
        if sum != u64::from(*image) {
            return 35;
        }
    }
    0
}
