//! Inputs of so many items, and the tables of all calls but evaluation.

use sfr::{BabyBearUnit, FieldVar};
use source::{Params, Parts};

use super::{best, evaluate, table, timed, Line};
use crate::{
    held::Held,
    library::{
        instance::{parts, stores, LibraryRead, LIBRARY_READS},
        witness::parameters,
    },
    rng::Rng,
};

pub const WIDTH: u32 = 8;
const W: usize = WIDTH as usize;
pub const LABEL: &str = "poseidon2-babybear-8";
/// What lies in a store before its first run.
pub const OLD: u32 = 7;
/// As many items as calls are timed with whose items are large.
pub const FEWER: usize = 100_000;

/// An honest instance of `items` publics, queries and equations of three terms each, and its
/// trace. A query's outputs are wires of its own; its inputs are four outputs of the query
/// before and four publics. An equation has a public, an output and wire 0.
struct Honest {
    parts: Parts,
    slots: Vec<u32>,
    trace: Vec<u32>,
    params: Params,
}

impl Honest {
    fn new(items: usize, rounds: u32) -> Self {
        let mut rng = Rng::new(items as u64);
        let params = evaluate::params(&mut rng, WIDTH, rounds);
        let vars_count = 1 + items * (1 + W);
        let mut values = vec![0; vars_count];
        let mut slots = vec![u32::MAX; vars_count];
        let mut publics = vec![0, 0];
        slots[0] = 0;
        for var in 1..=items {
            let value = rng.word() % reading::P;
            values[var] = value;
            slots[var] = value;
            publics.extend([var as u32, value]);
        }
        let (mut queries, mut trace, mut equations) = (Vec::new(), Vec::new(), Vec::new());
        for item in 0..items {
            let first = 1 + items + item * W;
            let public = |rng: &mut Rng| 1 + rng.below(items);
            let mut state = [0; W];
            for (i, value) in state.iter_mut().enumerate() {
                let var = if i < W / 2 && item > 0 {
                    first - W + i
                } else {
                    public(&mut rng)
                };
                queries.push(var as u32);
                *value = values[var];
            }
            trace.extend(state);
            let turned = BabyBearUnit::list_mut(&mut state);
            let answer = sfr::permute(WIDTH, parameters(&params), turned);
            assert_eq!(answer.number, 0);
            trace.extend(state);
            queries.extend((first..first + W).map(|var| var as u32));
            values[first..first + W].copy_from_slice(&state);

            let mut image = 0;
            let mut terms = Vec::new();
            for var in [public(&mut rng), first + rng.below(W), 0] {
                let weight = rng.word() % reading::P;
                image = reading::add(image, reading::mul(weight, values[var]));
                terms.push((var as u32, weight));
            }
            equations.push((terms, image));
        }
        let parts = Parts {
            label: LABEL.to_owned(),
            vars_count: vars_count as u32,
            publics,
            queries,
            equations,
        };
        Self {
            parts,
            slots,
            trace,
            params,
        }
    }

    fn held(&self) -> Held {
        Held::from_parts(WIDTH, &self.parts)
    }

    /// The use counts of its queries.
    fn uses(&self) -> Vec<u32> {
        let mut uses = vec![0; self.slots.len()];
        for &var in &self.parts.queries {
            uses[var as usize] += 1;
        }
        uses
    }

    /// The source's relation, alone or on an allocator for several, where it has no label.
    fn relation(&self, shared: bool) -> Box<dyn source::Relation> {
        let relation = match shared {
            false => source::relation(WIDTH, LABEL),
            true => source::with_allocator(WIDTH, &source::Allocator::default()),
        };
        relation.allocate_vars(self.parts.vars_count - 1);
        let publics = &self.parts.publics;
        let every_second = |from: usize| publics[from..].iter().step_by(2).copied().collect();
        let (vars, values): (Vec<u32>, Vec<u32>) = (every_second(0), every_second(1));
        relation.set_vars(&vars, &values).expect("fresh wires");
        for query in self.parts.queries.chunks(2 * W) {
            relation.add_permutation(&query[..W], &query[W..]);
        }
        for (terms, image) in &self.parts.equations {
            relation.add_equation(terms, *image, 0);
        }
        relation
    }
}

/// Which items an instance keeps.
#[derive(Clone, Copy, PartialEq, Eq)]
enum Kept {
    All,
    Publics,
    Queries,
    Equations,
}

fn kept(items: usize, kept: Kept) -> (Held, Box<dyn source::Instance>) {
    let mut parts = Honest::new(items, 0).parts;
    if kept == Kept::Queries {
        parts.publics.truncate(2);
    }
    if matches!(kept, Kept::Publics | Kept::Equations) {
        // No more wires than publics, and every term's wire is one of them.
        parts.queries.clear();
        parts.vars_count = 1 + items as u32;
        for (terms, _) in &mut parts.equations {
            terms[1].0 = terms[0].0;
        }
    }
    if matches!(kept, Kept::Publics | Kept::Queries) {
        parts.equations.clear();
    }
    let held = Held::from_parts(WIDTH, &parts);
    let instance = source::ungated(WIDTH, &parts);
    (held, instance)
}

pub fn tables(last: usize) {
    sfri(
        "SFRI, all",
        "An item is a public, a query and an equation of three terms: 104 bytes.",
        last,
        Kept::All,
    );
    sfri(
        "SFRI, publics alone",
        "An item is a public: 8 bytes.",
        last,
        Kept::Publics,
    );
    sfri(
        "SFRI, queries alone",
        "An item is a query: 64 bytes. Wire 0 alone is public.",
        last,
        Kept::Queries,
    );
    sfri(
        "SFRI, publics and equations",
        "An item is a public and an equation of three terms: 40 bytes.",
        last,
        Kept::Equations,
    );
    table(
        "SFRW read",
        "An item is a step: 64 bytes.",
        last,
        read_trace,
    );
    table(
        "SFRW write",
        "An item is a step: 64 bytes.",
        last,
        write_trace,
    );
    table(
        "gate",
        "An item is a public, a query and an equation; 9 wires each. The source's `compile` makes copies of its \
         values, queries and equations under locks before it asks, and lists the publics; the library reads the \
         stores where they lie, and is lent the use counts.",
        last,
        |items| gate(items, false),
    );
    table(
        "check, no rounds",
        "The same items and a step each; R = 0, so an evaluation is a comparison. The source makes a list of values.",
        last,
        |items| check(items, 0),
    );
    table(
        "check, 21 rounds",
        "The same with R = 21, up to 10^5 items: evaluation takes nearly all of it. The source's evaluation is our \
         stand-in.",
        last.min(FEWER),
        |items| check(items, 21),
    );
    table(
        "set list",
        "An item is a pair of a fresh wire and its value, in order. The source takes its lock (a stand-in) for each pair, and \
         counts no fresh ones.",
        last,
        set_list,
    );
}

fn sfri(name: &str, note: &str, last: usize, keep: Kept) {
    let reading =
        "The source makes a list for each equation's terms, and lists that grow as it reads.";
    let strictly = "The source has the plain read alone.";
    let [plain, strict] = LIBRARY_READS;
    for (call, more, by) in [("read", reading, plain), ("strict read", strictly, strict)] {
        let (name, note) = (format!("{name}: {call}"), format!("{note} {more}"));
        table(&name, &note, last, |items| read_instance(by, items, keep));
    }
    let write = format!("{name}: write");
    let writing = "The source writes to bytes that grow; the library asks 11 of all held words, and is lent the bytes.";
    table(&write, &format!("{note} {writing}"), last, |items| {
        write_instance(items, keep)
    });
}

fn read_instance(by: LibraryRead, items: usize, keep: Kept) -> Line {
    let (held, instance) = kept(items, keep);
    let bytes = instance.to_bytes();
    let (publics, queries, equations) = held.words();
    let lens = [
        publics.len(),
        queries.len(),
        equations.len(),
        held.ins.vars_count as usize,
    ];
    let mut lent = lens.map(|len| vec![OLD; len]);
    let [publics, queries, equations, scratch] = &mut lent;
    let library = timed(
        || (),
        |()| {
            let answer = by(WIDTH, &bytes, stores(publics, queries, equations), scratch);
            assert_eq!(answer.number, 0);
        },
    );
    let source = timed(
        || (),
        |()| {
            let answer = source::instance_from_bytes(WIDTH, &bytes);
            assert!(answer.is_ok());
            answer
        },
    );
    let [library, source] = best([library, source]);
    assert_eq!((&lent[0], &lent[1]), (&held.publics, &held.queries));
    assert_eq!(&lent[2], &held.equations);
    Line {
        items,
        bytes: bytes.len(),
        library,
        source,
    }
}

fn write_instance(items: usize, keep: Kept) -> Line {
    let (held, instance) = kept(items, keep);
    let expected = instance.to_bytes();
    let mut bytes = vec![0xEE; expected.len()];
    let library = timed(
        || (),
        |()| {
            let answer = sfr::instance_to_bytes(parts(&held), &mut bytes);
            assert_eq!(answer.number, 0);
        },
    );
    let source = timed(|| (), |()| instance.to_bytes());
    let [library, source] = best([library, source]);
    assert_eq!(bytes, expected);
    Line {
        items,
        bytes: bytes.len(),
        library,
        source,
    }
}

fn steps(items: usize) -> (sfr::Trace, Vec<u32>) {
    let mut rng = Rng::new(items as u64);
    let trace = (0..items * 2 * W).map(|_| rng.word() % reading::P);
    let rec = sfr::Trace {
        width: WIDTH,
        steps: items as u32,
    };
    (rec, trace.collect())
}

fn trace_bytes(rec: sfr::Trace, trace: &[u32]) -> Vec<u8> {
    let mut bytes = vec![0; 17 + 4 * trace.len()];
    let answer = sfr::witness_to_bytes(rec, BabyBearUnit::list(trace), &mut bytes);
    assert_eq!(answer.number, 0);
    bytes
}

fn read_trace(items: usize) -> Line {
    let (rec, trace) = steps(items);
    let bytes = trace_bytes(rec, &trace);
    let mut store = vec![OLD; trace.len()];
    let library = timed(
        || (),
        |()| {
            let steps = BabyBearUnit::list_mut(&mut store);
            let answer = sfr::witness_from_bytes(WIDTH, &bytes, steps);
            assert_eq!(answer.number, 0);
            answer
        },
    );
    let source = timed(
        || (),
        |()| {
            let answer = source::witness_from_bytes(WIDTH, &bytes);
            assert!(answer.is_ok());
            answer
        },
    );
    let [library, source] = best([library, source]);
    assert_eq!(store, trace);
    Line {
        items,
        bytes: bytes.len(),
        library,
        source,
    }
}

fn write_trace(items: usize) -> Line {
    let (rec, trace) = steps(items);
    let mut bytes = trace_bytes(rec, &trace);
    let witness = source::witness_from_bytes(WIDTH, &bytes).expect("just written");
    assert_eq!(witness.to_bytes(), bytes);
    let library = timed(
        || (),
        |()| {
            let answer = sfr::witness_to_bytes(rec, BabyBearUnit::list(&trace), &mut bytes);
            assert_eq!(answer.number, 0);
        },
    );
    let source = timed(|| (), |()| witness.to_bytes());
    let [library, source] = best([library, source]);
    Line {
        items,
        bytes: bytes.len(),
        library,
        source,
    }
}

/// The gate of a relation alone, or of the last of eight on one allocator.
pub fn gate(items: usize, shared: bool) -> Line {
    let honest = Honest::new(items, 0);
    let held = honest.held();
    let relation = honest.relation(shared);
    let (slots, uses) = (&honest.slots, &honest.uses());
    let (ins, queries, equations) = (held.ins, &held.queries, &held.equations);
    let lent = sfr::Held {
        label: if shared { b"" } else { LABEL.as_bytes() },
        slots,
        queries: FieldVar::list(queries),
        equations,
        uses,
    };
    let mut publics = vec![OLD; held.publics.len()];
    let mut scratch = vec![OLD; slots.len()];
    let library = timed(
        || (),
        |()| {
            let (publics, scratch) = (&mut publics, &mut scratch);
            let answer = if shared {
                let allocator = sfr::VarAllocator {
                    vars: ins.vars_count,
                    opened: sfr::MAX_RELATIONS,
                };
                let rel = sfr::SharedRelation {
                    width: WIDTH,
                    queries: ins.queries,
                    equations: ins.equations,
                    words: ins.words,
                    quota: u32::MAX,
                    ..sfr::SharedRelation::default()
                };
                let index = sfr::MAX_RELATIONS - 1;
                sfr::compile_on(allocator, index, rel, lent, publics, scratch)
            } else {
                let rel = sfr::Relation {
                    width: WIDTH,
                    vars: ins.vars_count,
                    queries: ins.queries,
                    equations: ins.equations,
                    words: ins.words,
                    stray: 0,
                };
                sfr::compile(rel, lent, publics, scratch)
            };
            assert_eq!(answer.number, 0);
        },
    );
    let source = timed(
        || (),
        |()| {
            let answer = relation.compile();
            assert!(answer.is_ok());
            answer
        },
    );
    let [library, source] = best([library, source]);
    assert_eq!(publics, held.publics);
    let words = 2 * slots.len() + queries.len() + equations.len() + publics.len();
    Line {
        items,
        bytes: 4 * words,
        library,
        source,
    }
}

fn check(items: usize, rounds: u32) -> Line {
    let honest = Honest::new(items, rounds);
    let held = honest.held();
    let (trace, params) = (&honest.trace, &honest.params);
    let mut scratch = vec![OLD; honest.slots.len()];
    let library = timed(
        || (),
        |()| {
            let answer = sfr::is_witness_valid(
                parts(&held),
                items as u32,
                BabyBearUnit::list(trace),
                parameters(params),
                &mut scratch,
            );
            assert_eq!(answer.number, 0);
        },
    );
    let instance = source::ungated(WIDTH, &honest.parts);
    let ready = instance.ready_check(params, trace);
    let source = timed(|| (), |()| assert!(ready()));
    let [library, source] = best([library, source]);
    let words = held.publics.len() + held.queries.len() + held.equations.len() + trace.len();
    Line {
        items,
        bytes: 4 * words,
        library,
        source,
    }
}

/// A relation of so many wires and wire 0.
pub fn fresh(items: usize) -> sfr::Relation {
    sfr::Relation {
        width: WIDTH,
        vars: items as u32 + 1,
        ..sfr::Relation::default()
    }
}

/// Its slots, of which that of wire 0 alone has a value.
pub fn unset(items: usize) -> Vec<u32> {
    let mut slots = vec![u32::MAX; items + 1];
    slots[0] = 0;
    slots
}

fn set_list(items: usize) -> Line {
    let mut rng = Rng::new(items as u64);
    let vars: Vec<u32> = (1..=items as u32).collect();
    let values: Vec<u32> = vars.iter().map(|_| rng.word() % reading::P).collect();
    let rel = fresh(items);
    let library = timed(
        || unset(items),
        |slots| {
            let (vars, values) = (FieldVar::list(&vars), BabyBearUnit::list(&values));
            let tally = sfr::set_vars(rel, slots, vars, values);
            let tally = (tally.number, tally.accepted, tally.fresh);
            assert_eq!(tally, (0, items as u32, items as u32));
        },
    );
    let source = timed(
        || {
            let relation = source::relation(WIDTH, LABEL);
            relation.allocate_vars(items as u32);
            relation.ready_set_vars(&vars, &values)
        },
        |ready| assert!(ready().is_some()),
    );
    let [library, source] = best([library, source]);
    Line {
        items,
        bytes: 12 * items,
        library,
        source,
    }
}
