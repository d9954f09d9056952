//! Calls on stores of 2^30 words and of one more, where questions 2, 5 and 10 turn; and more wires
//! set by one call than half a word counts.
//!
//! Zeroed pages take no memory until somebody writes to them, so such a store costs little;
//! only the words at its two ends are compared. A use store that is filled with 0 is not among them.

use reading::{Relation, Share, MAX_COUNT, P, UNASSIGNED};

use super::side;
use crate::{
    calls::{Call, State},
    compared::{holds, same, Compared},
    tickets::{self, Text},
};

const LIMIT: usize = MAX_COUNT as usize;

/// A call on a relation of width 1 with zeroed stores of these lengths: slots, queries, equations
/// and use counts.
struct Case {
    rel: Relation,
    lens: [usize; 4],
    call: Call,
}

/// One wire, and stores of a few words.
const REL: Relation = Relation {
    width: 1,
    vars_count: 1,
    queries: 0,
    equations: 0,
    words: 0,
    stray: 0,
};
const FEW: usize = 8;
/// More than half a word counts, in stores of no such size.
const MANY: u32 = 70_000;

/// The calls of a relation with each of these shares, or alone.
pub fn compare(shares: &[Option<Share>]) -> Compared {
    for &share in shares {
        for cases in [slots(), queries(), equations(), uses(), lists()] {
            for case in cases {
                compare_case(case, share)?;
            }
        }
        for long in [LIMIT, LIMIT + 1] {
            for lens in [(long, FEW), (FEW, long), (0, long), (long, 0)] {
                compare_fresh(lens, share)?;
            }
        }
        compare_many(share)?;
    }
    Ok(())
}

/// A new relation, or an opening, over so many slots and use counts: never as many.
fn compare_fresh(lens: (usize, usize), share: Option<Share>) -> Compared {
    let (slots, uses) = lens;
    let lens = [slots, 0, 0, uses];
    let (mut library, mut reading) = (zeroed(lens, share), zeroed(lens, share));
    let (given, expected) = match share {
        None => {
            let answer = side::new_relation(&mut library, 1);
            (answer.number, reading.new_relation(1))
        }
        Some(_) => {
            let answer = side::with_allocator(&mut library, 1, 5);
            (answer.number, reading.with_allocator(1, 5).number)
        }
    };
    let what = format!("fresh over {slots} slots and {uses} counts, {share:?}");
    same(&what, ("library", given), ("reading", expected))?;
    compare_records(&what, &library, &reading)?;
    compare_ends(&what, &library, &reading)
}

/// Wire 0, and many wires by one list and by one text, whole and with a last one that is refused,
/// each of them twice. All slots are F at first, wire 0's too, as no list of calls leaves it.
fn compare_many(share: Option<Share>) -> Compared {
    for last in [3, P] {
        let vars: Vec<u32> = (0..MANY).collect();
        let mut values = vec![3; vars.len()];
        values[MANY as usize - 1] = last;
        let pairs = vars.iter().zip(&values);
        let lines = pairs.map(|(&var, &value)| tickets::line(var.into(), 50 * u64::from(value)));
        let text = Text(lines.collect::<Vec<_>>().concat());
        let calls = [
            Call::Set(0, 3),
            Call::SetList(vars, values),
            Call::Tickets(text),
        ];
        for call in calls {
            compare_twice(&call, share)?;
        }
    }
    Ok(())
}

fn compare_twice(call: &Call, share: Option<Share>) -> Compared {
    let mut library = zeroed([MANY as usize, 0, 0, 0], share);
    library.rel.vars_count = MANY;
    library.slots.fill(UNASSIGNED);
    let mut reading = library.clone();
    for time in ["first", "again"] {
        let what = format!("{} on {MANY} wires, {time}, {share:?}", call.name());
        let (given, expected) = (side::run(&mut library, call), reading.run(call));
        same(&what, ("library", given), ("reading", expected))?;
        compare_records(&what, &library, &reading)?;
        holds(&what, library.slots == reading.slots, "the slots differ")?;
    }
    Ok(())
}

fn compare_records(what: &str, library: &State, reading: &State) -> Compared {
    let records = |state: &State| (state.rel, state.share);
    same(
        what,
        ("library", records(library)),
        ("reading", records(reading)),
    )
}

fn zeroed(lens: [usize; 4], share: Option<Share>) -> State {
    let [slots, queries, equations, uses] = lens.map(|len| vec![0; len]);
    State {
        rel: REL,
        share,
        slots,
        queries,
        equations,
        uses,
    }
}

fn slots() -> Vec<Case> {
    let mut cases = Vec::new();
    let all = LIMIT as u32;
    for (len, vars_count) in [(LIMIT + 1, 1), (LIMIT, all), (LIMIT, all - 1)] {
        let calls = [
            Call::Allocate(0),
            Call::Allocate(1),
            Call::Allocate(2),
            Call::Set(all - 1, 0),
            Call::Set(all - 1, 5),
            Call::Set(all, 0),
            Call::SetList(vec![0, all - 2], vec![0, 0]),
            Call::Tickets(Text(tickets::line(LIMIT as u64 - 1, 24))),
            Call::Tickets(Text(tickets::line(LIMIT as u64, 24))),
            Call::Mint(vec![0]),
            Call::Value(all - 1),
            Call::IsAllocated(all - 1),
            Call::Record(vec![0], vec![all - 1]),
            Call::Record(vec![all - 1], vec![all]),
            Call::WithdrawQuery(0),
        ];
        // With as many use counts, and with a few.
        for uses in [len, FEW] {
            cases.extend(calls.iter().cloned().map(|call| Case {
                rel: Relation { vars_count, ..REL },
                lens: [len, FEW, FEW, uses],
                call,
            }));
        }
    }
    cases
}

/// A use store that is too long, or the longest that may be, beside few slots; counts of 0 that a
/// withdrawal of a query would make less; and as many as the slots, of which the last is used.
fn uses() -> Vec<Case> {
    let mut cases = Vec::new();
    let all = LIMIT as u32;
    let calls = [
        Call::Record(vec![0], vec![0]),
        Call::Record(vec![9], vec![9]),
        Call::Mint(vec![0]),
        Call::WithdrawQuery(0),
        Call::WithdrawQuery(1),
        Call::WithdrawQuery(u32::MAX),
    ];
    for (slots, uses) in [
        (FEW, LIMIT + 1),
        (FEW, LIMIT),
        (LIMIT, LIMIT),
        (LIMIT, LIMIT - 1),
        (LIMIT - 1, LIMIT),
    ] {
        for (queries, stray) in [(1, 0), (1, all), (0, u32::MAX)] {
            cases.extend(calls.iter().cloned().map(|call| Case {
                rel: Relation {
                    queries,
                    stray,
                    ..REL
                },
                lens: [slots, FEW, FEW, uses],
                call,
            }));
        }
    }
    cases
}

fn queries() -> Vec<Case> {
    let mut cases = Vec::new();
    let all = LIMIT as u32 / 2;
    for (len, queries) in [
        (LIMIT + 1, 0),
        (LIMIT, all + 1),
        (LIMIT, all),
        (LIMIT, all - 1),
    ] {
        // Held queries are of wire 0, which no count says; all of them are gone over by none.
        let calls = [
            Call::Record(vec![3], vec![4]),
            Call::Mint(vec![5]),
            Call::WithdrawQuery(0),
            Call::WithdrawQuery(all),
        ];
        cases.extend(calls.map(|call| Case {
            rel: Relation { queries, ..REL },
            lens: [FEW, len, FEW, FEW],
            call,
        }));
    }
    cases
}

fn equations() -> Vec<Case> {
    let mut cases = Vec::new();
    let all = LIMIT as u32;
    let counts = [
        (LIMIT + 1, 0, 0),
        (LIMIT, all / 2, 0),
        (LIMIT, all / 2 + 1, 0),
        (LIMIT, 0, all),
        (LIMIT, 0, all - 1),
        (LIMIT, 0, all - 2),
        (LIMIT, 0, all - 4),
    ];
    for (len, equations, words) in counts {
        // No withdrawal is accepted: the equations end before the used words, or after them.
        let calls = [
            Call::Equation(vec![], 7),
            Call::Equation(vec![(3, 4)], 7),
            Call::WithdrawEquation(0),
            Call::WithdrawEquation(all / 2),
        ];
        cases.extend(calls.map(|call| Case {
            rel: Relation {
                equations,
                words,
                ..REL
            },
            lens: [FEW, FEW, len, FEW],
            call,
        }));
    }
    cases
}

/// Lists handed in are word stores too.
fn lists() -> Vec<Case> {
    let long = || vec![0; LIMIT + 1];
    let calls = [
        Call::SetList(long(), vec![]),
        Call::SetList(vec![0], long()),
        Call::Record(long(), vec![0]),
        Call::Record(vec![0], long()),
        Call::Mint(long()),
    ];
    let cases = calls.into_iter().map(|call| Case {
        rel: REL,
        lens: [FEW; 4],
        call,
    });
    cases.collect()
}

fn compare_case(case: Case, share: Option<Share>) -> Compared {
    let (mut library, mut reading) = (zeroed(case.lens, share), zeroed(case.lens, share));
    library.rel = case.rel;
    reading.rel = case.rel;
    let given = side::run(&mut library, &case.call);
    let expected = reading.run(&case.call);
    let (name, lens) = (case.call.name(), case.lens);
    let rel = case.rel;
    let what = format!("{name} on {rel:?} {share:?} with stores of {lens:?} words");
    same(&what, ("library", given), ("reading", expected))?;
    compare_records(&what, &library, &reading)?;
    compare_ends(&what, &library, &reading)
}

fn compare_ends(what: &str, library: &State, reading: &State) -> Compared {
    let stores = [
        (&library.slots, &reading.slots),
        (&library.queries, &reading.queries),
        (&library.equations, &reading.equations),
        (&library.uses, &reading.uses),
    ];
    for (library, reading) in stores {
        same(what, ("library", ends(library)), ("reading", ends(reading)))?;
    }
    Ok(())
}

/// The first and the last words of a store.
fn ends(store: &[u32]) -> (&[u32], &[u32]) {
    let few = store.len().min(FEW);
    (&store[..few], &store[store.len() - few..])
}
