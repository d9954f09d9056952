//! Queries and equations withdrawn, beside a vector's own removal in Rust: the sources have no
//! withdrawals.

use std::iter;

use sfr::{BabyBearUnit, FieldVar};

use super::{
    best,
    input::{OLD, WIDTH},
    recording::{queries, Recorded},
    table, timed, Line,
};
use crate::rng::Rng;

const W: usize = WIDTH as usize;
/// The words of a query.
const CELLS: usize = 2 * W;
/// The words of an equation of three terms.
const WORDS: usize = 8;
/// A recipe's queries, of which one after the other is withdrawn and recorded again.
const RECIPE: usize = 100;

/// Which item of so many is withdrawn.
#[derive(Clone, Copy)]
enum Place {
    First,
    Middle,
    Last,
}

impl Place {
    /// Its number.
    fn of(self, items: usize) -> usize {
        match self {
            Self::First => 0,
            Self::Middle => items / 2,
            Self::Last => items - 1,
        }
    }
}

pub fn tables(last: usize) {
    let none = "The sources have no withdrawals; in their place stands a plain loop in Rust that asks nothing: a vector's `drain`";
    for (name, place) in [("first", Place::First), ("middle", Place::Middle)] {
        table(
            &format!("withdraw query, {name}"),
            &format!(
                "Of so many queries the {name} one is withdrawn, once: an item is a held query, {CELLS} words, of which all \
                 later ones move. {none}, each of whose words is taken off the counts."
            ),
            last,
            |items| query(items, place),
        );
    }
    table(
        "withdraw query, last",
        &format!(
            "So many queries are withdrawn, from the last to the first: an item is a call, and nothing moves. {none}, each of \
             whose words is taken off the counts."
        ),
        last,
        every_query,
    );
    table(
        "withdraw query and record",
        &format!(
            "An item is a withdrawal of the first of {RECIPE} queries and its record as the last, two calls: {} words move. \
             {none}, and `extend`, with the counts.",
            CELLS * (RECIPE - 1)
        ),
        last,
        again,
    );
    for (name, place) in [
        ("first", Place::First),
        ("middle", Place::Middle),
        ("last", Place::Last),
    ] {
        table(
            &format!("withdraw equation, {name}"),
            &format!(
                "Of so many equations of three terms the {name} one is withdrawn, once: an item is a held equation, {WORDS} \
                 words. All are walked over (11), and those before it twice; all later ones move. {none}, after a walk to the \
                 place."
            ),
            last,
            |items| equation(items, place),
        );
    }
}

/// A relation of so many queries.
fn held(items: usize) -> Recorded {
    let mut recorded = Recorded::new(WIDTH, 1 + items * W, items);
    recorded.record(&queries(WIDTH, items));
    recorded
}

/// Withdraws a query.
fn withdraw(recorded: &mut Recorded, i: usize) {
    let (rel, slots, uses) = (recorded.rel, &recorded.slots, &mut recorded.uses);
    let queries = FieldVar::list_mut(&mut recorded.queries);
    let answer = sfr::withdraw_query(rel, slots, queries, uses, i as u32);
    assert_eq!(answer.number, 0);
    recorded.rel = answer.relation;
}

/// The plain loop.
fn drain(queries: &mut Vec<u32>, uses: &mut [u32], i: usize) {
    for var in queries.drain(i * CELLS..(i + 1) * CELLS) {
        uses[var as usize] -= 1;
    }
}

fn query(items: usize, place: Place) -> Line {
    let i = place.of(items);
    withdrawals(items, iter::once(i), 4 * CELLS * (items - i))
}

fn every_query(items: usize) -> Line {
    withdrawals(items, (0..items).rev(), 4 * 2 * CELLS * items)
}

/// The queries of these numbers withdrawn in turn, which goes over so many bytes.
fn withdrawals(items: usize, numbers: impl Iterator<Item = usize> + Clone, bytes: usize) -> Line {
    let held = held(items);
    let library = timed(
        || Recorded {
            slots: held.slots.clone(),
            queries: held.queries.clone(),
            uses: held.uses.clone(),
            ..held
        },
        |recorded| numbers.clone().for_each(|i| withdraw(recorded, i)),
    );
    let source = timed(
        || (held.queries.clone(), held.uses.clone()),
        |(queries, uses)| numbers.clone().for_each(|i| drain(queries, uses, i)),
    );
    let [library, source] = best([library, source]);
    Line {
        items,
        bytes,
        library,
        source,
    }
}

fn again(items: usize) -> Line {
    let cells = queries(WIDTH, RECIPE);
    let order = || (0..items).map(|item| &cells[item % RECIPE * CELLS..][..CELLS]);
    let mut recorded = held(RECIPE);
    let mut uses = recorded.uses.clone();
    let library = timed(
        || (),
        |()| {
            for query in order() {
                withdraw(&mut recorded, 0);
                recorded.record(query);
            }
        },
    );
    let mut plain = cells.clone();
    let source = timed(
        || (),
        |()| {
            for query in order() {
                drain(&mut plain, &mut uses, 0);
                plain.extend(query);
                query.iter().for_each(|&var| uses[var as usize] += 1);
            }
        },
    );
    let [library, source] = best([library, source]);
    assert_eq!((plain, uses), (recorded.queries, recorded.uses));
    Line {
        items,
        bytes: 4 * CELLS * RECIPE * items,
        library,
        source,
    }
}

/// A relation of so many equations of three terms, and their words.
fn stated(items: usize) -> (sfr::Relation, Vec<u32>) {
    let mut rng = Rng::new(items as u64);
    let mut rel = Recorded::new(WIDTH, 1, 0).rel;
    let mut equations = vec![OLD; WORDS * items];
    for _ in 0..items {
        let terms = [0; 3].map(|_| sfr::Weighted {
            var: FieldVar(rng.below(items) as u32),
            weight: BabyBearUnit(rng.word() % reading::P),
        });
        let answer = sfr::add_equation(rel, &mut equations, &terms, BabyBearUnit::ZERO);
        assert_eq!(answer.number, 0);
        rel = answer.relation;
    }
    (rel, equations)
}

fn equation(items: usize, place: Place) -> Line {
    let i = place.of(items);
    let (rel, equations) = stated(items);
    let size = |words: &[u32], at: usize| 2 + 2 * words[at] as usize;
    let library = timed(
        || equations.clone(),
        |equations| {
            let answer = sfr::withdraw_equation(rel, equations, i as u32);
            assert_eq!(answer.number, 0);
            answer
        },
    );
    let source = timed(
        || equations.clone(),
        |equations| {
            let at = (0..i).fold(0, |at, _| at + size(equations, at));
            let end = at + size(equations, at);
            drop(equations.drain(at..end));
        },
    );
    let [library, source] = best([library, source]);
    Line {
        items,
        bytes: 4 * WORDS * items,
        library,
        source,
    }
}
