//! The calls on a relation, put to the sources after the second reading has answered.

use reading::{MAX_COUNT, P, TICKET_LINE};
use source::{Item, Relation};

use super::Run;
use crate::{
    calls::{weighted, Answer, Call, State},
    compared::{holds, same, Compared, Outcome},
    rng::Rng,
};

fn are_vars(words: &[u32]) -> bool {
    words.iter().all(|&word| source::var(word).is_some())
}

fn are_units(words: &[u32]) -> bool {
    words.iter().all(|&word| source::unit(word).is_some())
}

/// The number of a call that the sources' types have no room for: a list of another length
/// than the width, a word that is no wire, a word that is no unit.
pub fn untyped(call: &Call, width: u32) -> Option<u32> {
    let is_list = |words: &[u32]| words.len() == width as usize;
    let (lists, vars, units) = match call {
        Call::Set(var, value) => (true, are_vars(&[*var]), are_units(&[*value])),
        Call::Value(var) | Call::IsAllocated(var) => (true, are_vars(&[*var]), true),
        Call::Record(input, output) => (
            is_list(input) && is_list(output),
            are_vars(input) && are_vars(output),
            true,
        ),
        Call::Mint(input) => (is_list(input), are_vars(input), true),
        Call::Equation(terms, image) => {
            let (vars, weights): (Vec<u32>, Vec<u32>) = terms.iter().copied().unzip();
            let units = are_units(&weights) && are_units(&[*image]);
            (true, are_vars(&vars), units)
        }
        Call::Allocate(_)
        | Call::AllocateWith(_)
        | Call::SetList(..)
        | Call::Tickets(_)
        | Call::WithdrawQuery(_)
        | Call::WithdrawEquation(_) => (true, true, true),
    };
    match (lists, vars, units) {
        (false, ..) => Some(9),
        (_, false, _) => Some(3),
        (.., false) => Some(4),
        _ => None,
    }
}

/// Compares a call's answer; whether the sources could be asked. They don't say what was fresh: it
/// is compared with whether their wires had a value just before. After a withdrawal, which they
/// have no call for, their relation is one built afresh from what remains: alone or, where it
/// shares its allocator, on that one.
pub fn compare(
    call: &Call,
    answer: &Answer,
    width: u32,
    relation: &mut Box<dyn Relation>,
    alone: bool,
    spelling: usize,
) -> Outcome<bool> {
    let number = answer.number;
    if let Some(item) = withdrawn(call) {
        let afresh = relation.without(item, alone);
        let expected = if afresh.is_some() { 0 } else { 45 };
        same("number", ("given", number), ("source", expected))?;
        if let Some(afresh) = afresh {
            *relation = afresh;
        }
        return Ok(true);
    }
    let relation = &**relation;
    if let Some(expected) = untyped(call, width) {
        let given = (number, answer.fresh);
        same("number", ("given", given), ("types", (expected, 0)))?;
        return Ok(true);
    }
    // Neither room nor quotas have a counterpart.
    if [6, 10, 43].contains(&number) {
        return Ok(false);
    }
    let before = relation.vars_count();
    match call {
        Call::Allocate(count) => allocated(answer, before, relation.allocate_vars(*count)),
        Call::AllocateWith(values) => {
            let vars = relation.allocate_vars_with(values);
            let fresh = vars.as_ref().map_or(0, Vec::len);
            allocated(answer, before, vars)?;
            same("fresh", ("given", answer.fresh), ("source", fresh))
        }
        Call::Mint(input) => {
            let outputs = relation.allocate_permutation(input, spelling);
            allocated(answer, before, outputs)
        }
        Call::Set(var, value) => set(answer, *var, *value, relation),
        Call::SetList(vars, values) => set_list(answer, vars, values, relation),
        Call::Tickets(text) => tickets(answer, &text.0, relation),
        Call::Record(input, output) => {
            relation.add_permutation(input, output);
            accepted(answer, Some(()))
        }
        Call::Equation(terms, image) => {
            relation.add_equation(terms, *image, spelling);
            accepted(answer, Some(()))
        }
        Call::Value(var) => {
            let value = relation.value(*var);
            same("value", ("given", answer.value), ("source", value))
        }
        Call::IsAllocated(var) => {
            let yes = relation.is_allocated(*var);
            same("is allocated", ("given", answer.yes), ("source", yes))
        }
        Call::WithdrawQuery(_) | Call::WithdrawEquation(_) => Ok(()),
    }?;
    Ok(true)
}

/// What a call withdraws.
const fn withdrawn(call: &Call) -> Option<Item> {
    match call {
        Call::WithdrawQuery(index) => Some(Item::Query(*index)),
        Call::WithdrawEquation(index) => Some(Item::Equation(*index)),
        _ => None,
    }
}

/// Where the sources panic, any refusal will do.
fn accepted(answer: &Answer, done: Option<()>) -> Compared {
    match done {
        None => holds(
            "a refusal, as the source panics",
            answer.number != 0,
            answer,
        ),
        Some(()) => same("number", ("given", answer.number), ("source", 0)),
    }
}

/// The wires that an allocation answers: one after the other, from the count before it on.
fn allocated(answer: &Answer, before: u32, vars: Option<Vec<u32>>) -> Compared {
    accepted(answer, vars.as_ref().map(|_| ()))?;
    let Some(vars) = vars else {
        return Ok(());
    };
    let expected: Vec<u32> = (answer.first..).take(vars.len()).collect();
    same("wires", ("given", expected), ("source", vars))?;
    same("first wire", ("given", answer.first), ("source", before))
}

/// Whether a set of this wire would be fresh: the sources have no value for it.
fn is_fresh(var: u32, relation: &dyn Relation) -> bool {
    source::var(var).is_some() && relation.value(var).is_none()
}

fn set(answer: &Answer, var: u32, value: u32, relation: &dyn Relation) -> Compared {
    let is_fresh = is_fresh(var, relation);
    let done = relation.set_var(var, value);
    accepted(answer, done)?;
    let fresh = usize::from(is_fresh && done.is_some());
    same("fresh", ("given", answer.fresh), ("source", fresh))
}

/// A set list, and how many of its accepted pairs were of a wire without a value just before:
/// without one before the list, and with no earlier pair.
fn set_list(answer: &Answer, vars: &[u32], values: &[u32], relation: &dyn Relation) -> Compared {
    let accepted = vars.iter().enumerate().take(answer.accepted);
    let fresh = accepted.filter(|(i, var)| !vars[..*i].contains(var) && is_fresh(**var, relation));
    let fresh = fresh.count();
    set_pairs(answer, vars, values, relation)?;
    same("fresh", ("given", answer.fresh), ("source", fresh))
}

/// Pairs with a word that the sources' types can't hold end the list that they are given.
fn set_pairs(answer: &Answer, vars: &[u32], values: &[u32], relation: &dyn Relation) -> Compared {
    let common = vars.len().min(values.len());
    let typed = |i: &usize| !are_vars(&[vars[*i]]) || !are_units(&[values[*i]]);
    if let Some(cut) = (0..common).find(typed) {
        let done = relation.set_vars(&vars[..cut], &values[..cut]);
        if done.is_none() {
            return accepted(answer, done);
        }
        let number = if are_vars(&[vars[cut]]) { 4 } else { 3 };
        let expected = (number, cut);
        let given = (answer.number, answer.accepted);
        return same("number and tally", ("given", given), ("types", expected));
    }
    // What follows the common pairs is never looked at, only that it is there.
    let typed = |words: &[u32]| {
        let mut list = words[..common].to_vec();
        list.resize(words.len(), 0);
        list
    };
    let done = relation.set_vars(&typed(vars), &typed(values));
    accepted(answer, done)?;
    if done.is_some() {
        same("tally", ("given", answer.accepted), ("source", vars.len()))?;
    }
    Ok(())
}

/// The sources have no tickets: each line is a set of theirs, up to the first that is none.
fn tickets(answer: &Answer, text: &[u8], relation: &dyn Relation) -> Compared {
    let given = ("given", (answer.number, answer.accepted, answer.fresh));
    let (mut tally, mut fresh) = (0, 0);
    for line in text.chunks(TICKET_LINE) {
        let (var, value) = match reading::ticket(line) {
            Err(number) => {
                return same("number and tally", given, ("line", (number, tally, fresh)))
            }
            Ok(pair) => pair,
        };
        let is_fresh = is_fresh(var, relation);
        if relation.set_var(var, value).is_none() {
            let refused = matches!(answer.number, 7 | 8);
            holds("7 or 8, as the source panics", refused, answer)?;
            let given = (answer.accepted, answer.fresh);
            return same("tally", ("given", given), ("source", (tally, fresh)));
        }
        tally += 1;
        fresh += usize::from(is_fresh);
    }
    same("number and tally", given, ("source", (0, tally, fresh)))
}

/// Counts and held words on both sides; and use counts and the stray count as they are counted
/// afresh from the sources' queries, which have 2w cells each.
pub fn compare_states(state: &State, relation: &dyn Relation) -> Compared {
    let (slots, queries, equations) = state.held();
    let counts = (state.uses.clone(), state.rel.stray);
    let afresh = reading::counted(state.slots.len(), &relation.queries());
    same("use counts", ("given", &counts), ("afresh", &afresh))?;
    let sum = counts.0.iter().map(|&count| u64::from(count)).sum::<u64>();
    same(
        "sum of the counts",
        ("given", sum + u64::from(counts.1)),
        (
            "expected",
            2 * u64::from(state.rel.width) * u64::from(state.rel.queries),
        ),
    )?;
    let vars_count = relation.vars_count();
    same(
        "wires",
        ("given", state.rel.vars_count),
        ("source", vars_count),
    )?;
    same("slots", ("given", slots), ("source", &relation.slots()))?;
    same(
        "queries",
        ("given", queries),
        ("source", &relation.queries()),
    )?;
    same(
        "equations",
        ("given", equations),
        ("source", &relation.equations()),
    )
}

impl Run<'_> {
    /// Scaling, which knows no width.
    pub fn scaling(&mut self, rng: &mut Rng) -> Compared {
        let mut word = |limit: u32| {
            if rng.once_in(12) {
                rng.edge()
            } else {
                rng.word() % limit
            }
        };
        let term = |_| (word(MAX_COUNT), word(P));
        let terms: Vec<(u32, u32)> = (0..3).map(term).collect();
        let factor = word(P);
        self.log.say(|| format!("Scale({terms:?}, {factor})"));
        let mut scaled = weighted(&terms);
        let number = reading::scale(&mut scaled, factor);
        self.seen.answered("scale", number);
        let call = Call::Equation(terms.clone(), factor);
        if let Some(expected) = untyped(&call, 1) {
            return same("number", ("given", number), ("types", expected));
        }
        let expected = weighted(&source::scale(&terms, factor));
        same(
            "scaled terms",
            ("given", (number, scaled)),
            ("source", (0, expected)),
        )
    }
}
