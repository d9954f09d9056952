//! Which part 11 is about: what the library tells of it, beside a plain test of what is held.

use std::str::from_utf8;

use reading::{Trace, MAX_COUNT, P, UNASSIGNED};
use sfr::{BabyBearUnit, Part};

use crate::{
    calls::{called, State},
    compared::{same, Compared, Outcome, Seen, UNSOUND_GATE, UNSOUND_SFRI, UNSOUND_SFRW},
    held::Held,
    library::{instance::parts, side, witness::to_library},
};

const fn name(part: Part) -> &'static str {
    match part {
        Part::Equations => "equations",
        Part::Publics => "publics",
        Part::Queries => "queries",
        Part::Slots => "slots",
        Part::Trace => "trace",
        Part::Label => "label",
        Part::Counts => "counts",
    }
}

/// The part told where the number is 11, which must be the one that the test finds; elsewhere none.
pub fn compare(
    call: &'static str,
    number: u32,
    told: Option<Part>,
    test: impl FnOnce() -> Option<Part>,
    seen: &mut Seen,
) -> Compared {
    let found = if number == 11 { test() } else { None };
    seen.kind(call, found.map(name));
    same(
        call,
        ("library", (number == 11, told)),
        ("test", (found.is_some(), found)),
    )
}

/// Of an instance, where a write has that number.
pub fn instance(held: &Held, number: u32, seen: &mut Seen) -> Outcome<Option<Part>> {
    let told = sfr::unsound_part(parts(held));
    compare(UNSOUND_SFRI, number, told, || in_instance(held), seen)?;
    Ok(told)
}

/// Of a trace, where a write has that number.
pub fn trace(rec: Trace, trace: &[u32], number: u32, seen: &mut Seen) -> Outcome<Option<Part>> {
    let told = sfr::unsound_trace(to_library(rec), BabyBearUnit::list(trace));
    compare(UNSOUND_SFRW, number, told, || in_trace(rec, trace), seen)?;
    Ok(told)
}

/// Of a relation, alone or on a shared allocator, where its gate has that number.
pub fn relation(state: &State, label: &[u8], number: u32, seen: &mut Seen) -> Compared {
    let held = side::held(state, label);
    let told = called!(sfr, state, unsound_held, unsound_held_on, held);
    let test = || in_relation(state, label);
    compare(UNSOUND_GATE, number, told, test, seen)
}

/// The first part of an instance that isn't sound, in the order of the questions. As below, its counts
/// fit its stores.
pub fn in_instance(held: &Held) -> Option<Part> {
    let (publics, queries, equations) = held.words();
    first(&[
        (
            Part::Equations,
            are_equations(held.ins.equations, equations),
        ),
        (Part::Publics, are_pairs(publics)),
        (Part::Queries, queries.iter().all(|&var| var < MAX_COUNT)),
        (Part::Label, from_utf8(&held.label).is_ok()),
    ])
}

fn in_relation(state: &State, label: &[u8]) -> Option<Part> {
    let (slots, queries, equations) = state.held();
    let is_slot = |&slot: &u32| slot < P || slot == UNASSIGNED;
    first(&[
        (
            Part::Equations,
            are_equations(state.rel.equations, equations),
        ),
        (Part::Queries, queries.iter().all(|&var| var < MAX_COUNT)),
        (Part::Slots, slots.iter().all(is_slot)),
        (Part::Label, from_utf8(label).is_ok()),
    ])
}

pub fn in_trace(rec: Trace, trace: &[u32]) -> Option<Part> {
    let held = &trace[..2 * (rec.width * rec.steps) as usize];
    first(&[(Part::Trace, held.iter().all(|&unit| unit < P))])
}

fn first(parts: &[(Part, bool)]) -> Option<Part> {
    let unsound = parts.iter().find(|(_, sound)| !sound);
    unsound.map(|(part, _)| *part)
}

/// Wires, each with a unit.
fn are_pairs(words: &[u32]) -> bool {
    let mut pairs = words.chunks(2);
    pairs.all(|pair| pair[0] < MAX_COUNT && pair[1] < P)
}

/// So many equations, and no word more.
fn are_equations(count: u32, words: &[u32]) -> bool {
    let mut rest = words;
    for _ in 0..count {
        let Some((&terms, after)) = rest.split_first() else {
            return false;
        };
        let image = 2 * terms as usize;
        if image >= after.len() || !are_pairs(&after[..image]) || after[image] >= P {
            return false;
        }
        rest = &after[image + 1..];
    }
    rest.is_empty()
}
