//! For 11, which of its parts.
//!
//! The proved calls themselves are asked, of one part at a time: a call that holds that part alone, and
//! has no room to write to, answers 11 where the part is unsound and else goes on to 10.

use crate::{
    compile, compile_on, instance_to_bytes, witness_to_bytes, BabyBearUnit, Held, Instance, Part,
    Parts, Relation, SharedRelation, Trace, VarAllocator,
};

/// The number that says that something is unsound.
const UNSOUND: u32 = 11;

/// The first part that by itself is answered 11, where the whole is.
fn first_unsound<T: Copy>(
    whole: T,
    alone: [(Part, T); 4],
    number: impl Fn(T) -> u32,
) -> Option<Part> {
    if number(whole) != UNSOUND {
        return None;
    }
    let found = alone.into_iter().find(|&(_, part)| number(part) == UNSOUND);
    found.map(|(part, _)| part)
}

/// Which part of an instance [`instance_to_bytes`] finds unsound first; none where it doesn't come to
/// 11. [`is_witness_valid`](crate::is_witness_valid) asks the same parts, and the trace after them: none
/// after its 11 says that it is the trace.
///
/// ```
/// let instance = sfr::Instance { width: 1, vars: 1, ..Default::default() };
/// let parts = sfr::Parts { instance, label: b"\xC0\x80", publics: &[], queries: &[], equations: &[] };
/// assert_eq!(sfr::instance_to_bytes(parts, &mut [0; 64]).number, 11);
/// assert_eq!(sfr::unsound_part(parts), Some(sfr::Part::Label));
/// assert_eq!(sfr::Part::Label.meaning(), "the label isn't UTF-8");
/// ```
#[must_use]
pub fn unsound_part(parts: Parts<'_>) -> Option<Part> {
    let whole = parts.instance;
    let none = Instance {
        queries: 0,
        equations: 0,
        words: 0,
        publics: 0,
        ..whole
    };
    let (equations, words) = (whole.equations, whole.words);
    let (publics, queries) = (whole.publics, whole.queries);
    let alone = |instance, label| Parts {
        instance,
        label,
        ..parts
    };
    #[rustfmt::skip]
    let asked = [
        (Part::Equations, alone(Instance { equations, words, ..none }, &[])),
        (Part::Publics, alone(Instance { publics, ..none }, &[])),
        (Part::Queries, alone(Instance { queries, ..none }, &[])),
        (Part::Label, alone(none, parts.label)),
    ];
    first_unsound(parts, asked, |parts| {
        instance_to_bytes(parts, &mut []).number
    })
}

/// Which part of what a relation holds [`compile`] finds unsound first; none where it doesn't come to
/// 11.
#[must_use]
pub fn unsound_held(rel: Relation, held: Held<'_, '_>) -> Option<Part> {
    let none = Relation {
        vars: 1,
        queries: 0,
        equations: 0,
        words: 0,
        ..rel
    };
    let (vars, queries) = (rel.vars, rel.queries);
    let (equations, words) = (rel.equations, rel.words);
    let alone = |rel, slots, label| {
        let held = Held {
            slots,
            label,
            ..held
        };
        (rel, held)
    };
    let zero: &[u32] = &[0];
    #[rustfmt::skip]
    let asked = [
        (Part::Equations, alone(Relation { equations, words, ..none }, zero, &[])),
        (Part::Queries, alone(Relation { queries, ..none }, zero, &[])),
        (Part::Slots, alone(Relation { vars, ..none }, held.slots, &[])),
        (Part::Label, alone(none, zero, held.label)),
    ];
    first_unsound((rel, held), asked, |(rel, held)| {
        compile(rel, held, &mut [], &mut []).number
    })
}

/// The same of [`compile_on`].
#[must_use]
pub fn unsound_held_on(
    allocator: VarAllocator,
    index: u32,
    rel: SharedRelation,
    held: Held<'_, '_>,
) -> Option<Part> {
    let alone = Relation {
        width: rel.width,
        vars: allocator.vars,
        queries: rel.queries,
        equations: rel.equations,
        words: rel.words,
        stray: rel.stray,
    };
    let number = compile_on(allocator, index, rel, held, &mut [], &mut []).number;
    unsound_held(alone, held).filter(|_| number == UNSOUND)
}

/// The trace, where [`witness_to_bytes`] finds it unsound; none where it doesn't come to 11.
#[must_use]
pub fn unsound_trace(rec: Trace, trace: &[BabyBearUnit]) -> Option<Part> {
    let number = witness_to_bytes(rec, trace, &mut []).number;
    (number == UNSOUND).then_some(Part::Trace)
}
