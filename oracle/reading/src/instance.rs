//! The gate and what an instance answers (the source's `permutation.rs`, second half).

use std::collections::BTreeSet;

use crate::{
    held::{ask_held, ask_sizes, pairs, Parts},
    questions::{
        ask, ask_opened, ask_slots, fits, is_store, is_unit, is_var, is_width, number_of, Asked,
    },
    uses::ask_length,
    Instance, On, Relation, Value, UNASSIGNED,
};

/// The answer of a call that makes an instance's record; zeros after a refusal.
#[derive(Clone, Copy, Debug, PartialEq, Eq)]
pub struct InstanceAnswer {
    pub number: u32,
    pub instance: Instance,
}

/// The gate: the assigned wires become the publics, and queries and equations are taken as
/// held. Questions 1, 2, 11, 10, 16, then 12 to 15, of which 13 and 15 are taken from the use
/// counts and the stray count, whatever these are (02, R-6). `publics` is written over its whole
/// length, also by a refusal, and scratch is left all 0.
#[allow(clippy::too_many_arguments)]
pub fn compile(
    on: impl Into<On>,
    label: &[u8],
    slots: &[u32],
    queries: &[u32],
    equations: &[u32],
    uses: &[u32],
    publics: &mut [u32],
    scratch: &mut [u32],
) -> InstanceAnswer {
    let on = on.into();
    publics.fill(0);
    scratch.fill(0);
    let lent = Lent {
        label,
        slots,
        queries,
        equations,
        uses,
    };
    match ask_compile(&on, &lent, publics, scratch) {
        Err(number) => InstanceAnswer {
            number,
            instance: Instance::default(),
        },
        Ok(parts) => {
            let words = parts.public_words();
            publics[..words.len()].copy_from_slice(&words);
            InstanceAnswer {
                number: 0,
                instance: Instance {
                    publics: parts.publics.len() as u32,
                    ..without_publics(&on.rel)
                },
            }
        }
    }
}

fn without_publics(rel: &Relation) -> Instance {
    Instance {
        width: rel.width,
        vars_count: rel.vars_count,
        queries: rel.queries,
        equations: rel.equations,
        words: rel.words,
        publics: 0,
    }
}

/// What a gate only reads.
struct Lent<'a> {
    label: &'a [u8],
    slots: &'a [u32],
    queries: &'a [u32],
    equations: &'a [u32],
    uses: &'a [u32],
}

fn ask_compile(on: &On, lent: &Lent<'_>, publics: &[u32], scratch: &[u32]) -> Result<Parts, u32> {
    let rel = &on.rel;
    let ins = without_publics(rel);
    let Lent {
        label,
        slots,
        queries,
        equations,
        uses,
    } = *lent;
    ask_slots(on, slots)?;
    ask_sizes(&ins, label, publics, queries, equations)?;
    ask(2, is_store(uses) && is_store(scratch))?;
    ask_opened(on)?;

    let allocated = &slots[..rel.vars_count as usize];
    let sound = |&slot: &u32| slot == UNASSIGNED || is_unit(slot);
    ask(11, allocated.iter().all(sound))?;
    let held = ask_held(&ins, label, queries, equations)?;

    let assigned = (0..rel.vars_count)
        .zip(allocated.iter().copied())
        .filter(|&(_, slot)| slot != UNASSIGNED);
    let parts = Parts {
        publics: assigned.collect(),
        ..held
    };
    ask_length(slots, uses)?;
    ask(10, fits(parts.publics.len() as u32, 2, publics))?;
    ask(16, fits(rel.vars_count, 1, scratch))?;
    ask_counted(rel, &parts, uses)?;
    Ok(parts)
}

/// 12 to 15 of a relation's gate. 12 has no no: its publics are wires of the relation. 13 and 15
/// are taken from the counts alone: nobody uses a wire that isn't allocated; and a wire is bound
/// that is public or used.
fn ask_counted(rel: &Relation, parts: &Parts, uses: &[u32]) -> Asked {
    let used: BTreeSet<u32> = (0..)
        .zip(uses)
        .filter(|&(_, &count)| count > 0)
        .map(|(var, _)| var)
        .collect();
    let beyond = used.range(rel.vars_count..).next();
    ask(13, rel.stray == 0 && beyond.is_none())?;
    let publics = parts.publics.iter().map(|&(var, _)| var);
    ask_terms(
        rel.vars_count,
        parts,
        &used.into_iter().chain(publics).collect(),
    )
}

/// 12 to 15 of parts, in that order but for 14 and 15, which are put term by term. A wire is bound
/// by a public or by a query, whichever; an equation binds none.
pub fn ask_validated(vars_count: u32, parts: &Parts) -> Asked {
    let publics = parts.publics.iter().map(|&(var, _)| var);
    let cells = parts.queries.iter().flatten().copied();
    ask(12, publics.clone().all(|var| var < vars_count))?;
    ask(13, cells.clone().all(|var| var < vars_count))?;
    ask_terms(vars_count, parts, &publics.chain(cells).collect())
}

/// 14 and 15, term by term.
fn ask_terms(vars_count: u32, parts: &Parts, bound: &BTreeSet<u32>) -> Asked {
    for equation in &parts.equations {
        for term in &equation.terms {
            ask(14, term.var < vars_count)?;
            ask(15, term.weight == 0 || bound.contains(&term.var))?;
        }
    }
    Ok(())
}

/// The value of a wire in held publics: that of the last pair that lists it. Questions 1,
/// 2, 3; what the publics hold isn't judged.
pub fn public_value(ins: Instance, publics: &[u32], var: u32) -> Value {
    let asked = ask_public_value(&ins, publics, var);
    let value = match asked {
        Err(_) => None,
        Ok(()) => {
            let listed = pairs(ins.publics, publics);
            let last = listed.into_iter().rev().find(|&(listed, _)| listed == var);
            last.map(|(_, unit)| unit)
        }
    };
    Value {
        number: number_of(asked),
        value,
    }
}

fn ask_public_value(ins: &Instance, publics: &[u32], var: u32) -> Asked {
    ask(1, is_width(ins.width))?;
    ask(2, is_store(publics) && fits(ins.publics, 2, publics))?;
    ask(3, is_var(var))
}

/// The label, or where that has no bytes the name lent with the sheet, as that very part.
/// No question is put: a bare part can carry no number.
pub fn heading<'a>(label: &'a [u8], name: &'a [u8]) -> &'a [u8] {
    if label.is_empty() {
        name
    } else {
        label
    }
}
