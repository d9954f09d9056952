//! The proved library's side of the calls on a relation, alone or on a shared allocator.

use std::mem::transmute;

use sfr::{BabyBearUnit, FieldVar};

use crate::calls::{called, made, records, Answer, Call, Made, Records, State};

records!(sfr, vars);
// SAFETY: an answer is laid out as in C: in words, of which the second is what others have the first
// wire in, and 0.
made! {
    sfr::Allocated, it: it.first.0, it.relation;
    sfr::Recorded, it: unsafe { transmute::<sfr::Recorded, [u32; 8]>(it) }[1], it.relation;
    sfr::Opened, it: it.index, (it.allocator, it.relation);
    sfr::AllocatedOn, it: it.first.0, (it.allocator, it.relation);
    sfr::RecordedOn, it: unsafe { transmute::<sfr::RecordedOn, [u32; 11]>(it) }[1],
        (it.allocator, it.relation);
}

/// A new relation over these stores.
pub fn new_relation(state: &mut State, width: u32) -> Answer {
    let answer = sfr::new_relation(width, &mut state.slots, &mut state.uses);
    state.keep(answer.into())
}

/// Opens a relation on the allocator.
pub fn with_allocator(state: &mut State, width: u32, quota: u32) -> Answer {
    let allocator = state.records().into();
    let (slots, uses) = (&mut state.slots, &mut state.uses);
    let answer = sfr::with_allocator(allocator, width, quota, slots, uses);
    state.keep(answer.into())
}

/// The gate.
pub fn compile<'a>(
    state: &'a State,
    label: &'a [u8],
    publics: &'a mut [u32],
    scratch: &mut [u32],
) -> sfr::Compiled<'a> {
    let held = held(state, label);
    called!(sfr, state, compile, compile_on, held, publics, scratch)
}

/// What a relation holds.
pub fn held<'a>(state: &'a State, label: &'a [u8]) -> sfr::Held<'a, 'a> {
    sfr::Held {
        label,
        slots: &state.slots,
        queries: FieldVar::list(&state.queries),
        equations: &state.equations,
        uses: &state.uses,
    }
}

/// Runs a call and keeps the record that it gives back.
pub fn run(state: &mut State, call: &Call) -> Answer {
    let (slots, uses) = (&mut state.slots, &mut state.uses);
    let queries = FieldVar::list_mut(&mut state.queries);
    match call {
        Call::Allocate(count) => {
            let made = called!(sfr, state, allocate_vars, allocate_vars_on, slots, *count);
            state.keep(made)
        }
        Call::AllocateWith(values) => allocate_with(state, values),
        Call::Set(var, value) => {
            let (var, value) = (FieldVar(*var), BabyBearUnit(*value));
            let answer: sfr::SetAnswer =
                called!(sfr, state, set_var, set_var_on, slots, var, value);
            Answer {
                number: answer.number,
                fresh: usize::from(answer.fresh),
                ..Answer::default()
            }
        }
        Call::SetList(vars, values) => {
            let (vars, values) = (FieldVar::list(vars), BabyBearUnit::list(values));
            let tally: sfr::Tally = called!(sfr, state, set_vars, set_vars_on, slots, vars, values);
            Answer {
                number: tally.number,
                accepted: tally.accepted as usize,
                fresh: tally.fresh as usize,
                ..Answer::default()
            }
        }
        Call::Tickets(text) => {
            let tally: sfr::TicketTally =
                called!(sfr, state, set_tickets, set_tickets_on, slots, &text.0);
            Answer {
                number: tally.number,
                accepted: tally.accepted,
                fresh: tally.fresh,
                ..Answer::default()
            }
        }
        Call::Record(input, output) => {
            let (input, output) = (FieldVar::list(input), FieldVar::list(output));
            let made = called!(
                sfr,
                state,
                add_permutation,
                add_permutation_on,
                slots,
                queries,
                uses,
                input,
                output
            );
            state.keep(made)
        }
        Call::Mint(input) => {
            let made = called!(
                sfr,
                state,
                allocate_permutation,
                allocate_permutation_on,
                slots,
                queries,
                uses,
                FieldVar::list(input)
            );
            state.keep(made)
        }
        Call::WithdrawQuery(index) => {
            let made = called!(
                sfr,
                state,
                withdraw_query,
                withdraw_query_on,
                slots,
                queries,
                uses,
                *index
            );
            state.keep(made)
        }
        Call::Equation(terms, image) => {
            let (terms, equations) = (weighted(terms), &mut state.equations);
            let made = called!(
                sfr,
                state,
                add_equation,
                add_equation_on,
                equations,
                &terms,
                BabyBearUnit(*image)
            );
            state.keep(made)
        }
        Call::WithdrawEquation(index) => {
            let equations = &mut state.equations;
            let made = called!(
                sfr,
                state,
                withdraw_equation,
                withdraw_equation_on,
                equations,
                *index
            );
            state.keep(made)
        }
        Call::Value(var) => {
            let var = FieldVar(*var);
            let answer: sfr::Value = called!(sfr, state, value_of, value_of_on, slots, var);
            Answer {
                number: answer.number,
                value: answer.some.then_some(answer.value.0),
                ..Answer::default()
            }
        }
        Call::IsAllocated(var) => {
            let var = FieldVar(*var);
            let answer: sfr::Flag = called!(sfr, state, is_allocated, is_allocated_on, var);
            Answer {
                number: answer.number,
                yes: answer.yes,
                ..Answer::default()
            }
        }
    }
}

/// Terms as a list of records.
pub fn weighted(terms: &[(u32, u32)]) -> Vec<sfr::Weighted> {
    let terms = terms.iter();
    terms
        .map(|&(var, weight)| sfr::Weighted {
            var: FieldVar(var),
            weight: BabyBearUnit(weight),
        })
        .collect()
}

fn allocate_with(state: &mut State, values: &[u32]) -> Answer {
    let allocated = run(state, &Call::Allocate(values.len() as u32));
    if allocated.number != 0 {
        return allocated;
    }
    let vars = allocated.first..state.rel.vars_count;
    let set = run(state, &Call::SetList(vars.collect(), values.to_vec()));
    Answer {
        first: allocated.first,
        ..set
    }
}
