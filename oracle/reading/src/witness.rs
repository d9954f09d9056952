//! Permutations by their parameters, the builder's steps, and the check (the source's
//! `PermutationWitnessBuilder` and `is_witness_valid`).

use std::collections::BTreeMap;

use crate::{
    encoding::TraceAnswer,
    field::{add, mul, pow7},
    held::{ask_held, ask_publics, ask_sizes, ask_trace, Equation, Parts},
    questions::{are_units, ask, fits, is_list, is_store, is_width, number_of, Asked},
    Instance, Trace,
};

/// The parameters of a permutation (01: a sheet): `rounds` times a kind and a constant per
/// element, then the matrix row by row.
#[derive(Clone, Copy, Debug)]
pub struct Params<'a> {
    pub rounds: u32,
    pub words: &'a [u32],
}

impl<'a> Params<'a> {
    /// The rounds, each its kind and constants, and the matrix. Question 17 said yes.
    pub fn parts(&self, width: u32) -> (std::slice::Chunks<'a, u32>, &'a [u32]) {
        let round = width as usize + 1;
        let (rounds, matrix) = self.words.split_at(self.rounds as usize * round);
        (rounds.chunks(round), matrix)
    }

    /// What the permutation turns `input` into. Question 17 said yes.
    fn permute(&self, input: &[u32]) -> Vec<u32> {
        let (rounds, matrix) = self.parts(input.len() as u32);
        rounds.fold(input.to_vec(), |state, round| {
            apply_round(&state, round[0], &round[1..], matrix)
        })
    }
}

/// Constants are added, all elements or the first are raised, and the matrix is applied.
fn apply_round(state: &[u32], kind: u32, constants: &[u32], matrix: &[u32]) -> Vec<u32> {
    let moved = state.iter().zip(constants).map(|(&x, &c)| add(x, c));
    let raised: Vec<u32> = moved
        .enumerate()
        .map(|(i, x)| if kind == 0 || i == 0 { pow7(x) } else { x })
        .collect();
    product(matrix, &raised)
}

/// A matrix, row by row in one list, times a state.
pub fn product(matrix: &[u32], state: &[u32]) -> Vec<u32> {
    let element = |row: &[u32]| {
        let terms = row.iter().zip(state);
        terms.fold(0, |sum, (&m, &x)| add(sum, mul(m, x)))
    };
    matrix.chunks(state.len()).map(element).collect()
}

/// 17: at most 128 rounds, exactly the words they and the matrix take, kinds 0 or 1, units.
pub fn ask_params(width: u32, params: &Params<'_>) -> Asked {
    ask(17, params.rounds <= 128)?;
    let words = params.rounds * (width + 1) + width * width;
    ask(17, params.words.len() == words as usize)?;
    let (rounds, matrix) = params.parts(width);
    for round in rounds {
        ask(17, round[0] <= 1 && are_units(&round[1..]))?;
    }
    ask(17, are_units(matrix))
}

/// Evaluates a permutation into a list of `width` words. Questions 1, 2, 9, 4, 17.
pub fn permute(width: u32, params: Params<'_>, input: &[u32], output: &mut [u32]) -> u32 {
    let asked = ask_permute(width, &params, input, output);
    if asked.is_ok() {
        output.copy_from_slice(&params.permute(input));
    }
    number_of(asked)
}

fn ask_permute(width: u32, params: &Params<'_>, input: &[u32], output: &[u32]) -> Asked {
    ask(1, is_width(width))?;
    ask(
        2,
        is_store(params.words) && is_store(input) && is_store(output),
    )?;
    ask(9, is_list(width, input) && is_list(width, output))?;
    ask(4, are_units(input))?;
    ask_params(width, params)
}

/// Evaluates a step and appends it (the builder's `allocate_permutation`). Questions 1, 2,
/// 9, 4, 17, 10. The outputs are the step's last words.
pub fn evaluate_step(
    rec: Trace,
    trace: &mut [u32],
    input: &[u32],
    params: Params<'_>,
) -> TraceAnswer {
    match ask_evaluate_step(&rec, trace, input, &params) {
        Err(number) => TraceAnswer { number, trace: rec },
        Ok(()) => push_step(rec, trace, input, &params.permute(input)),
    }
}

fn ask_evaluate_step(rec: &Trace, trace: &[u32], input: &[u32], params: &Params<'_>) -> Asked {
    ask_trace_fits(rec, trace)?;
    ask(2, is_store(input) && is_store(params.words))?;
    ask(9, is_list(rec.width, input))?;
    ask(4, are_units(input))?;
    ask_params(rec.width, params)?;
    ask_room_for_step(rec, trace)
}

/// Appends a given step (the builder's `add_permutation`). Questions 1, 2, 9, 4, 10.
pub fn append_step(rec: Trace, trace: &mut [u32], input: &[u32], output: &[u32]) -> TraceAnswer {
    match ask_append_step(&rec, trace, input, output) {
        Err(number) => TraceAnswer { number, trace: rec },
        Ok(()) => push_step(rec, trace, input, output),
    }
}

fn ask_append_step(rec: &Trace, trace: &[u32], input: &[u32], output: &[u32]) -> Asked {
    ask_trace_fits(rec, trace)?;
    ask(2, is_store(input) && is_store(output))?;
    ask(9, is_list(rec.width, input) && is_list(rec.width, output))?;
    ask(4, are_units(input) && are_units(output))?;
    ask_room_for_step(rec, trace)
}

/// 1 and 2 of a call that is handed a trace's record and its store.
pub fn ask_trace_fits(rec: &Trace, trace: &[u32]) -> Asked {
    ask(1, is_width(rec.width))?;
    ask(2, is_store(trace) && fits(rec.steps, 2 * rec.width, trace))
}

/// 10: room for one step more. The count is at most 2^29 here, by question 2.
fn ask_room_for_step(rec: &Trace, trace: &[u32]) -> Asked {
    ask(10, fits(rec.steps + 1, 2 * rec.width, trace))
}

fn push_step(rec: Trace, trace: &mut [u32], input: &[u32], output: &[u32]) -> TraceAnswer {
    let width = rec.width as usize;
    let place = 2 * width * rec.steps as usize;
    trace[place..place + width].copy_from_slice(input);
    trace[place + width..place + 2 * width].copy_from_slice(output);
    TraceAnswer {
        number: 0,
        trace: Trace {
            steps: rec.steps + 1,
            ..rec
        },
    }
}

/// Whether a trace is a witness of held parts, gated or not (01: the check). Questions 1, 2,
/// 17, 11, 16, then 31 to 36. The trace has the instance's width. Scratch is left all 0.
#[allow(clippy::too_many_arguments)]
pub fn is_witness_valid(
    ins: Instance,
    label: &[u8],
    publics: &[u32],
    queries: &[u32],
    equations: &[u32],
    steps: u32,
    trace: &[u32],
    params: Params<'_>,
    scratch: &mut [u32],
) -> u32 {
    scratch.fill(0);
    let rec = Trace {
        width: ins.width,
        steps,
    };
    let asked = ask_trace_fits(&rec, trace)
        .and_then(|()| ask_sizes(&ins, label, publics, queries, equations))
        .and_then(|()| ask(2, is_store(scratch) && is_store(params.words)))
        .and_then(|()| ask_params(ins.width, &params))
        .and_then(|()| {
            let parts = Parts {
                publics: ask_publics(&ins, publics)?,
                ..ask_held(&ins, label, queries, equations)?
            };
            let steps = ask_trace(ins.width, steps, trace)?;
            ask(16, fits(ins.vars_count, 1, scratch))?;
            ask_valid(ins.vars_count, &parts, &steps, &params)
        });
    number_of(asked)
}

/// 31 to 36. `values` holds what each wire carries so far.
fn ask_valid(vars_count: u32, parts: &Parts, steps: &[Vec<u32>], params: &Params<'_>) -> Asked {
    ask(31, steps.len() == parts.queries.len())?;
    let mut values = BTreeMap::new();
    for &(var, unit) in &parts.publics {
        ask(36, var < vars_count)?;
        // Where a wire is listed twice, the later value counts.
        values.insert(var, unit);
    }
    for (query, step) in parts.queries.iter().zip(steps) {
        let (input, output) = step.split_at(step.len() / 2);
        ask(32, params.permute(input) == output)?;
        for (&var, &unit) in query.iter().zip(step) {
            ask(36, var < vars_count)?;
            let carried = *values.entry(var).or_insert(unit);
            ask(33, carried == unit)?;
        }
    }
    for equation in &parts.equations {
        ask_equation(equation, &values)?;
    }
    Ok(())
}

/// 34 term by term, zero weights too, and then 35. A wire beyond the count has no value.
fn ask_equation(equation: &Equation, values: &BTreeMap<u32, u32>) -> Asked {
    let mut sum = 0;
    for term in &equation.terms {
        let value = values.get(&term.var).ok_or(34u32)?;
        sum = add(sum, mul(term.weight, *value));
    }
    ask(35, sum == equation.image)
}
