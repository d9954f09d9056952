//! Recording queries and equations (the source's `permutation.rs`, first half, and
//! `expr.rs`).

use crate::{
    field::mul,
    questions::{
        are_vars, ask, ask_opened, ask_room_for_vars, ask_slots, ask_vars, equations_fit, fits,
        is_list, is_store, is_unit, is_var, is_width, Asked,
    },
    uses::{ask_length, Cells, Counts},
    On, Relation, RelationAnswer, Weighted, UNASSIGNED,
};

fn refused(number: u32, relation: Relation) -> RelationAnswer {
    RelationAnswer {
        number,
        first: 0,
        relation,
    }
}

/// Stores a query; its wires needn't be allocated (01: record). Its cells join the counts (02,
/// Questions 1, 2, 9, 3, 11, 10.
pub fn add_permutation(
    on: impl Into<On>,
    slots: &[u32],
    queries: &mut [u32],
    uses: &mut [u32],
    input: &[u32],
    output: &[u32],
) -> RelationAnswer {
    let on @ On { rel, .. } = on.into();
    let counts = match ask_add_permutation(&on, slots, queries, uses, input, output) {
        Err(number) => return refused(number, rel),
        Ok(counts) => counts,
    };
    push_query(&rel, queries, input, output);
    RelationAnswer {
        number: 0,
        first: 0,
        relation: Relation {
            queries: rel.queries + 1,
            stray: counts.write(uses, rel.stray),
            ..rel
        },
    }
}

fn ask_add_permutation(
    on: &On,
    slots: &[u32],
    queries: &[u32],
    uses: &[u32],
    input: &[u32],
    output: &[u32],
) -> Result<Counts, u32> {
    let rel = &on.rel;
    ask_slots(on, slots)?;
    ask(2, is_store(queries) && is_store(uses))?;
    ask(2, is_store(input) && is_store(output))?;
    ask(2, queries_fit(rel, queries))?;
    ask_opened(on)?;
    ask(9, is_list(rel.width, input) && is_list(rel.width, output))?;
    ask(3, are_vars(input) && are_vars(output))?;
    ask_counts(on, slots, queries, uses, &[input, output].concat())
}

/// 11 and 10 of a query that is to be stored: the counts that its cells make, where both say yes.
fn ask_counts(
    on: &On,
    slots: &[u32],
    queries: &[u32],
    uses: &[u32],
    cells: &[u32],
) -> Result<Counts, u32> {
    let counts = Counts::after(Cells::Join, cells, slots.len(), uses, on.rel.stray);
    counts.ask()?;
    ask_length(slots, uses)?;
    ask_room_for_query(&on.rel, queries)?;
    Ok(counts)
}

fn queries_fit(rel: &Relation, queries: &[u32]) -> bool {
    fits(rel.queries, 2 * rel.width, queries)
}

/// 10: room for one query more. The count is at most 2^29 here, by question 2.
fn ask_room_for_query(rel: &Relation, queries: &[u32]) -> Asked {
    ask(10, fits(rel.queries + 1, 2 * rel.width, queries))
}

fn push_query(rel: &Relation, queries: &mut [u32], input: &[u32], output: &[u32]) {
    let width = rel.width as usize;
    let place = 2 * width * rel.queries as usize;
    queries[place..place + width].copy_from_slice(input);
    queries[place + width..place + 2 * width].copy_from_slice(output);
}

/// Allocates the outputs and stores the query, or does neither (01: mint). Its cells join the
/// counts (02, R-6). Questions 1, 2, 9, 3, 5, 6, 11, 10.
pub fn allocate_permutation(
    on: impl Into<On>,
    slots: &mut [u32],
    queries: &mut [u32],
    uses: &mut [u32],
    input: &[u32],
) -> RelationAnswer {
    let on @ On { rel, .. } = on.into();
    let counts = match ask_allocate_permutation(&on, slots, queries, uses, input) {
        Err(number) => return refused(number, rel),
        Ok(counts) => counts,
    };
    let first = rel.vars_count;
    let relation = Relation {
        vars_count: first + rel.width,
        queries: rel.queries + 1,
        stray: counts.write(uses, rel.stray),
        ..rel
    };
    let output: Vec<u32> = outputs(&rel).collect();
    slots[first as usize..relation.vars_count as usize].fill(UNASSIGNED);
    push_query(&rel, queries, input, &output);
    RelationAnswer {
        number: 0,
        first,
        relation,
    }
}

/// The wires that a mint of this relation allocates.
fn outputs(rel: &Relation) -> impl Iterator<Item = u32> {
    rel.vars_count..rel.vars_count + rel.width
}

fn ask_allocate_permutation(
    on: &On,
    slots: &[u32],
    queries: &[u32],
    uses: &[u32],
    input: &[u32],
) -> Result<Counts, u32> {
    let rel = &on.rel;
    ask_slots(on, slots)?;
    ask(2, is_store(queries) && is_store(uses))?;
    ask(2, is_store(input) && queries_fit(rel, queries))?;
    ask_opened(on)?;
    ask(9, is_list(rel.width, input))?;
    ask(3, are_vars(input))?;
    ask_room_for_vars(on, slots, rel.width)?;
    let cells: Vec<u32> = input.iter().copied().chain(outputs(rel)).collect();
    ask_counts(on, slots, queries, uses, &cells)
}

/// Stores an equation, its terms in order, repeats and zero weights kept (01: equation).
/// Questions 1, 2, 3, 4, 10: every wire is asked about before any unit is.
pub fn add_equation(
    on: impl Into<On>,
    equations: &mut [u32],
    terms: &[Weighted],
    image: u32,
) -> RelationAnswer {
    let on @ On { rel, .. } = on.into();
    if let Err(number) = ask_add_equation(&on, equations, terms, image) {
        return refused(number, rel);
    }
    // The equation fits a store of at most 2^30 words, so its term count is a word.
    let mut words = vec![terms.len() as u32];
    words.extend(terms.iter().flat_map(|term| [term.var, term.weight]));
    words.push(image);
    let place = rel.words as usize;
    equations[place..place + words.len()].copy_from_slice(&words);
    RelationAnswer {
        number: 0,
        first: 0,
        relation: Relation {
            equations: rel.equations + 1,
            words: rel.words + words.len() as u32,
            ..rel
        },
    }
}

fn ask_add_equation(on: &On, equations: &[u32], terms: &[Weighted], image: u32) -> Asked {
    let rel = &on.rel;
    ask(1, is_width(rel.width))?;
    ask(2, is_store(equations))?;
    ask_vars(on, None)?;
    ask(2, equations_fit(rel.equations, rel.words, equations))?;
    ask_opened(on)?;
    ask(3, terms.iter().all(|term| is_var(term.var)))?;
    ask(4, terms.iter().all(|term| is_unit(term.weight)))?;
    ask(4, is_unit(image))?;
    let used = u128::from(rel.words) + 2 + 2 * terms.len() as u128;
    ask(10, used <= equations.len() as u128)
}

/// Multiplies every weight of a list (01: scaling). Questions 3, 4, each over the whole
/// list; the factor is the last unit asked about.
pub fn scale(terms: &mut [Weighted], factor: u32) -> u32 {
    if !terms.iter().all(|term| is_var(term.var)) {
        return 3;
    }
    if !terms.iter().all(|term| is_unit(term.weight)) || !is_unit(factor) {
        return 4;
    }
    for term in terms {
        term.weight = mul(term.weight, factor);
    }
    0
}
