//! Withdrawals (document 02, R-6): an equation or a query struck by its number, counted from 0.
//! Later ones move down by one, and the freed words, those just below the old end, become 0.

use std::ops::Range;

use crate::{
    held,
    questions::{ask, ask_opened, ask_slots, ask_vars, equations_fit, fits, is_store, is_width},
    uses::{ask_length, Cells, Counts},
    On, Relation, RelationAnswer,
};

/// Withdraws a query: its cells leave the counts. Questions 1, 2, 45, 11, 10. What its cells hold
/// isn't judged: a word that is no wire is a stray cell.
pub fn withdraw_query(
    on: impl Into<On>,
    slots: &[u32],
    queries: &mut [u32],
    uses: &mut [u32],
    index: u32,
) -> RelationAnswer {
    let on @ On { rel, .. } = on.into();
    let counts = match ask_withdraw_query(&on, slots, queries, uses, index) {
        Err(number) => return answer(number, rel),
        Ok(counts) => counts,
    };
    let (size, end) = sizes(&rel);
    let first = size * index as usize;
    strike(queries, first..first + size, end);
    let relation = Relation {
        queries: rel.queries - 1,
        stray: counts.write(uses, rel.stray),
        ..rel
    };
    answer(0, relation)
}

fn ask_withdraw_query(
    on: &On,
    slots: &[u32],
    queries: &[u32],
    uses: &[u32],
    index: u32,
) -> Result<Counts, u32> {
    let rel = &on.rel;
    ask_slots(on, slots)?;
    ask(2, is_store(queries) && is_store(uses))?;
    ask(2, fits(rel.queries, 2 * rel.width, queries))?;
    ask_opened(on)?;
    ask(45, index < rel.queries)?;
    let (size, end) = sizes(rel);
    let held = queries[..end].chunks(size);
    let query = held.into_iter().nth(index as usize).unwrap_or(&[]);
    let counts = Counts::after(Cells::Leave, query, slots.len(), uses, rel.stray);
    counts.ask()?;
    ask_length(slots, uses)?;
    Ok(counts)
}

/// The words of a query, and of all that are held.
fn sizes(rel: &Relation) -> (usize, usize) {
    let size = 2 * rel.width as usize;
    (size, size * rel.queries as usize)
}

/// Withdraws an equation. Questions 1, 2, 45, 11: the held equations end at the used words, and
/// what wires and units they hold isn't judged.
pub fn withdraw_equation(on: impl Into<On>, equations: &mut [u32], index: u32) -> RelationAnswer {
    let on @ On { rel, .. } = on.into();
    let freed = match ask_withdraw_equation(&on, equations, index) {
        Err(number) => return answer(number, rel),
        Ok(freed) => freed,
    };
    let words = rel.words - freed.len() as u32;
    strike(equations, freed, rel.words as usize);
    let relation = Relation {
        equations: rel.equations - 1,
        words,
        ..rel
    };
    answer(0, relation)
}

fn ask_withdraw_equation(on: &On, equations: &[u32], index: u32) -> Result<Range<usize>, u32> {
    let rel = &on.rel;
    ask(1, is_width(rel.width))?;
    ask(2, is_store(equations))?;
    ask_vars(on, None)?;
    ask(2, equations_fit(rel.equations, rel.words, equations))?;
    ask_opened(on)?;
    ask(45, index < rel.equations)?;
    let used = &equations[..rel.words as usize];
    let held = held::equations(rel.equations, used).ok_or(11u32)?;
    let sizes = held.iter().map(|equation| 2 + 2 * equation.terms.len());
    let ends: Vec<usize> = sizes
        .scan(0, |end, size| {
            *end += size;
            Some(*end)
        })
        .collect();
    let index = index as usize;
    let first = if index == 0 { 0 } else { ends[index - 1] };
    Ok(first..ends[index])
}

/// Takes these words out of the first `end` ones, and puts as many of 0 behind what remains.
fn strike(store: &mut [u32], words: Range<usize>, end: usize) {
    let mut held = store[..end].to_vec();
    held.drain(words);
    held.resize(end, 0);
    store[..end].copy_from_slice(&held);
}

fn answer(number: u32, relation: Relation) -> RelationAnswer {
    RelationAnswer {
        number,
        first: 0,
        relation,
    }
}
