//! Relations on one allocator (document 02, R-2): up to eight of them over one slot store and
//! one wire count, each with a quota.
//!
//! A call of such a relation is the single relation's, with the shared count for its own and
//! with two questions more: 42 after the last 2, and 43 between 5 and 6. So it is read once,
//! on an [`On`], which says whether these two are put.

use crate::{
    add_equation, add_permutation, allocate_permutation, allocate_vars, compile, is_allocated, new,
    questions::{ask, ask_vars, is_store, is_width, Asked},
    set_tickets, set_var, set_vars,
    uses::ask_length,
    value, withdraw_equation, withdraw_query, Flag, InstanceAnswer, Relation, RelationAnswer,
    SetAnswer, Tally, TicketTally, Value, Weighted,
};

/// So many relations may be opened on one allocator.
pub const MAX_RELATIONS: u32 = 8;

/// What relations share besides the slots: the wire count, and how many are opened.
#[derive(Clone, Copy, Debug, Default, PartialEq, Eq)]
pub struct VarAllocator {
    pub vars_count: u32,
    pub opened: u32,
}

/// A relation's own record: a single relation's without the wire count, its quota, and how
/// many wires it obtained.
#[derive(Clone, Copy, Debug, Default, PartialEq, Eq)]
pub struct SharedRelation {
    pub width: u32,
    pub queries: u32,
    pub equations: u32,
    /// The used words of the equation store.
    pub words: u32,
    /// The cells of held queries that name no slot's wire (02, R-6).
    pub stray: u32,
    pub quota: u32,
    pub obtained: u32,
}

/// The answer of a call that returns both records. `first` is the number of the relation that
/// is opened, or the wire that an allocation answers.
#[derive(Clone, Copy, Debug, PartialEq, Eq)]
pub struct SharedAnswer {
    pub number: u32,
    pub first: u32,
    pub allocator: VarAllocator,
    pub relation: SharedRelation,
}

/// The relation that a call is on: its record with the wires that it may name and, where it
/// shares these with others, its share.
#[derive(Clone, Copy, Debug)]
pub struct On {
    pub rel: Relation,
    pub share: Option<Share>,
}

/// What is asked of a relation on a shared allocator besides.
#[derive(Clone, Copy, Debug, PartialEq, Eq)]
pub struct Share {
    pub index: u32,
    pub opened: u32,
    pub quota: u32,
    pub obtained: u32,
}

/// A single relation, of which neither 42 nor 43 is asked.
impl From<Relation> for On {
    fn from(rel: Relation) -> Self {
        Self { rel, share: None }
    }
}

/// The relation of this number, with the shared wire count for its own.
fn on(allocator: VarAllocator, index: u32, rel: SharedRelation) -> On {
    On {
        rel: Relation {
            width: rel.width,
            vars_count: allocator.vars_count,
            queries: rel.queries,
            equations: rel.equations,
            words: rel.words,
            stray: rel.stray,
        },
        share: Some(Share {
            index,
            opened: allocator.opened,
            quota: rel.quota,
            obtained: rel.obtained,
        }),
    }
}

/// The answer with its record as the two records: what the wire count grew by was obtained.
fn shared(allocator: VarAllocator, rel: SharedRelation, answer: RelationAnswer) -> SharedAnswer {
    let made = answer.relation;
    SharedAnswer {
        number: answer.number,
        first: answer.first,
        allocator: VarAllocator {
            vars_count: made.vars_count,
            ..allocator
        },
        relation: SharedRelation {
            width: made.width,
            queries: made.queries,
            equations: made.equations,
            words: made.words,
            stray: made.stray,
            obtained: rel.obtained + (made.vars_count - allocator.vars_count),
            ..rel
        },
    }
}

/// Opens a relation, which is answered by its number: how many were opened before. The first
/// opening does to slots and count what fresh does, a later one leaves both. Every one fills its
/// own use store with 0 (02, R-6). Questions 1, 2, 42, 6, 10.
pub fn with_allocator(
    allocator: VarAllocator,
    width: u32,
    quota: u32,
    slots: &mut [u32],
    uses: &mut [u32],
) -> SharedAnswer {
    if let Err(number) = ask_with_allocator(allocator, width, slots, uses) {
        return SharedAnswer {
            number,
            first: 0,
            allocator,
            relation: SharedRelation::default(),
        };
    }
    let vars_count = match allocator.opened {
        0 => new(width, slots, uses).relation.vars_count,
        _ => allocator.vars_count,
    };
    uses.fill(0);
    SharedAnswer {
        number: 0,
        first: allocator.opened,
        allocator: VarAllocator {
            vars_count,
            opened: allocator.opened + 1,
        },
        relation: SharedRelation {
            width,
            quota,
            ..SharedRelation::default()
        },
    }
}

fn ask_with_allocator(allocator: VarAllocator, width: u32, slots: &[u32], uses: &[u32]) -> Asked {
    ask(1, is_width(width))?;
    ask(2, is_store(slots) && is_store(uses))?;
    ask_vars(&on(allocator, 0, SharedRelation::default()), Some(slots))?;
    ask(42, allocator.opened < MAX_RELATIONS)?;
    ask(6, !slots.is_empty())?;
    ask_length(slots, uses)
}

/// Allocate. Questions 1, 2, 42, 5, 43, 6.
pub fn allocate_vars_on(
    allocator: VarAllocator,
    index: u32,
    rel: SharedRelation,
    slots: &mut [u32],
    count: u32,
) -> SharedAnswer {
    let answer = allocate_vars(on(allocator, index, rel), slots, count);
    shared(allocator, rel, answer)
}

/// Set; fresh by the shared slots, whoever set the wire. Questions 1, 2, 42, 3, 4, 7, 8.
pub fn set_var_on(
    allocator: VarAllocator,
    index: u32,
    rel: SharedRelation,
    slots: &mut [u32],
    var: u32,
    value: u32,
) -> SetAnswer {
    set_var(on(allocator, index, rel), slots, var, value)
}

/// Set list. Questions 1, 2, 42; then 3, 4, 7, 8 pair by pair, and 9.
pub fn set_vars_on(
    allocator: VarAllocator,
    index: u32,
    rel: SharedRelation,
    slots: &mut [u32],
    vars: &[u32],
    values: &[u32],
) -> Tally {
    set_vars(on(allocator, index, rel), slots, vars, values)
}

/// Tickets. Questions 1, 2, 42; then 40, 3, 41, 7, 8 line by line.
pub fn set_tickets_on(
    allocator: VarAllocator,
    index: u32,
    rel: SharedRelation,
    slots: &mut [u32],
    text: &[u8],
) -> TicketTally {
    set_tickets(on(allocator, index, rel), slots, text)
}

/// Record. Questions 1, 2, 42, 9, 3, 11, 10.
#[allow(clippy::too_many_arguments)]
pub fn add_permutation_on(
    allocator: VarAllocator,
    index: u32,
    rel: SharedRelation,
    slots: &[u32],
    queries: &mut [u32],
    uses: &mut [u32],
    input: &[u32],
    output: &[u32],
) -> SharedAnswer {
    let on = on(allocator, index, rel);
    let answer = add_permutation(on, slots, queries, uses, input, output);
    shared(allocator, rel, answer)
}

/// Mint. Questions 1, 2, 42, 9, 3, 5, 43, 6, 11, 10.
pub fn allocate_permutation_on(
    allocator: VarAllocator,
    index: u32,
    rel: SharedRelation,
    slots: &mut [u32],
    queries: &mut [u32],
    uses: &mut [u32],
    input: &[u32],
) -> SharedAnswer {
    let answer = allocate_permutation(on(allocator, index, rel), slots, queries, uses, input);
    shared(allocator, rel, answer)
}

/// A query withdrawn. Questions 1, 2, 42, 45, 11, 10.
pub fn withdraw_query_on(
    allocator: VarAllocator,
    index: u32,
    rel: SharedRelation,
    slots: &[u32],
    queries: &mut [u32],
    uses: &mut [u32],
    query: u32,
) -> SharedAnswer {
    let answer = withdraw_query(on(allocator, index, rel), slots, queries, uses, query);
    shared(allocator, rel, answer)
}

/// Equation. Questions 1, 2, 42, 3, 4, 10.
pub fn add_equation_on(
    allocator: VarAllocator,
    index: u32,
    rel: SharedRelation,
    equations: &mut [u32],
    terms: &[Weighted],
    image: u32,
) -> SharedAnswer {
    let answer = add_equation(on(allocator, index, rel), equations, terms, image);
    shared(allocator, rel, answer)
}

/// An equation withdrawn. Questions 1, 2, 42, 45, 11.
pub fn withdraw_equation_on(
    allocator: VarAllocator,
    index: u32,
    rel: SharedRelation,
    equations: &mut [u32],
    equation: u32,
) -> SharedAnswer {
    let answer = withdraw_equation(on(allocator, index, rel), equations, equation);
    shared(allocator, rel, answer)
}

/// The value of a wire. Questions 1, 2, 42, 3.
pub fn value_on(
    allocator: VarAllocator,
    index: u32,
    rel: SharedRelation,
    slots: &[u32],
    var: u32,
) -> Value {
    value(on(allocator, index, rel), slots, var)
}

/// Whether a wire is allocated, by whichever relation. Questions 1, 2, 42, 3.
pub fn is_allocated_on(allocator: VarAllocator, index: u32, rel: SharedRelation, var: u32) -> Flag {
    is_allocated(on(allocator, index, rel), var)
}

/// The gate: everybody's sets, its own queries, equations and counts. Questions 1, 2, 42, 11, 10,
/// 16, then 12 to 15.
#[allow(clippy::too_many_arguments)]
pub fn compile_on(
    allocator: VarAllocator,
    index: u32,
    rel: SharedRelation,
    label: &[u8],
    slots: &[u32],
    queries: &[u32],
    equations: &[u32],
    uses: &[u32],
    publics: &mut [u32],
    scratch: &mut [u32],
) -> InstanceAnswer {
    let on = on(allocator, index, rel);
    compile(on, label, slots, queries, equations, uses, publics, scratch)
}
