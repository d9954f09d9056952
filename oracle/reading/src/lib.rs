//! A second reading of documents 01 and 02, call by call: what every call answers and what
//! it leaves in each store it was lent, on every input, refused ones included.
//!
//! Written from the documents alone, beside neither the source nor the proved code, and
//! plain rather than fast: held words are decoded into lists of pairs, cells and terms,
//! the questions are put in the documents' order, and a call acts only after the last
//! of them said yes. Where a document leaves a choice open, the comment at the place
//! says which one is taken.
//!
//! Names are the source's where it has them. A call's answer carries its number, 0 for
//! yes; what else an answer has is 0 (or empty, or the record handed in) after a refusal.

mod allocator;
mod encoding;
mod field;
mod held;
mod instance;
mod inverse;
mod questions;
mod relation;
mod shared;
mod ticket;
mod uses;
mod utf8;
mod withdraw;
mod witness;

#[cfg(test)]
mod tests;

pub use allocator::{allocate_vars, is_allocated, new, set_var, set_vars, value};
pub use encoding::{
    instance_from_bytes, instance_to_bytes, strict_instance_from_bytes, witness_from_bytes,
    witness_to_bytes, InstanceRead, Read, TraceAnswer, Written, READS,
};
pub use field::{add, mul};
pub use instance::{compile, heading, public_value, InstanceAnswer};
pub use inverse::permute_inverse;
pub use relation::{add_equation, add_permutation, allocate_permutation, scale};
pub use shared::{
    add_equation_on, add_permutation_on, allocate_permutation_on, allocate_vars_on, compile_on,
    is_allocated_on, set_tickets_on, set_var_on, set_vars_on, value_on, with_allocator,
    withdraw_equation_on, withdraw_query_on, On, Share, SharedAnswer, SharedRelation, VarAllocator,
    MAX_RELATIONS,
};
pub use ticket::{set_tickets, ticket, TICKET_LINE};
pub use uses::counted;
pub use utf8::{is_utf8, scan_utf8, Utf8Scan};
pub use withdraw::{withdraw_equation, withdraw_query};
pub use witness::{append_step, evaluate_step, is_witness_valid, permute, Params};

/// The order of the field: a unit is a word below it.
pub const P: u32 = 2_013_265_921;
/// The mark of an unassigned wire in its slot (01: F).
pub const UNASSIGNED: u32 = u32::MAX;
/// How many wires a relation and how many words a lent store may have, and the most that a use
/// count or a stray count is changed to; a wire is a word below it.
pub const MAX_COUNT: u32 = 1 << 30;

/// A relation's record: its width and five counts.
#[derive(Clone, Copy, Debug, Default, PartialEq, Eq)]
pub struct Relation {
    pub width: u32,
    pub vars_count: u32,
    pub queries: u32,
    pub equations: u32,
    /// The used words of the equation store.
    pub words: u32,
    /// The cells of held queries that name no slot's wire (02, R-6).
    pub stray: u32,
}

/// An instance's record: a relation's, and the count of its publics.
#[derive(Clone, Copy, Debug, Default, PartialEq, Eq)]
pub struct Instance {
    pub width: u32,
    pub vars_count: u32,
    pub queries: u32,
    pub equations: u32,
    pub words: u32,
    pub publics: u32,
}

/// A trace's record.
#[derive(Clone, Copy, Debug, Default, PartialEq, Eq)]
pub struct Trace {
    pub width: u32,
    pub steps: u32,
}

/// A wire with its weight, one term of an equation.
#[derive(Clone, Copy, Debug, Default, PartialEq, Eq)]
pub struct Weighted {
    pub var: u32,
    pub weight: u32,
}

/// The answer of a call that returns a relation's record. `first` is the wire that an
/// allocation answers.
#[derive(Clone, Copy, Debug, PartialEq, Eq)]
pub struct RelationAnswer {
    pub number: u32,
    pub first: u32,
    pub relation: Relation,
}

/// The answer of a set: fresh or, where it is accepted and not fresh, repeated (02, R-5).
#[derive(Clone, Copy, Debug, PartialEq, Eq)]
pub struct SetAnswer {
    pub number: u32,
    pub fresh: bool,
}

/// The answer of a set list: how many of its first pairs were accepted, and how many of these
/// were fresh, stands beside the number, after a refusal too.
#[derive(Clone, Copy, Debug, PartialEq, Eq)]
pub struct Tally {
    pub number: u32,
    pub accepted: u32,
    pub fresh: u32,
}

/// The answer of a ticket text: how many of its first lines were accepted, and how many of these
/// were fresh, stands beside the number, after a refusal too.
#[derive(Clone, Copy, Debug, PartialEq, Eq)]
pub struct TicketTally {
    pub number: u32,
    pub accepted: usize,
    pub fresh: usize,
}

/// The answer to "which value has this wire".
#[derive(Clone, Copy, Debug, PartialEq, Eq)]
pub struct Value {
    pub number: u32,
    pub value: Option<u32>,
}

/// The answer to "is this wire allocated".
#[derive(Clone, Copy, Debug, PartialEq, Eq)]
pub struct Flag {
    pub number: u32,
    pub yes: bool,
}
