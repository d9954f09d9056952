//! The calls on a relation as data, so that one list of them can be run on every side,
//! and the second reading's side.

use reading::{Relation, Share, Weighted};

use crate::tickets::Text;

/// One call with what is handed in.
#[derive(Clone, Debug)]
pub enum Call {
    Allocate(u32),
    /// The source's `_with` calls: an allocate and a set list.
    AllocateWith(Vec<u32>),
    Set(u32, u32),
    SetList(Vec<u32>, Vec<u32>),
    Tickets(Text),
    Record(Vec<u32>, Vec<u32>),
    Mint(Vec<u32>),
    WithdrawQuery(u32),
    Equation(Vec<(u32, u32)>, u32),
    WithdrawEquation(u32),
    Value(u32),
    IsAllocated(u32),
}

impl Call {
    pub const fn name(&self) -> &'static str {
        match self {
            Self::Allocate(_) => "allocate",
            Self::AllocateWith(_) => "allocate with values",
            Self::Set(..) => "set",
            Self::SetList(..) => "set list",
            Self::Tickets(_) => "tickets",
            Self::Record(..) => "record",
            Self::Mint(_) => "mint",
            Self::WithdrawQuery(_) => "withdraw query",
            Self::Equation(..) => "equation",
            Self::WithdrawEquation(_) => "withdraw equation",
            Self::Value(_) => "value",
            Self::IsAllocated(_) => "is allocated",
        }
    }

    pub const fn is_withdrawal(&self) -> bool {
        matches!(self, Self::WithdrawQuery(_) | Self::WithdrawEquation(_))
    }

    /// What of a set, a set list or a ticket text was fresh, where any of it was accepted: one of
    /// the kinds that it comes in.
    pub fn freshness(&self, answer: &Answer) -> Option<&'static str> {
        let accepted = match self {
            Self::Set(..) => usize::from(answer.number == 0),
            Self::SetList(..) | Self::Tickets(_) => answer.accepted,
            _ => 0,
        };
        match (answer.number, answer.fresh) {
            _ if accepted == 0 => None,
            (0, 0) => Some("repeated"),
            (0, fresh) if fresh == accepted => Some("fresh"),
            (0, _) => Some("fresh and repeated"),
            (_, 0) => Some("refused after repeated"),
            _ => Some("refused after fresh"),
        }
    }
}

/// The kinds of a set, and those of a set list or a ticket text.
pub const SET_KINDS: &[&str] = &["fresh", "repeated"];
pub const LIST_KINDS: &[&str] = &[
    "fresh",
    "repeated",
    "fresh and repeated",
    "refused after fresh",
    "refused after repeated",
];

/// What a call answers; what it has no answer for is 0, none or no.
#[derive(Clone, Copy, Debug, Default, PartialEq, Eq)]
pub struct Answer {
    pub number: u32,
    pub first: u32,
    pub accepted: usize,
    /// How many sets were fresh: of a set 1 or 0.
    pub fresh: usize,
    pub value: Option<u32>,
    pub yes: bool,
}

/// A relation's record and its share, which each side has as records of its own.
#[derive(Clone, Copy)]
pub struct Records {
    pub rel: Relation,
    pub share: Option<Share>,
}

/// The answer of a call that gives records back. They don't have the relation's number: it is 0 in
/// the share.
pub struct Made {
    pub number: u32,
    pub first: u32,
    pub records: Records,
}

/// A side's records, which have the same fields on both, but for the name of the wire count.
macro_rules! records {
    ($side:ident, $vars:ident) => {
        impl From<Records> for $side::Relation {
            fn from(Records { rel, .. }: Records) -> Self {
                Self {
                    width: rel.width,
                    $vars: rel.vars_count,
                    queries: rel.queries,
                    equations: rel.equations,
                    words: rel.words,
                    stray: rel.stray,
                }
            }
        }

        impl From<Records> for $side::VarAllocator {
            fn from(Records { rel, share }: Records) -> Self {
                Self {
                    $vars: rel.vars_count,
                    opened: share.map_or(0, |share| share.opened),
                }
            }
        }

        impl From<Records> for $side::SharedRelation {
            fn from(Records { rel, share }: Records) -> Self {
                Self {
                    width: rel.width,
                    queries: rel.queries,
                    equations: rel.equations,
                    words: rel.words,
                    stray: rel.stray,
                    quota: share.map_or(0, |share| share.quota),
                    obtained: share.map_or(0, |share| share.obtained),
                }
            }
        }

        impl From<$side::Relation> for Records {
            fn from(rel: $side::Relation) -> Self {
                let rel = reading::Relation {
                    width: rel.width,
                    vars_count: rel.$vars,
                    queries: rel.queries,
                    equations: rel.equations,
                    words: rel.words,
                    stray: rel.stray,
                };
                Self { rel, share: None }
            }
        }

        impl From<($side::VarAllocator, $side::SharedRelation)> for Records {
            fn from((allocator, rel): ($side::VarAllocator, $side::SharedRelation)) -> Self {
                let share = reading::Share {
                    index: 0,
                    opened: allocator.opened,
                    quota: rel.quota,
                    obtained: rel.obtained,
                };
                let rel = reading::Relation {
                    width: rel.width,
                    vars_count: allocator.$vars,
                    queries: rel.queries,
                    equations: rel.equations,
                    words: rel.words,
                    stray: rel.stray,
                };
                Self {
                    rel,
                    share: Some(share),
                }
            }
        }
    };
}

/// A side's answers with records: each with what it has for the first wire, and the records.
macro_rules! made {
    ($($answer:ty, $it:ident: $first:expr, $records:expr;)*) => {$(
        impl From<$answer> for Made {
            fn from($it: $answer) -> Self {
                Self {
                    number: $it.number,
                    first: $first,
                    records: $records.into(),
                }
            }
        }
    )*};
}

records!(reading, vars_count);
made! {
    reading::RelationAnswer, it: it.first, it.relation;
    reading::SharedAnswer, it: it.first, (it.allocator, it.relation);
}

/// A side's call on a relation: the first name of it alone or, where it has a share, the second
/// of its number on the allocator.
macro_rules! called {
    ($side:ident, $state:expr, $alone:ident, $shared:ident $(, $argument:expr)* $(,)?) => {{
        let records = $crate::calls::Records {
            rel: $state.rel,
            share: $state.share,
        };
        match records.share {
            None => $side::$alone($side::Relation::from(records) $(, $argument)*).into(),
            Some(share) => {
                let (allocator, rel) = (records.into(), records.into());
                $side::$shared(allocator, share.index, rel $(, $argument)*).into()
            }
        }
    }};
}

pub(crate) use called;
#[cfg(feature = "library")]
pub(crate) use {made, records};

/// What lies in a store that no call has written to.
pub const DIRT: u32 = 0xABAB_ABAB;

/// A relation's record and its stores. Where it shares an allocator, it has a share, and the
/// wire count and the slots are everybody's.
#[derive(Clone, Debug, PartialEq, Eq)]
pub struct State {
    pub rel: Relation,
    pub share: Option<Share>,
    pub slots: Vec<u32>,
    pub queries: Vec<u32>,
    pub equations: Vec<u32>,
    pub uses: Vec<u32>,
}

impl State {
    /// Dirty stores of these lengths, with a use count per slot, and no relation yet.
    pub fn sized(slots: usize, queries: usize, equations: usize) -> Self {
        Self {
            rel: Relation::default(),
            share: None,
            slots: vec![DIRT; slots],
            queries: vec![DIRT; queries],
            equations: vec![DIRT; equations],
            uses: vec![DIRT; slots],
        }
    }

    /// The words that the record counts, of a relation that calls alone have made.
    pub fn held(&self) -> (&[u32], &[u32], &[u32]) {
        let cells = 2 * self.rel.width as usize * self.rel.queries as usize;
        (
            &self.slots[..self.rel.vars_count as usize],
            &self.queries[..cells],
            &self.equations[..self.rel.words as usize],
        )
    }

    pub const fn records(&self) -> Records {
        Records {
            rel: self.rel,
            share: self.share,
        }
    }

    /// A new relation over these stores, by the second reading.
    pub fn new_relation(&mut self, width: u32) -> u32 {
        let answer = reading::new(width, &mut self.slots, &mut self.uses);
        self.rel = answer.relation;
        answer.number
    }

    /// Opens a relation on the allocator, by the second reading.
    pub fn with_allocator(&mut self, width: u32, quota: u32) -> Answer {
        let allocator = self.records().into();
        let (slots, uses) = (&mut self.slots, &mut self.uses);
        let answer = reading::with_allocator(allocator, width, quota, slots, uses);
        self.keep(answer.into())
    }

    /// Runs a call by the second reading.
    pub fn run(&mut self, call: &Call) -> Answer {
        let (slots, queries, uses) = (&mut self.slots, &mut self.queries, &mut self.uses);
        match call {
            Call::Allocate(count) => {
                let made = called!(
                    reading,
                    self,
                    allocate_vars,
                    allocate_vars_on,
                    slots,
                    *count
                );
                self.keep(made)
            }
            Call::AllocateWith(values) => self.allocate_with(values),
            Call::Set(var, value) => {
                let answer: reading::SetAnswer =
                    called!(reading, self, set_var, set_var_on, slots, *var, *value);
                Answer {
                    number: answer.number,
                    fresh: usize::from(answer.fresh),
                    ..Answer::default()
                }
            }
            Call::SetList(vars, values) => {
                let tally: reading::Tally =
                    called!(reading, self, set_vars, set_vars_on, slots, vars, values);
                Answer {
                    number: tally.number,
                    accepted: tally.accepted as usize,
                    fresh: tally.fresh as usize,
                    ..Answer::default()
                }
            }
            Call::Tickets(text) => {
                let tally: reading::TicketTally =
                    called!(reading, self, set_tickets, set_tickets_on, slots, &text.0);
                Answer {
                    number: tally.number,
                    accepted: tally.accepted,
                    fresh: tally.fresh,
                    ..Answer::default()
                }
            }
            Call::Record(input, output) => {
                let made = called!(
                    reading,
                    self,
                    add_permutation,
                    add_permutation_on,
                    slots,
                    queries,
                    uses,
                    input,
                    output
                );
                self.keep(made)
            }
            Call::Mint(input) => {
                let made = called!(
                    reading,
                    self,
                    allocate_permutation,
                    allocate_permutation_on,
                    slots,
                    queries,
                    uses,
                    input
                );
                self.keep(made)
            }
            Call::WithdrawQuery(index) => {
                let made = called!(
                    reading,
                    self,
                    withdraw_query,
                    withdraw_query_on,
                    slots,
                    queries,
                    uses,
                    *index
                );
                self.keep(made)
            }
            Call::Equation(terms, image) => {
                let (terms, equations) = (weighted(terms), &mut self.equations);
                let made = called!(
                    reading,
                    self,
                    add_equation,
                    add_equation_on,
                    equations,
                    &terms,
                    *image
                );
                self.keep(made)
            }
            Call::WithdrawEquation(index) => {
                let equations = &mut self.equations;
                let made = called!(
                    reading,
                    self,
                    withdraw_equation,
                    withdraw_equation_on,
                    equations,
                    *index
                );
                self.keep(made)
            }
            Call::Value(var) => {
                let answer: reading::Value = called!(reading, self, value, value_on, slots, *var);
                Answer {
                    number: answer.number,
                    value: answer.value,
                    ..Answer::default()
                }
            }
            Call::IsAllocated(var) => {
                let answer: reading::Flag =
                    called!(reading, self, is_allocated, is_allocated_on, *var);
                Answer {
                    number: answer.number,
                    yes: answer.yes,
                    ..Answer::default()
                }
            }
        }
    }

    /// Keeps the records that a call gives back.
    pub fn keep(&mut self, made: Made) -> Answer {
        self.rel = made.records.rel;
        if let (Some(share), Some(made)) = (&mut self.share, made.records.share) {
            *share = Share {
                index: share.index,
                ..made
            };
        }
        Answer {
            number: made.number,
            first: made.first,
            ..Answer::default()
        }
    }

    fn allocate_with(&mut self, values: &[u32]) -> Answer {
        let allocated = self.run(&Call::Allocate(values.len() as u32));
        if allocated.number != 0 {
            return allocated;
        }
        let vars = allocated.first..self.rel.vars_count;
        let set = self.run(&Call::SetList(vars.collect(), values.to_vec()));
        Answer {
            first: allocated.first,
            ..set
        }
    }
}

pub fn weighted(terms: &[(u32, u32)]) -> Vec<Weighted> {
    let terms = terms.iter();
    terms
        .map(|&(var, weight)| Weighted { var, weight })
        .collect()
}
