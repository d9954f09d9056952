//! Records and answers, laid out as `include/sfr.h` has them.
//!
//! Every field of a record is open, and any numbers may be put into one: what doesn't fit is refused.

use crate::{BabyBearUnit, FieldVar, Parts, Refused};

/// The answer of a call that has nothing to give but its number.
#[repr(transparent)]
#[derive(Clone, Copy, Debug, PartialEq, Eq)]
#[must_use]
pub struct Outcome {
    /// 0, or the first question that said no.
    pub number: u32,
}

/// The answer of a word read.
#[repr(C)]
#[derive(Clone, Copy, Debug, PartialEq, Eq)]
#[must_use]
pub struct Word {
    /// 0, or 20.
    pub number: u32,
    /// The word; 0 after a refusal.
    pub value: u32,
    /// The place after it; the place given after a refusal.
    pub next: usize,
}

/// The answer of a call that moves on in bytes.
#[repr(C)]
#[derive(Clone, Copy, Debug, PartialEq, Eq)]
#[must_use]
pub struct Place {
    /// 0, or the first question that said no.
    pub number: u32,
    /// The place after what was read or written; the place given after a refusal.
    pub next: usize,
}

/// The answer of a scan for UTF-8.
///
/// `place` = length doesn't mean that the bytes pass: bytes cut off inside a character have their
/// length as place, and don't pass.
#[repr(C)]
#[derive(Clone, Copy, Debug, PartialEq, Eq)]
#[must_use]
pub struct Utf8Scan {
    /// Where, counted from 0, the first byte stands after which no continuation can be UTF-8; the
    /// length where there is none.
    pub place: usize,
    /// Whether the bytes are UTF-8.
    pub passes: bool,
}

/// A relation's record, handed in and back by value.
#[repr(C)]
#[derive(Clone, Copy, Debug, Default, PartialEq, Eq)]
pub struct Relation {
    /// w.
    pub width: u32,
    /// How many wires are allocated.
    pub vars: u32,
    /// How many queries are recorded.
    pub queries: u32,
    /// How many equations are stated.
    pub equations: u32,
    /// How many words of the equation store they use.
    pub words: u32,
    /// How many query cells name wires beyond the slots.
    pub stray: u32,
}

/// The answer of a call that returns a relation's record and nothing else.
#[repr(C)]
#[derive(Clone, Copy, Debug, PartialEq, Eq)]
#[must_use]
pub struct Recorded {
    /// 0, or the first question that said no.
    pub number: u32,
    /// 0: an allocation's answer has its first wire here.
    first: u32,
    /// The record to go on with. A refused call gives back the one it was given, a refused
    /// [`new_relation`](crate::new_relation) one of zeros.
    pub relation: Relation,
}

/// The answer of an allocation or a mint.
#[repr(C)]
#[derive(Clone, Copy, Debug, PartialEq, Eq)]
#[must_use]
pub struct Allocated {
    /// 0, or the first question that said no.
    pub number: u32,
    /// The first of the new wires, whose index is the wire count before the call: of no wires at
    /// 2^30 it is no wire. 0 after a refusal.
    pub first: FieldVar,
    /// The record to go on with; after a refusal the one given.
    pub relation: Relation,
}

/// The answer of a set.
#[repr(C)]
#[derive(Clone, Copy, Debug, PartialEq, Eq)]
#[must_use]
pub struct SetAnswer {
    /// 0, or the first question that said no.
    pub number: u32,
    /// Whether it is [`Set::Fresh`]; false after a refusal.
    pub fresh: bool,
}

/// What an accepted set is.
#[derive(Clone, Copy, Debug, PartialEq, Eq)]
pub enum Set {
    /// The slot of its wire was F just before.
    Fresh,
    /// The slot of its wire held that value, as wire 0's holds 0 from the start.
    Repeated,
}

/// The answer of a set list.
#[repr(C)]
#[derive(Clone, Copy, Debug, PartialEq, Eq)]
#[must_use]
pub struct Tally {
    /// 0, or the first question that said no.
    pub number: u32,
    /// How many of the first pairs were accepted, and stay set, after a refusal too.
    pub accepted: u32,
    /// How many of those were fresh, after a refusal too; the rest are repeated, as is a pair whose
    /// wire an earlier one of the list has set.
    pub fresh: u32,
}

/// The answer of a ticket text.
#[repr(C)]
#[derive(Clone, Copy, Debug, PartialEq, Eq)]
#[must_use]
pub struct TicketTally {
    /// 0, or the first question that said no.
    pub number: u32,
    /// How many of the first lines were accepted, and stay set, after a refusal too.
    pub accepted: usize,
    /// How many of those were fresh, after a refusal too; the rest are repeated, as is a line whose
    /// wire an earlier one of the text has set.
    pub fresh: usize,
}

/// The answer to which value a wire has.
#[repr(C)]
#[derive(Clone, Copy, Debug, PartialEq, Eq)]
#[must_use]
pub struct Value {
    /// 0, or the first question that said no.
    pub number: u32,
    /// Whether there is one; false after a refusal.
    pub some: bool,
    /// The value; 0 where there is none.
    pub value: BabyBearUnit,
}

/// The answer to a question of yes or no.
#[repr(C)]
#[derive(Clone, Copy, Debug, PartialEq, Eq)]
#[must_use]
pub struct Flag {
    /// 0, or the first question that said no.
    pub number: u32,
    /// Yes; false after a refusal.
    pub yes: bool,
}

/// What relations on one allocator share, handed in and back by value: all zeros before the first
/// opening.
#[repr(C)]
#[derive(Clone, Copy, Debug, Default, PartialEq, Eq)]
pub struct VarAllocator {
    /// How many wires are allocated; anything where nothing is opened.
    pub vars: u32,
    /// How many relations are opened.
    pub opened: u32,
}

/// The own record of a relation on a shared allocator, handed in and back by value.
#[repr(C)]
#[derive(Clone, Copy, Debug, Default, PartialEq, Eq)]
pub struct SharedRelation {
    /// w.
    pub width: u32,
    /// How many queries are recorded.
    pub queries: u32,
    /// How many equations are stated.
    pub equations: u32,
    /// How many words of the equation store they use.
    pub words: u32,
    /// How many query cells name wires beyond the slots.
    pub stray: u32,
    /// How many wires it may allocate and mint.
    pub quota: u32,
    /// How many wires it obtained.
    pub obtained: u32,
}

/// The answer of an opening.
#[repr(C)]
#[derive(Clone, Copy, Debug, PartialEq, Eq)]
#[must_use]
pub struct Opened {
    /// 0, or the first question that said no.
    pub number: u32,
    /// The number of the relation that is opened; 0 after a refusal.
    pub index: u32,
    /// The allocator to go on with; after a refusal the one given.
    pub allocator: VarAllocator,
    /// The relation's record; zeros after a refusal.
    pub relation: SharedRelation,
}

/// The answer of an allocation or a mint on a shared allocator.
#[repr(C)]
#[derive(Clone, Copy, Debug, PartialEq, Eq)]
#[must_use]
pub struct AllocatedOn {
    /// 0, or the first question that said no.
    pub number: u32,
    /// The first of the new wires, as in [`Allocated`].
    pub first: FieldVar,
    /// The allocator to go on with; after a refusal the one given.
    pub allocator: VarAllocator,
    /// The record to go on with; after a refusal the one given.
    pub relation: SharedRelation,
}

/// The answer of a call that returns the records of a relation on a shared allocator and nothing
/// else.
#[repr(C)]
#[derive(Clone, Copy, Debug, PartialEq, Eq)]
#[must_use]
pub struct RecordedOn {
    /// 0, or the first question that said no.
    pub number: u32,
    /// 0: an allocation's answer has its first wire here.
    first: u32,
    /// The allocator to go on with; after a refusal the one given.
    pub allocator: VarAllocator,
    /// The record to go on with; after a refusal the one given.
    pub relation: SharedRelation,
}

/// A trace's record, handed in and back by value: `Trace { width, steps: 0 }` to begin with.
#[repr(C)]
#[derive(Clone, Copy, Debug, Default, PartialEq, Eq)]
pub struct Trace {
    /// w.
    pub width: u32,
    /// How many steps the trace has.
    pub steps: u32,
}

/// The answer of a call that returns a trace's record.
#[repr(C)]
#[derive(Clone, Copy, Debug, PartialEq, Eq)]
#[must_use]
pub struct TraceAnswer {
    /// 0, or the first question that said no.
    pub number: u32,
    /// The record to go on with. A refused call gives back the one it was given, a refused read
    /// one of zeros.
    pub trace: Trace,
}

/// The answer of a write.
#[repr(C)]
#[derive(Clone, Copy, Debug, PartialEq, Eq)]
#[must_use]
pub struct Written {
    /// 0, or the first question that said no.
    pub number: u32,
    /// How many bytes were written; 0 after a refusal.
    pub len: usize,
}

/// An instance's record: a relation's, with the public count. Its wire count may be any u32.
#[repr(C)]
#[derive(Clone, Copy, Debug, Default, PartialEq, Eq)]
pub struct Instance {
    /// w.
    pub width: u32,
    /// How many wires there are.
    pub vars: u32,
    /// How many queries are held.
    pub queries: u32,
    /// How many equations are held.
    pub equations: u32,
    /// How many words of the equation store they use.
    pub words: u32,
    /// How many public pairs are held.
    pub publics: u32,
}

/// The answer of the gate.
#[derive(Clone, Copy, Debug, PartialEq, Eq)]
#[must_use]
pub struct Compiled<'a> {
    /// 0, or the first question that said no.
    pub number: u32,
    /// The instance with its parts, as they lie in what was lent; a record of zeros after a refusal.
    pub parts: Parts<'a>,
}

/// The answer of an SFRI read.
#[derive(Clone, Copy, Debug, PartialEq, Eq)]
#[must_use]
pub struct InstanceRead<'a> {
    /// 0, or the first question that said no.
    pub number: u32,
    /// The instance with its parts, as they lie in the stores; the label is the very part of the
    /// bytes that holds it. A record of zeros and no label after a refusal.
    pub parts: Parts<'a>,
}

/// The gate's answer as C has it.
#[repr(C)]
pub(crate) struct InstanceAnswer {
    pub number: u32,
    pub instance: Instance,
}

/// An SFRI read's answer as C has it.
#[repr(C)]
pub(crate) struct ReadAnswer {
    pub number: u32,
    pub instance: Instance,
    pub label: Span,
}

/// Where a part of lent bytes lies.
#[repr(C)]
pub(crate) struct Span {
    pub at: usize,
    pub len: usize,
}

/// Which of its two parts a heading is, for [`heading`](crate::heading) alone.
#[repr(C)]
pub(crate) struct Heading {
    pub named: bool,
    pub len: usize,
}

/// What an answer gives where no question said no.
macro_rules! accepted {
    ($($answer:ty, $self:ident => $given:expr, $type:ty, $what:literal;)*) => {$(
        impl $answer {
            #[doc = $what]
            #[inline]
            pub fn accepted(self) -> Result<$type, Refused> {
                let $self = self;
                Refused::unless_0($self.number).map(|()| $given)
            }
        }
    )*};
}

accepted! {
    Outcome, _it => (), (), "Nothing more: it was accepted.";
    Word, it => (it.value, it.next), (u32, usize), "The word and the place after it.";
    Place, it => it.next, usize, "The place after what was read or written.";
    Recorded, it => it.relation, Relation, "The record to go on with.";
    Allocated, it => (it.first, it.relation), (FieldVar, Relation),
        "The first of the new wires, and the record to go on with.";
    Opened, it => (it.index, it.allocator, it.relation), (u32, VarAllocator, SharedRelation),
        "The number of the relation that is opened, and the records to go on with.";
    AllocatedOn, it => (it.first, it.allocator, it.relation), (FieldVar, VarAllocator, SharedRelation),
        "The first of the new wires, and the records to go on with.";
    RecordedOn, it => (it.allocator, it.relation), (VarAllocator, SharedRelation),
        "The records to go on with.";
    SetAnswer, it => if it.fresh { Set::Fresh } else { Set::Repeated }, Set, "Fresh or repeated.";
    Tally, it => it.accepted, u32, "How many pairs were set, where all were.";
    TicketTally, it => it.accepted, usize, "How many lines were set, where all were.";
    Value, it => it.some.then_some(it.value), Option<BabyBearUnit>, "The value, where there is one.";
    Flag, it => it.yes, bool, "Yes or no.";
    TraceAnswer, it => it.trace, Trace, "The record to go on with.";
    Written, it => it.len, usize, "How many bytes were written.";
}

/// The same of answers that hold what was lent.
macro_rules! accepted_parts {
    ($($answer:ident)*) => {$(
        impl<'a> $answer<'a> {
            /// The instance with its parts.
            #[inline]
            pub fn accepted(self) -> Result<Parts<'a>, Refused> {
                Refused::unless_0(self.number).map(|()| self.parts)
            }
        }
    )*};
}

accepted_parts! { Compiled InstanceRead }
