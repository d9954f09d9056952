//! Relations: queries and equations over an allocator's wires.

use alloc::{borrow::ToOwned, string::String, sync::Arc, vec, vec::Vec};
use core::borrow::Borrow;

use super::{
    super::{
        allocator::{public_vars, VarAllocator},
        error::InvalidRelation,
        expr::Sum,
        lock::Lock,
        message::Asked,
        refuse,
        spongefish::Permutation,
    },
    width, LinearEquation, PermutationInstance, QueryAnswerPair,
};
use crate::{BabyBearUnit, FieldVar, Held, Refused, Relation, Weighted};

/// A relation over evaluations of a permutation of `WIDTH` wires.
///
/// Handles are reference counted: a clone is the same relation, and what one records all have.
///
/// The width is 1 to 24:
///
/// ```compile_fail
/// sfr::circuit::PermutationRelation::<sfr::BabyBearUnit, 25>::new();
/// ```
pub struct PermutationRelation<T, const WIDTH: usize> {
    label: String,
    allocator: VarAllocator<T>,
    lists: Arc<Lock<Lists<WIDTH>>>,
}

/// What a relation holds beside its wires.
///
/// Queries are recorded on one slot, wire 0's, so that nothing here grows with the allocator's wires:
/// the cells of all others are stray. The gate records them anew on all slots.
struct Lists<const WIDTH: usize> {
    record: Relation,
    queries: Vec<QueryAnswerPair<FieldVar, WIDTH>>,
    uses: [u32; 1],
    equations: Vec<u32>,
}

/// The slot that queries are recorded on.
const SLOT: [u32; 1] = [0];

impl<const WIDTH: usize> Lists<WIDTH> {
    fn new() -> Self {
        let mut uses = [0];
        let record = crate::new_relation(width::<WIDTH>(), &mut SLOT.clone(), &mut uses);
        Self {
            record: record.accepted().unwrap_or_else(|refused| refuse(refused)),
            queries: Vec::new(),
            uses,
            equations: Vec::new(),
        }
    }

    fn add_permutation(&mut self, pair: &QueryAnswerPair<FieldVar, WIDTH>) -> Result<(), Refused> {
        self.queries.push(QueryAnswerPair::ROOM);
        let queries = QueryAnswerPair::cells_mut(&mut self.queries);
        let (input, output, uses) = (&pair.input, &pair.output, &mut self.uses);
        let answer = crate::add_permutation(self.record, &SLOT, queries, uses, input, output);
        self.take(answer.accepted())
    }

    fn add_equation(&mut self, terms: &[Weighted], image: BabyBearUnit) -> Result<(), Refused> {
        let room = self.equations.len() + 2 + 2 * terms.len();
        self.equations.resize(room, 0);
        let stated = crate::add_equation(self.record, &mut self.equations, terms, image);
        self.take(stated.accepted())
    }

    /// Goes on with a call's record, and gives up the room that a refused one left empty.
    fn take(&mut self, answer: Result<Relation, Refused>) -> Result<(), Refused> {
        let taken = answer.map(|record| self.record = record);
        self.queries.truncate(self.record.queries as usize);
        self.equations.truncate(self.record.words as usize);
        taken
    }
}

/// What the gate is put to: a relation and its wires as they were at one time.
struct Snapshot<const WIDTH: usize> {
    /// The slots of the wires.
    slots: Vec<u32>,
    /// How many of them have a value.
    assigned: usize,
    queries: Vec<QueryAnswerPair<FieldVar, WIDTH>>,
    equations: Vec<u32>,
    /// The record of the equations.
    stated: Relation,
}

impl<const WIDTH: usize> Snapshot<WIDTH> {
    /// The queries, recorded on all slots, each in its own place: the record, with the equations', and
    /// the use counts.
    fn recorded(&mut self) -> Result<(Relation, Vec<u32>), Refused> {
        let mut uses = vec![0; self.slots.len()];
        let fresh = crate::new_relation(width::<WIDTH>(), &mut self.slots, &mut uses).accepted()?;
        let mut record = Relation {
            vars: self.slots.len() as u32,
            equations: self.stated.equations,
            words: self.stated.words,
            ..fresh
        };
        for i in 0..self.queries.len() {
            let QueryAnswerPair { input, output } = self.queries[i].clone();
            let (slots, cells) = (&self.slots, QueryAnswerPair::cells_mut(&mut self.queries));
            let answer = crate::add_permutation(record, slots, cells, &mut uses, &input, &output);
            record = answer.accepted()?;
        }
        Ok((record, uses))
    }

    /// The gate.
    fn compile(
        mut self,
        label: &str,
    ) -> Result<PermutationInstance<BabyBearUnit, WIDTH>, InvalidRelation> {
        let recorded = self.recorded();
        let (record, uses) = recorded.unwrap_or_else(|refused| refuse(refused));
        let mut publics = vec![0; 2 * self.assigned];
        let scratch = &mut vec![0; self.slots.len()];
        let held = Held {
            label: label.as_bytes(),
            slots: &self.slots,
            queries: QueryAnswerPair::cells(&self.queries),
            equations: &self.equations,
            uses: &uses,
        };
        let gate = crate::compile(record, held, &mut publics, scratch);
        match gate.accepted().map(|parts| parts.instance) {
            Ok(record) => {
                let (label, queries) = (label.to_owned(), self.queries);
                let made =
                    PermutationInstance::new(label, record, publics, queries, self.equations);
                Ok(made)
            }
            Err(refused) => Err(InvalidRelation::new(refused, self.message(refused))),
        }
    }

    /// What the source says where the gate is refused.
    fn message(&self, refused: Refused) -> String {
        let asked = Asked {
            vars: self.slots.len() as u32,
            publics: public_vars(&self.slots),
            width: width::<WIDTH>(),
            queries: QueryAnswerPair::cells(&self.queries).to_vec(),
            equations: LinearEquation::of_words(&self.equations),
        };
        asked.message(refused)
    }
}

impl<T, const WIDTH: usize> Clone for PermutationRelation<T, WIDTH> {
    fn clone(&self) -> Self {
        Self {
            label: self.label.clone(),
            allocator: self.allocator.clone(),
            lists: Arc::clone(&self.lists),
        }
    }
}

impl<const WIDTH: usize> Default for PermutationRelation<BabyBearUnit, WIDTH> {
    fn default() -> Self {
        Self::new()
    }
}

impl<const WIDTH: usize> PermutationRelation<BabyBearUnit, WIDTH> {
    /// A relation without a label, on an allocator of its own.
    #[must_use]
    pub fn new() -> Self {
        Self::with_allocator(VarAllocator::new())
    }

    /// The same with a label, such as the permutation's name: it goes into the instance and its
    /// bytes, and means nothing here.
    pub fn labeled(label: impl Into<String>) -> Self {
        let mut relation = Self::new();
        relation.label = label.into();
        relation
    }

    /// A relation without a label, on an allocator that it shares.
    #[must_use]
    pub fn with_allocator(allocator: VarAllocator<BabyBearUnit>) -> Self {
        Self {
            label: String::new(),
            allocator,
            lists: Arc::new(Lock::new(Lists::new())),
        }
    }

    /// The label; empty unless [`labeled`](Self::labeled).
    #[must_use]
    pub fn label(&self) -> &str {
        &self.label
    }

    /// The allocator, for another relation to share.
    pub const fn allocator(&self) -> &VarAllocator<BabyBearUnit> {
        &self.allocator
    }

    /// [`VarAllocator::allocate_var`].
    pub fn allocate_var(&self) -> FieldVar {
        self.allocator.allocate_var()
    }

    /// [`VarAllocator::allocate_vars`].
    pub fn allocate_vars<const N: usize>(&self) -> [FieldVar; N] {
        self.allocator.allocate_vars()
    }

    /// [`VarAllocator::allocate_vars_vec`].
    pub fn allocate_vars_vec(&self, count: usize) -> Vec<FieldVar> {
        self.allocator.allocate_vars_vec(count)
    }

    /// [`VarAllocator::allocate_var_with`].
    pub fn allocate_var_with(&self, value: BabyBearUnit) -> FieldVar {
        self.allocator.allocate_var_with(value)
    }

    /// [`VarAllocator::allocate_vars_with`].
    pub fn allocate_vars_with<const N: usize>(&self, values: &[BabyBearUnit; N]) -> [FieldVar; N] {
        self.allocator.allocate_vars_with(values)
    }

    /// [`VarAllocator::allocate_vars_vec_with`].
    pub fn allocate_vars_vec_with(&self, values: &[BabyBearUnit]) -> Vec<FieldVar> {
        self.allocator.allocate_vars_vec_with(values)
    }

    /// [`VarAllocator::set_var`].
    pub fn set_var(&self, var: FieldVar, value: BabyBearUnit) {
        self.allocator.set_var(var, value);
    }

    /// [`VarAllocator::set_vars`].
    pub fn set_vars<Var, Val>(
        &self,
        vars: impl IntoIterator<Item = Var>,
        values: impl IntoIterator<Item = Val>,
    ) where
        Var: Borrow<FieldVar>,
        Val: Borrow<BabyBearUnit>,
    {
        self.allocator.set_vars(vars, values);
    }

    /// Records a query of `input`, and answers the new wires that are its output.
    ///
    /// # Panics
    ///
    /// Where there would be more than [`FieldVar::MAX_COUNT`] wires, and as
    /// [`add_permutation`](Self::add_permutation); the output then stays allocated.
    pub fn allocate_permutation(&self, input: &[FieldVar; WIDTH]) -> [FieldVar; WIDTH] {
        let output = self.allocate_vars();
        self.add_permutation(*input, output);
        output
    }

    /// Records that `input` becomes `output`; wires that aren't allocated are taken.
    ///
    /// # Panics
    ///
    /// Where an index is [`FieldVar::MAX_COUNT`] or more, or queries would take more than 2^30 words;
    /// nothing is recorded then.
    pub fn add_permutation(&self, input: [FieldVar; WIDTH], output: [FieldVar; WIDTH]) {
        let pair = QueryAnswerPair::new(input, output);
        let recorded = self.lists.lock().add_permutation(&pair);
        recorded.unwrap_or_else(|refused| refuse(refused));
    }

    /// States that the terms come to the image: `x * a + y * b + z`, where z has the weight 1.
    ///
    /// [`compile`](Self::compile) refuses it where a wire whose weight isn't 0 is neither in a query
    /// nor public.
    ///
    /// # Panics
    ///
    /// Where an index is [`FieldVar::MAX_COUNT`] or more, a weight or the image p or more, or equations
    /// would take more than 2^30 words; nothing is stated then.
    pub fn add_equation(&self, terms: impl Into<Sum<BabyBearUnit>>, image: BabyBearUnit) {
        let terms = terms.into();
        let stated = self.lists.lock().add_equation(terms.terms(), image);
        stated.unwrap_or_else(|refused| refuse(refused));
    }

    /// The queries so far.
    #[must_use]
    pub fn queries(&self) -> Vec<QueryAnswerPair<FieldVar, WIDTH>> {
        self.lists.lock().queries.clone()
    }

    /// The equations so far.
    #[must_use]
    pub fn equations(&self) -> Vec<LinearEquation<BabyBearUnit>> {
        LinearEquation::of_words(&self.lists.lock().equations)
    }

    /// [`VarAllocator::public_vars`].
    #[must_use]
    pub fn public_vars(&self) -> Vec<(FieldVar, BabyBearUnit)> {
        self.allocator.public_vars()
    }

    /// The gate: an instance of what is recorded, which goes on being as it is.
    ///
    /// Refused with 13 where a query, with 14 where an equation names a wire that isn't allocated;
    /// with 15 where an equation weights one, but by 0, that is neither in a query nor public.
    pub fn compile(&self) -> Result<PermutationInstance<BabyBearUnit, WIDTH>, InvalidRelation> {
        let snapshot = {
            let (lists, wires) = (self.lists.lock(), self.allocator.lock());
            Snapshot {
                slots: wires.slots().to_vec(),
                assigned: wires.assigned,
                queries: lists.queries.clone(),
                equations: lists.equations.clone(),
                stated: lists.record,
            }
        };
        snapshot.compile(&self.label)
    }
}

/// Asked through either function, it records a query, whose output are new wires.
impl<const WIDTH: usize> Permutation<WIDTH> for PermutationRelation<BabyBearUnit, WIDTH> {
    type U = FieldVar;

    fn permute(&self, state: &[FieldVar; WIDTH]) -> [FieldVar; WIDTH] {
        self.allocate_permutation(state)
    }

    fn permute_mut(&self, state: &mut [FieldVar; WIDTH]) {
        *state = self.allocate_permutation(state);
    }
}
