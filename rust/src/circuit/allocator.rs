//! Wires, and the allocator that hands them out.

use alloc::{sync::Arc, vec, vec::Vec};
use core::{array, borrow::Borrow, marker::PhantomData};

use super::{
    lock::{Guard, Lock},
    refuse,
};

pub use crate::FieldVar;
use crate::{BabyBearUnit, Refused, Relation, Set, UNASSIGNED};

/// What hands out wires, and holds the values of those that have one: the publics.
///
/// Handles are reference counted, so that relations of several widths can share their wires; see
/// [`PermutationRelation::with_allocator`](super::PermutationRelation::with_allocator).
pub struct VarAllocator<T> {
    wires: Arc<Lock<Wires>>,
    unit: PhantomData<T>,
}

/// The slots, and a record of width 1 without queries, by which the calls on wires go.
pub(super) struct Wires {
    record: Relation,
    /// At least one per wire.
    slots: Vec<u32>,
    /// How many wires have a value.
    pub assigned: usize,
}

impl Wires {
    fn new() -> Self {
        let mut slots = vec![UNASSIGNED; 8];
        let mut uses = [0; 8];
        let record = crate::new_relation(1, &mut slots, &mut uses);
        Self {
            record: record.accepted().unwrap_or_else(|refused| refuse(refused)),
            slots,
            assigned: 1,
        }
    }

    /// The slots of the wires.
    pub fn slots(&self) -> &[u32] {
        &self.slots[..self.record.vars as usize]
    }

    /// Grows the slots so that n wires more have one, where there may be so many. They are at least
    /// doubled: n wires that come one by one cost n times a constant.
    fn make_room(&mut self, n: u32) {
        let wanted = self.record.vars as usize + n as usize;
        if wanted > self.slots.len() && wanted <= FieldVar::MAX_COUNT {
            let len = wanted.max(2 * self.slots.len()).min(FieldVar::MAX_COUNT);
            self.slots.resize(len, UNASSIGNED);
        }
    }

    fn allocate(&mut self, n: u32) -> Result<FieldVar, Refused> {
        self.make_room(n);
        let answer = crate::allocate_vars(self.record, &mut self.slots, n);
        answer.accepted()?;
        self.record.vars = answer.relation.vars; // the rest is as it was
        Ok(answer.first)
    }

    fn set(&mut self, var: FieldVar, value: BabyBearUnit) -> Result<(), Refused> {
        let set = crate::set_var(self.record, &mut self.slots, var, value).accepted()?;
        self.assigned += usize::from(set == Set::Fresh);
        Ok(())
    }

    /// Sets a list of pairs; after a refusal with the wire that is at fault.
    fn set_list(
        &mut self,
        vars: &[FieldVar],
        values: &[BabyBearUnit],
    ) -> Result<(), (Refused, FieldVar)> {
        let tally = crate::set_vars(self.record, &mut self.slots, vars, values);
        self.assigned += tally.fresh as usize;
        let set = tally.accepted();
        set.map(drop)
            .map_err(|refused| (refused, vars[tally.accepted as usize]))
    }
}

/// The wires that have a value, with it, by their slots.
pub(super) fn public_vars(slots: &[u32]) -> Vec<(FieldVar, BabyBearUnit)> {
    let held = slots.iter().zip(0..);
    held.filter(|&(&slot, _)| slot != UNASSIGNED)
        .map(|(&slot, index)| (FieldVar(index), BabyBearUnit(slot)))
        .collect()
}

impl<T> Clone for VarAllocator<T> {
    fn clone(&self) -> Self {
        Self {
            wires: Arc::clone(&self.wires),
            unit: PhantomData,
        }
    }
}

impl Default for VarAllocator<BabyBearUnit> {
    fn default() -> Self {
        Self::new()
    }
}

/// Where a set is refused.
#[cold]
fn refuse_set(refused: Refused, var: FieldVar) -> ! {
    match refused.number() {
        3 | 7 => panic!("unallocated variable {}", var.index()),
        8 => panic!("conflicting assignment for variable {}", var.index()),
        _ => refuse(refused),
    }
}

/// Where wires are refused.
#[cold]
fn refuse_wires(refused: Refused) -> ! {
    if refused.number() == 5 {
        panic!(
            "variable count exceeds supported maximum {}",
            FieldVar::MAX_COUNT
        )
    }
    refuse(refused)
}

impl VarAllocator<BabyBearUnit> {
    /// An allocator with [`FieldVar::ZERO`] alone, which carries 0.
    #[must_use]
    pub fn new() -> Self {
        Self {
            wires: Arc::new(Lock::new(Wires::new())),
            unit: PhantomData,
        }
    }

    pub(super) fn lock(&self) -> Guard<'_, Wires> {
        self.wires.lock()
    }

    /// The first of `count` new wires.
    fn allocate(&self, count: usize) -> FieldVar {
        // So many are refused as any larger number is.
        let count = u32::try_from(count).unwrap_or(u32::MAX);
        let allocated = self.lock().allocate(count);
        allocated.unwrap_or_else(|refused| refuse_wires(refused))
    }

    /// Sets as many wires as there are values.
    fn set_list(&self, vars: &[FieldVar], values: &[BabyBearUnit]) {
        let set = self.lock().set_list(vars, values);
        set.unwrap_or_else(|(refused, var)| refuse_set(refused, var));
    }

    /// Allocates a wire, without a value.
    ///
    /// # Panics
    ///
    /// Where [`FieldVar::MAX_COUNT`] wires are allocated.
    pub fn allocate_var(&self) -> FieldVar {
        self.allocate(1)
    }

    /// Allocates `N` wires: `let [x, y] = allocator.allocate_vars()`.
    ///
    /// # Panics
    ///
    /// As [`allocate_vars_vec`](Self::allocate_vars_vec).
    pub fn allocate_vars<const N: usize>(&self) -> [FieldVar; N] {
        let first = self.allocate(N);
        array::from_fn(|i| first.nth(i as u32))
    }

    /// Allocates `count` wires.
    ///
    /// # Panics
    ///
    /// Where there would be more than [`FieldVar::MAX_COUNT`]; none is allocated then.
    pub fn allocate_vars_vec(&self, count: usize) -> Vec<FieldVar> {
        let total = self.vars_count().checked_add(count);
        total.expect("variable count overflow");
        let first = self.allocate(count);
        (0..count as u32).map(|i| first.nth(i)).collect()
    }

    /// Allocates a wire and sets it.
    pub fn allocate_var_with(&self, value: BabyBearUnit) -> FieldVar {
        let var = self.allocate_var();
        self.set_var(var, value);
        var
    }

    /// Allocates `N` wires and sets them.
    pub fn allocate_vars_with<const N: usize>(&self, values: &[BabyBearUnit; N]) -> [FieldVar; N] {
        let vars = self.allocate_vars();
        self.set_list(&vars, values);
        vars
    }

    /// Allocates a wire for each value and sets it.
    pub fn allocate_vars_vec_with(&self, values: &[BabyBearUnit]) -> Vec<FieldVar> {
        let vars = self.allocate_vars_vec(values.len());
        self.set_list(&vars, values);
        vars
    }

    /// How many wires are allocated, [`FieldVar::ZERO`] among them.
    #[must_use]
    pub fn vars_count(&self) -> usize {
        self.lock().record.vars as usize
    }

    /// Is the wire allocated?
    #[must_use]
    pub fn is_allocated(&self, var: FieldVar) -> bool {
        crate::is_allocated(self.lock().record, var).yes
    }

    /// Sets a wire to a value, which makes it public; the same value again is accepted.
    ///
    /// # Panics
    ///
    /// Where the wire isn't allocated, or has another value; and where the value is p or more.
    pub fn set_var(&self, var: FieldVar, value: BabyBearUnit) {
        let set = self.lock().set(var, value);
        set.unwrap_or_else(|refused| refuse_set(refused, var));
    }

    /// Sets each wire to the value in the same place.
    ///
    /// # Panics
    ///
    /// At the first pair at which [`set_var`](Self::set_var) does, or after all pairs where one list
    /// is longer than the other. Earlier pairs stay set.
    pub fn set_vars<Var, Val>(
        &self,
        vars: impl IntoIterator<Item = Var>,
        values: impl IntoIterator<Item = Val>,
    ) where
        Var: Borrow<FieldVar>,
        Val: Borrow<BabyBearUnit>,
    {
        let (mut vars, mut values) = (vars.into_iter(), values.into_iter());
        loop {
            match (vars.next(), values.next()) {
                (Some(var), Some(value)) => self.set_var(*var.borrow(), *value.borrow()),
                (None, None) => return,
                _ => panic!("set_vars: variables and values differ in length"),
            }
        }
    }

    /// The value of a wire, where it has one.
    #[must_use]
    pub fn value(&self, var: FieldVar) -> Option<BabyBearUnit> {
        let wires = self.lock();
        let value = crate::value_of(wires.record, &wires.slots, var);
        value.some.then_some(value.value)
    }

    /// The wires that have a value, with it, in index order.
    #[must_use]
    pub fn public_vars(&self) -> Vec<(FieldVar, BabyBearUnit)> {
        public_vars(self.lock().slots())
    }
}
