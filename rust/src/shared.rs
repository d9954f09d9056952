//! Relations on one allocator: up to 8, of any widths, over one slot store and one wire count. In
//! each call, a pointer and the length after it are those of one slice.
//!
//! They are numbered from 0 as they are opened. Each has queries, use counts and equations of its
//! own, and a quota: how many wires it may allocate and mint. A wire that one of them sets is set
//! for all. A call is handed the allocator, the relation's number (`index`) and the relation's
//! record, as the last calls gave them back; it is the call of the same name without `_on`, with
//! the allocator's wire count as the relation's. Where nothing is opened, 2 isn't asked of the wire
//! count.

use crate::{
    instance::compiled, sys, AllocatedOn, BabyBearUnit, Compiled, FieldVar, Flag, Held, Opened,
    RecordedOn, SetAnswer, SharedRelation, Tally, TicketTally, Value, VarAllocator, Weighted,
};

/// Opens a relation of that width and quota, and answers its number: how many were opened before.
/// The first opening does to slots and wire count what [`new_relation`](crate::new_relation) does,
/// a later one leaves both; each fills the relation's own use store with 0. The quota may be any
/// number.
///
/// Questions 1, 2, 42, 6, 10. Lent: slots, at least one word, and a word per wire; uses, exactly a
/// word per slot. A refusal leaves both as they were.
///
/// ```
/// let (mut slots, mut uses) = ([0; 8], [[0; 8]; 2]);
/// let none = sfr::VarAllocator::default();
/// let (premix, plant, one) = sfr::with_allocator(none, 1, 2, &mut slots, &mut uses[0]).accepted()?;
/// let (salt, plant, two) = sfr::with_allocator(plant, 3, 5, &mut slots, &mut uses[1]).accepted()?;
/// assert_eq!((premix, salt), (0, 1));
/// let (var, plant, one) = sfr::allocate_vars_on(plant, premix, one, &mut slots, 2).accepted()?;
/// assert_eq!(var, sfr::FieldVar(1));
/// let seven = sfr::BabyBearUnit(7);
/// let set = sfr::set_var_on(plant, salt, two, &mut slots, var, seven).accepted()?; // anybody's wire
/// assert_eq!(set, sfr::Set::Fresh);
/// let set = sfr::set_var_on(plant, premix, one, &mut slots, var, seven).accepted()?; // its own
/// assert_eq!(set, sfr::Set::Repeated);
/// let refused = sfr::allocate_vars_on(plant, premix, one, &mut slots, 1).accepted().unwrap_err();
/// assert_eq!(refused.number(), 43); // one has obtained its two wires
/// # Ok::<(), sfr::Refused>(())
/// ```
pub fn with_allocator(
    allocator: VarAllocator,
    width: u32,
    quota: u32,
    slots: &mut [u32],
    uses: &mut [u32],
) -> Opened {
    // SAFETY: see the head of this file.
    unsafe {
        sys::sfr_with_allocator(
            allocator,
            width,
            quota,
            slots.as_mut_ptr(),
            slots.len(),
            uses.as_mut_ptr(),
            uses.len(),
        )
    }
}

/// Allocates the next n wires, whose slots become F, counted among those that the relation
/// obtained, and answers the first: the wire count before the call. n may be 0.
///
/// Questions 1, 2, 42, 5, 43, 6. Lent: slots, a word per wire with the new ones. A refusal leaves
/// them and the records as they were.
pub fn allocate_vars_on(
    allocator: VarAllocator,
    index: u32,
    rel: SharedRelation,
    slots: &mut [u32],
    n: u32,
) -> AllocatedOn {
    let (words, len) = (slots.as_mut_ptr(), slots.len());
    // SAFETY: see the head of this file.
    unsafe { sys::sfr_allocate_vars_on(allocator, index, rel, words, len, n) }
}

/// Sets a wire to a value, whoever allocated it; the same value again is accepted, as repeated,
/// whoever set it first.
///
/// Questions 1, 2, 42, 3, 4, 7, 8. Lent: slots, a word per wire. A refusal leaves them as they
/// were.
pub fn set_var_on(
    allocator: VarAllocator,
    index: u32,
    rel: SharedRelation,
    slots: &mut [u32],
    var: FieldVar,
    value: BabyBearUnit,
) -> SetAnswer {
    let (words, len) = (slots.as_mut_ptr(), slots.len());
    // SAFETY: see the head of this file.
    unsafe { sys::sfr_set_var_on(allocator, index, rel, words, len, var, value) }
}

/// Set list: sets the pairs in order, up to the shorter list's length.
///
/// Questions 1, 2, 42; then 3, 4, 7, 8 pair by pair; after the common pairs 9. Lent: slots, a word
/// per wire. A refusal leaves the accepted pairs set, and else everything as it was.
pub fn set_vars_on(
    allocator: VarAllocator,
    index: u32,
    rel: SharedRelation,
    slots: &mut [u32],
    vars: &[FieldVar],
    values: &[BabyBearUnit],
) -> Tally {
    // SAFETY: see the head of this file.
    unsafe {
        sys::sfr_set_vars_on(
            allocator,
            index,
            rel,
            slots.as_mut_ptr(),
            slots.len(),
            vars.as_ptr(),
            vars.len(),
            values.as_ptr(),
            values.len(),
        )
    }
}

/// Tickets: sets a wire for each line of the text, in order; a line is as for
/// [`set_tickets`](crate::set_tickets).
///
/// Questions 1, 2, 42; then 40, 3, 41, 7, 8 line by line. Lent: slots, a word per wire; the text
/// may have any length. A refusal leaves the accepted lines set, and else everything as it was.
pub fn set_tickets_on(
    allocator: VarAllocator,
    index: u32,
    rel: SharedRelation,
    slots: &mut [u32],
    text: &[u8],
) -> TicketTally {
    // SAFETY: see the head of this file.
    unsafe {
        sys::sfr_set_tickets_on(
            allocator,
            index,
            rel,
            slots.as_mut_ptr(),
            slots.len(),
            text.as_ptr(),
            text.len(),
        )
    }
}

/// Records a query, and counts its cells; unallocated wires are taken.
///
/// Questions 1, 2, 42, 9, 3, 11 of the counts, 10. Lent: slots, a word per wire; the relation's
/// queries, 2w words for each with the new one, and its uses, exactly a word per slot; w inputs and
/// w outputs. A refusal leaves the queries, the uses and the records as they were.
#[allow(clippy::too_many_arguments)]
pub fn add_permutation_on(
    allocator: VarAllocator,
    index: u32,
    rel: SharedRelation,
    slots: &[u32],
    queries: &mut [FieldVar],
    uses: &mut [u32],
    input: &[FieldVar],
    output: &[FieldVar],
) -> RecordedOn {
    // SAFETY: see the head of this file.
    unsafe {
        sys::sfr_add_permutation_on(
            allocator,
            index,
            rel,
            slots.as_ptr(),
            slots.len(),
            queries.as_mut_ptr(),
            queries.len(),
            uses.as_mut_ptr(),
            uses.len(),
            input.as_ptr(),
            input.len(),
            output.as_ptr(),
            output.len(),
        )
    }
}

/// Mint: allocates w outputs, answered as by [`allocate_vars_on`], and records the query, or does
/// neither: a refused mint takes nothing from the quota.
///
/// Questions 1, 2, 42, 9, 3, 5, 43, 6, 11 of the counts, 10. Lent: slots, a word per wire with the w
/// new ones; the relation's queries, 2w words for each with the new one, and its uses, exactly a
/// word per slot; w inputs. A refusal leaves the three stores and the records as they were.
pub fn allocate_permutation_on(
    allocator: VarAllocator,
    index: u32,
    rel: SharedRelation,
    slots: &mut [u32],
    queries: &mut [FieldVar],
    uses: &mut [u32],
    input: &[FieldVar],
) -> AllocatedOn {
    // SAFETY: see the head of this file.
    unsafe {
        sys::sfr_allocate_permutation_on(
            allocator,
            index,
            rel,
            slots.as_mut_ptr(),
            slots.len(),
            queries.as_mut_ptr(),
            queries.len(),
            uses.as_mut_ptr(),
            uses.len(),
            input.as_ptr(),
            input.len(),
        )
    }
}

/// Withdraws query i of the relation, counted from 0: later ones move down by one, and the 2w words
/// freed at their end become 0. Its cells are taken off the counts; wires that it minted stay
/// allocated, and obtained.
///
/// Questions 1, 2, 42, 45, 11 of the counts, 10. Lent: slots, a word per wire; the relation's
/// queries, 2w words for each, and its uses, exactly a word per slot. A refusal leaves the queries,
/// the uses and the records as they were.
pub fn withdraw_query_on(
    allocator: VarAllocator,
    index: u32,
    rel: SharedRelation,
    slots: &[u32],
    queries: &mut [FieldVar],
    uses: &mut [u32],
    i: u32,
) -> RecordedOn {
    // SAFETY: see the head of this file.
    unsafe {
        sys::sfr_withdraw_query_on(
            allocator,
            index,
            rel,
            slots.as_ptr(),
            slots.len(),
            queries.as_mut_ptr(),
            queries.len(),
            uses.as_mut_ptr(),
            uses.len(),
            i,
        )
    }
}

/// States that weight times value, summed over the terms, is the image. The terms are kept in
/// order, repeats and zero weights too.
///
/// Questions 1, 2, 42, 3 over all wires, 4 over all weights and the image, 10. Lent: the relation's
/// equations, the used words and 2 + 2t more for t terms. A refusal leaves them and the records as
/// they were.
pub fn add_equation_on(
    allocator: VarAllocator,
    index: u32,
    rel: SharedRelation,
    equations: &mut [u32],
    terms: &[Weighted],
    image: BabyBearUnit,
) -> RecordedOn {
    // SAFETY: see the head of this file.
    unsafe {
        sys::sfr_add_equation_on(
            allocator,
            index,
            rel,
            equations.as_mut_ptr(),
            equations.len(),
            terms.as_ptr(),
            terms.len(),
            image,
        )
    }
}

/// Withdraws equation i of the relation, counted from 0: later ones move down by one, and the words
/// freed at their end become 0.
///
/// Questions 1, 2, 42, 45, 11 of the equations' end. Lent: the relation's equations, the used words.
/// A refusal leaves them and the records as they were.
pub fn withdraw_equation_on(
    allocator: VarAllocator,
    index: u32,
    rel: SharedRelation,
    equations: &mut [u32],
    i: u32,
) -> RecordedOn {
    let (words, len) = (equations.as_mut_ptr(), equations.len());
    // SAFETY: see the head of this file.
    unsafe { sys::sfr_withdraw_equation_on(allocator, index, rel, words, len, i) }
}

/// The value of a wire: its slot, none where that is F or the wire isn't allocated.
///
/// Questions 1, 2, 42, 3. Lent: slots, a word per wire.
pub fn value_of_on(
    allocator: VarAllocator,
    index: u32,
    rel: SharedRelation,
    slots: &[u32],
    var: FieldVar,
) -> Value {
    // SAFETY: see the head of this file.
    unsafe { sys::sfr_value_of_on(allocator, index, rel, slots.as_ptr(), slots.len(), var) }
}

/// Is the wire allocated, by whichever relation?
///
/// Questions 1, 2 of the allocator, 42, 3.
pub fn is_allocated_on(
    allocator: VarAllocator,
    index: u32,
    rel: SharedRelation,
    var: FieldVar,
) -> Flag {
    sys::sfr_is_allocated_on(allocator, index, rel, var)
}

/// The gate: an instance of the relation, with all wires and everybody's sets, and the relation's
/// own queries, equations and use counts. Its publics are the assigned wires in index order. Later
/// calls don't change the instance.
///
/// Questions 1, 2, 42, 11, 10, 16, 12, 13; then term by term 14, 15; 13 and 15 go by the use counts
/// and the stray count, whatever they are. Lent: label, slots, and the relation's queries, equations
/// and uses, exactly a word per slot, as the calls left them; publics, 2 words per assigned wire,
/// which become the pairs and then 0 to their end; scratch, a word per wire. A refusal leaves
/// publics and scratch all 0.
///
/// ```
/// let (mut slots, mut uses) = ([0; 4], [[0; 4]; 2]);
/// let none = sfr::VarAllocator::default();
/// let (premix, plant, one) = sfr::with_allocator(none, 1, 2, &mut slots, &mut uses[0]).accepted()?;
/// let (salt, plant, two) = sfr::with_allocator(plant, 1, 1, &mut slots, &mut uses[1]).accepted()?;
/// let held = sfr::Held { label: b"", slots: &slots, queries: &[], equations: &[], uses: &uses[0] };
/// let (publics, scratch) = (&mut [0; 8], &mut [0; 4]);
/// let parts = sfr::compile_on(plant, premix, one, held, publics, scratch).accepted()?;
/// // The other relation goes on.
/// let (var, ..) = sfr::allocate_vars_on(plant, salt, two, &mut slots, 1).accepted()?;
/// assert_eq!((var.0, parts.instance.vars), (1, 1));
/// # Ok::<(), sfr::Refused>(())
/// ```
pub fn compile_on<'a>(
    allocator: VarAllocator,
    index: u32,
    rel: SharedRelation,
    held: Held<'a, '_>,
    publics: &'a mut [u32],
    scratch: &mut [u32],
) -> Compiled<'a> {
    // SAFETY: see the head of this file.
    let answer = unsafe {
        sys::sfr_compile_on(
            allocator,
            index,
            rel,
            held.label.as_ptr(),
            held.label.len(),
            held.slots.as_ptr(),
            held.slots.len(),
            held.queries.as_ptr(),
            held.queries.len(),
            held.equations.as_ptr(),
            held.equations.len(),
            held.uses.as_ptr(),
            held.uses.len(),
            publics.as_mut_ptr(),
            publics.len(),
            scratch.as_mut_ptr(),
            scratch.len(),
        )
    };
    compiled(answer, held, publics)
}
