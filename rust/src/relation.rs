//! Calls on a relation. In each, a pointer and the length after it are those of one slice.

use crate::{
    sys, Allocated, BabyBearUnit, FieldVar, Flag, Outcome, Recorded, Relation, SetAnswer, Tally,
    TicketTally, Value, Weighted,
};

/// Fresh: a relation of that width with wire 0 alone, whose slot becomes 0, and no queries: its
/// use counts become 0.
///
/// Questions 1, 2, 6, 10. Lent: slots, at least one word; uses, exactly a word per slot. A refusal
/// leaves both as they were.
pub fn new_relation(width: u32, slots: &mut [u32], uses: &mut [u32]) -> Recorded {
    let (words, len) = (slots.as_mut_ptr(), slots.len());
    // SAFETY: see the head of this file.
    unsafe { sys::sfr_new_relation(width, words, len, uses.as_mut_ptr(), uses.len()) }
}

/// Allocates the next n wires, whose slots become F, and answers the first: the wire count
/// before the call. n may be 0.
///
/// Questions 1, 2, 5, 6. Lent: slots, a word per wire with the new ones. A refusal leaves them
/// and the record as they were.
pub fn allocate_vars(rel: Relation, slots: &mut [u32], n: u32) -> Allocated {
    // SAFETY: see the head of this file.
    unsafe { sys::sfr_allocate_vars(rel, slots.as_mut_ptr(), slots.len(), n) }
}

/// Sets a wire to a value; the same value again is accepted, as repeated.
///
/// Questions 1, 2, 3, 4, 7, 8. Lent: slots, a word per wire. A refusal leaves them as they were.
pub fn set_var(rel: Relation, slots: &mut [u32], var: FieldVar, value: BabyBearUnit) -> SetAnswer {
    // SAFETY: see the head of this file.
    unsafe { sys::sfr_set_var(rel, slots.as_mut_ptr(), slots.len(), var, value) }
}

/// Set list: sets the pairs in order, up to the shorter list's length.
///
/// Questions 1, 2; then 3, 4, 7, 8 pair by pair; after the common pairs 9. Lent: slots, a word
/// per wire. A refusal leaves the accepted pairs set, and else everything as it was.
pub fn set_vars(
    rel: Relation,
    slots: &mut [u32],
    vars: &[FieldVar],
    values: &[BabyBearUnit],
) -> Tally {
    // SAFETY: see the head of this file.
    unsafe {
        sys::sfr_set_vars(
            rel,
            slots.as_mut_ptr(),
            slots.len(),
            vars.as_ptr(),
            vars.len(),
            values.as_ptr(),
            values.len(),
        )
    }
}

/// Tickets: sets a wire for each line of the text, in order.
///
/// A line is 24 bytes: a wire in 10 columns, a space, grams in 12, a newline. Both numbers are
/// decimal and right-justified, with blanks before them; none but 0 itself starts with 0. The
/// wire gets the grams in steps of 50 g, halves up: 25 g is 1 step.
///
/// Questions 1, 2; then 40, 3, 41, 7, 8 line by line. Lent: slots, a word per wire; the text may
/// have any length. A refusal leaves the accepted lines set, and else everything as it was.
pub fn set_tickets(rel: Relation, slots: &mut [u32], text: &[u8]) -> TicketTally {
    let (words, len) = (slots.as_mut_ptr(), slots.len());
    // SAFETY: see the head of this file.
    unsafe { sys::sfr_set_tickets(rel, words, len, text.as_ptr(), text.len()) }
}

/// Records a query, and counts its cells; unallocated wires are taken.
///
/// Questions 1, 2, 9, 3, 11 of the counts, 10. Lent: slots, a word per wire; queries, 2w words for
/// each with the new one; uses, exactly a word per slot; w inputs and w outputs. A refusal leaves
/// the queries, the uses and the record as they were.
pub fn add_permutation(
    rel: Relation,
    slots: &[u32],
    queries: &mut [FieldVar],
    uses: &mut [u32],
    input: &[FieldVar],
    output: &[FieldVar],
) -> Recorded {
    // SAFETY: see the head of this file.
    unsafe {
        sys::sfr_add_permutation(
            rel,
            slots.as_ptr(),
            slots.len(),
            queries.as_mut_ptr(),
            queries.len(),
            uses.as_mut_ptr(),
            uses.len(),
            input.as_ptr(),
            input.len(),
            output.as_ptr(),
            output.len(),
        )
    }
}

/// Mint: allocates w outputs, answered as by [`allocate_vars`], and records the query, or does
/// neither.
///
/// Questions 1, 2, 9, 3, 5, 6, 11 of the counts, 10. Lent: slots, a word per wire with the w new
/// ones; queries, 2w words for each with the new one; uses, exactly a word per slot; w inputs. A
/// refusal leaves the three stores and the record as they were.
pub fn allocate_permutation(
    rel: Relation,
    slots: &mut [u32],
    queries: &mut [FieldVar],
    uses: &mut [u32],
    input: &[FieldVar],
) -> Allocated {
    // SAFETY: see the head of this file.
    unsafe {
        sys::sfr_allocate_permutation(
            rel,
            slots.as_mut_ptr(),
            slots.len(),
            queries.as_mut_ptr(),
            queries.len(),
            uses.as_mut_ptr(),
            uses.len(),
            input.as_ptr(),
            input.len(),
        )
    }
}

/// Withdraws query i, counted from 0: later ones move down by one, and the 2w words freed at their
/// end become 0. Its cells are taken off the counts; wires that it minted stay allocated.
///
/// Questions 1, 2, 45, 11 of the counts, 10. Lent: slots, a word per wire; queries, 2w words for
/// each; uses, exactly a word per slot. A refusal leaves the queries, the uses and the record as
/// they were.
///
/// ```
/// use sfr::FieldVar;
/// let (slots, queries, uses) = (&mut [0; 4], &mut [FieldVar::ZERO; 4], &mut [0; 4]);
/// let rel = sfr::new_relation(1, slots, uses).accepted()?;
/// let (one, rel) = sfr::allocate_permutation(rel, slots, queries, uses, &[FieldVar::ZERO]).accepted()?;
/// let rel = sfr::add_permutation(rel, slots, queries, uses, &[one], &[FieldVar(7)]).accepted()?;
/// assert_eq!(queries.map(|var| var.0), [0, 1, 1, 7]);
/// assert_eq!((*uses, rel.stray), ([1, 2, 0, 0], 1)); // 7 has no slot
/// let rel = sfr::withdraw_query(rel, slots, queries, uses, 0).accepted()?;
/// assert_eq!(queries.map(|var| var.0), [1, 7, 0, 0]);
/// assert_eq!((*uses, rel.stray), ([0, 1, 0, 0], 1));
/// let refused = sfr::withdraw_query(rel, slots, queries, uses, 1).accepted().unwrap_err();
/// assert_eq!(refused.number(), 45); // one query is left, and its number is 0
/// # Ok::<(), sfr::Refused>(())
/// ```
pub fn withdraw_query(
    rel: Relation,
    slots: &[u32],
    queries: &mut [FieldVar],
    uses: &mut [u32],
    i: u32,
) -> Recorded {
    // SAFETY: see the head of this file.
    unsafe {
        sys::sfr_withdraw_query(
            rel,
            slots.as_ptr(),
            slots.len(),
            queries.as_mut_ptr(),
            queries.len(),
            uses.as_mut_ptr(),
            uses.len(),
            i,
        )
    }
}

/// States that weight times value, summed over the terms, is the image. The terms are kept in
/// order, repeats and zero weights too.
///
/// Questions 1, 2, 3 over all wires, 4 over all weights and the image, 10. Lent: equations, the
/// used words and 2 + 2t more for t terms. A refusal leaves them and the record as they were.
pub fn add_equation(
    rel: Relation,
    equations: &mut [u32],
    terms: &[Weighted],
    image: BabyBearUnit,
) -> Recorded {
    // SAFETY: see the head of this file.
    unsafe {
        sys::sfr_add_equation(
            rel,
            equations.as_mut_ptr(),
            equations.len(),
            terms.as_ptr(),
            terms.len(),
            image,
        )
    }
}

/// Withdraws equation i, counted from 0: later ones move down by one, and the words freed at their
/// end become 0.
///
/// Questions 1, 2, 45, 11 of the equations' end. Lent: equations, the used words. A refusal leaves
/// them and the record as they were.
pub fn withdraw_equation(rel: Relation, equations: &mut [u32], i: u32) -> Recorded {
    // SAFETY: see the head of this file.
    unsafe { sys::sfr_withdraw_equation(rel, equations.as_mut_ptr(), equations.len(), i) }
}

/// Multiplies every weight of the list by the factor; by 0 too, which keeps the terms.
///
/// Questions 3 over all wires, 4 over all weights and the factor. A refusal leaves the list as it
/// was.
pub fn scale(terms: &mut [Weighted], factor: BabyBearUnit) -> Outcome {
    // SAFETY: see the head of this file.
    unsafe { sys::sfr_scale(terms.as_mut_ptr(), terms.len(), factor) }
}

/// The value of a wire: its slot, none where that is F or the wire isn't allocated.
///
/// Questions 1, 2, 3. Lent: slots, a word per wire.
pub fn value_of(rel: Relation, slots: &[u32], var: FieldVar) -> Value {
    // SAFETY: see the head of this file.
    unsafe { sys::sfr_value_of(rel, slots.as_ptr(), slots.len(), var) }
}

/// Is the wire allocated?
///
/// Questions 1, 2 of the wire count, 3.
pub fn is_allocated(rel: Relation, var: FieldVar) -> Flag {
    sys::sfr_is_allocated(rel, var)
}
