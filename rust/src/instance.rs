//! Instances, and the check. In each call, a pointer and the length after it are those of one slice.

use crate::{
    sys, BabyBearUnit, Compiled, FieldVar, Held, Instance, InstanceAnswer, InstanceRead, Outcome,
    Parameters, Parts, Relation, Stores, Value, Written,
};

/// The gate: an instance of the relation, whose publics are the assigned wires in index order.
///
/// Questions 1, 2, 11, 10, 16, 12, 13; then term by term 14, 15; 13 and 15 go by the use counts and
/// the stray count, whatever they are. Lent: what the relation holds, as its calls left it; publics,
/// 2 words per assigned wire, which become the pairs and then 0 to their end; scratch, a word per
/// wire. A refusal leaves publics and scratch all 0.
pub fn compile<'a>(
    rel: Relation,
    held: Held<'a, '_>,
    publics: &'a mut [u32],
    scratch: &mut [u32],
) -> Compiled<'a> {
    // SAFETY: see the head of this file.
    let answer = unsafe {
        sys::sfr_compile(
            rel,
            held.label.as_ptr(),
            held.label.len(),
            held.slots.as_ptr(),
            held.slots.len(),
            held.queries.as_ptr(),
            held.queries.len(),
            held.equations.as_ptr(),
            held.equations.len(),
            held.uses.as_ptr(),
            held.uses.len(),
            publics.as_mut_ptr(),
            publics.len(),
            scratch.as_mut_ptr(),
            scratch.len(),
        )
    };
    compiled(answer, held, publics)
}

/// The gate's answer with the parts as they lie in what was lent.
pub(crate) fn compiled<'a>(
    answer: InstanceAnswer,
    held: Held<'a, '_>,
    publics: &'a [u32],
) -> Compiled<'a> {
    let parts = Parts {
        instance: answer.instance,
        label: held.label,
        publics,
        queries: held.queries,
        equations: held.equations,
    };
    Compiled {
        number: answer.number,
        parts,
    }
}

/// Writes an instance, gated or not, as SFRI: 33 bytes, the label's, 8 per public, 8w per query
/// and 4 per used equation word.
///
/// Questions 1, 2, 11, 10. Lent: the instance's parts; `out`, as many bytes as are written. A
/// refusal leaves `out` as it was.
pub fn instance_to_bytes(parts: Parts<'_>, out: &mut [u8]) -> Written {
    // SAFETY: see the head of this file.
    unsafe {
        sys::sfr_instance_to_bytes(
            parts.instance,
            parts.label.as_ptr(),
            parts.label.len(),
            parts.publics.as_ptr(),
            parts.publics.len(),
            parts.queries.as_ptr(),
            parts.queries.len(),
            parts.equations.as_ptr(),
            parts.equations.len(),
            out.as_mut_ptr(),
            out.len(),
        )
    }
}

/// A read, strict or plain.
fn read_with<'a>(
    strict: bool,
    width: u32,
    bytes: &'a [u8],
    stores: Stores<'a>,
    scratch: &mut [u32],
) -> InstanceRead<'a> {
    let read = if strict {
        sys::sfr_strict_instance_from_bytes
    } else {
        sys::sfr_instance_from_bytes
    };
    // SAFETY: see the head of this file.
    let answer = unsafe {
        read(
            width,
            bytes.as_ptr(),
            bytes.len(),
            stores.publics.as_mut_ptr(),
            stores.publics.len(),
            stores.queries.as_mut_ptr(),
            stores.queries.len(),
            stores.equations.as_mut_ptr(),
            stores.equations.len(),
            scratch.as_mut_ptr(),
            scratch.len(),
        )
    };
    let parts = Parts {
        instance: answer.instance,
        label: &bytes[answer.label.at..][..answer.label.len],
        publics: stores.publics,
        queries: stores.queries,
        equations: stores.equations,
    };
    InstanceRead {
        number: answer.number,
        parts,
    }
}

/// Reads SFRI of that width.
///
/// Questions 1, 2; field by field 20 and 21 to 25; per item 20 for each word, 3 for a wire and 4
/// for a unit, then 10; 27; 16, 12, 13; term by term 14, 15; last 28. Lent: the bytes, exactly as
/// written; three stores, which become the words read and then 0 to their end; scratch, a word per
/// wire. A refusal leaves the three stores and scratch all 0.
pub fn instance_from_bytes<'a>(
    width: u32,
    bytes: &'a [u8],
    stores: Stores<'a>,
    scratch: &mut [u32],
) -> InstanceRead<'a> {
    read_with(false, width, bytes, stores, scratch)
}

/// Reads SFRI of that width that lists wire 0 with value 0, as provers insist.
///
/// Questions as [`instance_from_bytes`], and 46 directly after 27: has the file wires, and does it
/// list wire 0 with value 0? The lists that are lent, and what a refusal leaves, are the same too.
pub fn strict_instance_from_bytes<'a>(
    width: u32,
    bytes: &'a [u8],
    stores: Stores<'a>,
    scratch: &mut [u32],
) -> InstanceRead<'a> {
    read_with(true, width, bytes, stores, scratch)
}

/// The value of a wire in held publics: that of the last pair that lists it, if any does.
///
/// Questions 1, 2, 3. Lent: publics, 2 words per pair.
pub fn public_value(ins: Instance, publics: &[u32], var: FieldVar) -> Value {
    // SAFETY: see the head of this file.
    unsafe { sys::sfr_public_value(ins, publics.as_ptr(), publics.len(), var) }
}

/// The heading: the very label, or where that has no bytes the very name lent with the parameters.
/// No questions.
#[must_use]
pub fn heading<'a>(label: &'a [u8], name: &'a [u8]) -> &'a [u8] {
    // SAFETY: see the head of this file.
    let heading =
        unsafe { sys::sfr_heading(label.as_ptr(), label.len(), name.as_ptr(), name.len()) };
    let part = if heading.named { name } else { label };
    &part[..heading.len]
}

/// The check: is the trace a witness of the instance, gated or not, under the permutation of these
/// parameters? Yes is 0.
///
/// Questions 1, 2, 17, 11, 16, 31; 36 of the publics; per step 32, then per cell 36, 33; per
/// equation 34 term by term, then 35. Where publics list a wire twice, the later value counts.
/// Lent: the instance's parts; the trace, 2w units per step; scratch, a word per wire. Scratch is
/// all 0 afterwards, the rest as it was.
pub fn is_witness_valid(
    parts: Parts<'_>,
    steps: u32,
    trace: &[BabyBearUnit],
    params: Parameters<'_>,
    scratch: &mut [u32],
) -> Outcome {
    // SAFETY: see the head of this file.
    unsafe {
        sys::sfr_is_witness_valid(
            parts.instance,
            parts.label.as_ptr(),
            parts.label.len(),
            parts.publics.as_ptr(),
            parts.publics.len(),
            parts.queries.as_ptr(),
            parts.queries.len(),
            parts.equations.as_ptr(),
            parts.equations.len(),
            steps,
            trace.as_ptr(),
            trace.len(),
            params.rounds,
            params.words.as_ptr(),
            params.words.len(),
            scratch.as_mut_ptr(),
            scratch.len(),
        )
    }
}
