//! Permutations by their parameters, and traces. In each call, a pointer and the length after it are
//! those of one slice.

use crate::{sys, BabyBearUnit, Outcome, Parameters, Trace, TraceAnswer, Written};

/// Turns a state in place: the permutation of these parameters, evaluated once.
///
/// Questions 1, 2, 9, 4, 17. Lent: exactly R(w+1)+w·w words of parameters, and w units of the state. A
/// refusal leaves the state as it was.
pub fn permute(width: u32, params: Parameters<'_>, state: &mut [BabyBearUnit]) -> Outcome {
    // SAFETY: see the head of this file.
    unsafe {
        sys::sfr_permute(
            width,
            params.rounds,
            params.words.as_ptr(),
            params.words.len(),
            state.as_mut_ptr(),
            state.len(),
        )
    }
}

/// The state behind a digest: the one input that the permutation turns into `output`, put into
/// `input`.
///
/// Questions 1, 2, 9 of both lists, 4 of the output, 17, 44; where the others say yes, 44 exactly
/// where two different inputs share an output. Lent: exactly R(w+1)+w·w words of parameters, w units
/// of the output, and w of the input, which may hold anything before. A refusal leaves the input as
/// it was.
///
/// ```
/// use sfr::{BabyBearUnit, Parameters, PRIME};
/// let params = Parameters { rounds: 1, words: &[0, PRIME - 1, 5] }; // x becomes 5(x - 1)^7
/// let mut input = [BabyBearUnit(7)];
/// sfr::permute_inverse(1, params, &[BabyBearUnit(640)], &mut input).accepted()?;
/// assert_eq!(input, [BabyBearUnit(3)]);
/// let zeros = Parameters { rounds: 1, words: &[0, 0, 0] }; // all give 0
/// let refused = sfr::permute_inverse(1, zeros, &[BabyBearUnit(640)], &mut input);
/// assert_eq!((refused.number, input), (44, [BabyBearUnit(3)]));
/// # Ok::<(), sfr::Refused>(())
/// ```
pub fn permute_inverse(
    width: u32,
    params: Parameters<'_>,
    output: &[BabyBearUnit],
    input: &mut [BabyBearUnit],
) -> Outcome {
    // SAFETY: see the head of this file.
    unsafe {
        sys::sfr_permute_inverse(
            width,
            params.rounds,
            params.words.as_ptr(),
            params.words.len(),
            output.as_ptr(),
            output.len(),
            input.as_mut_ptr(),
            input.len(),
        )
    }
}

/// Evaluates a step and appends it: w inputs, then the w outputs that the permutation makes of
/// them.
///
/// Questions 1, 2, 9, 4, 17, 10. Lent: the trace, 2w words for each step with the new one; w
/// inputs; exactly R(w+1)+w·w words of parameters. A refusal leaves the trace and the record as
/// they were.
pub fn evaluate_step(
    rec: Trace,
    trace: &mut [BabyBearUnit],
    input: &[BabyBearUnit],
    params: Parameters<'_>,
) -> TraceAnswer {
    // SAFETY: see the head of this file.
    unsafe {
        sys::sfr_evaluate_step(
            rec,
            trace.as_mut_ptr(),
            trace.len(),
            input.as_ptr(),
            input.len(),
            params.rounds,
            params.words.as_ptr(),
            params.words.len(),
        )
    }
}

/// Appends a given step, which isn't evaluated.
///
/// Questions 1, 2, 9, 4, 10. Lent: the trace, 2w words for each step with the new one; w inputs
/// and w outputs. A refusal leaves the trace and the record as they were.
pub fn append_step(
    rec: Trace,
    trace: &mut [BabyBearUnit],
    input: &[BabyBearUnit],
    output: &[BabyBearUnit],
) -> TraceAnswer {
    // SAFETY: see the head of this file.
    unsafe {
        sys::sfr_append_step(
            rec,
            trace.as_mut_ptr(),
            trace.len(),
            input.as_ptr(),
            input.len(),
            output.as_ptr(),
            output.len(),
        )
    }
}

/// Writes a trace as SFRW: 17 bytes and 8w per step.
///
/// Questions 1, 2, 11 of the held steps, 10. Lent: the trace, 2w words per step; `out`, as many
/// bytes as are written. A refusal leaves `out` as it was.
pub fn witness_to_bytes(rec: Trace, trace: &[BabyBearUnit], out: &mut [u8]) -> Written {
    let (bytes, len) = (out.as_mut_ptr(), out.len());
    // SAFETY: see the head of this file.
    unsafe { sys::sfr_witness_to_bytes(rec, trace.as_ptr(), trace.len(), bytes, len) }
}

/// Reads SFRW of that width.
///
/// Questions 1, 2; field by field 20 and 21 to 24; per step 20 and 4 for each unit, then 10; last
/// 28. Lent: the bytes, exactly as written; a trace of 2w words per step, which becomes the steps
/// read and then 0 to its end. A refusal leaves it all 0.
pub fn witness_from_bytes(width: u32, bytes: &[u8], trace: &mut [BabyBearUnit]) -> TraceAnswer {
    let (words, len) = (trace.as_mut_ptr(), trace.len());
    // SAFETY: see the head of this file.
    unsafe { sys::sfr_witness_from_bytes(width, bytes.as_ptr(), bytes.len(), words, len) }
}
