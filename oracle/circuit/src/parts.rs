//! Instances put together without the gate. The sources keep an instance's fields to
//! their own crate, and every call that makes one asks the gate's questions; document
//! 01's writing and its check take held parts, gated or not.

use alloc::{string::String, vec::Vec};

use crate::{
    allocator::FieldVar,
    permutation::{LinearEquation, PermutationInstance, QueryAnswerPair},
};

/// An instance of exactly these parts.
pub fn ungated<T, const WIDTH: usize>(
    label: String,
    vars_count: usize,
    public_values: Vec<(FieldVar, T)>,
    queries: Vec<QueryAnswerPair<FieldVar, WIDTH>>,
    equations: Vec<LinearEquation<T>>,
) -> PermutationInstance<T, WIDTH> {
    PermutationInstance {
        label,
        vars_count,
        public_values,
        queries,
        equations,
    }
}
