//! Relations over evaluations of a permutation, and the witnesses of them.
//!
//! A [`PermutationRelation`] is a permutation of wires: what it is asked for becomes a query, and
//! [`compile`](PermutationRelation::compile) makes a [`PermutationInstance`] of the queries. A
//! [`PermutationWitnessBuilder`] is a permutation of units, and what it is asked for becomes the
//! trace of a [`PermutationWitness`].

mod instance;
mod parameters;
mod relation;
mod witness;

pub use instance::PermutationInstance;
pub use parameters::OwnedParameters;
pub use relation::PermutationRelation;
pub use witness::{PermutationWitness, PermutationWitnessBuilder};

use alloc::vec::Vec;
use core::slice;

use super::{expr::Sum, spongefish::Unit};
use crate::{BabyBearUnit, Trace, MAX_WIDTH};

/// The width as a word; where it is none, the program isn't compiled.
pub(super) const fn width<const WIDTH: usize>() -> u32 {
    const {
        assert!(
            1 <= WIDTH && WIDTH <= MAX_WIDTH as usize,
            "the width is 1 to 24"
        );
    }
    WIDTH as u32
}

/// An evaluation of a permutation, its input and its output: of wires in a relation, of units in a
/// witness.
#[derive(Clone, Debug, PartialEq, Eq)]
#[repr(C)]
pub struct QueryAnswerPair<U, const WIDTH: usize> {
    /// What goes in.
    pub input: [U; WIDTH],
    /// What comes out.
    pub output: [U; WIDTH],
}

impl<U, const WIDTH: usize> QueryAnswerPair<U, WIDTH> {
    /// The pair of these two.
    pub const fn new(input: [U; WIDTH], output: [U; WIDTH]) -> Self {
        Self { input, output }
    }

    /// The cells of all pairs one after the other: the store of queries or steps that these are.
    pub(super) const fn cells(pairs: &[Self]) -> &[U] {
        // SAFETY: a pair is two arrays of WIDTH, and nothing lies between them or after them.
        unsafe { slice::from_raw_parts(pairs.as_ptr().cast(), 2 * WIDTH * pairs.len()) }
    }

    /// The same, for a call to write.
    pub(super) fn cells_mut(pairs: &mut [Self]) -> &mut [U] {
        // SAFETY: as in `cells`; the pairs stay lent for as long as the cells are.
        unsafe { slice::from_raw_parts_mut(pairs.as_mut_ptr().cast(), 2 * WIDTH * pairs.len()) }
    }
}

impl<U: Unit + Copy, const WIDTH: usize> QueryAnswerPair<U, WIDTH> {
    /// Room for a pair.
    pub(super) const ROOM: Self = Self::new([U::ZERO; WIDTH], [U::ZERO; WIDTH]);
}

impl<const WIDTH: usize> QueryAnswerPair<BabyBearUnit, WIDTH> {
    /// The record of a trace of these steps.
    pub(super) const fn record(steps: &[Self]) -> Trace {
        Trace {
            width: width::<WIDTH>(),
            // More than a word says are longer than any trace may be that is lent.
            steps: steps.len() as u32,
        }
    }
}

/// An equation: weight times value, summed over the terms, is the image.
#[derive(Clone, Debug, PartialEq, Eq)]
pub struct LinearEquation<T> {
    /// The left side.
    pub terms: Sum<T>,
    /// What it must be.
    pub image: T,
}

impl<T> LinearEquation<T> {
    /// The equation of these two sides.
    pub fn new(terms: impl Into<Sum<T>>, image: T) -> Self {
        Self {
            terms: terms.into(),
            image,
        }
    }
}

impl LinearEquation<BabyBearUnit> {
    /// The equations that a store holds: each a term count, then wire and weight per term, then the
    /// image.
    pub(super) fn of_words(mut words: &[u32]) -> Vec<Self> {
        let mut equations = Vec::new();
        while let Some((&terms, rest)) = words.split_first() {
            let (terms, rest) = rest.split_at(2 * terms as usize);
            equations.push(Self::new(Sum::of_words(terms), BabyBearUnit(rest[0])));
            words = &rest[1..];
        }
        equations
    }
}
