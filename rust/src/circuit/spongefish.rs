//! The two traits of the crate `spongefish` that the source stands on.

use crate::{FieldVar, Parameters};

/// An element of the alphabet that a permutation works over.
pub trait Unit: Clone + Sized {
    /// 0.
    const ZERO: Self;
}

impl Unit for FieldVar {
    const ZERO: Self = Self::ZERO;
}

/// A permutation of `WIDTH` units.
pub trait Permutation<const WIDTH: usize>: Clone {
    /// What it permutes.
    type U: Unit;

    /// What it makes of a state.
    fn permute(&self, state: &[Self::U; WIDTH]) -> [Self::U; WIDTH];

    /// The same, in place.
    fn permute_mut(&self, state: &mut [Self::U; WIDTH]) {
        *state = self.permute(state);
    }

    /// Its parameters, where it is a permutation by parameters and nothing else: the proved calls
    /// then evaluate it themselves, and don't ask [`permute`](Self::permute). Added; the source has
    /// no such permutations.
    fn parameters(&self) -> Option<Parameters<'_>> {
        None
    }
}
