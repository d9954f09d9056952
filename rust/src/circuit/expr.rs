//! Linear expressions over wires: `x * a + y * b + z`.

use alloc::{vec, vec::Vec};
use core::{
    iter,
    ops::{Add, Mul},
};

use super::spongefish::Unit;

pub use crate::Weighted;
use crate::{BabyBearUnit, FieldVar};

/// What a unit can do in an equation.
pub trait Ring: Unit + PartialEq {
    /// 1.
    const ONE: Self;

    /// The sum.
    fn add(self, other: Self) -> Self;

    /// The product.
    fn mul(self, other: Self) -> Self;
}

/// A sum of weighted wires, the left side of a
/// [`LinearEquation`](super::permutation::LinearEquation).
#[derive(Clone, Debug, PartialEq, Eq)]
pub struct Sum<T>(Vec<Weighted<T>>);

impl<T> Sum<T> {
    /// The terms, in the order in which they were added.
    #[must_use]
    pub fn terms(&self) -> &[Weighted<T>] {
        &self.0
    }
}

impl Sum<BabyBearUnit> {
    /// The terms that an equation store holds as wire and weight in turn.
    pub(super) fn of_words(words: &[u32]) -> Self {
        let pairs = words.chunks_exact(2);
        pairs
            .map(|pair| FieldVar(pair[0]) * BabyBearUnit(pair[1]))
            .collect()
    }
}

impl<T> Default for Sum<T> {
    fn default() -> Self {
        Self(Vec::new())
    }
}

impl<T> From<Weighted<T>> for Sum<T> {
    fn from(term: Weighted<T>) -> Self {
        Self(vec![term])
    }
}

/// A wire alone has the weight 1.
impl<T: Ring> From<FieldVar> for Weighted<T> {
    fn from(var: FieldVar) -> Self {
        var * T::ONE
    }
}

impl<T: Ring> From<FieldVar> for Sum<T> {
    fn from(var: FieldVar) -> Self {
        Weighted::from(var).into()
    }
}

impl<T, U: Into<Weighted<T>>> FromIterator<U> for Sum<T> {
    fn from_iter<I: IntoIterator<Item = U>>(iter: I) -> Self {
        Self(iter.into_iter().map(Into::into).collect())
    }
}

impl<T, U: Into<Self>> iter::Sum<U> for Sum<T> {
    fn sum<I: Iterator<Item = U>>(iter: I) -> Self {
        iter.fold(Self::default(), |sum, more| sum + more)
    }
}

impl<T> Mul<T> for FieldVar {
    type Output = Weighted<T>;

    fn mul(self, weight: T) -> Weighted<T> {
        Weighted { var: self, weight }
    }
}

impl<T: Ring> Mul<T> for Weighted<T> {
    type Output = Self;

    fn mul(self, rhs: T) -> Self {
        self.var * Ring::mul(self.weight, rhs)
    }
}

impl<T, Rhs: Into<Self>> Add<Rhs> for Sum<T> {
    type Output = Self;

    fn add(mut self, rhs: Rhs) -> Self {
        self.0.extend(rhs.into().0);
        self
    }
}

impl<T, Rhs: Into<Sum<T>>> Add<Rhs> for Weighted<T> {
    type Output = Sum<T>;

    fn add(self, rhs: Rhs) -> Sum<T> {
        Sum::from(self) + rhs
    }
}

// Of a wire on the left the right side must say what T is, as in the source: `x + y * b` does, and
// `x + y` doesn't.

impl<T: Ring> Add<Weighted<T>> for FieldVar {
    type Output = Sum<T>;

    fn add(self, rhs: Weighted<T>) -> Sum<T> {
        Sum::from(self) + rhs
    }
}

impl<T: Ring> Add<Sum<T>> for FieldVar {
    type Output = Sum<T>;

    fn add(self, rhs: Sum<T>) -> Sum<T> {
        Sum::from(self) + rhs
    }
}
