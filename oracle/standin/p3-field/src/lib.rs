//! Stand-in for the crate `p3-field`, written by us: the two traits through which
//! the circuit sources name a field's constants and its small integers.
//!
//! Only what `baby_bear.rs` imports is here, with the meaning document 01's first
//! section gives to a unit.

/// A ring with a zero and a one.
pub trait PrimeCharacteristicRing: Sized {
    const ZERO: Self;
    const ONE: Self;
}

pub mod integers {
    /// Integers seen as elements of a field.
    pub trait QuotientMap<Int>: Sized {
        /// The element congruent to `int`.
        fn from_int(int: Int) -> Self;

        /// The element `int`, where `int` is already its reduced form.
        fn from_canonical_checked(int: Int) -> Option<Self>;
    }
}
