//! The two traits of the crate `p3-field` that the source imports.

/// A ring with a zero and a one.
pub trait PrimeCharacteristicRing: Sized {
    /// 0.
    const ZERO: Self;
    /// 1.
    const ONE: Self;
}

/// Integers as elements of a field.
pub mod integers {
    /// The integers of a type as elements.
    pub trait QuotientMap<Int>: Sized {
        /// What the integer leaves modulo the field's size.
        fn from_int(int: Int) -> Self;

        /// The integer, where it is an element.
        fn from_canonical_checked(int: Int) -> Option<Self>;
    }
}
