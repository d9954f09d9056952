//! What calls are handed: wires and units, terms, and what is lent together.
//!
//! Wires and units are types of their own, so that one isn't taken for the other, and promise nothing:
//! any word may be put into either, and a call refuses with 3 what is no wire and with 4 what is no unit.

use core::{
    fmt,
    ops::{Add, Mul},
};

use crate::{sys, Instance, MAX_COUNT};

/// A wire of a relation: its index, below 2^30.
///
/// ```
/// # use sfr::{BabyBearUnit, FieldVar, Relation, SetAnswer};
/// fn set(rel: Relation, slots: &mut [u32], var: FieldVar, value: BabyBearUnit) -> SetAnswer {
///     sfr::set_var(rel, slots, var, value)
/// }
/// ```
///
/// Exchanged, wire and unit are not compiled:
///
/// ```compile_fail,E0308
/// # use sfr::{BabyBearUnit, FieldVar, Relation, SetAnswer};
/// fn set(rel: Relation, slots: &mut [u32], var: FieldVar, value: BabyBearUnit) -> SetAnswer {
///     sfr::set_var(rel, slots, value, var)
/// }
/// ```
#[derive(Clone, Copy, Default, PartialEq, Eq, PartialOrd, Ord, Hash)]
#[repr(transparent)]
pub struct FieldVar(pub u32);

/// A unit: an element of the field, as the number below p that it is.
#[derive(Clone, Copy, Debug, Default, PartialEq, Eq, Hash)]
#[repr(transparent)]
pub struct BabyBearUnit(pub u32);

impl FieldVar {
    /// How many wires a relation can have.
    pub const MAX_COUNT: usize = MAX_COUNT as usize;
    /// The wire that every relation has from the start, with the value 0.
    pub const ZERO: Self = Self(0);

    /// The index.
    #[must_use]
    pub const fn index(self) -> usize {
        self.0 as usize
    }

    /// The wire of this index, where there is one.
    #[must_use]
    pub const fn try_from_index(index: usize) -> Option<Self> {
        if index < Self::MAX_COUNT {
            Some(Self(index as u32))
        } else {
            None
        }
    }

    /// The wire n places on: allocations answer the first of their wires. Beyond all words it is the last
    /// of them, which is no wire.
    #[must_use]
    pub const fn nth(self, n: u32) -> Self {
        Self(self.0.saturating_add(n))
    }
}

/// `v(7)`, as the source has it.
impl fmt::Debug for FieldVar {
    fn fmt(&self, f: &mut fmt::Formatter<'_>) -> fmt::Result {
        write!(f, "v({})", self.0)
    }
}

impl BabyBearUnit {
    /// 0.
    pub const ZERO: Self = Self(0);
    /// 1.
    pub const ONE: Self = Self(1);

    /// The number that it is.
    #[must_use]
    pub const fn as_canonical_u32(self) -> u32 {
        self.0
    }
}

/// [`add_unit`](crate::add_unit).
impl Add for BabyBearUnit {
    type Output = Self;

    fn add(self, rhs: Self) -> Self {
        sys::sfr_add_unit(self, rhs)
    }
}

/// [`mul_unit`](crate::mul_unit).
impl Mul for BabyBearUnit {
    type Output = Self;

    fn mul(self, rhs: Self) -> Self {
        sys::sfr_mul_unit(self, rhs)
    }
}

/// Lists of a type that is a `u32` and nothing else, seen as words, and the other way round.
macro_rules! words_and_lists {
    ($type:ident, $what:literal) => {
        impl $type {
            #[doc = concat!("These words as ", $what, ", whatever they are.")]
            #[must_use]
            pub const fn list(words: &[u32]) -> &[Self] {
                // SAFETY: the type is a transparent u32, and every u32 is a value of it.
                unsafe { core::slice::from_raw_parts(words.as_ptr().cast(), words.len()) }
            }

            #[doc = concat!("The same, of words that a call may write: ", $what, " are written.")]
            #[must_use]
            pub fn list_mut(words: &mut [u32]) -> &mut [Self] {
                // SAFETY: as in `list`; the words stay lent as long as the list is.
                unsafe { core::slice::from_raw_parts_mut(words.as_mut_ptr().cast(), words.len()) }
            }

            /// The list as words.
            #[must_use]
            pub const fn words(list: &[Self]) -> &[u32] {
                // SAFETY: as in `list`.
                unsafe { core::slice::from_raw_parts(list.as_ptr().cast(), list.len()) }
            }
        }
    };
}

words_and_lists!(FieldVar, "wires");
words_and_lists!(BabyBearUnit, "units");

/// A wire and its weight, one term of an equation.
#[repr(C)]
#[derive(Clone, Copy, Debug, Default, PartialEq, Eq)]
pub struct Weighted<T = BabyBearUnit> {
    /// The wire.
    pub var: FieldVar,
    /// The weight.
    pub weight: T,
}

/// A permutation by its parameters, which docs/SCOPE.md calls its sheet.
///
/// A round adds constant i to element i, raises every element (kind 0) or only element 0 (kind 1)
/// to the 7th power, and replaces element i by the sum over j of M\[i\]\[j\] times element j. No
/// rounds give back what went in.
#[derive(Clone, Copy, Debug, PartialEq, Eq)]
pub struct Parameters<'a> {
    /// R, from 0 to 128.
    pub rounds: u32,
    /// Exactly R(w+1)+w·w words: per round its kind and w constants, then the matrix M row by row.
    pub words: &'a [u32],
}

/// What a relation holds, lent to the gate. Of the instance that this makes, slots and use counts are no
/// part: calls go on with them while it is held.
#[derive(Clone, Copy, Debug, PartialEq, Eq)]
pub struct Held<'a, 's> {
    /// The label, UTF-8.
    pub label: &'a [u8],
    /// A unit per wire, or F.
    pub slots: &'s [u32],
    /// 2w wires each.
    pub queries: &'a [FieldVar],
    /// Each a term count, then wire and weight per term, then the image.
    pub equations: &'a [u32],
    /// How many query cells name the wire, for each slot.
    pub uses: &'s [u32],
}

/// An instance with all its parts, lent to the calls that read them. Gate and reads answer it.
///
/// ```
/// # use sfr::{FieldVar, Instance, Parts};
/// fn of<'a>(instance: Instance, publics: &'a [u32], queries: &'a [FieldVar]) -> Parts<'a> {
///     Parts { instance, label: b"", publics, queries, equations: &[] }
/// }
/// ```
///
/// Exchanged, publics and queries are not compiled:
///
/// ```compile_fail,E0308
/// # use sfr::{FieldVar, Instance, Parts};
/// fn of<'a>(instance: Instance, publics: &'a [u32], queries: &'a [FieldVar]) -> Parts<'a> {
///     Parts { instance, label: b"", publics: queries, queries: publics, equations: &[] }
/// }
/// ```
#[derive(Clone, Copy, Debug, PartialEq, Eq)]
pub struct Parts<'a> {
    /// Its record: how much of each store is held.
    pub instance: Instance,
    /// The label, UTF-8.
    pub label: &'a [u8],
    /// Wire and unit pairs.
    pub publics: &'a [u32],
    /// 2w wires each.
    pub queries: &'a [FieldVar],
    /// Each a term count, then wire and weight per term, then the image.
    pub equations: &'a [u32],
}

/// The three stores that an SFRI read writes.
#[derive(Debug, PartialEq, Eq)]
pub struct Stores<'a> {
    /// For wire and unit pairs.
    pub publics: &'a mut [u32],
    /// For queries, 2w wires each.
    pub queries: &'a mut [FieldVar],
    /// For equations.
    pub equations: &'a mut [u32],
}
