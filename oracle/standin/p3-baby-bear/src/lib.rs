//! Stand-in for the crate `p3-baby-bear`, written by us: the field of order
//! 2013265921, built as document 01's first section says. An element is a `u32`
//! below the order, added and multiplied modulo it.
//!
//! The original holds its elements in Montgomery form. What an element is worth
//! doesn't depend on that, and nothing else of it is compared.

use core::ops::{Add, Mul};

use p3_field::{integers::QuotientMap, PrimeCharacteristicRing};

/// The order of the field, 15 * 2^27 + 1.
const ORDER: u32 = 2_013_265_921;

/// An element of the field, held reduced.
#[derive(Clone, Copy, Debug, Default, PartialEq, Eq, Hash)]
pub struct BabyBear(u32);

impl BabyBear {
    pub const ORDER_U32: u32 = ORDER;

    /// The element as the number below the order that it is.
    pub const fn as_canonical_u32(self) -> u32 {
        self.0
    }

    fn reduced(value: u64) -> Self {
        // The remainder is below a u32.
        Self((value % u64::from(ORDER)) as u32)
    }
}

impl PrimeCharacteristicRing for BabyBear {
    const ZERO: Self = Self(0);
    const ONE: Self = Self(1);
}

impl QuotientMap<u8> for BabyBear {
    fn from_int(int: u8) -> Self {
        Self(u32::from(int))
    }

    fn from_canonical_checked(int: u8) -> Option<Self> {
        Some(Self(u32::from(int)))
    }
}

impl QuotientMap<u32> for BabyBear {
    fn from_int(int: u32) -> Self {
        Self::reduced(u64::from(int))
    }

    fn from_canonical_checked(int: u32) -> Option<Self> {
        (int < ORDER).then_some(Self(int))
    }
}

impl Add for BabyBear {
    type Output = Self;

    fn add(self, rhs: Self) -> Self {
        Self::reduced(u64::from(self.0) + u64::from(rhs.0))
    }
}

impl Mul for BabyBear {
    type Output = Self;

    fn mul(self, rhs: Self) -> Self {
        Self::reduced(u64::from(self.0) * u64::from(rhs.0))
    }
}
