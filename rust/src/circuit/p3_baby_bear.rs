//! The field of the crate `p3-baby-bear`. Its element is the unit itself, and not a type of its own.

use super::p3_field::{integers::QuotientMap, PrimeCharacteristicRing};
use crate::{BabyBearUnit, PRIME};

/// An element of the field.
pub type BabyBear = BabyBearUnit;

impl PrimeCharacteristicRing for BabyBear {
    const ZERO: Self = Self::ZERO;
    const ONE: Self = Self::ONE;
}

/// Integers by what they leave modulo p, which is a word.
macro_rules! integers {
    ($($int:ty)*) => {$(
        impl QuotientMap<$int> for BabyBear {
            fn from_int(int: $int) -> Self {
                Self((u64::from(int) % u64::from(PRIME)) as u32)
            }

            fn from_canonical_checked(int: $int) -> Option<Self> {
                let number = u32::try_from(int).ok()?;
                (number < PRIME).then_some(Self(number))
            }
        }
    )*};
}

integers!(u8 u16 u32 u64);
