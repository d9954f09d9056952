//! The unit: an element of the field of p.

pub use super::p3_baby_bear::BabyBear;
pub use crate::BabyBearUnit;

use super::{expr::Ring, spongefish::Unit};

impl Unit for BabyBearUnit {
    const ZERO: Self = Self::ZERO;
}

impl Ring for BabyBearUnit {
    const ONE: Self = Self::ONE;

    fn add(self, other: Self) -> Self {
        self + other
    }

    fn mul(self, other: Self) -> Self {
        self * other
    }
}
