//! Units: addition and multiplication modulo p, for every two words.

use crate::P;

pub fn add(a: u32, b: u32) -> u32 {
    ((u64::from(a) + u64::from(b)) % u64::from(P)) as u32
}

pub fn mul(a: u32, b: u32) -> u32 {
    ((u64::from(a) * u64::from(b)) % u64::from(P)) as u32
}

/// The 7th power.
pub fn pow7(a: u32) -> u32 {
    (1..7).fold(a, |power, _| mul(power, a))
}
