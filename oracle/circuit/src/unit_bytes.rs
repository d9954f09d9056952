//! The byte form of a `BabyBearUnit`, stand-in code of ours: `baby_bear.rs` as listed
//! has none. Document 01 gives it: 4 bytes, little-endian, and a number of the field's
//! order or more is no unit.
//!
//! So agreement on these bytes says that both sides follow 01, and nothing about the
//! original's own byte form.

use p3_baby_bear::BabyBear;
use p3_field::integers::QuotientMap;
use spongefish::{Encoding, FromNarg, NargReader, VerificationError};

use crate::baby_bear::BabyBearUnit;

impl Encoding for BabyBearUnit {
    fn encode(&self) -> impl AsRef<[u8]> {
        self.as_canonical_u32().to_le_bytes()
    }
}

impl FromNarg for BabyBearUnit {
    fn from_narg(reader: &NargReader<'_>) -> Result<Self, VerificationError> {
        let word: u32 = reader.read()?;
        BabyBear::from_canonical_checked(word)
            .map(Self)
            .ok_or(VerificationError)
    }
}
