//! The six files and the stand-ins that they lean on, in one module as `sfr::circuit` has them.

pub use circuit::*;
pub use p3_baby_bear;
pub use p3_field;
pub use spongefish;

use source::Params;
use spongefish::Permutation;

/// A permutation by its parameters, which the six files don't have: the stand-in that the driver runs them with.
#[derive(Clone)]
pub struct OwnedParameters<const WIDTH: usize>(Params);

impl<const WIDTH: usize> OwnedParameters<WIDTH> {
    /// Nothing is asked here, and so there is no error.
    pub fn new(rounds: u32, words: &[u32]) -> Result<Self, std::fmt::Error> {
        let words = words.to_vec();
        Ok(Self(Params { rounds, words }))
    }
}

impl<const WIDTH: usize> Permutation<WIDTH> for OwnedParameters<WIDTH> {
    type U = BabyBearUnit;

    fn permute(&self, state: &[BabyBearUnit; WIDTH]) -> [BabyBearUnit; WIDTH] {
        Permutation::permute(&self.0, state)
    }
}
