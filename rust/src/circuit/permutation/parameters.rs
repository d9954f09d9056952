//! Permutations by their parameters.

use alloc::sync::Arc;

use super::{
    super::{refuse, spongefish::Permutation},
    width,
};
use crate::{BabyBearUnit, Parameters, Refused};

/// A permutation by its [`Parameters`], which it owns. Added.
///
/// ```
/// use sfr::circuit::{BabyBearUnit, Permutation, OwnedParameters};
/// let params = OwnedParameters::<1>::new(1, &[0, sfr::PRIME - 1, 5])?; // x becomes 5(x - 1)^7
/// assert_eq!(params.permute(&[BabyBearUnit(3)]), [BabyBearUnit(640)]);
/// # Ok::<(), sfr::Refused>(())
/// ```
#[derive(Clone, Debug, PartialEq, Eq)]
pub struct OwnedParameters<const WIDTH: usize> {
    rounds: u32,
    words: Arc<[u32]>,
}

impl<const WIDTH: usize> OwnedParameters<WIDTH> {
    /// The permutation of so many rounds and these words, as [`Parameters::words`] has them.
    ///
    /// Question 17.
    pub fn new(rounds: u32, words: &[u32]) -> Result<Self, Refused> {
        let state = &mut [BabyBearUnit::ZERO; WIDTH];
        crate::permute(width::<WIDTH>(), Parameters { rounds, words }, state).accepted()?;
        let words = words.into();
        Ok(Self { rounds, words })
    }

    fn lent(&self) -> Parameters<'_> {
        Parameters {
            rounds: self.rounds,
            words: &self.words,
        }
    }
}

/// # Panics
///
/// Where a unit is p or more.
impl<const WIDTH: usize> Permutation<WIDTH> for OwnedParameters<WIDTH> {
    type U = BabyBearUnit;

    fn permute(&self, state: &[BabyBearUnit; WIDTH]) -> [BabyBearUnit; WIDTH] {
        let mut state = *state;
        self.permute_mut(&mut state);
        state
    }

    fn permute_mut(&self, state: &mut [BabyBearUnit; WIDTH]) {
        let permuted = crate::permute(width::<WIDTH>(), self.lent(), state).accepted();
        permuted.unwrap_or_else(|refused| refuse(refused));
    }

    fn parameters(&self) -> Option<Parameters<'_>> {
        Some(self.lent())
    }
}
