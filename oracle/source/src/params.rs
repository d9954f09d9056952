//! The permutation that the sources are run with. They take any; document 01's sheet is
//! added, so this is stand-in code of ours, written apart from the second reading's.

use circuit::BabyBearUnit;
use p3_baby_bear::BabyBear;
use p3_field::PrimeCharacteristicRing;
use spongefish::Permutation;

use crate::{to_unit, to_units, word};

/// A permutation by its parameters: `rounds` times a kind and a constant per element, then
/// the matrix row by row.
#[derive(Clone, Debug)]
pub struct Params {
    pub rounds: u32,
    pub words: Vec<u32>,
}

impl Params {
    /// What the sheet turns `input` into.
    pub fn permute(&self, input: &[u32]) -> Vec<u32> {
        let mut state: Vec<BabyBearUnit> = input.iter().copied().map(to_unit).collect();
        let width = state.len();
        let matrix = &self.words[self.words.len() - width * width..];
        for round in 0..self.rounds as usize {
            let at = round * (width + 1);
            let raised = if self.words[at] == 0 { width } else { 1 };
            for (i, element) in state.iter_mut().enumerate() {
                *element = *element + to_unit(self.words[at + 1 + i]);
                if i < raised {
                    let square = *element * *element;
                    *element = *element * square * (square * square);
                }
            }
            let mut next = vec![BabyBearUnit(BabyBear::ZERO); width];
            for (j, element) in state.iter().enumerate() {
                for (i, sum) in next.iter_mut().enumerate() {
                    *sum = *sum + to_unit(matrix[i * width + j]) * *element;
                }
            }
            state = next;
        }
        state.iter().map(word).collect()
    }
}

impl<const W: usize> Permutation<W> for Params {
    type U = BabyBearUnit;

    fn permute(&self, state: &[BabyBearUnit; W]) -> [BabyBearUnit; W] {
        let input: Vec<u32> = state.iter().map(word).collect();
        to_units(&Params::permute(self, &input))
    }
}
