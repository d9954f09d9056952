//! Operation 26 of a sample: the state behind a digest, with all that is lent to the call and with
//! what the second reading says of it.

use reading::P;
use source::Params;

use super::{
    case::{Case, FIRST, FIRST_AFTER, ONE, TWO},
    trace::{small_width, units, PARAMS},
    Sample,
};
use crate::{
    astray,
    calls::DIRT,
    held,
    rng::Rng,
    sheets::{self, KINDS, REGULAR, SINGULAR},
};

/// Up to this width there are singular matrices of each form: more of them would take much room.
const NARROW: u32 = 4;

impl Sample {
    fn inverse(&mut self, width: u32, params: &Params, output: &[u32], mut input: Vec<u32>) {
        let case = Case::new(26)
            .given(&[0, params.rounds, width])
            .list(FIRST, &input)
            .list(ONE, &params.words)
            .list(TWO, output);
        let number = reading::permute_inverse(width, held::lent(params), output, &mut input);
        self.push(case.answer(&[number]).list(FIRST_AFTER, &input));
    }

    /// Document 01's example backwards, no rounds, every width, singular matrices, and each question.
    pub fn fixed_inverses(&mut self) {
        let sheet = |rounds: u32, words: &[u32]| Params {
            rounds,
            words: words.to_vec(),
        };
        let example = sheet(1, &[0, P - 1, 5]);
        for output in [5, 640, 0, 1, P - 1] {
            self.inverse(1, &example, &[output], vec![DIRT]);
        }
        self.inverse(2, &sheet(0, &[0; 4]), &[7, P - 1], vec![DIRT; 2]);

        let mut rng = Rng::new(4);
        for width in 1..=24 {
            let mut case = |sample: &mut Self, form: sheets::Form, rounds: u32| {
                let rows = form(&mut rng, width as usize);
                let kinds = KINDS[(width % 3) as usize];
                let params = sheets::sheet(&mut rng, &rows, rounds, kinds);
                let output: Vec<u32> = (0..width).map(|_| rng.unit()).collect();
                sample.inverse(width, &params, &output, vec![DIRT; width as usize]);
            };
            case(self, REGULAR[width as usize % REGULAR.len()], 2);
            if width <= NARROW {
                for form in SINGULAR {
                    case(self, form, 1);
                }
            }
        }

        let right = sheet(1, &[0, 3, 4, 0, 1, 1, 0]);
        let singular = sheet(1, &[0, 3, 4, 1, 2, 2, 4]);
        let unsound = sheet(1, &[2, 3, 4, 1, 2, 2, 4]);
        for params in [&right, &singular, &unsound] {
            for output in [&[5, 6][..], &[5, P], &[P]] {
                for input in [2, 1, 3] {
                    self.inverse(2, params, output, vec![u32::MAX; input]);
                }
            }
            self.inverse(25, params, &[P], vec![DIRT]);
        }
    }

    /// A state gone back to, sound or nearly so.
    pub fn random_inverse(&mut self, rng: &mut Rng) {
        let of = small_width(rng);
        let params = loop {
            let (mut params, _) = sheets::random(rng, of);
            if rng.once_in(4) {
                astray::lead_params(rng, of, &mut params);
            }
            if params.words.len() <= PARAMS {
                break params;
            }
        };
        let output = units(rng, of);
        let len = match rng.below(12) {
            0 => astray::near_len(rng, of as usize),
            _ => of as usize,
        };
        let input = (0..len).map(|_| rng.edge()).collect();
        let width = match rng.below(16) {
            0 => astray::width(rng),
            _ => of,
        };
        self.inverse(width, &params, &output, input);
    }
}
