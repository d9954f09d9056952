//! States behind digests, beside a plain form in Rust: the sources have no way back.

use std::hint::black_box;

use sfr::BabyBearUnit;
use source::Params;

use super::{best, evaluate, timed};
use crate::{library::witness::parameters, rng::Rng};

/// So many outputs are a run.
const CALLS: usize = 100;

/// Sheets by their rounds, and whether all of these are of kind 0.
const SHEETS: [(u32, bool); 5] = [(1, false), (21, false), (29, false), (21, true), (29, true)];

/// Every product is reduced by a division with remainder, and everything is done as it is first
/// thought of. The width is a type, which helps.
mod plain {
    const P: u32 = reading::P;

    fn mul(a: u32, b: u32) -> u32 {
        (u64::from(a) * u64::from(b) % u64::from(P)) as u32
    }

    fn sub(a: u32, b: u32) -> u32 {
        if a < b {
            a + (P - b)
        } else {
            a - b
        }
    }

    fn power(mut a: u32, mut exponent: u32) -> u32 {
        let mut power = 1;
        while exponent > 0 {
            if exponent % 2 == 1 {
                power = mul(power, a);
            }
            a = mul(a, a);
            exponent /= 2;
        }
        power
    }

    /// Gauss and Jordan: the matrix, with the unit matrix to its right, is made the unit matrix.
    fn invert<const W: usize>(words: &[u32]) -> Option<[[u32; W]; W]> {
        let mut left: [[u32; W]; W] =
            std::array::from_fn(|i| std::array::from_fn(|j| words[i * W + j]));
        let mut right: [[u32; W]; W] =
            std::array::from_fn(|i| std::array::from_fn(|j| u32::from(i == j)));
        for c in 0..W {
            let pivot = (c..W).find(|&i| left[i][c] != 0)?;
            left.swap(c, pivot);
            right.swap(c, pivot);
            let by = power(left[c][c], P - 2);
            for j in 0..W {
                left[c][j] = mul(by, left[c][j]);
                right[c][j] = mul(by, right[c][j]);
            }
            for i in 0..W {
                let by = left[i][c];
                if i != c && by != 0 {
                    for j in 0..W {
                        left[i][j] = sub(left[i][j], mul(by, left[c][j]));
                        right[i][j] = sub(right[i][j], mul(by, right[c][j]));
                    }
                }
            }
        }
        Some(right)
    }

    pub fn permute_inverse<const W: usize>(
        rounds: usize,
        words: &[u32],
        output: &[u32; W],
    ) -> Option<[u32; W]> {
        let (rounds, matrix) = words.split_at(rounds * (W + 1));
        let inverse: [[u32; W]; W] = invert(matrix)?;
        let mut state = *output;
        for round in rounds.chunks_exact(W + 1).rev() {
            let before = state;
            for (row, x) in inverse.iter().zip(&mut state) {
                let products = row.iter().zip(&before).map(|(&a, &b)| u64::from(mul(a, b)));
                *x = (products.sum::<u64>() % u64::from(P)) as u32;
            }
            let lowered = if round[0] == 0 { W } else { 1 };
            for x in &mut state[..lowered] {
                *x = power(*x, 1_725_656_503);
            }
            for (x, constant) in state.iter_mut().zip(&round[1..]) {
                *x = sub(*x, *constant);
            }
        }
        Some(state)
    }
}

/// The nanoseconds of a call, by library and plain form.
type Timed = fn(&Params) -> [f64; 2];

fn times<const W: usize>(params: &Params) -> [f64; 2] {
    let mut rng = Rng::new(W as u64);
    let (width, rounds) = (W as u32, params.rounds);
    let mut output = || -> [u32; W] { std::array::from_fn(|_| rng.word() % reading::P) };
    let outputs: Vec<[u32; W]> = (0..CALLS).map(|_| output()).collect();
    let library = |output: &[u32; W]| {
        let mut input = [0; W];
        let output = BabyBearUnit::list(output);
        let found = BabyBearUnit::list_mut(&mut input);
        let answer = sfr::permute_inverse(width, parameters(params), output, found);
        assert_eq!(answer.number, 0);
        input
    };
    let plain = |output: &[u32; W]| {
        let found = plain::permute_inverse(black_box(rounds as usize), &params.words, output);
        found.expect("a matrix that has an inverse")
    };
    for output in &outputs {
        assert_eq!(
            library(output),
            plain(output),
            "another input than the library's"
        );
    }
    let runs = [
        timed(|| (), |()| outputs.iter().map(library).collect::<Vec<_>>()),
        timed(|| (), |()| outputs.iter().map(plain).collect::<Vec<_>>()),
    ];
    best(runs).map(|time| time / CALLS as f64)
}

pub fn tables() {
    println!("\n### inverse\n");
    println!(
        "Nanoseconds for one call of `sfr_permute_inverse`, which asks question 17 of the whole sheet and inverts its matrix \
         each time; a run has {CALLS} of them. The sources have no way back: `plain` is a form of ours \
         (driver/src/bench/inverse.rs) that asks nothing and knows the width as a type: Gauss and Jordan on the matrix with \
         the unit matrix beside it, powers by squaring, every product reduced. So many of the R rounds are of kind 0, the \
         others of kind 1; a sheet of one round shows what inverting takes.\n"
    );
    println!("| w | R | kind 0 | library | plain | plain/library |");
    println!("|---:|---:|---:|---:|---:|---:|");
    for (width, times) in [
        (8, times::<8> as Timed),
        (16, times::<16>),
        (24, times::<24>),
    ] {
        for (rounds, all) in SHEETS {
            let mut params = evaluate::params(&mut Rng::new(1), width, rounds);
            let kinds = params.words.iter_mut().step_by(width as usize + 1);
            if all {
                kinds.take(rounds as usize).for_each(|kind| *kind = 0);
            }
            let of_kind_0 = if all { rounds } else { rounds.min(8) };
            let [library, plain] = times(&params);
            println!(
                "| {width} | {rounds} | {of_kind_0} | {library:.0} | {plain:.0} | {:.2} |",
                plain / library
            );
        }
    }
}
