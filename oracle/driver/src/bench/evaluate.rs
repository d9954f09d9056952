//! Evaluation of sheets, beside the sources with our stand-in and two plain forms.

use std::hint::black_box;

use sfr::BabyBearUnit;
use source::Params;

use super::{
    best,
    forms::{montgomery, reducing},
    timed, FIRST,
};
use crate::{library::witness::parameters, rng::Rng};

/// The most evaluations: more of them show nothing new.
const MOST: usize = 10_000;

/// A sheet with four rounds of kind 0 at either end and rounds of kind 1 between them.
pub fn params(rng: &mut Rng, width: u32, rounds: u32) -> Params {
    let mut words = Vec::new();
    for round in 0..rounds {
        words.push(u32::from(round >= 4 && round + 4 < rounds));
        words.extend((0..width).map(|_| rng.word() % reading::P));
    }
    words.extend((0..width * width).map(|_| rng.word() % reading::P));
    Params { rounds, words }
}

/// Nanoseconds for one evaluation.
struct Times {
    library: f64,
    alone: f64,
    source: f64,
    reducing: f64,
    montgomery: f64,
}

/// The times of a width, by rounds and evaluations.
type Timed = fn(u32, usize) -> Times;

fn times<const W: usize>(rounds: u32, items: usize) -> Times {
    let mut rng = Rng::new(items as u64);
    let width = W as u32;
    let params = params(&mut rng, width, rounds);
    let inputs: Vec<u32> = (0..items * W).map(|_| rng.word() % reading::P).collect();
    let mut trace = vec![0; items * 2 * W];
    let library = timed(
        || (),
        |()| {
            let mut rec = sfr::Trace { width, steps: 0 };
            for input in inputs.chunks(W) {
                let steps = BabyBearUnit::list_mut(&mut trace);
                let input = BabyBearUnit::list(input);
                let answer = sfr::evaluate_step(rec, steps, input, parameters(&params));
                assert_eq!(answer.number, 0);
                rec = answer.trace;
            }
        },
    );
    let source = timed(
        || source::builder(width, &params).ready_steps(&inputs),
        |ready| ready(),
    );

    // The three that turn a state in place, each on copies of the inputs.
    let states: Vec<[u32; W]> = inputs
        .chunks(W)
        .map(|input| std::array::from_fn(|i| input[i]))
        .collect();
    let form = montgomery::params(W, rounds as usize, &params.words);
    let turn = |state: &mut [u32; W]| {
        let state = BabyBearUnit::list_mut(state);
        assert_eq!(sfr::permute(width, parameters(&params), state).number, 0);
    };
    let turn_reducing = |state: &mut [u32; W]| {
        reducing::permute(black_box(rounds as usize), &params.words, state);
    };
    let turn_montgomery = |state: &mut [u32; W]| {
        montgomery::permute(black_box(rounds as usize), &form, state);
    };
    let copies = || states.clone();
    let alone = timed(copies, |states| states.iter_mut().for_each(turn));
    let plain = timed(copies, |states| states.iter_mut().for_each(turn_reducing));
    let montgomery = timed(copies, |states| states.iter_mut().for_each(turn_montgomery));
    let [library, alone, source, reducing, montgomery] =
        best([library, alone, source, plain, montgomery]);

    let expected: Vec<&[u32]> = trace.chunks(2 * W).map(|step| &step[W..]).collect();
    for turn in [
        &turn as &dyn Fn(&mut [u32; W]),
        &turn_reducing,
        &turn_montgomery,
    ] {
        let mut turned = states.clone();
        turned.iter_mut().for_each(turn);
        let right = turned.iter().zip(&expected).all(|(a, b)| a == b);
        assert!(right, "another evaluation than the library's");
    }
    let each = items as f64;
    Times {
        library: library / each,
        alone: alone / each,
        source: source / each,
        reducing: reducing / each,
        montgomery: montgomery / each,
    }
}

pub fn tables(last: usize) {
    println!("\n### evaluate\n");
    println!(
        "Nanoseconds for one evaluation, up to {MOST} of them. `library` is `sfr_evaluate_step`, which asks question \
         17 of the whole params each time and appends the step; `permute` is `sfr_permute`, which asks it too and turns \
         a state in place. `source` is the builder's call with our stand-in for the permutation \
         (source/src/params.rs: words made units as they are met, every sum and product reduced, a list per round); \
         the sources have no permutation of their own. `reducing` and `montgomery` are plain forms of ours \
         (driver/src/bench/forms.rs) that ask nothing, know the width as a type, and turn a state in place; the \
         Montgomery form is given a params in that form.\n"
    );
    println!(
        "| w | R | evaluations | library | permute | source | reducing | montgomery | source/library | \
         reducing/library | montgomery/library |"
    );
    println!("|---:|---:|---:|---:|---:|---:|---:|---:|---:|---:|---:|");
    for (width, times) in [
        (8, times::<8> as Timed),
        (16, times::<16>),
        (24, times::<24>),
    ] {
        for rounds in [21, 29] {
            let mut items = FIRST;
            while items <= last.min(MOST) {
                let t = times(rounds, items);
                println!(
                    "| {width} | {rounds} | {items} | {:.0} | {:.0} | {:.0} | {:.0} | {:.0} | {:.2} | {:.2} | {:.2} |",
                    t.library,
                    t.alone,
                    t.source,
                    t.reducing,
                    t.montgomery,
                    t.source / t.library,
                    t.reducing / t.library,
                    t.montgomery / t.library,
                );
                items *= 10;
            }
        }
    }
}
