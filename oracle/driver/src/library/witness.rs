//! `witness`: permutations by their parameters, the builder's steps, and a trace's bytes.

use reading::Trace;
use sfr::BabyBearUnit;
use source::Params;

use crate::{
    astray,
    calls::DIRT,
    compared::{same, Compared, Log, Outcome, Seen},
    generate, held, lists,
    options::Options,
    rng::Rng,
    unsound,
};

pub fn run(options: &Options) -> bool {
    let line = lists::compare(options, list);
    line.inspect(|line| println!("{line}")).is_some()
}

pub fn to_library(rec: Trace) -> sfr::Trace {
    sfr::Trace {
        width: rec.width,
        steps: rec.steps,
    }
}

/// The number and the record of an answer.
pub fn from_library(answer: sfr::TraceAnswer) -> (u32, Trace) {
    let trace = Trace {
        width: answer.trace.width,
        steps: answer.trace.steps,
    };
    (answer.number, trace)
}

/// A sheet as the library is lent it.
pub fn parameters(params: &Params) -> sfr::Parameters<'_> {
    sfr::Parameters {
        rounds: params.rounds,
        words: &params.words,
    }
}

/// A trace's record and its store.
#[derive(Clone)]
struct Steps {
    rec: Trace,
    trace: Vec<u32>,
}

/// Steps one after the other, with detours that are not followed up.
fn list(seed: u64, seen: &mut Seen, log: &Log) -> Compared {
    let mut rng = Rng::new(seed);
    let width = rng.width();
    let params = generate::params(&mut rng, width);
    let room = rng.below(12 * width as usize + 2);
    let mut steps = Steps {
        rec: Trace { width, steps: 0 },
        trace: vec![DIRT; room],
    };
    for _ in 0..rng.between(1, 12) {
        step(&mut rng, &mut steps, &params, seen, log)?;
        let mut other = steps.clone();
        lead_astray(&mut rng, &mut other);
        let other_params = astray::params(&mut rng, width);
        step(&mut rng, &mut other, &other_params, seen, log)?;
        permute(&mut rng, width, &other_params, seen, log)?;
        let bytes = write(&mut rng, &steps, seen, log)?;
        write(&mut rng, &other, seen, log)?;
        read(&mut rng, width, &bytes, seen, log)?;
    }
    Ok(())
}

fn lead_astray(rng: &mut Rng, steps: &mut Steps) {
    let most = steps.trace.len() as u32 / (2 * steps.rec.width);
    match rng.below(6) {
        0 => steps.rec.width = astray::width(rng),
        1 => steps.rec.steps = astray::near(rng, most),
        2 => steps.rec.steps = rng.below(most as usize + 1) as u32,
        3 | 4 => astray::word(rng, &mut steps.trace),
        _ => {
            let len = astray::near_len(rng, steps.trace.len());
            steps.trace.resize(len, DIRT);
        }
    }
}

/// A list of about `width` words, most of them units.
fn units(rng: &mut Rng, width: u32) -> Vec<u32> {
    let width = width as usize;
    let len = if rng.once_in(10) {
        astray::near_len(rng, width)
    } else {
        width
    };
    let mut list: Vec<u32> = (0..len).map(|_| rng.unit()).collect();
    if rng.once_in(8) {
        astray::word(rng, &mut list);
    }
    list
}

/// One of the builder's two calls.
fn step(rng: &mut Rng, steps: &mut Steps, params: &Params, seen: &mut Seen, log: &Log) -> Compared {
    let rec = steps.rec;
    let width = rec.width.clamp(1, 24);
    let (input, output) = (units(rng, width), units(rng, width));
    let mut trace = steps.trace.clone();
    let given = BabyBearUnit::list_mut(&mut trace);
    let (call, library, reading) = if rng.once_in(2) {
        log.say(|| {
            format!(
                "EvaluateStep({rec:?}, {:?}, {input:?}, {params:?})",
                steps.trace
            )
        });
        let library = sfr::evaluate_step(
            to_library(rec),
            given,
            BabyBearUnit::list(&input),
            parameters(params),
        );
        let reading = reading::evaluate_step(rec, &mut steps.trace, &input, held::lent(params));
        ("evaluate a step", library, reading)
    } else {
        log.say(|| {
            format!(
                "AppendStep({rec:?}, {:?}, {input:?}, {output:?})",
                steps.trace
            )
        });
        let (from, to) = (BabyBearUnit::list(&input), BabyBearUnit::list(&output));
        let library = sfr::append_step(to_library(rec), given, from, to);
        let reading = reading::append_step(rec, &mut steps.trace, &input, &output);
        ("append a step", library, reading)
    };
    seen.answered(call, reading.number);
    let given = (from_library(library), &trace);
    let expected = ((reading.number, reading.trace), &steps.trace);
    same(call, ("library", given), ("reading", expected))?;
    steps.rec = reading.trace;
    Ok(())
}

/// The library turns a state in place: the reading's output list is lent as long as its input.
fn permute(rng: &mut Rng, width: u32, params: &Params, seen: &mut Seen, log: &Log) -> Compared {
    let input = units(rng, width);
    let width = if rng.once_in(10) {
        astray::width(rng)
    } else {
        width
    };
    log.say(|| format!("Permute({width}, {params:?}, {input:?})"));
    let (mut given, mut expected) = (input.clone(), input.clone());
    let state = BabyBearUnit::list_mut(&mut given);
    let library = sfr::permute(width, parameters(params), state).number;
    let reading = reading::permute(width, held::lent(params), &input, &mut expected);
    seen.answered("permute", reading);
    let (library, reading) = ((library, given), (reading, expected));
    same("permute", ("library", library), ("reading", reading))
}

/// The bytes written; none after a refusal.
fn write(rng: &mut Rng, steps: &Steps, seen: &mut Seen, log: &Log) -> Outcome<Vec<u8>> {
    let rec = steps.rec;
    let exact = 17 + 8 * (rec.width.min(24) * rec.steps.min(99)) as usize;
    let room = if rng.once_in(3) {
        astray::near_len(rng, exact)
    } else {
        exact
    };
    log.say(|| format!("WriteWitness({rec:?}, {:?}) into {room} bytes", steps.trace));
    let (mut given, mut expected) = (vec![0xEE; room], vec![0xEE; room]);
    let trace = BabyBearUnit::list(&steps.trace);
    let library = sfr::witness_to_bytes(to_library(rec), trace, &mut given);
    let reading = reading::witness_to_bytes(rec, &steps.trace, &mut expected);
    seen.answered("write SFRW", reading.number);
    let library = (library.number, library.len, &given);
    let answer = (reading.number, reading.len, &expected);
    same("write SFRW", ("library", library), ("reading", answer))?;
    unsound::trace(rec, &steps.trace, reading.number, seen)?;
    expected.truncate(reading.len);
    Ok(expected)
}

fn read(rng: &mut Rng, width: u32, bytes: &[u8], seen: &mut Seen, log: &Log) -> Compared {
    let fields: Vec<usize> = (5..bytes.len().max(6)).step_by(4).collect();
    let damaged = generate::damaged_file(rng, bytes, &fields);
    let bytes = if rng.once_in(3) { bytes } else { &damaged };
    let width = if rng.once_in(10) {
        astray::width(rng)
    } else {
        width
    };
    let room = if rng.once_in(3) {
        astray::near_len(rng, bytes.len().saturating_sub(17) / 4)
    } else {
        bytes.len()
    };
    log.say(|| format!("ReadWitness({width}, {bytes:?}) into {room} words"));
    let (mut given, mut expected) = (vec![DIRT; room], vec![DIRT; room]);
    let library = sfr::witness_from_bytes(width, bytes, BabyBearUnit::list_mut(&mut given));
    let reading = reading::witness_from_bytes(width, bytes, &mut expected);
    seen.answered("read SFRW", reading.number);
    let library = (from_library(library), given);
    let reading = ((reading.number, reading.trace), expected);
    same("read SFRW", ("library", library), ("reading", reading))
}
