//! `check`: whether a trace is a witness, on gated parts and on others.

use reading::Trace;
use sfr::BabyBearUnit;
use source::Params;

use super::{instance, witness};
use crate::{
    astray,
    calls::DIRT,
    compared::{same, Compared, Log, Seen, UNSOUND_CHECK},
    generate::{self, Generator},
    held::{self, Held, Room},
    lists,
    options::Options,
    rng::Rng,
    unsound,
};

pub fn run(options: &Options) -> bool {
    let line = lists::compare(options, list);
    line.inspect(|line| println!("{line}")).is_some()
}

fn list(seed: u64, seen: &mut Seen, log: &Log) -> Compared {
    let mut generator = Generator::new(Rng::new(seed));
    let width = generator.width;
    let stores = generator.state();
    let state = generator.relation(stores, 30);
    let (number, gated) = held::gate(&state, "", Room::AMPLE);
    if number == 0 {
        let trace = generator.trace(&gated);
        checks(
            &mut generator.rng,
            &gated,
            &trace,
            &generator.params,
            seen,
            log,
        )?;
    }
    let rng = &mut generator.rng;
    let parts = generate::ungated(rng, width);
    let (trace, params) = generate::ungated_trace(rng, width, &parts, &generator.params);
    checks(
        rng,
        &Held::from_parts(width, &parts),
        &trace,
        &params,
        seen,
        log,
    )
}

/// A trace as it is, damaged, and with everything else led astray.
fn checks(
    rng: &mut Rng,
    held: &Held,
    trace: &[u32],
    params: &Params,
    seen: &mut Seen,
    log: &Log,
) -> Compared {
    let width = held.ins.width;
    let steps = |trace: &[u32]| trace.len() as u32 / (2 * width);
    check(rng, held, steps(trace), trace, params, seen, log)?;
    for _ in 0..4 {
        let mut damaged = generate::damaged_trace(rng, width, trace, params);
        check(rng, held, steps(&damaged), &damaged, params, seen, log)?;

        let mut other = held.clone();
        if rng.once_in(2) {
            astray::held(rng, &mut other);
        }
        let mut count = steps(&damaged);
        match rng.below(8) {
            0 => count = astray::near(rng, count),
            1 => astray::word(rng, &mut damaged),
            _ => {}
        }
        let other_params = match rng.below(6) {
            0 => astray::params(rng, width),
            _ => params.clone(),
        };
        check(rng, &other, count, &damaged, &other_params, seen, log)?;
    }
    Ok(())
}

fn check(
    rng: &mut Rng,
    held: &Held,
    steps: u32,
    trace: &[u32],
    params: &Params,
    seen: &mut Seen,
    log: &Log,
) -> Compared {
    let scratch = match rng.below(4) {
        0 => astray::near_len(rng, held.ins.vars_count.min(999) as usize),
        _ => Room::AMPLE.scratch / 8,
    };
    log.say(|| format!("Check({held:?}, {steps}, {trace:?}, {params:?}), {scratch} scratch"));
    let (mut given, mut expected) = (vec![DIRT; scratch], vec![DIRT; scratch]);
    let library = sfr::is_witness_valid(
        instance::parts(held),
        steps,
        BabyBearUnit::list(trace),
        witness::parameters(params),
        &mut given,
    );
    let reading = reading::is_witness_valid(
        held.ins,
        &held.label,
        &held.publics,
        &held.queries,
        &held.equations,
        steps,
        trace,
        held::lent(params),
        &mut expected,
    );
    seen.answered("check", reading);
    same(
        "check",
        ("library", (library.number, given)),
        ("reading", (reading, expected)),
    )?;
    unsound(held, steps, trace, reading, seen)
}

/// Which part 11 is about: by the writes of instance and trace, and by the check, where it doesn't come
/// to 2 or 17 before it, of the trace or the sheet.
fn unsound(held: &Held, steps: u32, trace: &[u32], number: u32, seen: &mut Seen) -> Compared {
    let width = held.ins.width;
    let rec = Trace { width, steps };
    let (written, _) = held.write(0);
    let part = unsound::instance(held, written, seen)?;
    let (written, _) = held::write_witness(rec, trace, 0);
    let told = part.or(unsound::trace(rec, trace, written, seen)?);
    if [2, 17].contains(&number) {
        return Ok(());
    }
    let test = || unsound::in_instance(held).or_else(|| unsound::in_trace(rec, trace));
    unsound::compare(UNSOUND_CHECK, number, told, test, seen)
}
