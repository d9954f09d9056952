//! `terms`: scaling a list of terms, and which of two parts a heading is.

use sfr::BabyBearUnit;

use super::side;
use crate::{
    against_source::calls::untyped,
    calls::{weighted, Call},
    compared::{same, Compared, Log, Seen},
    lists,
    options::Options,
    rng::Rng,
};

pub fn run(options: &Options) -> bool {
    let line = lists::compare(options, list);
    line.inspect(|line| println!("{line}")).is_some()
}

fn list(seed: u64, seen: &mut Seen, log: &Log) -> Compared {
    let mut rng = Rng::new(seed);
    scale(&mut rng, seen, log)?;
    heading(&mut rng, seen, log)
}

/// The library beside the second reading on any words, and beside the sources on wires and
/// units.
fn scale(rng: &mut Rng, seen: &mut Seen, log: &Log) -> Compared {
    let often = *rng.pick(&[2, 12, 1000]);
    let mut word = |limit: u32| {
        if rng.once_in(often) {
            rng.edge()
        } else {
            rng.word() % limit
        }
    };
    let len = word(u32::MAX) % 9;
    let term = |_| (word(reading::MAX_COUNT), word(reading::P));
    let terms: Vec<(u32, u32)> = (0..len).map(term).collect();
    let factor = word(reading::P);
    log.say(|| format!("Scale({terms:?}, {factor})"));
    let (mut given, mut expected) = (side::weighted(&terms), weighted(&terms));
    let library = sfr::scale(&mut given, BabyBearUnit(factor)).number;
    let reading = reading::scale(&mut expected, factor);
    seen.answered("scale", reading);
    let pairs = given.iter().map(|term| (term.var.0, term.weight.0));
    let given: Vec<(u32, u32)> = pairs.collect();
    let pairs = expected.iter().map(|term| (term.var, term.weight));
    let expected: Vec<(u32, u32)> = pairs.collect();
    same(
        "scale",
        ("library", (library, &given)),
        ("reading", (reading, &expected)),
    )?;
    let call = Call::Equation(terms.clone(), factor);
    if untyped(&call, 1).is_none() {
        let expected = (0, source::scale(&terms, factor));
        same("scale", ("library", (library, given)), ("source", expected))?;
    }
    Ok(())
}

/// That very part: its place and its length. The sources have no headings.
fn heading(rng: &mut Rng, seen: &mut Seen, log: &Log) -> Compared {
    let mut text = || -> Vec<u8> { (0..rng.below(4)).map(|_| rng.byte()).collect() };
    let (label, name) = (text(), text());
    log.say(|| format!("Heading({label:?}, {name:?})"));
    let library = sfr::heading(&label, &name);
    let reading = reading::heading(&label, &name);
    seen.answered("heading", 0);
    let part = |part: &[u8]| (part.as_ptr() as usize, part.len());
    same(
        "heading",
        ("library", part(library)),
        ("reading", part(reading)),
    )
}
