//! `relation`: the proved library's calls on a relation beside the second reading, and
//! beside the compiled sources for as long as calls alone have made the record.
//!
//! After every call the answers, the records and every word of every store are compared,
//! held or not, and at the end of a list its gate, and one that may be unsound. Now and then a list
//! goes astray for some calls: with a record, stores, counts or held words that no list of calls
//! makes.

use source::Relation;

use super::{instance, large, side};
use crate::{
    against_source::{calls, instances::both},
    astray,
    calls::{Answer, Call, State},
    compared::{same, Compared, Log, Outcome, Seen},
    generate::Generator,
    lists,
    options::Options,
    rng::Rng,
};

pub fn run(options: &Options) -> bool {
    source::silence_panics();
    if let Err(difference) = large::compare(&[None]) {
        println!("relation: a difference: {}", difference.0);
        return false;
    }
    let line = lists::compare(options, list);
    line.inspect(|line| println!("{line}")).is_some()
}

/// One relation on the library's side and on the second reading's.
#[derive(Clone)]
pub struct Pair {
    pub library: State,
    pub reading: State,
}

impl Pair {
    pub fn new(state: State) -> Self {
        Self {
            library: state.clone(),
            reading: state,
        }
    }

    /// Runs a call on both sides.
    pub fn call(&mut self, call: &Call, seen: &mut Seen, log: &Log) -> Outcome<Answer> {
        log.say(|| {
            format!(
                "{call:?} on {:?} {:?}",
                self.reading.rel, self.reading.share
            )
        });
        let library = side::run(&mut self.library, call);
        let reading = self.reading.run(call);
        seen.called(call, &reading);
        same("answer", ("library", library), ("reading", reading))?;
        self.compare()?;
        Ok(reading)
    }

    pub fn compare(&self) -> Compared {
        let (library, reading) = (&self.library, &self.reading);
        let records = |state: &State| (state.rel, state.share);
        same(
            "records",
            ("library", records(library)),
            ("reading", records(reading)),
        )?;
        same(
            "slots",
            ("library", &library.slots),
            ("reading", &reading.slots),
        )?;
        same(
            "queries",
            ("library", &library.queries),
            ("reading", &reading.queries),
        )?;
        same(
            "equations",
            ("library", &library.equations),
            ("reading", &reading.equations),
        )?;
        same(
            "uses",
            ("library", &library.uses),
            ("reading", &reading.uses),
        )
    }

    /// The same change on both sides.
    pub fn change(&mut self, rng: &mut Rng) {
        let mut changed = self.reading.clone();
        for _ in 0..rng.between(1, 2) {
            astray::state(rng, &mut changed);
        }
        self.library = changed.clone();
        self.reading = changed;
    }

    /// Calls on what lies beside a sound state, and a gate.
    pub fn astray(mut self, generator: &mut Generator, seen: &mut Seen, log: &Log) -> Compared {
        if generator.rng.once_in(2) {
            self.change(&mut generator.rng);
        }
        let rng = &mut generator.rng;
        let gate = rng.once_in(4);
        for _ in 0..rng.between(1, 3) {
            let call = match generator.rng.below(8) {
                0..=2 => {
                    let (call, cells) = generator.counted_call(&self.reading);
                    astray::counts(&mut generator.rng, &mut self.reading, &cells);
                    call
                }
                3 => {
                    let equations = self.reading.rel.equations.max(1);
                    astray::equations(&mut generator.rng, &mut self.reading);
                    Call::WithdrawEquation(generator.index(equations))
                }
                _ => generator.wild_call(&self.reading),
            };
            self.library = self.reading.clone();
            self.call(&call, seen, log)?;
        }
        if gate {
            let rng = &mut generator.rng;
            let label = astray::label(rng, b"a");
            instance::gate(rng, &self.reading, &label, false, seen, log)?;
        }
        Ok(())
    }
}

/// One list of calls.
fn list(seed: u64, seen: &mut Seen, log: &Log) -> Compared {
    let mut generator = Generator::new(Rng::new(seed));
    let mut pair = Pair::new(generator.state());
    fresh_astray(&mut generator.rng, &pair, seen, log)?;
    fresh(&mut pair, generator.width, seen, log)?;
    let mut relation = source::relation(generator.width, "");
    for _ in 0..generator.rng.between(1, 60) {
        if generator.rng.once_in(4) {
            pair.clone().astray(&mut generator, seen, log)?;
        }
        let call = generator.call(&pair.reading);
        let answer = pair.call(&call, seen, log)?;
        compare_source(&mut generator, &call, &answer, &pair.reading, &mut relation)?;
        generator.note(&call, &answer);
    }
    gate(&mut generator, &pair.reading, &*relation, seen, log)?;
    instance::unsound_gate(&mut generator.rng, &pair.reading, seen, log)
}

fn compare_source(
    generator: &mut Generator,
    call: &Call,
    answer: &Answer,
    state: &State,
    relation: &mut Box<dyn Relation>,
) -> Compared {
    let spelling = generator.rng.below(3);
    calls::compare(call, answer, generator.width, relation, true, spelling)?;
    calls::compare_states(state, &**relation)
}

/// The gate of what the list left, on all sides. Room has no counterpart in the source.
fn gate(
    generator: &mut Generator,
    state: &State,
    relation: &dyn Relation,
    seen: &mut Seen,
    log: &Log,
) -> Compared {
    let struck = generator.struck;
    let (number, held) = instance::gate(&mut generator.rng, state, b"", struck, seen, log)?;
    match number {
        10 | 16 => Ok(()),
        _ => both(number, held, relation.compile()).map(|_| ()),
    }
}

/// A new relation on both sides.
fn fresh(pair: &mut Pair, width: u32, seen: &mut Seen, log: &Log) -> Compared {
    log.say(|| format!("New({width}) over {} slots", pair.reading.slots.len()));
    let library = side::new_relation(&mut pair.library, width);
    let number = pair.reading.new_relation(width);
    seen.answered("fresh", number);
    let reading = Answer {
        number,
        ..Answer::default()
    };
    same("answer", ("library", library), ("reading", reading))?;
    pair.compare()
}

/// A new relation of any width, over any number of slots.
fn fresh_astray(rng: &mut Rng, pair: &Pair, seen: &mut Seen, log: &Log) -> Compared {
    let mut other = pair.clone();
    other.change(rng);
    let width = if rng.once_in(2) {
        rng.edge()
    } else {
        rng.width()
    };
    match rng.below(8) {
        0 => other.reading.slots.clear(),
        1 => other.reading.uses.clear(),
        2 => {
            let len = astray::near_len(rng, other.reading.slots.len());
            other.reading.uses.resize(len, rng.edge());
        }
        _ => {}
    }
    other.library = other.reading.clone();
    fresh(&mut other, width, seen, log)
}
