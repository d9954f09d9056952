//! `self`: the second reading beside the compiled sources, on random lists of calls and
//! what follows them: gate, bytes, damaged bytes, builder and check, in widths 1 to 24.
//!
//! Stores that are too short have no counterpart in the sources, and words that are no
//! wire or no unit have none in their types: such refusals are judged by what the types
//! say, or counted and left alone. Where a call of the sources panics, the second reading
//! must refuse; where one answers a message, the number must be one that the message
//! stands for.

pub mod calls;
pub mod instances;
mod witnesses;

use source::Relation;

use crate::{
    calls::{Answer, Call, State},
    compared::{same, Compared, Log, Outcome, Seen},
    generate::{self, Generator, Mood},
    held::{self, Room},
    lists,
    options::Options,
    plant,
    rng::Rng,
    zero_wire,
};

/// What the sources answer otherwise, or cannot answer at all, counted.
#[derive(Default)]
struct Apart {
    /// Held publics are searched there as if they increased.
    unsorted_value: u64,
    /// An instance with more wires than scratch has words is read there.
    too_many_wires: u64,
    /// A store was too short, which can't happen there.
    room: u64,
}

/// One list's run.
struct Run<'a> {
    seen: &'a mut Seen,
    apart: &'a mut Apart,
    log: &'a Log,
}

pub fn run(options: &Options) -> bool {
    source::silence_panics();
    let mut apart = Apart::default();
    let line = lists::compare(options, |seed, seen, log| {
        let apart = &mut apart;
        let mut run = Run { seen, apart, log };
        run.list(seed)?;
        if seed % 4 == 0 {
            plant::list(seed, &mut run)?;
        }
        Ok(())
    });
    let Some(line) = line else {
        return false;
    };
    println!(
        "  apart from the source: {} values in publics that don't increase, {} reads of more \
         wires than scratch, {} short stores",
        apart.unsorted_value, apart.too_many_wires, apart.room
    );
    println!("{line}");
    true
}

impl Run<'_> {
    /// One list of calls and what follows it.
    fn list(&mut self, seed: u64) -> Compared {
        let mut generator = Generator::new(Rng::new(seed));
        let width = generator.width;
        let label = generate::label(&mut generator.rng);
        let mut state = generator.state();
        self.log.say(|| {
            let lens = [&state.slots, &state.queries, &state.equations].map(Vec::len);
            let mood = generator.mood;
            format!("width {width}, {mood:?}, label {label:?}, stores {lens:?}")
        });

        let mut relation = source::relation(width, &label);
        let number = state.new_relation(width);
        self.seen.answered("fresh", number);
        same("fresh", ("reading", number), ("source", 0))?;
        calls::compare_states(&state, &*relation)?;
        for _ in 0..generator.rng.between(1, 40) {
            let call = generator.call(&state);
            self.log.say(|| format!("{call:?}"));
            let answer = state.run(&call);
            self.seen.called(&call, &answer);
            let spelling = generator.rng.below(3);
            let compared = calls::compare(&call, &answer, width, &mut relation, true, spelling)?;
            self.apart.room += u64::from(!compared);
            calls::compare_states(&state, &*relation)?;
            generator.note(&call, &answer);
            if generator.rng.once_in(30) {
                self.gate(&mut generator, &state, &label, &*relation)?;
            }
        }
        self.scaling(&mut generator.rng)?;
        self.judged(&mut generator, &state, &label, &*relation)?;
        self.ungated(&mut generator)?;
        self.there_and_back(&mut generator)
    }

    /// The gate and what follows it.
    fn judged(
        &mut self,
        generator: &mut Generator,
        state: &State,
        label: &str,
        relation: &dyn Relation,
    ) -> Compared {
        let Some((held, instance)) = self.gate(generator, state, label, relation)? else {
            return Ok(());
        };
        let trace = self.builder(generator, &held)?;
        if generator.mood == Mood::Honest {
            let number = held.check(&trace, &generator.params, Room::AMPLE.scratch);
            same(
                "an honest list's check",
                ("reading", number),
                ("expected", held.honest_number()),
            )?;
        }
        let [plain, strict] = held::reads(generator.width, &instance.to_bytes(), Room::AMPLE);
        zero_wire::compare_gated(&plain, &strict)?;
        self.instance(generator, &held, &*instance, &trace)
    }
}

/// Relations on one allocator: a list of them follows every fourth of the others.
impl plant::Side for Run<'_> {
    fn log(&self) -> &Log {
        self.log
    }

    fn open(&mut self, state: &mut State, width: u32, quota: u32) -> Outcome<Answer> {
        let answer = state.with_allocator(width, quota);
        self.seen.answered("opening", answer.number);
        Ok(answer)
    }

    fn call(&mut self, state: &mut State, call: &Call) -> Outcome<Answer> {
        let answer = state.run(call);
        self.seen.called(call, &answer);
        Ok(answer)
    }

    fn judge(
        &mut self,
        generator: &mut Generator,
        state: &State,
        relation: &dyn Relation,
    ) -> Compared {
        self.judged(generator, state, "", relation)
    }
}
