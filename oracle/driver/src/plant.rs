//! Lists of openings and of the calls of up to eight relations on one allocator, put to a side
//! and to the compiled sources.
//!
//! A side is handed the allocator's count and slots as the last call left them, whoever made
//! it, and the relation's own record and stores. After every call each opened relation is
//! compared with the sources' relation on the sources' one allocator. A number that isn't
//! opened, a ninth opening and a quota have no counterpart there.

use std::mem::take;

use reading::{Relation as Record, Share, VarAllocator, MAX_RELATIONS};
use source::{Allocator, Relation};

use crate::{
    against_source::calls,
    calls::{Answer, Call, State, DIRT},
    compared::{holds, same, Compared, Log, Outcome},
    generate::{Generator, Mood},
    rng::Rng,
};

/// What runs the calls.
pub trait Side {
    fn log(&self) -> &Log;
    fn open(&mut self, state: &mut State, width: u32, quota: u32) -> Outcome<Answer>;
    fn call(&mut self, state: &mut State, call: &Call) -> Outcome<Answer>;
    /// The gate of a relation and what follows it, beside the sources.
    fn judge(
        &mut self,
        generator: &mut Generator,
        state: &State,
        relation: &dyn Relation,
    ) -> Compared;
    /// Calls on what lies beside a sound state, for a side that has another to compare with.
    fn astray(&mut self, _: &mut Generator, _: &State) -> Compared {
        Ok(())
    }
}

/// A relation: its record and own stores, how its calls are chosen, and the sources' one. Its
/// slots are empty but while they are lent.
struct Mixer {
    state: State,
    generator: Generator,
    relation: Box<dyn Relation>,
}

struct Plant {
    rng: Rng,
    mood: Mood,
    allocator: VarAllocator,
    slots: Vec<u32>,
    /// The unit of each wire, in an honest list.
    table: Vec<u32>,
    mixers: Vec<Mixer>,
    source: Allocator,
}

/// One list.
pub fn list(seed: u64, side: &mut impl Side) -> Compared {
    let mut plant = Plant::new(Rng::new(!seed));
    for _ in 0..plant.rng.between(1, 150) {
        plant.step(side)?;
    }
    if plant.mood == Mood::Honest {
        // An accepted gate is followed by much else: one will do.
        let last = plant.rng.below(plant.mixers.len());
        return plant.judge(last, side);
    }
    (0..plant.mixers.len()).try_for_each(|index| plant.close(index, side))
}

impl Plant {
    fn new(mut rng: Rng) -> Self {
        let slots = match rng.below(6) {
            0 => rng.between(1, 3),
            1 => rng.between(1, 30),
            _ => rng.between(100, 400),
        };
        let Generator { mood, table, .. } = Generator::new(Rng::new(rng.next()));
        Self {
            rng,
            mood,
            allocator: VarAllocator::default(),
            slots: State::sized(slots, 0, 0).slots,
            table,
            mixers: Vec::new(),
            source: Allocator::default(),
        }
    }

    /// An opening, a call, or a gate.
    fn step(&mut self, side: &mut impl Side) -> Compared {
        let opened = self.mixers.len();
        match self.rng.below(24) {
            _ if opened == 0 => self.open(side),
            0..=2 => self.open(side),
            3 => self.unopened(side),
            4 => {
                let index = self.rng.below(opened);
                self.judge(index, side)
            }
            _ => {
                let index = self.rng.below(opened);
                self.call(index, side)
            }
        }
    }

    /// Lends slots and count to a state, and takes them back from it.
    fn lend<T>(&mut self, state: &mut State, body: impl FnOnce(&mut State) -> T) -> T {
        state.slots = take(&mut self.slots);
        state.rel.vars_count = self.allocator.vars_count;
        if let Some(share) = &mut state.share {
            share.opened = self.allocator.opened;
        }
        let answer = body(state);
        self.slots = take(&mut state.slots);
        self.allocator.vars_count = state.rel.vars_count;
        if let Some(share) = state.share {
            self.allocator.opened = share.opened;
        }
        answer
    }

    /// A state that no relation has yet, under this number, with a use count per slot.
    fn unopened_state(&self, generator: &mut Generator, index: u32) -> State {
        let stores = generator.state();
        State {
            rel: Record::default(),
            share: Some(Share {
                index,
                opened: 0,
                quota: 0,
                obtained: 0,
            }),
            slots: Vec::new(),
            uses: vec![DIRT; self.slots.len()],
            ..stores
        }
    }

    fn open(&mut self, side: &mut impl Side) -> Compared {
        let mut generator = Generator::new(Rng::new(self.rng.next()));
        generator.mood = self.mood;
        let width = generator.width;
        let quota = match self.rng.below(6) {
            0 => 0,
            1 => self.rng.below(4) as u32,
            2 => u32::MAX,
            3 => self.rng.edge(),
            _ => self.rng.between(20, 200) as u32,
        };
        let opened = self.allocator.opened;
        let mut state = self.unopened_state(&mut generator, opened);
        side.log()
            .say(|| format!("Open({width}, {quota}) on {:?}", self.allocator));
        let answer = self.lend(&mut state, |state| {
            side.astray(&mut generator, state)?;
            side.open(state, width, quota)
        })?;
        if opened == MAX_RELATIONS {
            same("a ninth", ("given", answer.number), ("expected", 42))?;
            return self.compare();
        }
        let given = (answer.number, answer.first);
        same("opening", ("given", given), ("expected", (0, opened)))?;
        self.mixers.push(Mixer {
            state,
            generator,
            relation: source::with_allocator(width, &self.source),
        });
        self.compare()
    }

    /// A call of a number that isn't opened, with a record that is sound.
    fn unopened(&mut self, side: &mut impl Side) -> Compared {
        let index = match self.rng.below(3) {
            0 => self.rng.edge().max(self.allocator.opened),
            _ => self.allocator.opened + self.rng.below(3) as u32,
        };
        let mut generator = Generator::new(Rng::new(self.rng.next()));
        generator.mood = Mood::Tame;
        let mut state = self.unopened_state(&mut generator, index);
        state.rel.width = generator.width;
        let answer = self.lend(&mut state, |state| {
            let call = generator.call(state);
            side.log().say(|| format!("{call:?} of {index}"));
            let before = state.clone();
            let answer = side.call(state, &call)?;
            holds("a refused call leaves all", *state == before, &*state)?;
            Ok(answer)
        })?;
        same(
            "number not opened",
            ("given", answer.number),
            ("expected", 42),
        )
    }

    /// Lends slots and count to an opened relation, which first hears what others have done.
    fn lend_to(
        &mut self,
        index: usize,
        body: impl FnOnce(&mut State, &mut Generator, &mut Box<dyn Relation>) -> Compared,
    ) -> Compared {
        let (mut mixers, table) = (take(&mut self.mixers), take(&mut self.table));
        let Mixer {
            state,
            generator,
            relation,
        } = &mut mixers[index];
        self.lend(state, |state| {
            generator.hear(&table);
            body(state, generator, relation)
        })?;
        self.table = match self.mood {
            Mood::Honest => generator.table.clone(),
            _ => table,
        };
        self.mixers = mixers;
        self.compare()
    }

    /// A call of an opened relation; its gate follows an accepted withdrawal, in an honest list
    /// one in three.
    fn call(&mut self, index: usize, side: &mut impl Side) -> Compared {
        let struck = self.call_of(index, side, |side, generator, state| {
            side.astray(generator, state)?;
            Ok(generator.call(state))
        })?;
        if struck && (self.mood != Mood::Honest || self.rng.once_in(3)) {
            return self.judge(index, side);
        }
        Ok(())
    }

    /// A call of an opened relation, chosen so; whether it withdrew anything.
    fn call_of<S: Side>(
        &mut self,
        index: usize,
        side: &mut S,
        choose: impl FnOnce(&mut S, &mut Generator, &State) -> Outcome<Call>,
    ) -> Outcome<bool> {
        let spelling = self.rng.below(3);
        let mut struck = false;
        self.lend_to(index, |state, generator, relation| {
            let call = choose(side, generator, state)?;
            side.log().say(|| format!("{call:?} of {index}"));
            let answer = side.call(state, &call)?;
            calls::compare(&call, &answer, generator.width, relation, false, spelling)?;
            generator.note(&call, &answer);
            struck = call.is_withdrawal() && answer.number == 0;
            Ok(())
        })?;
        Ok(struck)
    }

    /// The end of a list that isn't honest: an equation of the relation is withdrawn, then a query,
    /// and its gate follows each.
    fn close(&mut self, index: usize, side: &mut impl Side) -> Compared {
        self.call_of(index, side, |_, generator, state| {
            let equation = generator.index(state.rel.equations);
            Ok(Call::WithdrawEquation(equation))
        })?;
        self.judge(index, side)?;
        self.call_of(index, side, |_, generator, state| {
            let query = generator.index(state.rel.queries);
            Ok(Call::WithdrawQuery(query))
        })?;
        self.judge(index, side)
    }

    /// The gate of an opened relation, and what follows it.
    fn judge(&mut self, index: usize, side: &mut impl Side) -> Compared {
        side.log().say(|| format!("relation {index}"));
        self.lend_to(index, |state, generator, relation| {
            side.judge(generator, state, &**relation)
        })
    }

    /// Counts and held words of every relation, with the sources; and what 02 says of the count.
    fn compare(&mut self) -> Compared {
        let mut mixers = take(&mut self.mixers);
        let mut obtained = 0;
        for Mixer {
            state, relation, ..
        } in &mut mixers
        {
            self.lend(state, |state| calls::compare_states(state, &**relation))?;
            let share = state.share.expect("a relation of a plant has one");
            holds("within the quota", share.obtained <= share.quota, share)?;
            obtained += share.obtained;
        }
        self.mixers = mixers;
        let count = self.allocator.vars_count;
        same(
            "1 and what each obtained",
            ("given", count),
            ("expected", 1 + obtained),
        )
    }
}
