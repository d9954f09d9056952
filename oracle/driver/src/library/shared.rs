//! `shared`: relations on one allocator, by the proved library beside the second reading and
//! beside the compiled sources' `with_allocator`.
//!
//! After every opening and call the answers, both records and every word of every store are
//! compared; at random places of a list the gate of a relation, its bytes both ways and checks.
//! Now and then calls go astray: with an allocator, a number, a record, a quota or stores that no
//! list makes, or with counts that are wrong.

use reading::Share;
use source::Relation;

use super::{instance, large, relation::Pair, side, whole};
use crate::{
    astray,
    calls::{Answer, Call, State},
    compared::{same, Compared, Log, Outcome, Seen},
    generate::Generator,
    lists,
    options::Options,
    plant,
    rng::Rng,
};

/// Shares of a relation on large stores: with wires to spare, with none, and of a number that
/// isn't opened, where anything and where nothing is.
const SHARES: [Option<Share>; 5] = [
    share(0, 1, u32::MAX, 0),
    share(7, 8, 1, 0),
    share(0, 1, 0, 0),
    share(1, 1, u32::MAX, 0),
    share(0, 0, u32::MAX, u32::MAX),
];

const fn share(index: u32, opened: u32, quota: u32, obtained: u32) -> Option<Share> {
    Some(Share {
        index,
        opened,
        quota,
        obtained,
    })
}

pub fn run(options: &Options) -> bool {
    source::silence_panics();
    if let Err(difference) = large::compare(&SHARES) {
        println!("shared: a difference: {}", difference.0);
        return false;
    }
    let line = lists::compare(options, |seed, seen, log| {
        plant::list(seed, &mut Run { seen, log })
    });
    line.inspect(|line| println!("{line}")).is_some()
}

/// One list's run.
struct Run<'a> {
    seen: &'a mut Seen,
    log: &'a Log,
}

impl Run<'_> {
    /// An opening on both sides.
    fn opening(&mut self, pair: &mut Pair, width: u32, quota: u32) -> Outcome<Answer> {
        let library = side::with_allocator(&mut pair.library, width, quota);
        let reading = pair.reading.with_allocator(width, quota);
        self.seen.answered("opening", reading.number);
        same("opening", ("library", library), ("reading", reading))?;
        pair.compare()?;
        Ok(reading)
    }

    /// An opening of any width and quota, on any allocator.
    fn opening_astray(&mut self, rng: &mut Rng, state: &State) -> Compared {
        let mut pair = Pair::new(state.clone());
        pair.change(rng);
        match rng.below(8) {
            0 | 1 => pair.reading.slots.clear(),
            2 => {
                let len = astray::near_len(rng, pair.reading.slots.len());
                pair.reading.uses.resize(len, rng.edge());
            }
            _ => {}
        }
        pair.library = pair.reading.clone();
        let (width, quota) = (astray::width(rng), rng.edge());
        self.log
            .say(|| format!("Open({width}, {quota}) on {:?}", pair.reading));
        self.opening(&mut pair, width, quota).map(|_| ())
    }
}

impl plant::Side for Run<'_> {
    fn log(&self) -> &Log {
        self.log
    }

    fn open(&mut self, state: &mut State, width: u32, quota: u32) -> Outcome<Answer> {
        let mut pair = Pair::new(state.clone());
        let answer = self.opening(&mut pair, width, quota)?;
        *state = pair.library;
        Ok(answer)
    }

    fn call(&mut self, state: &mut State, call: &Call) -> Outcome<Answer> {
        let mut pair = Pair::new(state.clone());
        let answer = pair.call(call, self.seen, self.log)?;
        *state = pair.library;
        Ok(answer)
    }

    fn judge(
        &mut self,
        generator: &mut Generator,
        state: &State,
        relation: &dyn Relation,
    ) -> Compared {
        let struck = generator.struck;
        instance::gate(&mut generator.rng, state, b"", struck, self.seen, self.log)?;
        instance::unsound_gate(&mut generator.rng, state, self.seen, self.log)?;
        let (seen, log) = (&mut *self.seen, self.log);
        whole::Run { seen, log }.judged(generator, state, "", relation)
    }

    fn astray(&mut self, generator: &mut Generator, state: &State) -> Compared {
        if !generator.rng.once_in(4) {
            return Ok(());
        }
        if generator.rng.once_in(3) {
            self.opening_astray(&mut generator.rng, state)?;
        }
        Pair::new(state.clone()).astray(generator, self.seen, self.log)
    }
}
