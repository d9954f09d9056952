//! Operation 30 of a sample: an opening, a call or a gate of a relation on a shared allocator, with
//! all that is lent to it and with what the second reading says of it.
//!
//! A random case is one of a single relation, faults included, that is given a share with wires
//! to spare; up to one more fault is then put into number, allocator and quota. Equations are left
//! to the driver: to lend a program's own list of terms takes a proof of its own.

use reading::{Relation, Share, MAX_COUNT, MAX_RELATIONS};

use super::{
    case::{FIRST, FIRST_AFTER, SECOND, SECOND_AFTER},
    instance::small_stores,
    relation::{
        accepted_call, answered, case_of, fault, fresh, repeats, some_queries, some_set, NO_WIDTHS,
    },
    tickets::tickets_call,
    trace::small_width,
    Sample,
};
use crate::{
    astray,
    calls::{Call, State, DIRT},
    generate::{self, Generator},
    rng::Rng,
    tickets::{line, Text},
};

/// A relation's number, how many are opened, its quota and what it obtained.
const fn share(index: u32, opened: u32, quota: u32, obtained: u32) -> Option<Share> {
    Some(Share {
        index,
        opened,
        quota,
        obtained,
    })
}

impl Sample {
    fn opening(
        &mut self,
        allocator: (u32, u32),
        width: u32,
        quota: u32,
        slots: Vec<u32>,
        uses: Vec<u32>,
    ) {
        let (vars_count, opened) = allocator;
        let rel = Relation {
            width,
            vars_count,
            ..Relation::default()
        };
        let mut state = State {
            rel,
            share: share(0, opened, 0, 0),
            slots,
            uses,
            ..State::sized(0, 0, 0)
        };
        let case = case_of(11, [quota, 0], &state)
            .list(FIRST, &state.slots)
            .list(SECOND, &state.uses);
        let answer = state.with_allocator(width, quota);
        let case = case
            .answer(&answered(answer.number, answer.first, &state))
            .list(FIRST_AFTER, &state.slots);
        self.push(case.list(SECOND_AFTER, &state.uses));
    }

    /// The cases that every sample has: every call of a number that is opened, that isn't, and
    /// on allocators that no list makes; sets that are fresh or repeated; 5, 43 and 6 in turn; and
    /// openings.
    pub fn fixed_shared(&mut self) {
        let calls = [
            Call::Allocate(1),
            Call::Set(0, 0),
            Call::SetList(vec![0], vec![0]),
            Call::Tickets(Text(line(0, 0))),
            Call::Record(vec![0], vec![0]),
            Call::Mint(vec![0]),
            Call::Value(0),
            Call::IsAllocated(0),
            Call::WithdrawQuery(0),
            Call::WithdrawEquation(0),
        ];
        for call in calls {
            for (index, opened, vars_count) in
                [(7, 8, 1), (3, 3, 1), (0, 0, DIRT), (0, 9, 1), (0, 1, 0)]
            {
                let mut state = if call.is_withdrawal() {
                    some_queries()
                } else {
                    fresh(4)
                };
                state.rel.vars_count = vars_count;
                state.share = share(index, opened, 1, 0);
                self.call(state, &call);
            }
        }
        for call in [
            Call::Set(0, 5),
            Call::Tickets(Text(line(0, 0)[1..].to_vec())),
            Call::Tickets(Text(line(0, 999_999_999_999))),
        ] {
            let mut state = fresh(4);
            state.share = share(1, 2, 0, 0);
            self.call(state, &call);
        }
        // What another relation has set is a repeat.
        let [one, two] = [line(1, 350), line(2, 350)];
        let text = Call::Tickets(Text([one, two.clone(), two, line(2, 0)].concat()));
        for call in repeats().into_iter().chain([text]) {
            let mut state = some_set();
            state.share = share(1, 2, 0, 0);
            self.call(state, &call);
        }
        for (count, quota, obtained) in [
            (MAX_COUNT, 0, 0),
            (MAX_COUNT - 1, 3, 0),
            (MAX_COUNT - 1, u32::MAX, 0),
            (0, 2, 2),
            (0, 2, 3),
            (1, 2, 2),
            (1, u32::MAX, u32::MAX),
            (3, 5, 2),
            (4, 4, 0),
            (4, 3, 0),
        ] {
            let mut state = fresh(4);
            state.share = share(0, 1, quota, obtained);
            self.call(state, &Call::Allocate(count));
        }
        // A quota of one wire less than the mint takes, and stores that are too short.
        for (quota, slots, queries) in [(0, 2, 2), (1, 1, 2), (1, 2, 1), (1, 2, 2)] {
            let mut state = fresh(slots);
            state.queries = vec![DIRT; queries];
            state.share = share(0, 1, quota, 0);
            self.call(state, &Call::Mint(vec![0]));
        }
        for (width, vars_count, opened, slots) in [
            (1, 0, 0, 2),
            (24, DIRT, 0, 1),
            (1, 1, 0, 0),
            (0, 1, 0, 0),
            (25, 1, 1, 2),
            (2, 1, 1, 2),
            (3, 2, 7, 2),
            (1, 2, MAX_RELATIONS, 2),
            (1, 9, MAX_RELATIONS, 2),
            (1, 2, MAX_RELATIONS + 1, 2),
            (1, 0, 3, 2),
            (1, 3, 3, 2),
            (1, u32::MAX, 0, 2),
        ] {
            let slots = vec![DIRT; slots];
            self.opening((vars_count, opened), width, 7, slots.clone(), slots);
        }
        for (opened, slots, uses) in [
            (0, 2, 1),
            (0, 2, 3),
            (1, 2, 0),
            (7, 2, 3),
            (8, 2, 3),
            (0, 0, 1),
        ] {
            let [slots, uses] = [slots, uses].map(|len| vec![DIRT; len]);
            self.opening((1, opened), 1, 7, slots, uses);
        }
        // Withdrawals by number: of a query with a stray cell, and by numbers that aren't there.
        for (index, call) in [
            (1, Call::WithdrawQuery(2)),
            (1, Call::WithdrawQuery(3)),
            (2, Call::WithdrawQuery(3)),
            (1, Call::WithdrawEquation(1)),
            (1, Call::WithdrawEquation(2)),
            (2, Call::WithdrawEquation(2)),
        ] {
            let mut state = some_queries();
            state.share = share(index, 2, 3, 1);
            self.call(state, &call);
        }
        // Counts that a call would change to more than 2^30 or less than 0, or that are too few;
        // and equations that end before the used words.
        for call in [
            Call::Record(vec![1], vec![0]),
            Call::Mint(vec![0]),
            Call::WithdrawQuery(1),
            Call::WithdrawEquation(0),
        ] {
            let mut state = some_queries();
            state.share = share(0, 2, 3, 1);
            state.rel.words += 1;
            state.uses[2] = 1;
            state.uses[1] = MAX_COUNT;
            self.call(state.clone(), &call);
            (state.uses, state.rel.words) = (vec![2, 2], 6);
            self.call(state, &call);
        }
    }

    pub fn random_shared(&mut self, rng: &mut Rng) {
        match rng.below(10) {
            0 => self.random_opening(rng),
            1 | 2 => self.random_shared_gate(rng),
            3 => {
                let (mut state, call) = tickets_call(rng);
                share_state(rng, &mut state);
                self.call(state, &call);
            }
            _ => {
                let mut state = State::sized(0, 0, 0);
                state.rel.width = rng.width();
                let mut call = accepted_call(rng, &mut state);
                if matches!(call, Call::Equation(..)) {
                    return;
                }
                if rng.once_in(2) {
                    fault(rng, &mut state, &mut call);
                }
                share_state(rng, &mut state);
                self.call(state, &call);
            }
        }
    }

    fn random_opening(&mut self, rng: &mut Rng) {
        let len = rng.below(8);
        let slots = (0..len).map(|_| rng.edge()).collect();
        let width = match rng.below(6) {
            0 => *rng.pick(&NO_WIDTHS),
            _ => rng.width(),
        };
        let uses = match rng.below(4) {
            0 => astray::near_len(rng, len),
            _ => len,
        };
        let uses = (0..uses).map(|_| rng.edge()).collect();
        let vars_count = astray::near(rng, len as u32);
        let opened = match rng.below(3) {
            0 => 0,
            _ => astray::near(rng, MAX_RELATIONS - 1),
        };
        self.opening((vars_count, opened), width, rng.edge(), slots, uses);
    }

    fn random_shared_gate(&mut self, rng: &mut Rng) {
        let width = small_width(rng);
        let mut generator = Generator::of_width(Rng::new(rng.next()), width);
        let mut state = generator.relation(small_stores(rng, width as usize), 16);
        share_state(rng, &mut state);
        let label = generate::label(rng);
        self.random_gate(rng, &state, label.as_bytes());
    }
}

/// Gives a relation a share with wires to spare, now and then just too few, of a number that
/// isn't opened, or on an allocator that no list makes.
fn share_state(rng: &mut Rng, state: &mut State) {
    let opened = rng.between(1, MAX_RELATIONS as usize) as u32;
    let obtained = rng.below(40) as u32;
    let index = rng.below(opened as usize) as u32;
    state.share = share(
        index,
        opened,
        obtained + rng.between(24, 99) as u32,
        obtained,
    );
    let Some(share) = &mut state.share else {
        return;
    };
    match rng.below(12) {
        0 => share.index = astray::near(rng, opened),
        1 => share.opened = *rng.pick(&[0, 0, MAX_RELATIONS + 1, u32::MAX]),
        2..=4 => share.quota = obtained + rng.below(8) as u32,
        5 => share.quota = obtained.saturating_sub(1),
        6 => (share.quota, share.obtained) = (rng.edge(), rng.edge()),
        _ => {}
    }
}
