//! Operations 10 to 20, 27 and 28 of a sample: one call on a relation each, with all that is lent
//! to it and with what the second reading says of it.
//!
//! A random case starts as a call that most likely is accepted, over stores that end where
//! its room does or a little later. Up to two faults are then put into record, stores and
//! arguments, so that every number is answered and the first of two decides. Counts of
//! which a call is lent no store are often absurd: nothing asks about them.

use reading::{Relation, Share, MAX_COUNT, P, UNASSIGNED};

use super::{
    case::{
        Case, FIRST, FIRST_AFTER, ONE, SECOND, SECOND_AFTER, TEXT, THIRD, THIRD_AFTER, THREE, TWO,
    },
    Sample,
};
use crate::{
    astray,
    calls::{weighted, Call, State, DIRT},
    rng::{Rng, EDGES},
};

/// Words that are no width, no wire and no unit.
pub const NO_WIDTHS: [u32; 4] = [0, 25, 1 << 31, u32::MAX];
const NO_VARS: [u32; 4] = [MAX_COUNT, MAX_COUNT + 1, DIRT, u32::MAX];
const NO_UNITS: [u32; 4] = [P, P + 1, DIRT, UNASSIGNED];

/// The words of a record behind two arguments.
pub fn given(arguments: [u32; 2], rel: Relation) -> [u32; 8] {
    let [x, y] = arguments;
    let Relation {
        width,
        vars_count,
        queries,
        equations,
        words,
        stray,
    } = rel;
    [x, y, width, vars_count, queries, equations, words, stray]
}

/// Where the stores lie that a call may write, and what is left in them.
const STORES: [(usize, usize); 3] = [
    (FIRST, FIRST_AFTER),
    (SECOND, SECOND_AFTER),
    (THIRD, THIRD_AFTER),
];

/// Widths of calls that are lent queries, most of them small: such a case has the use counts too.
fn query_width(rng: &mut Rng) -> u32 {
    match rng.below(6) {
        0 => rng.width(),
        _ => rng.between(1, 5) as u32,
    }
}

/// A case of a call with its numbers: that of its operation or, where the relation shares an
/// allocator, of operation 30, with the share and the operation behind.
pub fn case_of(operation: u32, arguments: [u32; 2], state: &State) -> Case {
    let mut numbers = given(arguments, state.rel).to_vec();
    let Some(share) = state.share else {
        return Case::new(operation).given(&numbers);
    };
    let Share {
        index,
        opened,
        quota,
        obtained,
    } = share;
    numbers.extend([index, opened, quota, obtained, operation]);
    Case::new(30).given(&numbers)
}

/// The words of an answer that gives records back.
pub fn answered(number: u32, first: u32, state: &State) -> Vec<u32> {
    let mut words = given([number, first], state.rel).to_vec();
    if let Some(share) = state.share {
        words.extend([0, share.opened, share.quota, share.obtained]);
    }
    words
}

impl Sample {
    fn new_relation(&mut self, width: u32, slots: Vec<u32>, uses: Vec<u32>) {
        let case = Case::new(11)
            .given(&[0, 0, width])
            .list(FIRST, &slots)
            .list(SECOND, &uses);
        let mut state = State::sized(0, 0, 0);
        (state.slots, state.uses) = (slots, uses);
        let number = state.new_relation(width);
        let case = case
            .answer(&given([number, 0], state.rel))
            .list(FIRST_AFTER, &state.slots);
        self.push(case.list(SECOND_AFTER, &state.uses));
    }

    /// A call, put to the second reading.
    pub fn call(&mut self, mut state: State, call: &Call) {
        if let Call::Equation(terms, image) = call {
            return self.equation(17, state, terms, 1, *image);
        }
        let case = handed_in(&state, call);
        let answer = state.run(call);
        let number = answer.number;
        self.count_fresh(case.operation, call, &answer);
        let case = match call {
            Call::Set(..) | Call::SetList(..) | Call::Tickets(_) => {
                case.answer(&[number, answer.accepted as u32, answer.fresh as u32])
            }
            Call::Value(_) => {
                let (some, value) = (answer.value.is_some(), answer.value.unwrap_or(0));
                case.answer(&[number, value, u32::from(some)])
            }
            Call::IsAllocated(_) => case.answer(&[number, u32::from(answer.yes)]),
            _ => case.answer(&answered(number, answer.first, &state)),
        };
        let stores = stores(&state, call).into_iter().zip(STORES);
        let case = stores.fold(case, |case, (store, (_, after))| case.list(after, store));
        self.push(case);
    }

    /// Terms, scaled first, as an equation. A case has eight of them, of which those in front
    /// that the equation doesn't have are 0.
    fn equation(
        &mut self,
        operation: u32,
        state: State,
        terms: &[(u32, u32)],
        factor: u32,
        image: u32,
    ) {
        let mut state = state;
        let more = 8 - terms.len();
        let padded: Vec<(u32, u32)> = vec![(0, 0); more]
            .into_iter()
            .chain(terms.to_vec())
            .collect();
        let words: Vec<u32> = padded
            .iter()
            .flat_map(|&(var, weight)| [var, weight])
            .collect();
        let mut numbers = given([more as u32, image], state.rel).to_vec();
        numbers.push(factor);
        let case = Case::new(operation)
            .given(&numbers)
            .list(FIRST, &state.equations)
            .list(ONE, &words);
        let mut list = weighted(&padded);
        let scaled = reading::scale(&mut list, factor);
        let answer = reading::add_equation(state.rel, &mut state.equations, &list[more..], image);
        let case = case.answer(&given([answer.number, scaled], answer.relation));
        self.push(case.list(FIRST_AFTER, &state.equations));
    }

    /// An equation of terms that are scaled by any factor, mostly over sound terms.
    pub fn random_scaled(&mut self, rng: &mut Rng) {
        let mut state = State::sized(0, 0, 0);
        state.rel.width = rng.width();
        let mut call = equation(rng, &mut state);
        if rng.once_in(3) {
            fault(rng, &mut state, &mut call);
        }
        let factor = match rng.below(4) {
            0 => rng.edge(),
            _ => rng.unit(),
        };
        if let Call::Equation(terms, image) = call {
            self.equation(20, state, &terms, factor, image);
        }
    }

    /// The calls that every sample has: document 01's examples, each word at its limits, and
    /// two faults of which the first in 01's order decides.
    pub fn fixed_relations(&mut self) {
        for word in EDGES {
            self.edge(word);
        }
        let calls = [
            Call::Allocate(MAX_COUNT),
            Call::Allocate(MAX_COUNT - 1),
            Call::Allocate(7),
            Call::Set(0, 5),
            Call::SetList(vec![], vec![]),
            Call::SetList(vec![0], vec![]),
            Call::SetList(vec![], vec![0]),
            Call::SetList(vec![0, 0, 1], vec![0, 0, 1]),
            Call::SetList(vec![0, 0, 0], vec![0, 5, 0]),
            Call::SetList(vec![0, MAX_COUNT], vec![0, P, 0]),
            Call::Equation(vec![(0, P), (MAX_COUNT, 1)], P),
            Call::Equation(vec![(0, 0), (0, 0), (0, 0)], 0),
            Call::Record(vec![MAX_COUNT], vec![]),
            Call::Mint(vec![]),
        ];
        for call in calls {
            self.call(fresh(8), &call);
        }
        for call in repeats() {
            self.call(some_set(), &call);
        }
        // The count of equations has to fit the store by itself, beside the used words.
        for (equations, words) in [(1, 0), (4, 0), (4, 8), (5, 0), (5, 8), (0, 9)] {
            let mut state = fresh(8);
            (state.rel.equations, state.rel.words) = (equations, words);
            self.call(state, &Call::Equation(vec![], 0));
        }
        self.fixed_withdrawals();
    }

    /// Queries and equations withdrawn by any number; counts at their limits, with a wire that
    /// stands twice in the query, once, not at all or beyond the slots; use stores of other
    /// lengths; and equations that don't end at the used words.
    fn fixed_withdrawals(&mut self) {
        for index in [0, 1, 2, 3, MAX_COUNT, u32::MAX] {
            let mut state = some_queries();
            self.call(state.clone(), &Call::WithdrawQuery(index));
            self.call(state.clone(), &Call::WithdrawEquation(index));
            state.rel.vars_count = 0;
            self.call(state.clone(), &Call::WithdrawQuery(index));
            self.call(state, &Call::WithdrawEquation(index));
        }
        // 02's order: 11 by the counts that are there, then 10.
        for uses in [&[0, 2][..], &[0, 1], &[0, 1, 0], &[0, 2, 0], &[0], &[0; 4]] {
            let mut state = fresh(3);
            state.run(&Call::Record(vec![1], vec![1]));
            state.uses = uses.to_vec();
            self.call(state, &Call::WithdrawQuery(0));
        }
        let cells = [(1, 1), (0, 1), (2, 3), (9, 9)];
        let counts = [
            0,
            1,
            2,
            MAX_COUNT - 2,
            MAX_COUNT - 1,
            MAX_COUNT,
            MAX_COUNT + 1,
            MAX_COUNT + 2,
            MAX_COUNT + 3,
            u32::MAX,
        ];
        for (input, output) in cells {
            for count in counts {
                let mut state = fresh(3);
                state.run(&Call::Record(vec![input], vec![output]));
                (state.uses, state.rel.stray) = (vec![2, count, 2], count);
                self.call(state.clone(), &Call::WithdrawQuery(0));
                state.rel.queries = 0;
                self.call(state, &Call::Record(vec![input], vec![output]));
            }
        }
        for (equations, words) in [(2, 6), (2, 5), (2, 7), (1, 6), (1, 4), (3, 6), (0, 6)] {
            let mut state = some_queries();
            (state.rel.equations, state.rel.words) = (equations, words);
            self.call(state, &Call::WithdrawEquation(0));
        }
        for terms in [0, 2, 1 << 31, u32::MAX] {
            let mut state = some_queries();
            state.equations[0] = terms;
            self.call(state, &Call::WithdrawEquation(1));
        }
    }

    /// The word as a width, as a count of the record and as an argument.
    fn edge(&mut self, word: u32) {
        for (slots, uses) in [(0, 0), (1, 1), (3, 3)] {
            self.new_relation(word, vec![DIRT; slots], vec![DIRT; uses]);
        }
        let calls = [
            Call::Allocate(word),
            Call::Set(word, 0),
            Call::Set(0, word),
            Call::SetList(vec![0, word], vec![0, 0]),
            Call::SetList(vec![0, 0], vec![0, word]),
            Call::Record(vec![word], vec![0]),
            Call::Record(vec![0], vec![word]),
            Call::Mint(vec![word]),
            Call::Equation(vec![(word, 0)], 0),
            Call::Equation(vec![(0, word)], 0),
            Call::Equation(vec![], word),
            Call::Value(word),
            Call::IsAllocated(word),
        ];
        for call in calls {
            self.call(fresh(4), &call);
        }
        let counts: [(fn(&mut Relation) -> &mut u32, Call); 8] = [
            (|rel| &mut rel.width, Call::IsAllocated(0)),
            (|rel| &mut rel.width, Call::Value(0)),
            (|rel| &mut rel.vars_count, Call::IsAllocated(0)),
            (|rel| &mut rel.vars_count, Call::Value(0)),
            (|rel| &mut rel.queries, Call::Record(vec![0], vec![0])),
            (|rel| &mut rel.stray, Call::Record(vec![0], vec![9])),
            (|rel| &mut rel.equations, Call::Equation(vec![], 0)),
            (|rel| &mut rel.words, Call::Equation(vec![], 0)),
        ];
        for (count, call) in counts {
            let mut state = fresh(4);
            *count(&mut state.rel) = word;
            self.call(state, &call);
        }
    }

    pub fn random_relation(&mut self, rng: &mut Rng) {
        if rng.once_in(25) {
            let width = match rng.below(4) {
                0 => *rng.pick(&NO_WIDTHS),
                _ => rng.width(),
            };
            let len = *rng.pick(&[0, 1, 2, 7, 12]);
            let slots = (0..len).map(|_| rng.edge()).collect();
            let len = match rng.below(3) {
                0 => astray::near_len(rng, len),
                _ => len,
            };
            let uses = (0..len).map(|_| rng.edge()).collect();
            return self.new_relation(width, slots, uses);
        }
        let mut state = State::sized(0, 0, 0);
        state.rel.width = rng.width();
        let mut call = accepted_call(rng, &mut state);
        let faults = *rng.pick(&[0, 0, 1, 1, 2]);
        for _ in 0..faults {
            fault(rng, &mut state, &mut call);
        }
        self.call(state, &call);
    }
}

/// The operation, the record, the stores that are lent and the arguments.
fn handed_in(state: &State, call: &Call) -> Case {
    let arguments = match call {
        Call::Allocate(word)
        | Call::Value(word)
        | Call::IsAllocated(word)
        | Call::WithdrawQuery(word)
        | Call::WithdrawEquation(word) => [*word, 0],
        Call::Set(var, value) => [*var, *value],
        _ => [0, 0],
    };
    let case = case_of(operation(call), arguments, state);
    let case = match call {
        Call::Allocate(_) | Call::IsAllocated(_) | Call::Set(..) | Call::WithdrawEquation(_) => {
            case
        }
        Call::Value(_) | Call::WithdrawQuery(_) => case.list(ONE, &state.slots),
        Call::SetList(one, other) => case.list(ONE, one).list(TWO, other),
        Call::Record(one, other) => {
            let case = case.list(ONE, one).list(TWO, other);
            case.list(THREE, &state.slots)
        }
        Call::Tickets(text) => case.bytes(TEXT, &text.0),
        Call::Mint(input) => case.list(ONE, input),
        Call::Equation(..) => unreachable!("it has a function of its own"),
        Call::AllocateWith(_) => unreachable!("it is two calls"),
    };
    let stores = stores(state, call).into_iter().zip(STORES);
    stores.fold(case, |case, (store, (before, _))| case.list(before, store))
}

const fn operation(call: &Call) -> u32 {
    match call {
        Call::Allocate(_) | Call::AllocateWith(_) => 12,
        Call::Set(..) => 13,
        Call::SetList(..) => 14,
        Call::Tickets(_) => 10,
        Call::Record(..) => 15,
        Call::Mint(_) => 16,
        Call::Equation(..) => 17,
        Call::Value(_) => 18,
        Call::IsAllocated(_) => 19,
        Call::WithdrawQuery(_) => 27,
        Call::WithdrawEquation(_) => 28,
    }
}

/// The stores that a call may write.
fn stores<'a>(state: &'a State, call: &Call) -> Vec<&'a [u32]> {
    match call {
        Call::IsAllocated(_) | Call::Value(_) => vec![],
        Call::Record(..) | Call::WithdrawQuery(_) => vec![&state.queries, &state.uses],
        Call::Mint(_) => vec![&state.slots, &state.queries, &state.uses],
        Call::Equation(..) | Call::WithdrawEquation(_) => vec![&state.equations],
        _ => vec![&state.slots],
    }
}

/// A relation of width 1 with wire 0 alone, over dirty stores of one length.
pub fn fresh(len: usize) -> State {
    let mut state = State::sized(len, len, len);
    state.new_relation(1);
    state
}

/// A relation of four wires, of which wires 0 and 1 have values.
pub fn some_set() -> State {
    let mut state = fresh(5);
    state.run(&Call::Allocate(3));
    state.run(&Call::Set(1, 7));
    state
}

/// A relation of one wire with three queries, of wires that are allocated, that aren't and that
/// have no slot, and with two equations, in stores with room.
pub fn some_queries() -> State {
    let mut state = fresh(9);
    state.slots.truncate(3);
    state.uses.truncate(3);
    for (input, output) in [(0, 1), (2, 2), (7, 1)] {
        state.run(&Call::Record(vec![input], vec![output]));
    }
    state.run(&Call::Equation(vec![(2, 5)], 6));
    state.run(&Call::Equation(vec![], 7));
    state
}

/// Sets of such wires that are fresh, repeated or both, lists that are then refused, and lists of
/// which no pair is tried.
pub fn repeats() -> [Call; 7] {
    [
        Call::Set(1, 7),
        Call::Set(2, 7),
        Call::SetList(vec![2, 3], vec![7, 7]),
        Call::SetList(vec![0, 1, 2, 2], vec![0, 7, 0, 0]),
        Call::SetList(vec![2, 2, 1, 3], vec![9, 9, 8, 9]),
        Call::SetList(vec![1, 2, 3], vec![7, 9]),
        Call::SetList(vec![2, 3], vec![]),
    ]
}

/// Words left over behind what a call needs: none, one, or a few.
fn spare(rng: &mut Rng) -> usize {
    match rng.below(6) {
        0 | 1 => 0,
        2 => 1,
        5 => rng.below(20),
        _ => rng.below(6),
    }
}

fn dirty(rng: &mut Rng, len: usize) -> Vec<u32> {
    let word = |rng: &mut Rng| if rng.once_in(3) { rng.edge() } else { DIRT };
    (0..len).map(|_| word(rng)).collect()
}

/// Slots of some wires with room for more of them; behind these lies anything.
pub fn lend_slots(rng: &mut Rng, state: &mut State, more: usize) {
    let held = rng.between(1, 9);
    state.rel.vars_count = held as u32;
    state.slots = (0..held)
        .map(|_| match rng.below(12) {
            0..=5 => UNASSIGNED,
            6 => rng.edge(),
            _ => rng.unit(),
        })
        .collect();
    let behind = more + spare(rng);
    state.slots.extend(dirty(rng, behind));
}

/// Some held queries with room for more of them, and small use counts, no less than they make.
fn lend_queries(rng: &mut Rng, state: &mut State, least: usize, more: usize) {
    let size = 2 * state.rel.width as usize;
    let held = least + rng.below((48 / size).min(3) + 1);
    state.rel.queries = held as u32;
    let vars_count = state.rel.vars_count;
    state.queries = (0..size * held)
        .map(|_| match rng.below(12) {
            0 => rng.edge(),
            _ => any_var(rng, vars_count),
        })
        .collect();
    let (uses, stray) = reading::counted(state.slots.len(), &state.queries);
    state.rel.stray = stray + rng.below(2) as u32;
    state.uses = uses;
    for count in &mut state.uses {
        *count += *rng.pick(&[0, 0, 0, 1, 2]);
    }
    let behind = size * more + spare(rng);
    state.queries.extend(dirty(rng, behind));
}

/// Some held equations as they lie in a store, with anything behind them.
fn lend_held_equations(rng: &mut Rng, state: &mut State) {
    let held = rng.between(1, 4);
    state.rel.equations = held as u32;
    let mut words = Vec::new();
    for _ in 0..held {
        let terms = rng.below(4);
        words.push(terms as u32);
        words.extend((0..2 * terms + 1).map(|_| rng.edge()));
    }
    state.rel.words = words.len() as u32;
    let behind = spare(rng);
    words.extend(dirty(rng, behind));
    state.equations = words;
}

/// Some held equations with room for one more, of so many terms.
fn lend_equations(rng: &mut Rng, state: &mut State, terms: usize) {
    for _ in 0..rng.below(4) {
        state.rel.equations += 1;
        state.rel.words += 2 + 2 * rng.below(4) as u32;
    }
    let len = state.rel.words as usize + 2 + 2 * terms + spare(rng);
    state.equations = dirty(rng, len);
}

/// A wire, allocated or not.
pub fn any_var(rng: &mut Rng, vars_count: u32) -> u32 {
    match rng.below(8) {
        0 => MAX_COUNT - 1,
        1 => rng.word() % MAX_COUNT,
        2 => vars_count + rng.below(30) as u32,
        _ => rng.below(vars_count as usize) as u32,
    }
}

fn any_vars(rng: &mut Rng, state: &State) -> Vec<u32> {
    let (width, vars_count) = (state.rel.width, state.rel.vars_count);
    (0..width).map(|_| any_var(rng, vars_count)).collect()
}

/// An allocated wire, with the value it has or in most cases with one that it may get.
fn assignment(rng: &mut Rng, state: &State) -> (u32, u32) {
    for _ in 0..4 {
        let var = rng.below(state.rel.vars_count as usize);
        match state.slots[var] {
            UNASSIGNED => return (var as u32, rng.unit()),
            value if value < P => return (var as u32, value),
            _ => {}
        }
    }
    (rng.below(state.rel.vars_count as usize) as u32, rng.unit())
}

/// Some allocated wires, with a value for each; repeats agree.
pub fn pairs(rng: &mut Rng, state: &State) -> (Vec<u32>, Vec<u32>) {
    let (mut vars, mut values) = (Vec::new(), Vec::new());
    for _ in 0..rng.below(7) {
        let (var, value) = assignment(rng, state);
        // A wire that the list has set already keeps its value.
        let before = vars.iter().position(|&earlier| earlier == var);
        values.push(before.map_or(value, |i| values[i]));
        vars.push(var);
    }
    (vars, values)
}

/// Counts of queries and equations that are every second time any words.
pub fn any_counts(rng: &mut Rng, state: &mut State) {
    if rng.once_in(2) {
        state.rel.queries = rng.edge();
        state.rel.equations = rng.edge();
        state.rel.words = rng.edge();
        state.rel.stray = rng.edge();
    }
}

/// A call that most likely is accepted, and the stores that are lent to it.
pub fn accepted_call(rng: &mut Rng, state: &mut State) -> Call {
    any_counts(rng, state);
    match rng.below(29) {
        0..=2 => {
            let more = rng.below(9);
            lend_slots(rng, state, more);
            Call::Allocate(more as u32)
        }
        3..=5 => {
            lend_slots(rng, state, 0);
            let (var, value) = assignment(rng, state);
            Call::Set(var, value)
        }
        6..=9 => {
            lend_slots(rng, state, 0);
            let (vars, values) = pairs(rng, state);
            Call::SetList(vars, values)
        }
        10..=12 => {
            state.rel.width = query_width(rng);
            lend_slots(rng, state, 0);
            lend_queries(rng, state, 0, 1);
            Call::Record(any_vars(rng, state), any_vars(rng, state))
        }
        13..=16 => {
            state.rel.width = query_width(rng);
            let width = state.rel.width as usize;
            lend_slots(rng, state, width);
            lend_queries(rng, state, 0, 1);
            Call::Mint(any_vars(rng, state))
        }
        24..=26 => {
            state.rel.width = query_width(rng);
            lend_slots(rng, state, 0);
            lend_queries(rng, state, 1, 0);
            Call::WithdrawQuery(rng.below(state.rel.queries as usize) as u32)
        }
        27 | 28 => {
            state.rel.vars_count = rng.between(1, 40) as u32;
            lend_held_equations(rng, state);
            Call::WithdrawEquation(rng.below(state.rel.equations as usize) as u32)
        }
        17..=20 => equation(rng, state),
        21 | 22 => {
            lend_slots(rng, state, 0);
            Call::Value(any_var(rng, state.rel.vars_count))
        }
        _ => {
            state.rel.vars_count = *rng.pick(&[1, 2, 40, MAX_COUNT - 1, MAX_COUNT]);
            let beside = state.rel.vars_count - rng.below(2) as u32;
            Call::IsAllocated(*rng.pick(&[0, 1, beside]))
        }
    }
}

fn equation(rng: &mut Rng, state: &mut State) -> Call {
    state.rel.vars_count = rng.between(1, 40) as u32;
    (state.rel.equations, state.rel.words) = (0, 0);
    let len = rng.below(7);
    lend_equations(rng, state, len);
    let vars_count = state.rel.vars_count;
    let term = |rng: &mut Rng| (any_var(rng, vars_count), rng.unit());
    let terms = (0..len).map(|_| term(rng)).collect();
    Call::Equation(terms, rng.unit())
}

/// Something that a question may say no to, whether the call asks it or not.
pub fn fault(rng: &mut Rng, state: &mut State, call: &mut Call) {
    let cells = cells(state, call);
    match rng.below(if cells.is_empty() { 14 } else { 18 }) {
        0 => state.rel.width = *rng.pick(&NO_WIDTHS),
        1 | 2 => count_astray(rng, state, call),
        3 | 4 | 17 => shorter(rng, state, call),
        14.. => astray::counts(rng, state, &cells),
        5..=7 => length_astray(rng, state, call),
        8..=10 => var_astray(rng, state.rel.vars_count, call),
        _ => unit_astray(rng, state, call),
    }
}

/// The cells of the query that a call is about; those of a mint without its outputs.
fn cells(state: &State, call: &Call) -> Vec<u32> {
    let size = 2 * state.rel.width.clamp(1, 24) as usize;
    match call {
        Call::Record(input, output) => [&input[..], output].concat(),
        Call::Mint(input) => input.clone(),
        Call::WithdrawQuery(index) => {
            let held = state.queries.chunks(size).nth(*index as usize);
            held.unwrap_or(&[]).to_vec()
        }
        _ => vec![],
    }
}

/// A count that its store, or the limit on wires, just doesn't take any more; or any.
fn count_astray(rng: &mut Rng, state: &mut State, call: &Call) {
    let size = 2 * state.rel.width.clamp(1, 24);
    let full = |words: &[u32], size: u32| words.len() as u32 / size + 1;
    let (slots, queries) = (full(&state.slots, 1), full(&state.queries, size));
    let (pairs, words) = (full(&state.equations, 2), full(&state.equations, 1));
    let word = rng.edge();
    let rel = &mut state.rel;
    match (call, rng.below(4)) {
        (Call::Record(..) | Call::Mint(_) | Call::WithdrawQuery(_), 0) => rel.queries = queries,
        (Call::Record(..) | Call::Mint(_) | Call::WithdrawQuery(_), 1) => rel.queries = word,
        (Call::Equation(..), 0) => rel.equations = pairs,
        (Call::Equation(..), 1) => rel.words = words,
        (Call::Equation(..), 2) => (rel.equations, rel.words) = (word, rng.edge()),
        (Call::WithdrawEquation(_), 0) => rel.equations = astray::near(rng, rel.equations),
        (Call::WithdrawEquation(_), 1) => rel.words = astray::near(rng, rel.words),
        (Call::WithdrawEquation(_), 2) => astray::word(rng, &mut state.equations),
        (Call::Equation(..) | Call::WithdrawEquation(_) | Call::IsAllocated(_), _) => {
            rel.vars_count = *rng.pick(&[0, MAX_COUNT + 1, word]);
        }
        _ => rel.vars_count = *rng.pick(&[0, slots, slots, word]),
    }
}

/// A store that ends a word or a few words before the call's room does.
fn shorter(rng: &mut Rng, state: &mut State, call: &Call) {
    let rel = state.rel;
    let (size, queries) = (2 * rel.width as usize, rel.queries as usize);
    let (store, needed) = match call {
        Call::Equation(terms, _) => {
            let words = rel.words as usize;
            (&mut state.equations, words + 2 + 2 * terms.len())
        }
        Call::Record(..) => (&mut state.queries, (queries + 1) * size),
        Call::WithdrawQuery(_) => (&mut state.queries, queries * size),
        Call::WithdrawEquation(_) => (&mut state.equations, rel.words as usize),
        Call::Mint(_) if rng.once_in(2) => (&mut state.queries, (queries + 1) * size),
        Call::Mint(_) => (&mut state.slots, rel.vars_count as usize + size / 2),
        Call::Allocate(count) => (&mut state.slots, rel.vars_count as usize + *count as usize),
        _ => (&mut state.slots, rel.vars_count as usize),
    };
    let less = *rng.pick(&[1, 1, 1, 2, 5, 20]);
    store.truncate(needed.saturating_sub(less));
}

/// A list shorter or longer, more wires than there is room for.
fn length_astray(rng: &mut Rng, state: &State, call: &mut Call) {
    let (slots, vars_count) = (state.slots.len() as u32, state.rel.vars_count);
    let (list, other) = match call {
        Call::Allocate(count) => {
            *count = match rng.below(5) {
                0 => MAX_COUNT.wrapping_sub(vars_count),
                1 => MAX_COUNT.wrapping_sub(vars_count).wrapping_add(1),
                2 => rng.edge(),
                _ => slots.wrapping_sub(vars_count).wrapping_add(1),
            };
            return;
        }
        Call::WithdrawQuery(index) | Call::WithdrawEquation(index) => {
            *index = *rng.pick(&[0, state.rel.queries, state.rel.equations, u32::MAX]);
            return;
        }
        Call::SetList(one, other) | Call::Record(one, other) => (one, Some(other)),
        Call::Mint(input) => (input, None),
        _ => return,
    };
    let list = match other {
        Some(other) if rng.once_in(2) => other,
        _ => list,
    };
    match rng.below(4) {
        0 => list.truncate(list.len().saturating_sub(1)),
        1 => list.clear(),
        2 => list.push(rng.edge()),
        _ => list.extend([0, rng.edge(), 1]),
    }
}

/// A wire beyond the count, or a word that is none.
fn var_astray(rng: &mut Rng, vars_count: u32, call: &mut Call) {
    let word = match rng.below(4) {
        0 => vars_count,
        1 => vars_count.wrapping_add(rng.below(9) as u32),
        _ => *rng.pick(&NO_VARS),
    };
    match call {
        Call::Set(var, _)
        | Call::Value(var)
        | Call::IsAllocated(var)
        | Call::WithdrawQuery(var)
        | Call::WithdrawEquation(var) => *var = word,
        Call::SetList(vars, _) | Call::Mint(vars) => put(rng, vars, word),
        Call::Record(input, output) => {
            let list = if rng.once_in(2) { input } else { output };
            put(rng, list, word);
        }
        Call::Equation(terms, _) if !terms.is_empty() => {
            let at = rng.below(terms.len());
            terms[at].0 = word;
        }
        _ => {}
    }
}

/// Another value than the wire's, or a word that is no unit.
fn unit_astray(rng: &mut Rng, state: &mut State, call: &mut Call) {
    let word = if rng.once_in(2) {
        *rng.pick(&NO_UNITS)
    } else {
        rng.unit()
    };
    match call {
        Call::Set(var, value) => {
            *value = word;
            if let Some(slot) = state.slots.get_mut(*var as usize) {
                *slot = *rng.pick(&[0, word, P, UNASSIGNED, 7]);
            }
        }
        Call::SetList(_, values) => put(rng, values, word),
        Call::Equation(terms, image) => match rng.below(terms.len() + 1) {
            0 => *image = word,
            at => terms[at - 1].1 = word,
        },
        _ => {}
    }
}

/// Some word of a list becomes this one.
fn put(rng: &mut Rng, list: &mut [u32], word: u32) {
    if !list.is_empty() {
        list[rng.below(list.len())] = word;
    }
}
