//! Random lists of calls, sheets, labels and damaged bytes.

use std::collections::{BTreeMap, BTreeSet};

use reading::{MAX_COUNT, P, UNASSIGNED};
use source::{Params, Parts};

use crate::{
    calls::{Answer, Call, State},
    held::Held,
    rng::Rng,
    tickets::{self, Text},
};

/// How a list's calls are chosen.
#[derive(Clone, Copy, Debug, PartialEq, Eq)]
pub enum Mood {
    /// A table gives every wire one unit, and every call agrees with it: a gate that
    /// accepts, and a witness that the check says yes to.
    Honest,
    /// Wires that are allocated, and units.
    Tame,
    /// Any words, those at the edges first, and lists of any length.
    Wild,
}

/// Where the version stands in a file of either form.
const VERSION: usize = 4;

pub struct Generator {
    pub rng: Rng,
    pub mood: Mood,
    pub width: u32,
    pub params: Params,
    /// The unit of each wire, in an honest list.
    pub table: Vec<u32>,
    /// Whether a query or an equation of the list has been withdrawn.
    pub struck: bool,
}

impl Generator {
    pub fn new(mut rng: Rng) -> Self {
        let width = rng.width();
        Self::of_width(rng, width)
    }

    pub fn of_width(mut rng: Rng, width: u32) -> Self {
        let mood = *rng.pick(&[
            Mood::Honest,
            Mood::Honest,
            Mood::Tame,
            Mood::Wild,
            Mood::Wild,
        ]);
        let params = params(&mut rng, width);
        Self {
            rng,
            mood,
            width,
            params,
            table: vec![0],
            struck: false,
        }
    }

    /// Stores that hold some calls, and now and then too few words for them.
    pub fn state(&mut self) -> State {
        let width = self.width as usize;
        let rng = &mut self.rng;
        let slots = match rng.below(6) {
            0 => rng.between(1, 3),
            1 => rng.between(1, 2 * width + 2),
            _ => rng.between(10, 60) + 4 * width,
        };
        let queries = match rng.below(4) {
            0 => rng.between(0, 4 * width + 1),
            _ => rng.between(2, 8) * 2 * width,
        };
        let equations = match rng.below(4) {
            0 => rng.between(0, 12),
            _ => rng.between(20, 90),
        };
        State::sized(slots, queries, equations)
    }

    /// The relation that a list of calls makes over these stores, by the second reading.
    pub fn relation(&mut self, stores: State, most_calls: usize) -> State {
        let mut state = stores;
        state.new_relation(self.width);
        for _ in 0..self.rng.below(most_calls) {
            let call = self.call(&state);
            let answer = state.run(&call);
            self.note(&call, &answer);
        }
        state
    }

    /// A call that fits the mood, for a relation in this state.
    pub fn call(&mut self, state: &State) -> Call {
        match self.rng.below(27) {
            0..=2 => Call::Allocate(self.count(state)),
            3 => self.allocate_with(),
            4..=6 => {
                let (var, value) = self.assignment(state);
                Call::Set(var, value)
            }
            7..=9 => self.set_list(state),
            10..=12 => Call::Tickets(self.tickets(state)),
            13 | 14 => self.record(state),
            15 | 16 => Call::Mint(self.vars(state)),
            17..=20 => self.equation(state),
            21 => Call::Value(self.var(state)),
            22 => Call::IsAllocated(self.var(state)),
            23 | 24 if state.rel.queries > 0 || self.rng.once_in(4) => {
                Call::WithdrawQuery(self.index(state.rel.queries))
            }
            25 | 26 if state.rel.equations > 0 || self.rng.once_in(4) => {
                Call::WithdrawEquation(self.index(state.rel.equations))
            }
            23 | 24 => Call::Mint(self.vars(state)),
            _ => self.equation(state),
        }
    }

    /// The number of an item, of which there are so many: most often of one that is there.
    pub fn index(&mut self, count: u32) -> u32 {
        let rng = &mut self.rng;
        match rng.below(12) {
            0 => count,
            1 if self.mood == Mood::Wild => rng.edge(),
            2 => u32::MAX,
            3 | 4 => count.saturating_sub(1),
            5 | 6 => 0,
            _ => rng.below(count.clamp(1, 1000) as usize) as u32,
        }
    }

    /// A call that changes use counts and that every question before 11 lets pass, where the state
    /// does: a query recorded, minted or withdrawn; and its cells.
    #[cfg(feature = "library")]
    pub fn counted_call(&mut self, state: &State) -> (Call, Vec<u32>) {
        let (rel, width) = (state.rel, state.rel.width.clamp(1, 24));
        let vars = |generator: &mut Self| -> Vec<u32> {
            let slots = state.slots.len() as u32;
            let last = generator.rng.below(4) as u32;
            let var = |rng: &mut Rng| match rng.below(6) {
                0 => slots.saturating_sub(1) + rng.below(2) as u32,
                1 => rng.below(slots.max(1) as usize) as u32,
                2 => MAX_COUNT - 1,
                _ => last,
            };
            (0..width).map(|_| var(&mut generator.rng)).collect()
        };
        let held = (state.queries.len() as u32 / (2 * width)).min(rel.queries);
        match self.rng.below(if held == 0 { 2 } else { 4 }) {
            0 => {
                let (input, output) = (vars(self), vars(self));
                let cells = [&input[..], &output].concat();
                (Call::Record(input, output), cells)
            }
            1 => {
                let input = vars(self);
                let outputs = (0..width).map(|i| rel.vars_count.wrapping_add(i));
                let cells = input.iter().copied().chain(outputs).collect();
                (Call::Mint(input), cells)
            }
            _ => {
                let index = self.rng.below(held as usize);
                let size = 2 * width as usize;
                let cells = state.queries.chunks(size).nth(index).unwrap_or(&[]);
                (Call::WithdrawQuery(index as u32), cells.to_vec())
            }
        }
    }

    /// A call that fits no mood, for a relation in any state.
    #[cfg(feature = "library")]
    pub fn wild_call(&mut self, state: &State) -> Call {
        let mood = std::mem::replace(&mut self.mood, Mood::Wild);
        let call = self.call(state);
        self.mood = mood;
        call
    }

    /// Follows a list: whether anything was withdrawn and, in an honest one, what the wires of an
    /// accepted call are worth.
    pub fn note(&mut self, call: &Call, answer: &Answer) {
        self.struck |= call.is_withdrawal() && answer.number == 0;
        if self.mood != Mood::Honest || answer.number != 0 {
            return;
        }
        match call {
            Call::Allocate(count) => {
                for _ in 0..*count {
                    let value = self.rng.unit();
                    self.table.push(value);
                }
            }
            Call::AllocateWith(values) => self.table.extend(values),
            Call::Mint(input) => {
                let values = self.values(input);
                self.table.extend(self.params.permute(&values));
            }
            _ => {}
        }
    }

    /// Follows what others have done to the wires of a shared allocator: what these are worth.
    pub fn hear(&mut self, table: &[u32]) {
        if self.mood == Mood::Honest {
            self.table = table.to_vec();
        }
    }

    /// What the wires carry by the table; 1 where it has none.
    pub fn values(&self, vars: &[u32]) -> Vec<u32> {
        let value = |var: &u32| self.table.get(*var as usize).copied();
        vars.iter().map(|var| value(var).unwrap_or(1)).collect()
    }

    /// A step for each query, its inputs by the table: a witness, in an honest list.
    pub fn trace(&self, held: &Held) -> Vec<u32> {
        let width = self.width as usize;
        let (_, queries, _) = held.words();
        let step = |query: &[u32]| {
            let input = self.values(&query[..width]);
            let output = self.params.permute(&input);
            [input, output].concat()
        };
        queries.chunks(2 * width).flat_map(step).collect()
    }

    fn count(&mut self, state: &State) -> u32 {
        let rng = &mut self.rng;
        if self.mood != Mood::Wild || !rng.once_in(4) {
            return rng.below(6) as u32;
        }
        // Just what the quota still takes, or one more.
        if let Some(share) = state.share {
            if rng.once_in(2) {
                let left = share.quota.wrapping_sub(share.obtained);
                return left.wrapping_add(rng.below(2) as u32);
            }
        }
        // Just what the store or the limit still takes, or one more.
        let room = (state.slots.len() as u32).wrapping_sub(state.rel.vars_count);
        let left = MAX_COUNT.wrapping_sub(state.rel.vars_count);
        match rng.below(5) {
            0 => room,
            1 => room.wrapping_add(1),
            2 => left,
            3 => left.wrapping_add(1),
            _ => rng.edge(),
        }
    }

    fn var(&mut self, state: &State) -> u32 {
        let vars_count = state.rel.vars_count;
        let rng = &mut self.rng;
        if self.mood == Mood::Wild {
            match rng.below(12) {
                0 => return rng.edge(),
                1 => return vars_count,
                2 => return vars_count.wrapping_add(rng.below(30) as u32),
                3 => return vars_count.wrapping_sub(1),
                _ => {}
            }
        }
        // A handful of wires, so that repeats and conflicts come about.
        let last = vars_count.clamp(1, 1000) as usize;
        if rng.once_in(2) {
            rng.below(last.min(6)) as u32
        } else {
            rng.below(last) as u32
        }
    }

    fn unit(&mut self) -> u32 {
        if self.mood == Mood::Wild && self.rng.once_in(10) {
            self.rng.edge()
        } else {
            self.rng.unit()
        }
    }

    /// As many wires as the width, or in a wild list now and then not quite.
    fn vars(&mut self, state: &State) -> Vec<u32> {
        let width = self.width as usize;
        let len = if self.mood == Mood::Wild && self.rng.once_in(10) {
            *self.rng.pick(&[0, width - 1, width + 1, 2 * width])
        } else {
            width
        };
        if self.mood == Mood::Wild && self.rng.once_in(3) {
            // No word that is no wire: allocated ones, and some that aren't.
            let last = state.rel.vars_count.clamp(1, 1000) as usize + 8;
            return (0..len).map(|_| self.rng.below(last) as u32).collect();
        }
        (0..len).map(|_| self.var(state)).collect()
    }

    fn assignment(&mut self, state: &State) -> (u32, u32) {
        let var = self.var(state);
        if self.mood == Mood::Honest {
            return (var, self.table[var as usize]);
        }
        let slot = state.slots.get(var as usize).copied();
        match slot {
            // The same value again is accepted.
            Some(value) if value < P && self.rng.once_in(2) => (var, value),
            _ => (var, self.unit()),
        }
    }

    fn allocate_with(&mut self) -> Call {
        let len = self.rng.below(4);
        Call::AllocateWith((0..len).map(|_| self.rng.unit()).collect())
    }

    /// Up to five wires, now and then up to forty, with a value for each.
    fn pairs(&mut self, state: &State) -> (Vec<u32>, Vec<u32>) {
        let most = if self.rng.once_in(16) { 40 } else { 5 };
        let len = self.rng.below(most + 1);
        let (mut vars, mut values) = (Vec::new(), Vec::new());
        for _ in 0..len {
            let (var, value) = match vars.len() {
                // An earlier pair of this very list, with its value or another.
                1.. if self.mood != Mood::Honest && self.rng.once_in(4) => {
                    let i = self.rng.below(vars.len());
                    let value = if self.rng.once_in(4) {
                        self.unit()
                    } else {
                        values[i]
                    };
                    (vars[i], value)
                }
                _ => self.assignment(state),
            };
            vars.push(var);
            values.push(value);
        }
        (vars, values)
    }

    fn set_list(&mut self, state: &State) -> Call {
        let (mut vars, mut values) = self.pairs(state);
        if self.mood == Mood::Wild && self.rng.once_in(5) {
            for _ in 0..self.rng.between(1, 3) {
                let list = if self.rng.once_in(2) {
                    &mut vars
                } else {
                    &mut values
                };
                list.push(self.rng.edge());
            }
        }
        Call::SetList(vars, values)
    }

    /// A ticket text. All but wild ones are whole lines, or cut short: what is set is as in a
    /// set list.
    pub fn tickets(&mut self, state: &State) -> Text {
        let (vars, values) = self.pairs(state);
        let mut text = Vec::new();
        for (var, value) in vars.into_iter().zip(values) {
            let rng = &mut self.rng;
            let (mut var, mut grams) = (u64::from(var), tickets::grams(rng, value));
            if self.mood == Mood::Wild {
                match rng.below(20) {
                    0 => var = *rng.pick(&tickets::VARS),
                    1 => grams = *rng.pick(&tickets::GRAMS),
                    _ => {}
                }
            }
            text.extend(tickets::line(var, grams));
        }
        let rng = &mut self.rng;
        if self.mood == Mood::Wild {
            for _ in 0..*rng.pick(&[0, 0, 1, 2]) {
                tickets::damage(rng, &mut text);
            }
        } else if rng.once_in(4) {
            text.truncate(rng.below(text.len() + 1));
        }
        Text(text)
    }

    fn record(&mut self, state: &State) -> Call {
        if self.mood != Mood::Honest {
            return Call::Record(self.vars(state), self.vars(state));
        }
        // An honest query is one that was made before: its outputs are right.
        let size = 2 * self.width as usize;
        let (_, held, _) = state.held();
        if held.is_empty() {
            return Call::Mint(self.vars(state));
        }
        let at = self.rng.below(held.len() / size) * size;
        let (input, output) = held[at..at + size].split_at(size / 2);
        Call::Record(input.to_vec(), output.to_vec())
    }

    fn equation(&mut self, state: &State) -> Call {
        let len = match self.rng.below(8) {
            0 => 0,
            1..=5 => self.rng.between(1, 3),
            _ => self.rng.between(1, 9),
        };
        if self.mood != Mood::Honest {
            let terms = (0..len).map(|_| {
                let weight = if self.rng.once_in(4) { 0 } else { self.unit() };
                (self.var(state), weight)
            });
            let terms = terms.collect();
            return Call::Equation(terms, self.unit());
        }
        let known = known(state);
        let mut image = 0;
        let mut terms = Vec::new();
        for _ in 0..len {
            let (var, weight) = (*self.rng.pick(&known), self.rng.unit());
            let value = self.table[var as usize];
            image = (image + u64::from(weight) * u64::from(value)) % u64::from(P);
            terms.push((var, weight));
        }
        Call::Equation(terms, image as u32)
    }
}

/// The wires that a set or a held query names, of a relation that honest calls alone have made.
fn known(state: &State) -> Vec<u32> {
    let (slots, queries, _) = state.held();
    let set = (0..).zip(slots).filter(|(_, &slot)| slot != UNASSIGNED);
    let known = set.map(|(var, _)| var).chain(queries.iter().copied());
    known.collect::<BTreeSet<u32>>().into_iter().collect()
}

/// A sheet of few rounds, or of as many as there may be.
pub fn params(rng: &mut Rng, width: u32) -> Params {
    let rounds = match rng.below(40) {
        0 => 128,
        1..=12 => 0,
        _ => rng.between(1, 3) as u32,
    };
    let mut words = Vec::new();
    for _ in 0..rounds {
        words.push(rng.below(2) as u32);
        words.extend((0..width).map(|_| rng.unit()));
    }
    words.extend((0..width * width).map(|_| rng.unit()));
    Params { rounds, words }
}

/// A label, most of them short.
pub fn label(rng: &mut Rng) -> String {
    let len = match rng.below(4) {
        0 | 1 => 0,
        2 => rng.below(4),
        _ => rng.below(30),
    };
    let characters = [
        'a', 'z', '\0', '\u{7F}', '\u{80}', 'µ', '\u{7FF}', '\u{800}', '한',
    ];
    let far = [
        '\u{D7FF}',
        '\u{E000}',
        '\u{FFFF}',
        '\u{10000}',
        '\u{10FFFF}',
    ];
    let mut pick = || {
        if rng.once_in(3) {
            *rng.pick(&far)
        } else {
            *rng.pick(&characters)
        }
    };
    (0..len).map(|_| pick()).collect()
}

/// The bytes with one to three faults; `fields` are the places at which words start.
pub fn damaged(rng: &mut Rng, bytes: &[u8], fields: &[usize]) -> Vec<u8> {
    let mut bytes = bytes.to_vec();
    for _ in 0..rng.between(1, 3) {
        damage(rng, &mut bytes, fields);
    }
    bytes
}

/// A file damaged so, or now and then sound but for its version.
pub fn damaged_file(rng: &mut Rng, bytes: &[u8], fields: &[usize]) -> Vec<u8> {
    if !rng.once_in(12) {
        return damaged(rng, bytes, fields);
    }
    let mut bytes = bytes.to_vec();
    if let Some(version) = bytes.get_mut(VERSION) {
        *version = *rng.pick(&[0, 2, 3, u8::MAX]);
    }
    bytes
}

fn damage(rng: &mut Rng, bytes: &mut Vec<u8>, fields: &[usize]) {
    match rng.below(8) {
        0 => bytes.truncate(rng.below(bytes.len() + 1)),
        1 => bytes.extend((0..rng.between(1, 5)).map(|_| rng.byte())),
        2 if !bytes.is_empty() => {
            let at = rng.below(bytes.len());
            bytes[at] = rng.byte();
        }
        3 if !bytes.is_empty() => {
            let at = rng.below(bytes.len());
            bytes[at] ^= 1 << rng.below(8);
        }
        _ => {
            let at = *rng.pick(fields);
            if let Some(field) = bytes.get_mut(at..at + 4) {
                let old = u32::from_le_bytes([field[0], field[1], field[2], field[3]]);
                let new = match rng.below(5) {
                    0 => old.wrapping_add(1),
                    1 => old.wrapping_sub(1),
                    2 => rng.below(8) as u32,
                    _ => rng.edge(),
                };
                field.copy_from_slice(&new.to_le_bytes());
            }
        }
    }
}

/// Parts that no gate has seen, of few wires and values, so that these meet.
pub fn ungated(rng: &mut Rng, width: u32) -> Parts {
    let vars_count = rng.below(6) as u32;
    let var = |rng: &mut Rng| match rng.below(40) {
        0 => rng.word() % MAX_COUNT,
        1 => vars_count,
        _ => rng.below(vars_count.max(1) as usize) as u32,
    };
    let mut publics = Vec::new();
    for _ in 0..rng.below(4) {
        publics.extend([var(rng), rng.below(2) as u32]);
    }
    let cells = 2 * width as usize * rng.below(3);
    let queries = (0..cells).map(|_| var(rng)).collect();
    let mut equations = Vec::new();
    for _ in 0..rng.below(3) {
        let terms = (0..rng.below(3)).map(|_| (var(rng), rng.below(3) as u32));
        equations.push((terms.collect(), rng.below(3) as u32));
    }
    Parts {
        label: label(rng),
        vars_count,
        publics,
        queries,
        equations,
    }
}

/// A trace for such parts, with one value for each wire, and the sheet to go with it: every
/// second time one without rounds, under which equal halves are an evaluation.
pub fn ungated_trace(
    rng: &mut Rng,
    width: u32,
    parts: &Parts,
    params: &Params,
) -> (Vec<u32>, Params) {
    let values: [u32; 4] = std::array::from_fn(|_| rng.below(2) as u32);
    let cells = parts.queries.iter();
    let trace = cells.map(|&var| values[var as usize % 4]).collect();
    if rng.once_in(2) {
        return (trace, params.clone());
    }
    let words = vec![1; (width * width) as usize];
    (trace, Params { rounds: 0, words })
}

/// Parts that no gate has seen whose publics list wire 0 with value 0, or break this rule of the
/// strict read in one of the ways, and increase, but for now and then.
pub fn zero_wire(rng: &mut Rng, width: u32) -> Parts {
    let mut parts = ungated(rng, width);
    let pairs = parts.publics.chunks(2).map(|pair| (pair[0], pair[1]));
    let mut publics: BTreeMap<u32, u32> = pairs.collect();
    publics.insert(0, 0);
    match rng.below(8) {
        0 => publics.clear(),
        1 => {
            publics.remove(&0);
            publics.insert(1, rng.unit());
        }
        2 => {
            publics.insert(0, *rng.pick(&[1, 2, P - 1]));
        }
        3 => parts.vars_count = 0,
        _ => {}
    }
    let words = publics.into_iter().flat_map(|(var, unit)| [var, unit]);
    parts.publics = words.collect();
    if rng.once_in(8) && !parts.publics.is_empty() {
        parts.publics.extend_from_within(..2);
    }
    if rng.once_in(3) {
        // Terms come to be asked about, and now and then one beyond the wires first.
        parts.queries.clear();
        if rng.once_in(2) {
            let beyond = vec![(parts.vars_count, 1)];
            parts.equations.insert(0, (beyond, 0));
        }
    }
    parts
}

/// Parts of either kind.
pub fn parts(rng: &mut Rng, width: u32) -> Parts {
    if rng.once_in(2) {
        ungated(rng, width)
    } else {
        zero_wire(rng, width)
    }
}

/// A trace with one fault.
pub fn damaged_trace(rng: &mut Rng, width: u32, trace: &[u32], params: &Params) -> Vec<u32> {
    let width = width as usize;
    let mut trace = trace.to_vec();
    match rng.below(6) {
        0 => trace.truncate(trace.len().saturating_sub(2 * width)),
        1 => trace.extend((0..2 * width).map(|_| rng.unit())),
        2 | 3 if !trace.is_empty() => {
            let at = rng.below(trace.len());
            trace[at] = rng.unit();
        }
        _ if !trace.is_empty() => {
            // Another input, evaluated: only what its wires carry is wrong.
            let at = rng.below(trace.len() / (2 * width)) * 2 * width;
            let place = at + rng.below(width);
            trace[place] = rng.unit();
            let output = params.permute(&trace[at..at + width]);
            trace[at + width..at + 2 * width].copy_from_slice(&output);
        }
        _ => {}
    }
    trace
}
