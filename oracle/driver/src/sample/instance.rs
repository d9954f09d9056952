//! Operations 31 to 37 of a sample: the gate, an instance's bytes written and read, a wire's
//! value in publics, the heading, the check and the strict read, with all that is lent to the call
//! and with what the second reading says of it.

use reading::{Instance, Share, MAX_COUNT};
use source::{Params, Parts};

use super::{
    case::{
        Case, FIRST, FIRST_AFTER, FIVE, FOUR, FOURTH, ONE, OTHER, SECOND, SECOND_AFTER, TEXT,
        THIRD, THIRD_AFTER, THREE, TWO,
    },
    relation,
    trace::{damaged, output, short_sheet, small_width, DIRTY_BYTE},
    Sample,
};
use crate::{
    astray,
    calls::{Call, State, DIRT},
    generate::{self, Generator},
    held::{self, Held, Room},
    rng::Rng,
};

/// A read's operation and what the second reading has for it.
type Replayed = (u32, reading::Read);
const PLAIN: Replayed = (33, reading::READS[0]);
const STRICT: Replayed = (37, reading::READS[1]);

/// Wires and publics that keep the rule of wire 0, and that break it in each of the ways.
const ZERO_WIRES: [(u32, &[u32]); 6] = [
    (3, &[0, 0]),
    (3, &[]),
    (3, &[1, 0]),
    (3, &[0, 1]),
    (0, &[0, 0]),
    (0, &[]),
];
/// Numbers of what a file may get wrong besides, before 46 is asked and after it; 0 for nothing.
const FAULTS: [u32; 10] = [0, 10, 20, 27, 16, 12, 13, 14, 15, 28];

/// A file of width 1 with these wires and publics and a fault, and the stores to read it into.
fn faulty(vars_count: u32, publics: &[u32], fault: u32) -> (Vec<u8>, [usize; 4]) {
    let mut parts = Parts {
        vars_count,
        publics: publics.to_vec(),
        ..Parts::default()
    };
    match fault {
        27 => parts.publics.extend([2, 0, 2, 0]),
        12 => parts.publics.extend([3, 0]),
        13 => parts.queries.extend([0, 3]),
        14 => parts.equations.push((vec![(3, 1)], 0)),
        15 => parts.equations.push((vec![(2, 1)], 0)),
        _ => parts.equations.push((vec![], 0)),
    }
    let held = Held::from_parts(1, &parts);
    let (_, mut bytes) = held.write(held.most_bytes());
    let mut rooms = [6, 2, 4, 3];
    match fault {
        10 => rooms[2] = 1,
        16 => rooms[3] = 2,
        20 => bytes.truncate(bytes.len() - 1),
        28 => bytes.push(0),
        _ => {}
    }
    (bytes, rooms)
}

/// The words of an instance's record behind two arguments.
fn given(arguments: [u32; 2], ins: Instance) -> [u32; 8] {
    let [x, y] = arguments;
    let Instance {
        width,
        vars_count,
        queries,
        equations,
        words,
        publics,
    } = ins;
    [x, y, width, vars_count, queries, equations, words, publics]
}

impl Sample {
    fn gate(&mut self, state: &State, label: &[u8], publics: usize, scratch: usize) {
        let (mut publics, mut scratch) = (vec![DIRT; publics], vec![DIRT; scratch]);
        let case = relation::case_of(31, [0, 0], state)
            .bytes(TEXT, label)
            .list(FIRST, &publics)
            .list(ONE, &state.slots)
            .list(TWO, &state.queries)
            .list(THREE, &state.equations)
            .list(FOUR, &state.uses)
            .list(SECOND, &scratch);
        let answer = held::compile(state, label, &mut publics, &mut scratch);
        let case = case.answer(&given([answer.number, 0], answer.instance));
        self.push(case.list(FIRST_AFTER, &publics));
        assert!(scratch.iter().all(|&word| word == 0), "scratch is all 0");
    }

    /// The gates that every sample has, of a relation alone and of one that shares its allocator:
    /// with right counts and with wrong ones, by which 13 and 15 go, and with too few or too many.
    pub fn fixed_gates(&mut self) {
        let mut state = relation::fresh(4);
        state.queries.truncate(2);
        state.run(&Call::Allocate(2));
        state.run(&Call::Record(vec![1], vec![1]));
        state.equations = vec![1, 1, 3, 4];
        (state.rel.equations, state.rel.words) = (1, 4);
        let share = Share {
            index: 1,
            opened: 2,
            quota: 0,
            obtained: 0,
        };
        let counts: [(&[u32], u32); 12] = [
            (&[0, 2, 0, 0], 0),
            (&[0, 0, 0, 0], 0),
            (&[0, 0, 2, 0], 0),
            (&[1, 1, 1, 0], 0),
            (&[0, u32::MAX, 0, 0], 0),
            (&[0, 2, 0, 1], 0),
            (&[0, 0, 0, MAX_COUNT + 1], 0),
            (&[0, 2, 0, 0], 1),
            (&[0, 0, 0, 0], u32::MAX),
            (&[0, 2, 0], 0),
            (&[0, 2, 0, 0, 0], 0),
            (&[], 0),
        ];
        for share in [None, Some(share)] {
            for (uses, stray) in counts {
                let mut state = state.clone();
                state.share = share;
                (state.uses, state.rel.stray) = (uses.to_vec(), stray);
                self.gate(&state, b"", 2, 3);
            }
        }
    }

    /// Values in two publics, by records that fit them and that don't.
    pub fn fixed_public_values(&mut self) {
        let parts = Parts {
            vars_count: 2,
            publics: vec![0, 4, 1, 3],
            ..Parts::default()
        };
        for (width, publics) in [(1, 2), (1, 1), (0, 2), (25, 9), (1, 3), (1, u32::MAX)] {
            let mut held = Held::from_parts(1, &parts);
            (held.ins.width, held.ins.publics) = (width, publics);
            self.public_value(&held, 1);
        }
    }

    fn write_instance(&mut self, held: &Held, room: usize) {
        let case = Case::new(32)
            .given(&given([0, 0], held.ins))
            .bytes(TEXT, &held.label)
            .list(ONE, &held.publics)
            .list(TWO, &held.queries)
            .list(THREE, &held.equations);
        let mut out = vec![DIRTY_BYTE; room];
        let answer = reading::instance_to_bytes(
            held.ins,
            &held.label,
            &held.publics,
            &held.queries,
            &held.equations,
            &mut out,
        );
        let case = case.bytes(OTHER, &out);
        self.push(case.answer(&[answer.number, answer.len as u32]));
    }

    fn read_instance(&mut self, by: Replayed, width: u32, bytes: &[u8], rooms: [usize; 4]) {
        let (operation, read) = by;
        let mut stores = rooms.map(|room| vec![DIRT; room]);
        let [publics, queries, equations, scratch] = &mut stores;
        let case = Case::new(operation)
            .given(&[0, 0, width])
            .bytes(TEXT, bytes)
            .list(FIRST, publics)
            .list(SECOND, queries)
            .list(THIRD, equations)
            .list(FOURTH, scratch);
        let answer = read(width, bytes, publics, queries, equations, scratch);
        let len = answer.label.len() as u32;
        let case = case
            .answer(&given([answer.number, len], answer.instance))
            .bytes(OTHER, answer.label)
            .list(FIRST_AFTER, publics)
            .list(SECOND_AFTER, queries)
            .list(THIRD_AFTER, equations);
        self.push(case);
        assert!(scratch.iter().all(|&word| word == 0), "scratch is all 0");
    }

    /// Strict reads of files that keep the rule of wire 0, in several widths; and of small ones that
    /// keep it and that break it, each as it is and with one of nine faults besides. Of files without
    /// wires 16 is none, and 15 comes as 14.
    pub fn fixed_strict_reads(&mut self) {
        for width in 1..=6 {
            let parts = Parts {
                label: "µ".repeat(width),
                vars_count: 3,
                publics: vec![0, 0, 2, 5],
                queries: vec![1; 2 * width],
                equations: vec![(vec![(1, 3)], 6)],
            };
            let held = Held::from_parts(width as u32, &parts);
            let (_, bytes) = held.write(held.most_bytes());
            self.read_instance(STRICT, width as u32, &bytes, [5, 2 * width, 6, 3]);
        }
        for (vars_count, publics) in ZERO_WIRES {
            for fault in FAULTS {
                let (bytes, rooms) = faulty(vars_count, publics, fault);
                self.read_instance(STRICT, 1, &bytes, rooms);
            }
        }
    }

    fn public_value(&mut self, held: &Held, var: u32) {
        let answer = reading::public_value(held.ins, &held.publics, var);
        let (some, value) = (answer.value.is_some(), answer.value.unwrap_or(0));
        let case = Case::new(34)
            .given(&given([var, 0], held.ins))
            .list(ONE, &held.publics);
        self.push(case.answer(&[answer.number, value, u32::from(some)]));
    }

    /// A label and a name of few bytes, most often one of them none.
    pub fn random_heading(&mut self, rng: &mut Rng) {
        let mut text = || -> Vec<u8> { (0..rng.below(6)).map(|_| rng.byte()).collect() };
        let (label, name) = (text(), text());
        let label = if rng.once_in(2) { label } else { vec![] };
        let heading = reading::heading(&label, &name);
        let case = Case::new(35)
            .bytes(TEXT, &label)
            .bytes(OTHER, &name)
            .bytes(ONE, heading);
        self.push(case.answer(&[0, heading.len() as u32]));
    }

    fn check(&mut self, held: &Held, steps: u32, trace: &[u32], params: &Params, scratch: usize) {
        let mut scratch = vec![DIRT; scratch];
        let case = Case::new(36)
            .given(&given([steps, params.rounds], held.ins))
            .bytes(TEXT, &held.label)
            .list(FIRST, &scratch)
            .list(ONE, &held.publics)
            .list(TWO, &held.queries)
            .list(THREE, &held.equations)
            .list(FOUR, trace)
            .list(FIVE, &params.words);
        let number = reading::is_witness_valid(
            held.ins,
            &held.label,
            &held.publics,
            &held.queries,
            &held.equations,
            steps,
            trace,
            held::lent(params),
            &mut scratch,
        );
        self.push(case.answer(&[number]).list(FIRST_AFTER, &scratch));
    }

    /// A relation that calls make, or one led astray: the gate, and then what it makes or parts
    /// that no gate has seen, looked at, written, read and checked. What happens to a write and a
    /// look is drawn apart.
    pub fn random_instance(&mut self, rng: &mut Rng, writes: &mut Rng, looks: &mut Rng) {
        let width = small_width(rng);
        let mut generator = Generator::of_width(Rng::new(rng.next()), width);
        generator.params = generate::params(rng, width);
        while generator.params.words.len() > 100 {
            generator.params = generate::params(rng, width);
        }
        let state = generator.relation(small_stores(rng, width as usize), 16);
        let label = generate::label(rng);
        self.random_gate(rng, &state, label.as_bytes());
        let (number, mut gated) = held::gate(&state, &label, Room::AMPLE);
        if number == 0 && rng.once_in(2) {
            gated.publics.truncate(2 * gated.ins.publics as usize);
            let trace = generator.trace(&gated);
            self.random_public_value(looks, &gated);
            self.random_write_instance(writes, &gated);
            self.random_read_instance(PLAIN, rng, &gated);
            return self.random_check(rng, &gated, trace, &generator.params);
        }
        let parts = generate::ungated(rng, width);
        let (trace, params) = generate::ungated_trace(rng, width, &parts, &generator.params);
        let held = Held::from_parts(width, &parts);
        self.random_public_value(looks, &held);
        self.random_write_instance(writes, &held);
        self.random_read_instance(PLAIN, rng, &held);
        self.random_check(rng, &held, trace, &params);
    }

    pub fn random_gate(&mut self, rng: &mut Rng, state: &State, label: &[u8]) {
        let (mut state, mut label) = (state.clone(), label.to_vec());
        match rng.below(8) {
            0..=3 => {
                astray::state(rng, &mut state);
                label = astray::label(rng, &label);
            }
            4 | 5 => astray::miscount(rng, &mut state),
            _ => {}
        }
        let vars = (state.rel.vars_count as usize).min(state.slots.len());
        let assigned = state.slots[..vars].iter().filter(|&&slot| slot != u32::MAX);
        let (mut publics, mut scratch) = (2 * assigned.count(), vars);
        if rng.once_in(4) {
            publics = astray::near_len(rng, publics);
            scratch = astray::near_len(rng, scratch);
        }
        self.gate(&state, &label, publics, scratch);
    }

    /// A wire that publics list, twice now and then, or another one.
    fn random_public_value(&mut self, rng: &mut Rng, held: &Held) {
        let mut held = held.clone();
        if rng.once_in(4) {
            astray::held(rng, &mut held);
        }
        if rng.once_in(3) && !held.publics.is_empty() {
            held.publics.extend([held.publics[0], rng.unit()]);
            held.ins.publics = held.ins.publics.wrapping_add(1);
        }
        let var = match held.publics.len() {
            0 => rng.edge(),
            len if rng.once_in(2) => held.publics[rng.below(len) & !1],
            _ => astray::near(rng, held.ins.vars_count),
        };
        self.public_value(&held, var);
    }

    /// A write of the instance, as it is or led astray.
    fn random_write_instance(&mut self, rng: &mut Rng, held: &Held) {
        let mut held = held.clone();
        match rng.below(12) {
            0 => held.ins.width = *rng.pick(&[0, 25, u32::MAX]),
            1..=5 => astray::held(rng, &mut held),
            _ => {}
        }
        let most = held.most_bytes();
        let (number, bytes) = held.write(most);
        let exact = if number == 0 { bytes.len() } else { most };
        self.write_instance(&held, output(rng, exact));
    }

    /// A read of the instance's bytes, whole or damaged.
    fn random_read_instance(&mut self, by: Replayed, rng: &mut Rng, held: &Held) {
        let (_, bytes) = held.write(held.most_bytes());
        let later = (17 + held.label.len()..bytes.len()).step_by(4);
        let fields: Vec<usize> = [5, 9, 13].into_iter().chain(later).collect();
        let mut damaged = damaged(rng, &bytes, &fields);
        if !held.label.is_empty() && damaged.len() > 17 && rng.once_in(6) {
            // No text begins with it.
            damaged[17] = 0xFF;
        }
        let bytes = if rng.once_in(3) { &bytes } else { &damaged };
        let width = match rng.below(12) {
            0 => astray::width(rng),
            _ => held.ins.width,
        };
        let (publics, queries, equations) = held.words();
        let mut rooms = [publics.len(), queries.len(), equations.len(), 0];
        rooms[3] = held.ins.vars_count.min(99) as usize;
        if rng.once_in(4) {
            let at = rng.below(4);
            rooms[at] = astray::near_len(rng, rooms[at]);
        }
        self.read_instance(by, width, bytes, rooms);
    }

    /// A strict read of a file that keeps the rule of wire 0 or breaks it, whole or damaged.
    pub fn random_strict_read(&mut self, rng: &mut Rng) {
        let width = small_width(rng);
        let held = Held::from_parts(width, &generate::zero_wire(rng, width));
        self.random_read_instance(STRICT, rng, &held);
    }

    fn random_check(&mut self, rng: &mut Rng, held: &Held, trace: Vec<u32>, params: &Params) {
        let width = held.ins.width;
        let (mut held, mut trace, mut params) = (held.clone(), trace, params.clone());
        if rng.once_in(3) {
            trace = generate::damaged_trace(rng, width, &trace, &params);
        }
        let mut steps = trace.len() as u32 / (2 * width);
        match rng.below(12) {
            0 => steps = astray::near(rng, steps),
            1 => astray::word(rng, &mut trace),
            2 => params = short_sheet(rng, width),
            3 | 4 => astray::held(rng, &mut held),
            5 if rng.once_in(3) => held.ins.width = *rng.pick(&[0, 25, u32::MAX]),
            _ => {}
        }
        let vars = held.ins.vars_count.min(99) as usize;
        let scratch = match rng.below(6) {
            0 => astray::near_len(rng, vars),
            _ => vars + rng.below(3),
        };
        self.check(&held, steps, &trace, &params, scratch);
    }
}

/// Dirty stores that hold some calls, and now and then too few words for them.
pub fn small_stores(rng: &mut Rng, width: usize) -> State {
    let slots = rng.between(1, 12) + 2 * width;
    let queries = rng.between(0, 3) * 2 * width;
    let equations = rng.between(0, 36);
    State::sized(slots, queries, equations)
}
