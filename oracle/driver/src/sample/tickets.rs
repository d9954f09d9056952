//! Operation 10 of a sample: a ticket text, with the record and the slots that are lent to the call
//! and with what the second reading says of it.

use super::{
    relation::{any_counts, any_var, fault, fresh, lend_slots, pairs},
    Sample,
};
use crate::{
    calls::{Call, State},
    rng::Rng,
    tickets::{damage, grams, line, Text, GRAMS, VARS},
};

impl Sample {
    /// The texts that every sample has: the limits of both columns, columns that are not in the
    /// form, bytes between columns, lines of other lengths, cuts, repeats, and records.
    pub fn fixed_tickets(&mut self) {
        for var in VARS {
            self.ticket(line(var, 100));
        }
        for grams in GRAMS {
            self.ticket(line(1, grams));
        }
        self.ticket(line(9_999_999_999, 999_999_999_999));
        for column in ["", "00", "01", "+1", "-1", "1 ", "1 1", "\t1", "1\r", "1a"] {
            self.ticket(format!("{column:>10} {:>12}\n", 50).into_bytes());
            self.ticket(format!("{:>10} {column:>12}\n", 1).into_bytes());
        }
        for (at, byte) in [(10, b'0'), (10, b'\t'), (23, b'\r'), (23, b' ')] {
            let mut text = line(1, 50);
            text[at] = byte;
            self.ticket(text);
        }
        let lines = [line(1, 49), line(2, 75), line(3, 0)].concat();
        for len in [0, 1, 23, 24, 25, 47, 48, 71] {
            self.ticket(lines[..len].to_vec());
        }
        self.ticket([&lines[..23], b"\r\n", &lines[24..]].concat());
        self.ticket([&lines[..24], b"\n", &lines[24..]].concat());
        // The same steps again and other ones; a line out of form after a refused one.
        self.ticket([line(1, 75), line(1, 124), lines.clone()].concat());
        self.ticket([line(2, 50), line(0, 25), b"00\n".to_vec()].concat());
        for (width, vars_count) in [(0, 4), (25, 0), (1, 0), (24, 5), (1, 9)] {
            let mut state = fresh(8);
            (state.rel.width, state.rel.vars_count) = (width, vars_count);
            self.call(state, &Call::Tickets(Text(lines.clone())));
        }
    }

    /// A text on a relation of four wires, of which wire 0 alone has a value.
    fn ticket(&mut self, text: Vec<u8>) {
        let mut state = fresh(6);
        state.run(&Call::Allocate(3));
        self.call(state, &Call::Tickets(Text(text)));
    }

    pub fn random_tickets(&mut self, rng: &mut Rng) {
        let (state, call) = tickets_call(rng);
        self.call(state, &call);
    }
}

/// A text that most likely is accepted, with up to two faults in record, slots and text.
pub fn tickets_call(rng: &mut Rng) -> (State, Call) {
    let mut state = State::sized(0, 0, 0);
    state.rel.width = rng.width();
    any_counts(rng, &mut state);
    lend_slots(rng, &mut state, 0);
    let (vars, values) = pairs(rng, &state);
    let mut text = Vec::new();
    for (&var, &value) in vars.iter().zip(&values) {
        text.extend(line(u64::from(var), grams(rng, value)));
    }
    for _ in 0..*rng.pick(&[0, 0, 1, 1, 2]) {
        match rng.below(5) {
            0 => fault(rng, &mut state, &mut Call::Tickets(Text(vec![]))),
            1 => text.extend(line(*rng.pick(&VARS), *rng.pick(&GRAMS))),
            2 => {
                let var = any_var(rng, state.rel.vars_count.clamp(1, 9));
                text.extend(line(u64::from(var), *rng.pick(&GRAMS)));
            }
            _ => damage(rng, &mut text),
        }
    }
    (state, Call::Tickets(Text(text)))
}
