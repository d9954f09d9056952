//! The documents' worked examples, and for each call the cases in which a reading goes
//! wrong most easily.

mod bytes;
mod check;
mod examples;
mod gate;
mod inverse;
mod relation;
mod shared;
mod strict;
mod ticket;
mod utf8;
mod withdraw;

use crate::*;

const M: u32 = MAX_COUNT;
const F: u32 = UNASSIGNED;
/// What lies in a store that a call hasn't written to.
const DIRT: u32 = 0xABAB_ABAB;

/// A relation with its stores, lent to one call after the other.
#[derive(Clone)]
struct Stores {
    rel: Relation,
    slots: Vec<u32>,
    queries: Vec<u32>,
    equations: Vec<u32>,
    uses: Vec<u32>,
}

impl Stores {
    fn new(width: u32) -> Self {
        Self::sized(width, 32, 32, 32)
    }

    fn sized(width: u32, slots: usize, queries: usize, equations: usize) -> Self {
        let mut stores = Self {
            rel: Relation::default(),
            slots: vec![DIRT; slots],
            queries: vec![DIRT; queries],
            equations: vec![DIRT; equations],
            uses: vec![DIRT; slots],
        };
        let answer = new(width, &mut stores.slots, &mut stores.uses);
        assert_eq!(answer.number, 0);
        stores.rel = answer.relation;
        stores
    }

    fn keep(&mut self, answer: RelationAnswer) -> (u32, u32) {
        self.rel = answer.relation;
        (answer.number, answer.first)
    }

    fn allocate(&mut self, count: u32) -> (u32, u32) {
        let answer = allocate_vars(self.rel, &mut self.slots, count);
        self.keep(answer)
    }

    fn set(&mut self, var: u32, value: u32) -> u32 {
        self.set_answer(var, value).0
    }

    fn set_answer(&mut self, var: u32, value: u32) -> (u32, bool) {
        let answer = set_var(self.rel, &mut self.slots, var, value);
        (answer.number, answer.fresh)
    }

    /// The number, and how many pairs were accepted and how many of them were fresh.
    fn set_list(&mut self, vars: &[u32], values: &[u32]) -> (u32, u32, u32) {
        let tally = set_vars(self.rel, &mut self.slots, vars, values);
        (tally.number, tally.accepted, tally.fresh)
    }

    /// The same of lines.
    fn tickets(&mut self, text: &[u8]) -> (u32, usize, usize) {
        let tally = set_tickets(self.rel, &mut self.slots, text);
        (tally.number, tally.accepted, tally.fresh)
    }

    fn record(&mut self, input: &[u32], output: &[u32]) -> u32 {
        let (queries, uses) = (&mut self.queries, &mut self.uses);
        let answer = add_permutation(self.rel, &self.slots, queries, uses, input, output);
        self.keep(answer).0
    }

    fn mint(&mut self, input: &[u32]) -> (u32, u32) {
        let (slots, queries) = (&mut self.slots, &mut self.queries);
        let answer = allocate_permutation(self.rel, slots, queries, &mut self.uses, input);
        self.keep(answer)
    }

    fn withdraw_query(&mut self, index: u32) -> u32 {
        let (queries, uses) = (&mut self.queries, &mut self.uses);
        let answer = withdraw_query(self.rel, &self.slots, queries, uses, index);
        assert_eq!(answer.first, 0);
        self.keep(answer).0
    }

    fn withdraw_equation(&mut self, index: u32) -> u32 {
        let answer = withdraw_equation(self.rel, &mut self.equations, index);
        assert_eq!(answer.first, 0);
        self.keep(answer).0
    }

    fn equation(&mut self, terms: &[(u32, u32)], image: u32) -> u32 {
        let answer = add_equation(self.rel, &mut self.equations, &weighted(terms), image);
        self.keep(answer).0
    }

    /// The gate with ample output store and scratch, both dirty before.
    fn gate(&self) -> (u32, Held) {
        self.gate_into(b"", vec![DIRT; 64], vec![DIRT; 64])
    }

    /// The gate; scratch must come back all 0, and a refusal must clear the publics.
    fn gate_into(&self, label: &[u8], mut publics: Vec<u32>, mut scratch: Vec<u32>) -> (u32, Held) {
        let answer = compile(
            self.rel,
            label,
            &self.slots,
            &self.queries,
            &self.equations,
            &self.uses,
            &mut publics,
            &mut scratch,
        );
        assert!(all_zero(&scratch));
        if answer.number != 0 {
            assert!(all_zero(&publics));
            assert_eq!(answer.instance, Instance::default());
        }
        let held = Held {
            ins: answer.instance,
            label: label.to_vec(),
            publics,
            queries: self.queries.clone(),
            equations: self.equations.clone(),
        };
        (answer.number, held)
    }
}

/// An instance with its stores.
#[derive(Clone, Debug, PartialEq)]
struct Held {
    ins: Instance,
    label: Vec<u8>,
    publics: Vec<u32>,
    queries: Vec<u32>,
    equations: Vec<u32>,
}

impl Held {
    fn write(&self, out: &mut [u8]) -> Written {
        instance_to_bytes(
            self.ins,
            &self.label,
            &self.publics,
            &self.queries,
            &self.equations,
            out,
        )
    }

    fn bytes(&self) -> Vec<u8> {
        let mut out = vec![0; 4096];
        let written = self.write(&mut out);
        assert_eq!(written.number, 0);
        out.truncate(written.len);
        out
    }

    fn check(&self, steps: u32, trace: &[u32], params: Params<'_>) -> u32 {
        let mut scratch = vec![DIRT; 64];
        let number = is_witness_valid(
            self.ins,
            &self.label,
            &self.publics,
            &self.queries,
            &self.equations,
            steps,
            trace,
            params,
            &mut scratch,
        );
        assert!(all_zero(&scratch));
        number
    }
}

fn weighted(terms: &[(u32, u32)]) -> Vec<Weighted> {
    let terms = terms.iter();
    terms
        .map(|&(var, weight)| Weighted { var, weight })
        .collect()
}

fn all_zero(words: &[u32]) -> bool {
    words.iter().all(|&word| word == 0)
}

/// w = 1, one round, kind 0, constant 2013265920, matrix 5.
const PARAMS: Params<'static> = Params {
    rounds: 1,
    words: &[0, 2_013_265_920, 5],
};

/// Document 01's instance A, made call by call.
fn instance_a() -> Held {
    let mut stores = Stores::new(1);
    assert_eq!(stores.allocate(2), (0, 1));
    assert_eq!(stores.set(2, 5), 0);
    assert_eq!(stores.record(&[1], &[2]), 0);
    assert_eq!(stores.equation(&[(1, 3)], 6), 0);
    let (number, held) = stores.gate();
    assert_eq!(number, 0);
    held
}

/// An SFRI file without a label whose words after that are these.
fn file(width: u32, words: &[u32]) -> Vec<u8> {
    let words = [&[width, 4, 0], words].concat();
    let mut bytes = b"SFRI\x01".to_vec();
    bytes.extend(words.iter().flat_map(|word| word.to_le_bytes()));
    bytes
}

/// The plain SFRI read.
fn read(width: u32, bytes: &[u8], lens: [usize; 4]) -> (u32, Held) {
    read_dirty(instance_from_bytes, width, bytes, lens)
}

/// An SFRI read into stores of the given lengths, dirty before: the number, the record, the
/// label and the words. Scratch must come back all 0, and a refusal must clear the stores.
fn read_dirty(read: Read, width: u32, bytes: &[u8], lens: [usize; 4]) -> (u32, Held) {
    let [mut publics, mut queries, mut equations, mut scratch] = lens.map(|len| vec![DIRT; len]);
    let answer = read(
        width,
        bytes,
        &mut publics,
        &mut queries,
        &mut equations,
        &mut scratch,
    );
    assert!(all_zero(&scratch));
    if answer.number != 0 {
        assert!(all_zero(&publics) && all_zero(&queries) && all_zero(&equations));
        assert!(answer.label.is_empty() && answer.instance == Instance::default());
    } else {
        let label = &bytes[17..17 + answer.label.len()];
        assert!(std::ptr::eq(answer.label, label));
    }
    let held = Held {
        ins: answer.instance,
        label: answer.label.to_vec(),
        publics,
        queries,
        equations,
    };
    (answer.number, held)
}

const AMPLE: [usize; 4] = [64; 4];
