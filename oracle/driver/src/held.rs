//! An instance's record and its stores, with the second reading's calls on them.

use std::collections::BTreeSet;

use reading::{Instance, InstanceAnswer, Trace};
use source::{Params, Parts};

use crate::calls::{called, State, DIRT};

/// A sheet as the second reading is lent it.
pub fn lent(params: &Params) -> reading::Params<'_> {
    reading::Params {
        rounds: params.rounds,
        words: &params.words,
    }
}

/// An instance as the second reading holds it.
#[derive(Clone, Debug, PartialEq)]
pub struct Held {
    pub ins: Instance,
    pub label: Vec<u8>,
    pub publics: Vec<u32>,
    pub queries: Vec<u32>,
    pub equations: Vec<u32>,
}

/// How many words of output stores and scratch are lent.
#[derive(Clone, Copy, Debug)]
pub struct Room {
    pub publics: usize,
    pub queries: usize,
    pub equations: usize,
    pub scratch: usize,
}

impl Room {
    /// More than any generated instance takes.
    pub const AMPLE: Self = Self {
        publics: 1 << 12,
        queries: 1 << 12,
        equations: 1 << 12,
        scratch: 1 << 12,
    };
}

/// The gate on a relation, alone or on a shared allocator.
pub fn compile(
    state: &State,
    label: &[u8],
    publics: &mut [u32],
    scratch: &mut [u32],
) -> InstanceAnswer {
    let (slots, queries) = (&state.slots, &state.queries);
    let (equations, uses) = (&state.equations, &state.uses);
    called!(
        reading, state, compile, compile_on, label, slots, queries, equations, uses, publics,
        scratch
    )
}

/// The gate on a relation, in so much room.
pub fn gate(state: &State, label: &str, room: Room) -> (u32, Held) {
    let mut publics = vec![DIRT; room.publics];
    let scratch = &mut vec![DIRT; room.scratch];
    let answer = compile(state, label.as_bytes(), &mut publics, scratch);
    let held = Held {
        ins: answer.instance,
        label: label.as_bytes().to_vec(),
        publics,
        queries: state.queries.clone(),
        equations: state.equations.clone(),
    };
    (answer.number, held)
}

/// Both SFRI reads, the plain one and the strict one.
pub fn reads(width: u32, bytes: &[u8], room: Room) -> [(u32, Held); 2] {
    reading::READS.map(|by| read(by, width, bytes, room))
}

fn read(by: reading::Read, width: u32, bytes: &[u8], room: Room) -> (u32, Held) {
    let mut publics = vec![DIRT; room.publics];
    let mut queries = vec![DIRT; room.queries];
    let mut equations = vec![DIRT; room.equations];
    let answer = by(
        width,
        bytes,
        &mut publics,
        &mut queries,
        &mut equations,
        &mut vec![DIRT; room.scratch],
    );
    let held = Held {
        ins: answer.instance,
        label: answer.label.to_vec(),
        publics,
        queries,
        equations,
    };
    (answer.number, held)
}

/// An SFRW read: the number and the held words.
pub fn read_witness(width: u32, bytes: &[u8], room: usize) -> (u32, Vec<u32>) {
    let mut trace = vec![DIRT; room];
    let answer = reading::witness_from_bytes(width, bytes, &mut trace);
    let held = 2 * answer.trace.width as usize * answer.trace.steps as usize;
    trace.truncate(held);
    (answer.number, trace)
}

/// An SFRW write into so many bytes: the number and the bytes written.
pub fn write_witness(rec: Trace, trace: &[u32], room: usize) -> (u32, Vec<u8>) {
    let mut out = vec![0xEE; room];
    let written = reading::witness_to_bytes(rec, trace, &mut out);
    out.truncate(written.len);
    (written.number, out)
}

impl Held {
    /// The instance that these parts make, gated or not.
    pub fn from_parts(width: u32, parts: &Parts) -> Self {
        let equations = parts.equation_words();
        let ins = Instance {
            width,
            vars_count: parts.vars_count,
            queries: (parts.queries.len() / (2 * width as usize)) as u32,
            equations: parts.equations.len() as u32,
            words: equations.len() as u32,
            publics: (parts.publics.len() / 2) as u32,
        };
        Self {
            ins,
            label: parts.label.clone().into_bytes(),
            publics: parts.publics.clone(),
            queries: parts.queries.clone(),
            equations,
        }
    }

    /// The held words of publics, queries and equations.
    pub fn words(&self) -> (&[u32], &[u32], &[u32]) {
        let cells = 2 * self.ins.width as usize * self.ins.queries as usize;
        (
            &self.publics[..2 * self.ins.publics as usize],
            &self.queries[..cells],
            &self.equations[..self.ins.words as usize],
        )
    }

    /// What the check says of an honest list's gated instance and its trace: yes or, where a
    /// withdrawn query alone named the wire of a term, which then has weight 0, 34.
    pub fn honest_number(&self) -> u32 {
        let (publics, queries, equations) = self.words();
        let publics = publics.iter().step_by(2);
        let known: BTreeSet<u32> = publics.chain(queries).copied().collect();
        let mut rest = equations;
        while let Some((&terms, after)) = rest.split_first() {
            let (terms, after) = after.split_at(2 * terms as usize);
            if terms.chunks(2).any(|term| !known.contains(&term[0])) {
                return 34;
            }
            rest = &after[1..];
        }
        0
    }

    /// What a refused read leaves: no record, no label, and these stores all 0.
    pub fn refused(&self) -> Self {
        let zeros = |store: &[u32]| vec![0; store.len()];
        Self {
            ins: Instance::default(),
            label: Vec::new(),
            publics: zeros(&self.publics),
            queries: zeros(&self.queries),
            equations: zeros(&self.equations),
        }
    }

    /// As many bytes as an SFRI write can take.
    pub fn most_bytes(&self) -> usize {
        let words = self.publics.len() + self.queries.len() + self.equations.len();
        33 + self.label.len() + 4 * words
    }

    /// An SFRI write into so many bytes: the number and the bytes written.
    pub fn write(&self, room: usize) -> (u32, Vec<u8>) {
        let mut out = vec![0xEE; room];
        let written = reading::instance_to_bytes(
            self.ins,
            &self.label,
            &self.publics,
            &self.queries,
            &self.equations,
            &mut out,
        );
        out.truncate(written.len);
        (written.number, out)
    }

    /// The check.
    pub fn check(&self, trace: &[u32], params: &Params, scratch: usize) -> u32 {
        reading::is_witness_valid(
            self.ins,
            &self.label,
            &self.publics,
            &self.queries,
            &self.equations,
            (trace.len() / (2 * self.ins.width as usize)) as u32,
            trace,
            lent(params),
            &mut vec![DIRT; scratch],
        )
    }
}
