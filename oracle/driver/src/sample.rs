//! `sample`: cases for a proved program to replay, written to standard output.
//!
//! The file is a stream of u32 words, little-endian. A case is its operation and lists:
//! what is handed in, and what is expected. That comes from the standard library
//! (`leaf.rs`) or, for the calls on a relation, a trace and an instance (`sample/`), from
//! the second reading, and never from the proved library. README.md says which lists each
//! operation has.

mod case;
mod instance;
mod inverse;
mod relation;
mod shared;
mod tickets;
mod trace;

use std::{
    collections::BTreeMap,
    io::{self, Write},
};

use crate::{
    calls::{Answer, Call, DIRT},
    leaf::{self, Item, Kind, ROW_ENDS},
    options::Options,
    rng::{Rng, EDGES},
};

use case::{Case, FIRST, FIRST_AFTER, TEXT};

/// Random cases of leaves, of scans for UTF-8, of calls on a relation, of tickets and each call on a
/// trace, of each call on an instance, of calls on a shared allocator, of states behind a digest, and
/// of strict reads, where no count is given: with the fixed ones they stay below 1 MiB.
const LEAVES: u64 = 1_600;
const SCANS: u64 = 120;
const RELATIONS: u64 = 900;
const TRACES: u64 = 100;
const INSTANCES: u64 = 150;
const SHARED: u64 = 180;
const INVERSES: u64 = 80;
const STRICT_READS: u64 = 80;

/// What the cases of an operation are.
const OPERATIONS: [(u32, &str); 34] = [
    (1, "sums"),
    (2, "products"),
    (3, "texts"),
    (4, "words"),
    (5, "items of units"),
    (6, "items of wires"),
    (7, "scans"),
    (10, "ticket texts"),
    (11, "fresh relations"),
    (12, "allocations"),
    (13, "sets"),
    (14, "set lists"),
    (15, "records"),
    (16, "mints"),
    (17, "equations"),
    (18, "values"),
    (19, "tests for allocation"),
    (20, "equations of scaled terms"),
    (21, "evaluated steps"),
    (22, "appended steps"),
    (23, "writes of SFRW"),
    (24, "reads of SFRW"),
    (25, "permuted states"),
    (26, "states behind a digest"),
    (27, "withdrawn queries"),
    (28, "withdrawn equations"),
    (30, "calls on a shared allocator"),
    (31, "gates"),
    (32, "writes of SFRI"),
    (33, "reads of SFRI"),
    (34, "values in publics"),
    (35, "headings"),
    (36, "checks"),
    (37, "strict reads of SFRI"),
];

/// Document 01's and RFC 3629's texts.
const TEXTS: [&[u8]; 8] = [
    b"\xF4\x8F\xBF\xBF",
    b"\xED\xA0\x80",
    b"\x41\xE2\x89\xA2\xCE\x91\x2E",
    b"\xED\x95\x9C\xEA\xB5\xAD\xEC\x96\xB4",
    b"\xE6\x97\xA5\xE6\x9C\xAC\xE8\xAA\x9E",
    b"\xEF\xBB\xBF\xF0\xA3\x8E\xB4",
    b"\xED\xA1\x8C\xED\xBE\xB4",
    b"\x2F\xC0\xAE\x2E\x2F",
];

/// Labels that begin badly, or are cut off.
const BAD: [&[u8]; 14] = [
    b"\xC0\x80",
    b"\x80",
    b"\xF5",
    b"\xE0\x80",
    b"\xF0\x8F",
    b"\xF4\x90",
    b"\xC3\x41",
    b"\xE1\x80\x41",
    b"\xF1\x80\x80\x41",
    b"\xC3",
    b"\xE0",
    b"\xED\x9F",
    b"\xF4\x8F\xBF",
    b"\xC3\xA9\xC3",
];

/// An operation's number is below this.
const OPERATION_END: usize = 38;

/// The lines that follow those of the operations.
const TOTALS: [&str; 3] = [
    " answers replayed\n",
    " different\n",
    " the word of the sample at which the last of these begins\n",
];

pub fn run(options: &Options) -> bool {
    let mut sample = Sample::default();
    let rng = &mut Rng::new(options.seed);
    sample.names();
    sample.leaves(options, rng);
    sample.calls(options, rng);
    sample.more_calls(options);
    sample.words.push(0);
    let bytes: Vec<u8> = sample
        .words
        .iter()
        .flat_map(|word| word.to_le_bytes())
        .collect();
    if let Err(error) = io::stdout().write_all(&bytes) {
        eprintln!("sample: {error}");
        return false;
    }
    sample.tell();
    let (cases, seed) = (sample.cases.values().sum::<u64>(), options.seed);
    eprintln!("sample: seed {seed}, {cases} cases, {} bytes", bytes.len());
    true
}

/// The words so far, how many cases each operation has, how often it expects which number, and
/// how often what of a set, a set list or a ticket text is fresh.
#[derive(Default)]
struct Sample {
    words: Vec<u32>,
    cases: BTreeMap<u32, u64>,
    numbers: BTreeMap<(u32, u32), u64>,
    fresh: BTreeMap<(u32, &'static str, &'static str), u64>,
}

impl Sample {
    /// The first lists of the file: what is printed behind the number of each operation's
    /// cases, and behind the totals.
    fn names(&mut self) {
        let mut lines = vec![String::new(); OPERATION_END];
        for (operation, name) in OPERATIONS {
            lines[operation as usize] = format!(" {name} agree\n");
        }
        lines.extend(TOTALS.map(String::from));
        let lists: Vec<Vec<u32>> = lines.iter().map(|l| case::packed(l.as_bytes())).collect();
        self.words.extend(case::laid_out(0, &lists));
    }

    /// Leaves and scans, fixed and random.
    fn leaves(&mut self, options: &Options, rng: &mut Rng) {
        let mut scans = Rng::new(!options.seed ^ (1 << 62));
        self.fixed();
        for _ in 0..options.count.unwrap_or(LEAVES) {
            self.random(rng);
        }
        self.fixed_scans();
        for _ in 0..options.count.unwrap_or(SCANS) {
            self.scan(&leaf::random_label(&mut scans, 150));
        }
    }

    /// Calls on a relation, a trace and an instance, and tickets, fixed and random.
    fn calls(&mut self, options: &Options, rng: &mut Rng) {
        let mut writes = Rng::new(!options.seed);
        let mut more = Rng::new(options.seed ^ (1 << 63));
        let mut tickets = Rng::new(!options.seed ^ (1 << 63));
        self.fixed_relations();
        self.fixed_tickets();
        for _ in 0..options.count.unwrap_or(RELATIONS) {
            self.random_relation(rng);
        }
        for _ in 0..options.count.unwrap_or(TRACES) {
            self.random_trace(rng, &mut writes);
            self.random_permute(&mut more);
            self.random_scaled(&mut more);
            self.random_tickets(&mut tickets);
        }
        self.fixed_gates();
        self.fixed_public_values();
        for _ in 0..options.count.unwrap_or(INSTANCES) {
            self.random_instance(rng, &mut writes, &mut more);
            self.random_heading(&mut more);
        }
    }

    /// Calls on a shared allocator, states behind a digest and strict reads, fixed and random.
    fn more_calls(&mut self, options: &Options) {
        let mut shared = Rng::new(options.seed ^ (1 << 62));
        let mut inverses = Rng::new(options.seed ^ (1 << 61));
        let mut strict = Rng::new(!options.seed ^ (1 << 61));
        self.fixed_shared();
        for _ in 0..options.count.unwrap_or(SHARED) {
            self.random_shared(&mut shared);
        }
        self.fixed_inverses();
        for _ in 0..options.count.unwrap_or(INVERSES) {
            self.random_inverse(&mut inverses);
        }
        self.fixed_strict_reads();
        for _ in 0..options.count.unwrap_or(STRICT_READS) {
            self.random_strict_read(&mut strict);
        }
    }

    /// A case more; what it answers begins with the number that it expects (of a scan, with whether
    /// the bytes pass).
    fn push(&mut self, case: Case) {
        let operation = case.operation;
        *self.cases.entry(operation).or_default() += 1;
        if operation > 2 {
            let number = case.number();
            *self.numbers.entry((operation, number)).or_default() += 1;
        }
        self.words.extend(case.words());
    }

    /// Counts what of a set, a set list or a ticket text is fresh.
    fn count_fresh(&mut self, operation: u32, call: &Call, answer: &Answer) {
        if let Some(kind) = call.freshness(answer) {
            let times = self
                .fresh
                .entry((operation, call.name(), kind))
                .or_default();
            *times += 1;
        }
    }

    /// A line for each operation: its cases, and how often which number is expected; and one for
    /// each kind of set, set list and ticket text.
    fn tell(&self) {
        for (operation, cases) in &self.cases {
            let numbers = self.numbers.iter().filter(|(key, _)| key.0 == *operation);
            let numbers = numbers.map(|((_, number), times)| format!(" {number}:{times}"));
            let numbers: String = numbers.collect();
            eprintln!("operation {operation:<2} {cases:>5} cases {numbers}");
        }
        for ((operation, name, kind), times) in &self.fresh {
            eprintln!("operation {operation:<2} {times:>5} of {name}: {kind}");
        }
    }

    fn add(&mut self, a: u32, b: u32) {
        self.push(Case::new(1).given(&[a, b]).answer(&[leaf::add(a, b)]));
    }

    fn mul(&mut self, a: u32, b: u32) {
        self.push(Case::new(2).given(&[a, b]).answer(&[leaf::mul(a, b)]));
    }

    fn utf8(&mut self, bytes: &[u8]) {
        let number = if leaf::is_utf8(bytes) { 0 } else { 25 };
        self.push(Case::new(3).bytes(TEXT, bytes).answer(&[number]));
    }

    fn scan(&mut self, bytes: &[u8]) {
        let (place, passes) = leaf::scan_utf8(bytes);
        let case = Case::new(7).bytes(TEXT, bytes);
        self.push(case.answer(&[u32::from(passes), place as u32]));
    }

    fn word(&mut self, bytes: &[u8], at: u32) {
        let (number, value) = match leaf::word_at(bytes, u128::from(at)) {
            None => (20, 0),
            Some(value) => (0, value),
        };
        let case = Case::new(4).given(&[at]).bytes(TEXT, bytes);
        self.push(case.answer(&[number, value]));
    }

    fn item(&mut self, item: &Item) {
        let operation = match item.kind {
            Kind::Units => 5,
            Kind::Vars => 6,
        };
        let (number, next, out) = item.read(DIRT);
        let case = Case::new(operation)
            .given(&[item.at as u32, item.place as u32, item.n])
            .bytes(TEXT, &item.bytes)
            .list(FIRST, &vec![DIRT; item.out_len])
            .list(FIRST_AFTER, &out);
        self.push(case.answer(&[number, next as u32]));
    }

    /// The cases that every sample has: edges, rows, document 01's and RFC 3629's examples.
    fn fixed(&mut self) {
        for a in EDGES {
            for b in EDGES {
                if a <= b {
                    self.add(a, b);
                    self.mul(a, b);
                }
            }
        }
        self.utf8(&[]);
        for a in ROW_ENDS {
            self.utf8(&[a]);
            for b in ROW_ENDS {
                self.utf8(&[a, b]);
            }
        }
        for text in TEXTS {
            self.utf8(text);
        }
        let bytes = [0xFF, 0x01, 0x02, 0x80, 0x7F, 0x00, 0x10];
        for len in 0..=bytes.len() {
            for at in (0..9).chain([u32::MAX - 4, u32::MAX - 3, u32::MAX]) {
                self.word(&bytes[..len], at);
            }
        }
    }

    /// Scans of these texts, and of bad ones alone and at both ends of blocks of ASCII.
    fn fixed_scans(&mut self) {
        self.scan(&[]);
        for text in TEXTS {
            self.scan(text);
        }
        for text in BAD {
            self.scan(text);
            for before in [15, 16, 128] {
                self.scan(&[&vec![b'a'; before], text].concat());
            }
            self.scan(&[text, &[b'a'; 32]].concat());
        }
    }

    fn random(&mut self, rng: &mut Rng) {
        match rng.below(12) {
            0 | 1 => self.add(rng.edge(), rng.word()),
            2 | 3 => self.mul(rng.edge(), rng.word()),
            4..=6 => self.utf8(&leaf::random_text(rng)),
            7 => self.utf8(&[0; 3].map(|_: u8| *rng.pick(&ROW_ENDS))),
            8 => {
                let bytes: Vec<u8> = (0..rng.below(12)).map(|_| rng.byte()).collect();
                self.word(&bytes, rng.below(bytes.len() + 3) as u32);
            }
            _ => self.item(&Item::random(rng)),
        }
    }
}
