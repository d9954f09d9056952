//! `large`: stores of 2^30 words and of one more, and labels of 2^32 bytes, lent to the calls
//! on traces and instances; use stores of that many words filled by fresh and by openings; such a
//! label scanned; and a ticket text of more bytes than that.
//!
//! Zeroed pages take no memory until somebody writes to them; a store that a call clears
//! takes 4 GiB, one such store at a time, and the text takes as much.

use reading::{Instance, On, Relation, Share, Trace, MAX_COUNT};
use sfr::{BabyBearUnit, FieldVar};

use super::{
    instance::{stores, to_library, LibraryRead, LIBRARY_READS},
    large, tickets, witness,
};
use crate::{
    calls::called,
    compared::{same, Compared},
    options::Options,
};

const LIMIT: usize = MAX_COUNT as usize;

/// One wire, no more.
const REL: Relation = Relation {
    width: 1,
    vars_count: 1,
    queries: 0,
    equations: 0,
    words: 0,
    stray: 0,
};
const UNOPENED: Share = Share {
    index: 1,
    opened: 1,
    quota: 0,
    obtained: 0,
};
const INS: Instance = Instance {
    width: 1,
    vars_count: 1,
    queries: 0,
    equations: 0,
    words: 0,
    publics: 0,
};
const REC: Trace = Trace { width: 1, steps: 0 };
/// A sheet of width 1 without rounds.
const PARAMS: [u32; 1] = [1];

pub fn run(_: &Options) -> bool {
    let mut cases = 0;
    let compared = large::compare(&[None])
        .and_then(|()| tickets::long())
        .and_then(|()| scans())
        .and_then(|()| read_only(&mut cases))
        .and_then(|()| cleared(&mut cases));
    if let Err(difference) = compared {
        println!("large: a difference: {}", difference.0);
        return false;
    }
    println!(
        "large: the calls on relations, a long ticket text, a long label, and {cases} on traces and instances, no difference"
    );
    true
}

/// A label of 2^32 bytes that passes, one that its last byte cuts off, and one of which that byte is
/// bad.
fn scans() -> Compared {
    let len = 1 << 32;
    let mut label = vec![0; len];
    let expected = [
        (0x00, (len, true)),
        (0xC3, (len, false)),
        (0x80, (len - 1, false)),
    ];
    for (last, expected) in expected {
        label[len - 1] = last;
        let scan = sfr::scan_utf8(&label);
        let what = format!("large, a label that ends in {last:02X}");
        same(
            &what,
            ("library", (scan.place, scan.passes)),
            ("02", expected),
        )?;
    }
    Ok(())
}

/// What is lent, by the names of its stores.
#[derive(Clone, Copy, Default)]
struct Lent<'a> {
    slots: &'a [u32],
    publics: &'a [u32],
    queries: &'a [u32],
    equations: &'a [u32],
    uses: &'a [u32],
    trace: &'a [u32],
    params: &'a [u32],
    label: &'a [u8],
}

impl<'a> Lent<'a> {
    /// The parts of an instance.
    fn parts(&self) -> sfr::Parts<'a> {
        sfr::Parts {
            instance: to_library(INS),
            label: self.label,
            publics: self.publics,
            queries: FieldVar::list(self.queries),
            equations: self.equations,
        }
    }
}

/// The words of a sheet without rounds, as the library is lent it.
const fn parameters(words: &[u32]) -> sfr::Parameters<'_> {
    sfr::Parameters { rounds: 0, words }
}

/// Every call that only reads the store which is too long, or the longest that may be.
fn read_only(cases: &mut usize) -> Compared {
    let long = vec![0u32; LIMIT + 1];
    let text = vec![0u8; 1 << 32];
    let few = Lent {
        slots: &[0],
        uses: &[0],
        params: &PARAMS,
        ..Lent::default()
    };
    let mut lent = vec![Lent {
        label: &text,
        ..few
    }];
    for store in [&long[..LIMIT], &long] {
        lent.extend([
            Lent {
                slots: store,
                ..few
            },
            Lent { uses: store, ..few },
            // Each count from the first wire on is looked at.
            Lent {
                slots: store,
                uses: store,
                ..few
            },
            Lent {
                publics: store,
                ..few
            },
            Lent {
                queries: store,
                ..few
            },
            Lent {
                equations: store,
                ..few
            },
            Lent {
                trace: store,
                ..few
            },
        ]);
        // A sheet or list of so many words is never sound: 2 or another number.
        lent.push(Lent {
            params: store,
            ..few
        });
    }
    for lent in lent {
        *cases += 1;
        gate(lent, &mut [7; 2], &mut [7; 2])?;
        check(lent, &mut [7; 2])?;
        write(lent)?;
        steps(lent)?;
        go_back(lent.params, &[0], &mut [7])?;
        go_back(&PARAMS, lent.trace, &mut [7])?;
    }
    Ok(())
}

/// The state behind a digest, with a sheet or a list that is too long.
fn go_back(words: &[u32], output: &[u32], input: &mut [u32]) -> Compared {
    dirty(input);
    let from = BabyBearUnit::list(output);
    let library = sfr::permute_inverse(1, parameters(words), from, BabyBearUnit::list_mut(input));
    let given = (library.number, ends(input));
    dirty(input);
    let params = reading::Params { rounds: 0, words };
    let reading = reading::permute_inverse(1, params, output, input);
    let expected = (reading, ends(input));
    same("large, go back", ("library", given), ("reading", expected))
}

/// The gate of a relation alone, and of a number that isn't opened on a shared allocator: 2 comes
/// before 42.
fn gate(lent: Lent, publics: &mut [u32], scratch: &mut [u32]) -> Compared {
    for share in [None, Some(UNOPENED)] {
        gate_on(On { rel: REL, share }, lent, publics, scratch)?;
        dirty(publics);
        dirty(scratch);
    }
    Ok(())
}

fn gate_on(on: On, lent: Lent, publics: &mut [u32], scratch: &mut [u32]) -> Compared {
    let Lent {
        slots,
        queries,
        equations,
        uses,
        label,
        ..
    } = lent;
    let held = sfr::Held {
        label,
        slots,
        queries: FieldVar::list(queries),
        equations,
        uses,
    };
    let library: sfr::Compiled = called!(sfr, on, compile, compile_on, held, publics, scratch);
    let number = library.number;
    let given = (number, ends(publics), ends(scratch));
    dirty(publics);
    dirty(scratch);
    let reading = reading::compile(on, label, slots, queries, equations, uses, publics, scratch);
    let expected = (reading.number, ends(publics), ends(scratch));
    same("large, gate", ("library", given), ("reading", expected))
}

fn check(lent: Lent, scratch: &mut [u32]) -> Compared {
    let Lent {
        publics,
        queries,
        equations,
        trace,
        params,
        label,
        ..
    } = lent;
    let steps = BabyBearUnit::list(trace);
    let library = sfr::is_witness_valid(lent.parts(), 0, steps, parameters(params), scratch);
    let given = (library.number, ends(scratch));
    dirty(scratch);
    let words = reading::Params {
        rounds: 0,
        words: params,
    };
    let reading = reading::is_witness_valid(
        INS, label, publics, queries, equations, 0, trace, words, scratch,
    );
    let expected = (reading, ends(scratch));
    same("large, check", ("library", given), ("reading", expected))
}

fn write(lent: Lent) -> Compared {
    let Lent {
        publics,
        queries,
        equations,
        trace,
        label,
        ..
    } = lent;
    let (mut given, mut expected) = ([7; 40], [7; 40]);
    let library = sfr::instance_to_bytes(lent.parts(), &mut given);
    let reading =
        reading::instance_to_bytes(INS, label, publics, queries, equations, &mut expected);
    same(
        "large, write SFRI",
        ("library", (library.number, library.len, &given)),
        ("reading", (reading.number, reading.len, &expected)),
    )?;
    let steps = BabyBearUnit::list(trace);
    let library = sfr::witness_to_bytes(witness::to_library(REC), steps, &mut given);
    let reading = reading::witness_to_bytes(REC, trace, &mut expected);
    same(
        "large, write SFRW",
        ("library", (library.number, library.len, given)),
        ("reading", (reading.number, reading.len, expected)),
    )?;
    let library = sfr::public_value(to_library(INS), publics, FieldVar::ZERO);
    let reading = reading::public_value(INS, publics, 0);
    same(
        "large, value in held publics",
        ("library", (library.number, library.some)),
        ("reading", (reading.number, reading.value.is_some())),
    )
}

/// The builder's calls, with the sheet or a list that is too long; their trace is short.
fn steps(lent: Lent) -> Compared {
    let words = reading::Params {
        rounds: 0,
        words: lent.params,
    };
    for input in [&[0][..], lent.trace] {
        let (mut given, mut expected) = ([7; 4], [7; 4]);
        let rec = witness::to_library(REC);
        let units = BabyBearUnit::list(input);
        let steps = BabyBearUnit::list_mut(&mut given);
        let library = sfr::evaluate_step(rec, steps, units, parameters(lent.params));
        let reading = reading::evaluate_step(REC, &mut expected, input, words);
        let library = (witness::from_library(library), given);
        let reading = ((reading.number, reading.trace), expected);
        same(
            "large, evaluate",
            ("library", library),
            ("reading", reading),
        )?;
        let steps = BabyBearUnit::list_mut(&mut given);
        let library = sfr::append_step(rec, steps, &[BabyBearUnit::ZERO], units);
        let reading = reading::append_step(REC, &mut expected, &[0], input);
        let library = (witness::from_library(library), given);
        let reading = ((reading.number, reading.trace), expected);
        same("large, append", ("library", library), ("reading", reading))?;
    }
    Ok(())
}

/// Calls that clear or may write the store which is too long.
fn cleared(cases: &mut usize) -> Compared {
    let mut long = vec![0u32; LIMIT + 1];
    let lent = Lent {
        slots: &[0],
        uses: &[0],
        params: &PARAMS,
        ..Lent::default()
    };
    // No publics, which the strict read refuses, and wire 0 with value 0.
    let files: [Vec<u8>; 2] = [&[1, 4, 0, 1, 0, 0, 0][..], &[1, 4, 0, 1, 1, 0, 0, 0, 0]]
        .map(|words| b"SFRI\x01".iter().copied().chain(file(words)).collect());
    let mut slots = vec![0u32; LIMIT + 1];
    for len in [LIMIT, LIMIT + 1] {
        let store = &mut long[..len];
        fresh(&mut slots[..len], store)?;
        gate(lent, store, &mut [7; 2])?;
        gate(lent, &mut [7; 2], store)?;
        check(lent, store)?;
        read_trace(store)?;
        go_back(&PARAMS, &[0], store)?;
        for place in 0..4 {
            for by in LIBRARY_READS.into_iter().zip(reading::READS) {
                for bytes in &files {
                    read(by, bytes, store, place)?;
                }
            }
        }
        *cases += 23;
    }
    Ok(())
}

/// A new relation, and openings of the first and of a later one, over as many slots as use counts:
/// all of these become 0, and of the slots the first alone is written.
fn fresh(slots: &mut [u32], uses: &mut [u32]) -> Compared {
    for opened in [None, Some(0), Some(7)] {
        let mut answers = Vec::new();
        for library in [true, false] {
            dirty(slots);
            dirty(uses);
            let vars_count = 1;
            let number = match (opened, library) {
                (None, true) => sfr::new_relation(1, slots, uses).number,
                (None, false) => reading::new(1, slots, uses).number,
                (Some(opened), true) => {
                    let vars = vars_count;
                    let allocator = sfr::VarAllocator { vars, opened };
                    sfr::with_allocator(allocator, 1, 5, slots, uses).number
                }
                (Some(opened), false) => {
                    let allocator = reading::VarAllocator { vars_count, opened };
                    reading::with_allocator(allocator, 1, 5, slots, uses).number
                }
            };
            answers.push((number, ends(slots), ends(uses)));
        }
        let what = format!("large, fresh or opened, {opened:?}");
        same(&what, ("library", &answers[0]), ("reading", &answers[1]))?;
    }
    Ok(())
}

fn file(words: &[u32]) -> impl Iterator<Item = u8> + '_ {
    words.iter().flat_map(|word| word.to_le_bytes())
}

fn read_trace(store: &mut [u32]) -> Compared {
    let bytes: Vec<u8> = b"SFRW\x01"
        .iter()
        .copied()
        .chain(file(&[1, 4, 1, 2, 3]))
        .collect();
    dirty(store);
    let library = sfr::witness_from_bytes(1, &bytes, BabyBearUnit::list_mut(store));
    let (number, rec) = witness::from_library(library);
    let given = (number, rec, ends(store));
    dirty(store);
    let reading = reading::witness_from_bytes(1, &bytes, store);
    let expected = (reading.number, reading.trace, ends(store));
    same(
        "large, read SFRW",
        ("library", given),
        ("reading", expected),
    )
}

/// An SFRI read with the long store in one of its four places.
fn read(
    by: (LibraryRead, reading::Read),
    bytes: &[u8],
    store: &mut [u32],
    place: usize,
) -> Compared {
    let mut answers = Vec::new();
    for library in [true, false] {
        let mut few = [[7; 2]; 3];
        let [a, b, c] = &mut few;
        dirty(store);
        let (publics, queries, equations, scratch): (
            &mut [u32],
            &mut [u32],
            &mut [u32],
            &mut [u32],
        ) = match place {
            0 => (store, a, b, c),
            1 => (a, store, b, c),
            2 => (a, b, store, c),
            _ => (a, b, c, store),
        };
        let number = if library {
            by.0(1, bytes, stores(publics, queries, equations), scratch).number
        } else {
            by.1(1, bytes, publics, queries, equations, scratch).number
        };
        let left = [publics, queries, equations, scratch].map(|store| ends(store));
        answers.push((number, left));
    }
    let reading = answers.pop();
    let library = answers.pop();
    same(
        "large, read SFRI",
        ("library", library),
        ("reading", reading),
    )
}

/// The words at a store's two ends.
fn ends(store: &[u32]) -> (Vec<u32>, Vec<u32>) {
    let few = store.len().min(4);
    (store[..few].to_vec(), store[store.len() - few..].to_vec())
}

/// Other words at a store's two ends.
fn dirty(store: &mut [u32]) {
    let len = store.len();
    let few = len.min(4);
    store[..few].fill(7);
    store[len - few..].fill(7);
}
