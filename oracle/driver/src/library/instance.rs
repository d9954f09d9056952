//! `instance`: the gate, an instance's bytes both ways, read plainly and strictly, and values in
//! held publics.

use reading::Instance;
use sfr::FieldVar;

use super::side;
use crate::{
    astray,
    calls::{State, DIRT},
    compared::{same, Compared, Log, Outcome, Seen},
    generate::{self, Generator},
    held::{self, Held, Room},
    lists,
    options::Options,
    rng::Rng,
    unsound,
};

pub fn run(options: &Options) -> bool {
    let line = lists::compare(options, list);
    line.inspect(|line| println!("{line}")).is_some()
}

pub fn to_library(ins: Instance) -> sfr::Instance {
    sfr::Instance {
        width: ins.width,
        vars: ins.vars_count,
        queries: ins.queries,
        equations: ins.equations,
        words: ins.words,
        publics: ins.publics,
    }
}

/// An instance as the library is lent it.
pub fn parts(held: &Held) -> sfr::Parts<'_> {
    sfr::Parts {
        instance: to_library(held.ins),
        label: &held.label,
        publics: &held.publics,
        queries: FieldVar::list(&held.queries),
        equations: &held.equations,
    }
}

/// An instance as the library answers it.
pub fn from_library(parts: sfr::Parts) -> Held {
    let ins = parts.instance;
    Held {
        ins: Instance {
            width: ins.width,
            vars_count: ins.vars,
            queries: ins.queries,
            equations: ins.equations,
            words: ins.words,
            publics: ins.publics,
        },
        label: parts.label.to_vec(),
        publics: parts.publics.to_vec(),
        queries: FieldVar::words(parts.queries).to_vec(),
        equations: parts.equations.to_vec(),
    }
}

/// Stores as a read of the library is lent them.
pub fn stores<'a>(
    publics: &'a mut [u32],
    queries: &'a mut [u32],
    equations: &'a mut [u32],
) -> sfr::Stores<'a> {
    sfr::Stores {
        publics,
        queries: FieldVar::list_mut(queries),
        equations,
    }
}

/// An SFRI read of the library, plain or strict.
pub type LibraryRead =
    for<'a> fn(u32, &'a [u8], sfr::Stores<'a>, &mut [u32]) -> sfr::InstanceRead<'a>;

/// The plain read and the strict one, as `reading::READS` are.
pub const LIBRARY_READS: [LibraryRead; 2] =
    [sfr::instance_from_bytes, sfr::strict_instance_from_bytes];

fn list(seed: u64, seen: &mut Seen, log: &Log) -> Compared {
    let mut generator = Generator::new(Rng::new(seed));
    let stores = generator.state();
    let state = generator.relation(stores, 30);
    let rng = &mut generator.rng;
    let label = generate::label(rng).into_bytes();
    for _ in 0..8 {
        let (mut other, mut text) = (state.clone(), label.clone());
        let struck = match rng.below(4) {
            0 | 1 => {
                astray::state(rng, &mut other);
                text = astray::label(rng, &label);
                false
            }
            2 => {
                astray::miscount(rng, &mut other);
                false
            }
            _ => generator.struck,
        };
        let held = match gate(rng, &other, &text, struck, seen, log)? {
            (0, held) => held,
            _ => Held::from_parts(generator.width, &generate::ungated(rng, generator.width)),
        };
        instance(rng, &held, seen, log)?;
    }
    unsound_gate(rng, &state, seen, log)
}

/// The gate of a relation that calls alone have made, with a word or a label that may be unsound.
pub fn unsound_gate(rng: &mut Rng, state: &State, seen: &mut Seen, log: &Log) -> Compared {
    let mut other = state.clone();
    astray::held_word(rng, &mut other);
    let label = astray::label(rng, b"a");
    gate(rng, &other, &label, false, seen, log).map(drop)
}

/// The gate: its number, and the instance where it accepts.
pub fn gate(
    rng: &mut Rng,
    state: &State,
    label: &[u8],
    struck: bool,
    seen: &mut Seen,
    log: &Log,
) -> Outcome<(u32, Held)> {
    let assigned = state.slots.iter().filter(|&&slot| slot != u32::MAX).count();
    let (mut publics, mut scratch) = (Room::AMPLE.publics / 8, Room::AMPLE.scratch / 8);
    if rng.once_in(3) {
        publics = astray::near_len(rng, 2 * assigned);
        scratch = astray::near_len(rng, state.rel.vars_count.min(999) as usize);
    }
    log.say(|| format!("Gate({state:?}, {label:?}), {publics} publics, {scratch} scratch"));
    let mut given = (vec![DIRT; publics], vec![DIRT; scratch]);
    let mut expected = given.clone();
    let library = side::compile(state, label, &mut given.0, &mut given.1);
    let library = (library.number, from_library(library.parts), given);
    let reading = held::compile(state, label, &mut expected.0, &mut expected.1);
    seen.gated(reading.number, struck);
    let held = Held {
        ins: reading.instance,
        label: label.to_vec(),
        publics: expected.0.clone(),
        queries: state.queries.clone(),
        equations: state.equations.clone(),
    };
    let reading = (reading.number, held, expected);
    same("gate", ("library", &library), ("reading", &reading))?;
    unsound::relation(state, label, reading.0, seen)?;
    Ok((reading.0, reading.1))
}

/// Values, a write, and reads of what was written and of a file that may break the strict read's
/// rule.
fn instance(rng: &mut Rng, held: &Held, seen: &mut Seen, log: &Log) -> Compared {
    let bytes = write(rng, held, seen, log)?;
    for _ in 0..2 {
        let mut other = held.clone();
        astray::held(rng, &mut other);
        value(rng, &other, seen, log)?;
        write(rng, &other, seen, log)?;
    }
    read_damaged(rng, held, &bytes, seen, log)?;
    let width = held.ins.width;
    let mut parts = generate::zero_wire(rng, width);
    if rng.once_in(2) {
        // So bare that the plain read may accept it without wires too.
        parts.vars_count = rng.below(2) as u32;
        parts.queries.clear();
        parts.equations.clear();
    }
    let held = Held::from_parts(width, &parts);
    let (_, bytes) = held.write(held.most_bytes());
    read_damaged(rng, &held, &bytes, seen, log)
}

/// Reads of an instance's bytes, whole, with a byte left over, and damaged.
fn read_damaged(rng: &mut Rng, held: &Held, bytes: &[u8], seen: &mut Seen, log: &Log) -> Compared {
    let later = (17 + held.label.len()..bytes.len()).step_by(4);
    let fields: Vec<usize> = [5, 9, 13].into_iter().chain(later).collect();
    read(rng, held, bytes, seen, log)?;
    let longer = [bytes, &[rng.byte()]].concat();
    read(rng, held, &longer, seen, log)?;
    for _ in 0..3 {
        let damaged = generate::damaged_file(rng, bytes, &fields);
        read(rng, held, &damaged, seen, log)?;
    }
    Ok(())
}

fn value(rng: &mut Rng, held: &Held, seen: &mut Seen, log: &Log) -> Compared {
    let var = match held.publics.len() {
        0 => rng.edge(),
        _ if rng.once_in(4) => rng.edge(),
        len => held.publics[rng.below(len)],
    };
    log.say(|| format!("PublicValue({:?}, {:?}, {var})", held.ins, held.publics));
    let library = sfr::public_value(to_library(held.ins), &held.publics, FieldVar(var));
    let reading = reading::public_value(held.ins, &held.publics, var);
    seen.answered("value in held publics", reading.number);
    let given = (library.number, library.some, library.value.0);
    let (some, word) = (reading.value.is_some(), reading.value.unwrap_or(0));
    let expected = (reading.number, some, word);
    same("value", ("library", given), ("reading", expected))
}

/// The bytes written; none after a refusal.
fn write(rng: &mut Rng, held: &Held, seen: &mut Seen, log: &Log) -> Outcome<Vec<u8>> {
    let mut room = held.most_bytes();
    if rng.once_in(3) {
        // Just what it takes, or one byte less or more.
        let (_, exact) = held.write(room);
        room = astray::near_len(rng, exact.len());
    }
    log.say(|| format!("Write({held:?}) into {room} bytes"));
    let (mut given, mut expected) = (vec![0xEE; room], vec![0xEE; room]);
    let library = sfr::instance_to_bytes(parts(held), &mut given);
    let reading = reading::instance_to_bytes(
        held.ins,
        &held.label,
        &held.publics,
        &held.queries,
        &held.equations,
        &mut expected,
    );
    seen.answered("write SFRI", reading.number);
    let library = (library.number, library.len, &given);
    let answer = (reading.number, reading.len, &expected);
    same("write SFRI", ("library", library), ("reading", answer))?;
    unsound::instance(held, reading.number, seen)?;
    expected.truncate(reading.len);
    Ok(expected)
}

/// Both reads into stores that are ample, or near what the instance takes.
fn read(rng: &mut Rng, held: &Held, bytes: &[u8], seen: &mut Seen, log: &Log) -> Compared {
    let ins = held.ins;
    let width = if rng.once_in(10) {
        astray::width(rng)
    } else {
        ins.width
    };
    let mut lens = [Room::AMPLE.publics / 8; 4];
    if rng.once_in(3) {
        let (publics, queries, equations) = held.words();
        let exact = [
            publics.len(),
            queries.len(),
            equations.len(),
            ins.vars_count.min(999) as usize,
        ];
        lens = exact.map(|len| {
            if rng.once_in(2) {
                len
            } else {
                astray::near_len(rng, len)
            }
        });
    }
    log.say(|| format!("Read({width}, {bytes:?}) into {lens:?} words"));
    let by = |i| (LIBRARY_READS[i], reading::READS[i]);
    let plain = read_into(by(0), "read SFRI", width, bytes, lens)?;
    let strict = read_into(by(1), "strict read SFRI", width, bytes, lens)?;
    seen.read(bytes, plain, strict);
    Ok(())
}

/// A read by both sides: its number.
fn read_into(
    (library, reading): (LibraryRead, reading::Read),
    name: &str,
    width: u32,
    bytes: &[u8],
    lens: [usize; 4],
) -> Outcome<u32> {
    let mut given = lens.map(|len| vec![DIRT; len]);
    let mut expected = given.clone();
    let [publics, queries, equations, scratch] = &mut given;
    let answer = library(width, bytes, stores(publics, queries, equations), scratch);
    let at = place(bytes, answer.parts.label);
    let library = (answer.number, at, from_library(answer.parts), given);
    let [publics, queries, equations, scratch] = &mut expected;
    let answer = reading(width, bytes, publics, queries, equations, scratch);
    let held = Held {
        ins: answer.instance,
        label: answer.label.to_vec(),
        publics: publics.clone(),
        queries: queries.clone(),
        equations: equations.clone(),
    };
    let reading = (answer.number, place(bytes, answer.label), held, expected);
    same(name, ("library", &library), ("reading", &reading))?;
    Ok(reading.0)
}

/// Where a part of the bytes starts; 0 where it has none.
fn place(bytes: &[u8], part: &[u8]) -> usize {
    match part {
        [] => 0,
        _ => part.as_ptr() as usize - bytes.as_ptr() as usize,
    }
}
