//! `tickets`: the proved library's ticket texts beside the second reading: lines and all that
//! lies one byte beside them, cuts, limits, and random texts on what lists of calls make.

use reading::TICKET_LINE;

use super::{relation::Pair, side};
use crate::{
    calls::{Call, State},
    compared::{same, Compared, Difference, Log, Seen},
    generate::Generator,
    lists,
    options::Options,
    rng::Rng,
    tickets::{line, Text, BYTES, GRAMS, VARS},
};

pub fn run(options: &Options) -> bool {
    let mut seen = Seen::default();
    if let Err(difference) = fixed(&mut seen) {
        println!("tickets: a difference: {}", difference.0);
        return false;
    }
    seen.print();
    println!("tickets: {} fixed texts, no difference", seen.total);
    let line = lists::compare(options, list);
    line.inspect(|line| println!("{line}")).is_some()
}

/// Texts that every run has.
fn fixed(seen: &mut Seen) -> Compared {
    for var in VARS {
        for grams in GRAMS {
            text(&[line(var, grams)], seen)?;
            for other in others(var, grams) {
                text(&[other.into_bytes()], seen)?;
            }
        }
    }
    for (i, &grams) in GRAMS.iter().enumerate() {
        beside(&line(VARS[i % VARS.len()], grams), seen)?;
    }
    for (var, grams) in [(7, 50), (42, 3_475), (99, 12_345_678)] {
        beside(&line(var, grams), seen)?;
    }
    let lines = [line(1, 49), line(99, 5_000_000), line(2, 25)].concat();
    for len in 0..=lines.len() {
        text(&[lines[..len].to_vec()], seen)?;
        text(&[lines[len..].to_vec()], seen)?;
    }
    Ok(())
}

/// A line with one number padded with zeros, or justified to the left.
fn others(var: u64, grams: u64) -> [String; 4] {
    [
        format!("{var:010} {grams:>12}\n"),
        format!("{var:>10} {grams:012}\n"),
        format!("{var:<10} {grams:>12}\n"),
        format!("{var:>10} {grams:<12}\n"),
    ]
}

/// A line with each byte replaced, put in or left out, and with any two bytes replaced, between
/// two lines that are right.
fn beside(right: &[u8], seen: &mut Seen) -> Compared {
    let mut among = |changed: Vec<u8>| text(&[line(3, 150), changed, line(4, 200)], seen);
    for at in 0..=right.len() {
        let (before, after) = right.split_at(at);
        let next = after.get(1..).unwrap_or(&[]);
        among([before, next].concat())?;
        for byte in 0..=255 {
            among([before, &[byte], next].concat())?;
            among([before, &[byte], after].concat())?;
        }
        for later in 0..next.len() {
            for a in BYTES {
                for b in BYTES {
                    let mut changed = right.to_vec();
                    (changed[at], changed[at + 1 + later]) = (a, b);
                    among(changed)?;
                }
            }
        }
    }
    Ok(())
}

/// A text on a relation of a hundred wires, of which some have values.
fn text(lines: &[Vec<u8>], seen: &mut Seen) -> Compared {
    let mut state = State::sized(110, 0, 0);
    state.new_relation(1);
    state.run(&Call::Allocate(99));
    state.run(&Call::SetList(vec![5, 9, 10, 50], vec![0, 2, 1, 7]));
    let call = Call::Tickets(Text(lines.concat()));
    let compared = Pair::new(state).call(&call, seen, &Log(false));
    let told = compared.map_err(|difference| Difference(format!("{call:?}\n{}", difference.0)));
    told.map(drop)
}

/// A text of more than 2^32 bytes, which no question minds: every line sets wire 0 to 0 again,
/// but for the last one. That is expected without the second reading, which would take long.
pub fn long() -> Compared {
    let lines = (1 << 32) / TICKET_LINE + 2;
    let mut text = line(0, 24).repeat(lines);
    text.truncate((lines - 1) * TICKET_LINE);
    text.extend(line(1, 150));
    let mut state = State::sized(2, 0, 0);
    state.new_relation(1);
    state.run(&Call::Allocate(1));
    let answer = side::run(&mut state, &Call::Tickets(Text(text)));
    let tally = (answer.number, answer.accepted, answer.fresh);
    let given = (tally, &state.slots[..]);
    let expected = ((0, lines, 1), &[0, 3][..]);
    same("a long text", ("library", given), ("expected", expected))
}

/// Some texts on one relation.
fn list(seed: u64, seen: &mut Seen, log: &Log) -> Compared {
    let mut generator = Generator::new(Rng::new(seed));
    let stores = generator.state();
    let state = generator.relation(stores, 20);
    let mut pair = Pair::new(state.clone());
    for _ in 0..generator.rng.between(1, 10) {
        let text = generator.tickets(&state);
        pair.call(&Call::Tickets(text), seen, log)?;
    }
    Ok(())
}
