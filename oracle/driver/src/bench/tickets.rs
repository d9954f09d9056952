//! Ticket texts, beside a plain loop in Rust: the sources have none.

use super::{
    best,
    input::{fresh, unset},
    table, timed, Line,
};
use crate::{rng::Rng, tickets::line};

pub fn tables(last: usize) {
    table(
        "tickets",
        "An item is a line of a fresh wire and 4 to 8 digits of grams, in order. The sources have no tickets; in their \
         place stands a plain loop in Rust that asks and answers the same.",
        last,
        tickets,
    );
}

fn tickets(items: usize) -> Line {
    let mut rng = Rng::new(items as u64);
    let mut text = Vec::new();
    for var in 1..=items as u64 {
        let least = 10_usize.pow(rng.between(3, 7) as u32);
        text.extend(line(var, rng.between(least, 10 * least - 1) as u64));
    }
    let rel = fresh(items);
    let library = timed(
        || unset(items),
        |slots| {
            let tally = sfr::set_tickets(rel, slots, &text);
            let tally = (tally.number, tally.accepted, tally.fresh);
            assert_eq!(tally, (0, items, items));
        },
    );
    let source = timed(
        || unset(items),
        |slots| assert_eq!(plain(rel, slots, &text), (0, items, items)),
    );
    let [library, source] = best([library, source]);
    Line {
        items,
        bytes: 28 * items,
        library,
        source,
    }
}

/// The call as a plain loop: the number, how many lines were accepted, and how many of them were
/// fresh.
fn plain(rel: sfr::Relation, slots: &mut [u32], text: &[u8]) -> (u32, usize, usize) {
    let most = sfr::MAX_COUNT as usize;
    let vars = rel.vars as usize;
    if !(1..=sfr::MAX_WIDTH).contains(&rel.width) {
        return (1, 0, 0);
    }
    if slots.len() > most || !(1..=slots.len()).contains(&vars) {
        return (2, 0, 0);
    }
    let slots = &mut slots[..vars];
    let (mut accepted, mut fresh) = (0, 0);
    for line in text.chunks(24) {
        match set(slots, line) {
            Err(number) => return (number, accepted, fresh),
            Ok(first) => fresh += usize::from(first),
        }
        accepted += 1;
    }
    (0, accepted, fresh)
}

/// One line, and whether it is fresh; the slots are those of allocated wires.
fn set(slots: &mut [u32], line: &[u8]) -> Result<bool, u32> {
    if line.len() != 24 || line[10] != b' ' || line[23] != b'\n' {
        return Err(40);
    }
    let var = number(&line[..10]).ok_or(40u32)?;
    let grams = number(&line[11..23]).ok_or(40u32)?;
    if var >= u64::from(sfr::MAX_COUNT) {
        return Err(3);
    }
    let steps = (grams + 25) / 50;
    if steps >= u64::from(sfr::PRIME) {
        return Err(41);
    }
    let steps = steps as u32;
    let slot = slots.get_mut(var as usize).ok_or(7u32)?;
    let fresh = *slot == sfr::UNASSIGNED;
    if !fresh && *slot != steps {
        return Err(8);
    }
    *slot = steps;
    Ok(fresh)
}

/// A column's number: blanks, then digits, of which the first is 0 in 0 alone.
fn number(column: &[u8]) -> Option<u64> {
    let first = column.iter().position(|&byte| byte != b' ')?;
    let digits = &column[first..];
    if digits[0] == b'0' && digits.len() > 1 {
        return None;
    }
    let mut number = 0;
    for byte in digits {
        if !byte.is_ascii_digit() {
            return None;
        }
        number = 10 * number + u64::from(byte - b'0');
    }
    Some(number)
}
