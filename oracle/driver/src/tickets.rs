//! Texts of weigh tickets, right and damaged.

use std::fmt;

use reading::{MAX_COUNT, P, TICKET_LINE};

use crate::rng::Rng;

/// A text, told in characters.
#[derive(Clone, PartialEq, Eq)]
pub struct Text(pub Vec<u8>);

impl fmt::Debug for Text {
    fn fmt(&self, f: &mut fmt::Formatter<'_>) -> fmt::Result {
        write!(f, "\"{}\"", self.0.escape_ascii())
    }
}

/// Wires of one to ten digits, at those limits that a line asks about or a word has.
pub const VARS: [u64; 12] = [
    0,
    1,
    9,
    10,
    MAX_COUNT as u64 - 1,
    MAX_COUNT as u64,
    1_999_999_999,
    u32::MAX as u64,
    1 << 32,
    (1 << 32) + 1,
    (1 << 33) + 2,
    9_999_999_999,
];

/// Grams of one to twelve digits, at the ends of steps, before and after p of them, and where
/// grams or steps are as many as a word has values.
pub const GRAMS: [u64; 18] = [
    0,
    24,
    25,
    74,
    75,
    100,
    u32::MAX as u64,
    1 << 32,
    10_000_000_000,
    99_999_999_999,
    50 * (P as u64 - 1) - 26,
    50 * (P as u64 - 1) - 25,
    50 * (P as u64 - 1) + 24,
    50 * (P as u64 - 1) + 25,
    50 << 32,
    (50 << 32) + 25,
    500_000_000_000,
    999_999_999_999,
];

/// Bytes of the form, those beside them, and others that stand in such texts.
pub const BYTES: [u8; 20] = *b" 0123459/:+-.\t\r\n\0a\x80\xFF";

/// A line in the form.
pub fn line(var: u64, grams: u64) -> Vec<u8> {
    format!("{var:>10} {grams:>12}\n").into_bytes()
}

/// Grams that are so many steps: the first, the last or any of them.
pub fn grams(rng: &mut Rng, steps: u32) -> u64 {
    let within = match rng.below(3) {
        0 => 0,
        1 => 49,
        _ => rng.below(50) as u64,
    };
    (50 * u64::from(steps) + within).saturating_sub(25)
}

/// A fault in where lines begin and end, or in a column of one line.
pub fn damage(rng: &mut Rng, text: &mut Vec<u8>) {
    let byte = *rng.pick(&BYTES);
    let at = rng.below(text.len() + 1);
    let start = at - at % TICKET_LINE;
    match rng.below(12) {
        0 => text.truncate(at),
        1 => drop(text.drain(..at)),
        2 => text.insert(at, byte),
        3 if at < text.len() => drop(text.remove(at)),
        4 if at < text.len() => text[at] = byte,
        5 if start < text.len() => text.insert(text.len().min(start + 23), b'\r'),
        6..=8 => damage_column(rng, text.get_mut(start..start + 10), byte),
        _ => damage_column(rng, text.get_mut(start + 11..start + 23), byte),
    }
}

/// A fault in a column, where there is one.
fn damage_column(rng: &mut Rng, column: Option<&mut [u8]>, byte: u8) {
    let Some(column) = column else {
        return;
    };
    let last = column.len() - 1;
    let digits = column.iter().position(|&byte| byte != b' ');
    match (rng.below(5), digits) {
        // Before the first digit, among the digits, or where the last one stands.
        (0, Some(first @ 1..)) => column[first - 1] = *rng.pick(b"0+-\t"),
        (1, Some(first)) => column[rng.between(first, last)] = byte,
        (2, _) => column[last] = byte,
        // A blank on the right, or nothing but blanks.
        (3, _) => {
            column.rotate_left(1);
            column[last] = b' ';
        }
        _ => column.fill(b' '),
    }
}
