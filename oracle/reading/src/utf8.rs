//! UTF-8 by document 01's nine rows of first-byte and second-byte ranges, and where a scan for it
//! ends (02, R-3).

use std::ops::RangeInclusive;

/// The eight rows with a second byte. The first row, 00-7F, has none.
const ROWS: [(RangeInclusive<u8>, RangeInclusive<u8>); 8] = [
    (0xC2..=0xDF, 0x80..=0xBF),
    (0xE0..=0xE0, 0xA0..=0xBF),
    (0xE1..=0xEC, 0x80..=0xBF),
    (0xED..=0xED, 0x80..=0x9F),
    (0xEE..=0xEF, 0x80..=0xBF),
    (0xF0..=0xF0, 0x90..=0xBF),
    (0xF1..=0xF3, 0x80..=0xBF),
    (0xF4..=0xF4, 0x80..=0x8F),
];

/// How many bytes the character at the start of `bytes` takes, if one stands there.
fn first_char(bytes: &[u8]) -> Option<usize> {
    let first = *bytes.first()?;
    if first <= 0x7F {
        return Some(1);
    }
    let (_, second) = ROWS.iter().find(|(firsts, _)| firsts.contains(&first))?;
    let len = match first {
        0xC2..=0xDF => 2,
        0xE0..=0xEF => 3,
        _ => 4,
    };
    let character = bytes.get(..len)?;
    let later = &character[2..];
    let sound =
        second.contains(&character[1]) && later.iter().all(|byte| (0x80..=0xBF).contains(byte));
    sound.then_some(len)
}

/// What follows the whole characters that the bytes begin with.
fn after_chars(bytes: &[u8]) -> &[u8] {
    let mut rest = bytes;
    while let Some(len) = first_char(rest) {
        rest = &rest[len..];
    }
    rest
}

pub fn is_utf8(bytes: &[u8]) -> bool {
    after_chars(bytes).is_empty()
}

/// Where a scan ends and whether the label passes, two answers: a label cut off inside a character
/// has its length as place, and fails.
#[derive(Clone, Copy, Debug, PartialEq, Eq)]
pub struct Utf8Scan {
    pub place: usize,
    pub passes: bool,
}

/// 02: "the first byte after which no continuation can be UTF-8", counted from 0, or the length.
///
/// Each byte is tried, from the first one that is in no whole character. Within the characters
/// before it none is bad, as the rest of these is a continuation; and they change nothing for what
/// comes after, which is UTF-8 with them exactly where it is without. No character stands at the
/// start of the rest, so within four bytes one is bad or the label ends.
pub fn scan_utf8(bytes: &[u8]) -> Utf8Scan {
    let rest = after_chars(bytes);
    let mut begun = Vec::new();
    let bad = rest.iter().position(|&byte| {
        begun.push(byte);
        !goes_on(&mut begun, 3)
    });
    let before = bytes.len() - rest.len();
    Utf8Scan {
        place: before + bad.unwrap_or(rest.len()),
        passes: is_utf8(bytes),
    }
}

/// The bytes that continuations are made of. Each row's range of second bytes has one of the two, and
/// 80 to BF has both, so where some byte goes on, one of these does (`tests/utf8.rs` tries all).
const CONTINUATIONS: [u8; 2] = [0x80, 0xBF];

/// Can `more` bytes or fewer be put after these so that all are UTF-8? Three are as good as any
/// number: a continuation may be cut after the character in which the last of these bytes lies.
pub(crate) fn goes_on(bytes: &mut Vec<u8>, more: usize) -> bool {
    let yes = is_utf8(bytes);
    if yes || more == 0 {
        return yes;
    }
    CONTINUATIONS.into_iter().any(|byte| {
        bytes.push(byte);
        let further = goes_on(bytes, more - 1);
        bytes.pop();
        further
    })
}
