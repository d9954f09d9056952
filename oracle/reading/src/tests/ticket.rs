//! Tickets: document 02's examples, and what a line's form leaves out.

use super::*;

/// A line in the form.
fn line(var: u64, grams: u64) -> Vec<u8> {
    format!("{var:>10} {grams:>12}\n").into_bytes()
}

/// A relation of 5 wires over 8 slots, of which wire 0 alone has a value.
fn five() -> Stores {
    let mut stores = Stores::sized(1, 8, 0, 0);
    stores.allocate(4);
    stores
}

/// Nothing but these slots is set after the call, and the answer is the number and the count. They
/// are of wires that had no value, so that as many lines were fresh.
fn left(text: &[u8], set: &[(usize, u32)], answer: (u32, usize)) {
    let mut stores = five();
    let mut expected = stores.slots.clone();
    for &(var, value) in set {
        expected[var] = value;
    }
    let answer = (answer.0, answer.1, set.len());
    assert_eq!(stores.tickets(text), answer, "{}", text.escape_ascii());
    assert_eq!(stores.slots, expected, "{}", text.escape_ascii());
}

#[test]
fn steps_of_50_grams() {
    let most = u64::from(P - 1);
    let cases = [
        (0, 0),
        (24, 0),
        (25, 1),
        (50, 1),
        (74, 1),
        (75, 2),
        (125, 3),
        (50 * most - 26, P - 2),
        (50 * most - 25, P - 1),
        (50 * most, P - 1),
        (100_663_296_024, P - 1),
    ];
    for (grams, steps) in cases {
        left(&line(1, grams), &[(1, steps)], (0, 1));
    }
    // 50 * 2^32 g are as many steps as a word has values.
    for grams in [100_663_296_025, 214_748_364_800, 999_999_999_999] {
        left(&line(1, grams), &[], (41, 0));
    }
}

#[test]
fn questions_of_a_line_in_order() {
    let (no_unit, limit) = (999_999_999_999, u64::from(M));
    left(&line(4, 50), &[(4, 1)], (0, 1));
    left(&line(5, 50), &[], (7, 0));
    left(&line(5, no_unit), &[], (41, 0));
    left(&line(0, 24), &[], (0, 1));
    left(&line(0, 25), &[], (8, 0));
    left(&line(limit - 1, 50), &[], (7, 0));
    for var in [limit, 1 << 32, (1 << 32) + 1, 9_999_999_999] {
        left(&line(var, 50), &[], (3, 0));
        left(&line(var, no_unit), &[], (3, 0));
        let mut cut = line(var, no_unit);
        cut.pop();
        left(&cut, &[], (40, 0));
    }
}

#[test]
fn columns_not_in_the_form() {
    let columns: [&[u8]; 21] = [
        b"",
        b"00",
        b"01",
        b"+1",
        b"-1",
        b"+",
        b"-0",
        b"1 ",
        b"1  ",
        b" ",
        b"1 1",
        b"0 1",
        b"1.0",
        b"1_0",
        b"0x1",
        b"1e1",
        b"a",
        b"\t1",
        b"1\r",
        b"\0",
        b"\xC2\xA01",
    ];
    for column in columns {
        for (width, at) in [(10, 0), (12, 11)] {
            let mut text = line(1, 50);
            let padded = [&vec![b' '; width - column.len()], column].concat();
            text[at..at + width].copy_from_slice(&padded);
            left(&text, &[], (40, 0));
        }
    }
    for digits in [b"0123456789", b"0000000001", b"0999999999"] {
        let mut text = line(1, 50);
        text[..10].copy_from_slice(digits);
        left(&text, &[], (40, 0));
        text[..10].copy_from_slice(b"         1");
        text[13..23].copy_from_slice(digits);
        left(&text, &[], (40, 0));
    }
}

#[test]
fn bytes_between_the_columns() {
    for byte in 0..=255 {
        for (at, right) in [(10, b' '), (23, b'\n')] {
            let mut text = line(1, 50);
            text[at] = byte;
            if byte != right {
                left(&text, &[], (40, 0));
            }
        }
    }
}

#[test]
fn lines_of_other_lengths() {
    let second = line(2, 100);
    for at in 0..24 {
        let mut short = line(1, 50);
        short.remove(at);
        left(&short, &[], (40, 0));
        short.extend(&second);
        left(&short, &[], (40, 0));
        let mut long = line(1, 50);
        long.insert(at, b'\r');
        long.extend(&second);
        left(&long, &[], (40, 0));
    }
    // A byte after the newline belongs to the next line.
    let long = [line(1, 50), b"\n".to_vec(), second].concat();
    left(&long, &[(1, 1)], (40, 1));
    left(b"\n", &[], (40, 0));
    left(&line(1, 50)[1..], &[], (40, 0));
}

#[test]
fn every_cut_of_two_lines() {
    let text = [line(1, 50), line(2, 100)].concat();
    for len in 0..=text.len() {
        let set = [(1, 1), (2, 2)];
        let whole = len / 24;
        let number = if len % 24 == 0 { 0 } else { 40 };
        left(&text[..len], &set[..whole], (number, whole));
    }
}

#[test]
fn earlier_lines_stay() {
    let lines = |pairs: &[(u64, u64)]| -> Vec<u8> {
        pairs
            .iter()
            .flat_map(|&(var, grams)| line(var, grams))
            .collect()
    };
    let bad = b"00\n".to_vec();
    // The first refused line decides, whatever a later one is.
    let text = [lines(&[(1, 50), (0, 50), (2, 50), (3, 50)]), bad.clone()].concat();
    left(&text, &[(1, 1)], (8, 1));
    let text = [lines(&[(1, 50), (2, 100)]), bad].concat();
    left(&text, &[(1, 1), (2, 2)], (40, 2));
    // A repeat meets the value that the text itself has set, in steps.
    let text = lines(&[(3, 125), (3, 174), (3, 150), (3, 175), (4, 0)]);
    left(&text, &[(3, 3)], (8, 3));
    let text = lines(&[(1, 0), (2, 999_999_999_999), (3, 0)]);
    left(&text, &[(1, 0)], (41, 1));
}

#[test]
fn records_and_slots_first() {
    let mut stores = five();
    let text = line(1, 50);
    for (width, vars_count, number) in [(0, 5, 1), (25, 0, 1), (1, 0, 2), (1, 9, 2), (1, M + 1, 2)]
    {
        (stores.rel.width, stores.rel.vars_count) = (width, vars_count);
        let before = stores.slots.clone();
        for text in [&text, &b"bad"[..], b""] {
            assert_eq!(stores.tickets(text), (number, 0, 0));
        }
        assert_eq!(stores.slots, before);
    }
    stores.rel.vars_count = 1;
    stores.slots = vec![0; M as usize + 1];
    assert_eq!(stores.tickets(&line(0, 0)), (2, 0, 0));
    stores.slots.pop();
    assert_eq!(stores.tickets(&line(0, 0)), (0, 1, 0));
    stores.rel.vars_count = M;
    assert_eq!(stores.tickets(&line(u64::from(M) - 1, 24)), (0, 1, 0));
    // A slot that is neither a unit nor F is taken by no step count.
    stores.slots[1] = DIRT;
    assert_eq!(stores.tickets(&text), (8, 0, 0));
}

#[test]
fn readings_that_are_repeats() {
    let text = |pairs: &[(u64, u64)]| -> Vec<u8> {
        let lines = pairs.iter().map(|&(var, grams)| line(var, grams));
        lines.collect::<Vec<_>>().concat()
    };
    let mut stores = five();
    assert_eq!(stores.set(1, 3), 0);
    // Other grams, the same steps; a wire of an earlier call, of an earlier line, and wire 0.
    let lines = text(&[(1, 149), (2, 25), (2, 74), (0, 24), (3, 0)]);
    assert_eq!(stores.tickets(&lines), (0, 5, 2));
    assert_eq!(stores.tickets(&lines), (0, 5, 0));
    // A refused line ends the count: 8, 7, 41, and a line cut short.
    let cases = [
        (text(&[(3, 0), (4, 50), (1, 50), (2, 50)]), (8, 2, 1)),
        (text(&[(4, 50), (4, 50), (5, 50), (4, 50)]), (7, 2, 1)),
        (text(&[(4, 50), (2, 999_999_999_999)]), (41, 1, 1)),
        (text(&[(4, 50), (4, 50)])[..47].to_vec(), (40, 1, 1)),
    ];
    for (text, answer) in cases {
        assert_eq!(stores.clone().tickets(&text), answer);
    }
    stores.rel.width = 0;
    assert_eq!(stores.tickets(&line(4, 50)), (1, 0, 0));
}
