//! Labels scanned for UTF-8, beside the standard library, which the sources leave this to.

use std::{hint::black_box, iter, str::from_utf8};

use super::{best, timed, Run, LAST};
use crate::rng::Rng;

/// Times are told for so many bytes.
const PIECE: f64 = 64.0;
/// Labels have so many bytes and more.
const SHORTEST: usize = 10;
/// So many calls that end at once are a run, or more.
const CALLS: usize = 10_000;

/// What a label is made of, piece by piece.
type Text = fn(&mut Rng, &mut String);

const TEXTS: [(&str, Text); 6] = [
    ("ASCII", ascii),
    ("sparse", sparse),
    ("Latin", latin),
    ("two bytes", greek),
    ("three bytes", three_bytes),
    ("all widths", all_widths),
];

fn any(rng: &mut Rng, first: char, last: char) -> char {
    let code = rng.between(first as usize, last as usize) as u32;
    char::from_u32(code).expect("a range without surrogates")
}

fn ascii(rng: &mut Rng, text: &mut String) {
    text.push(any(rng, ' ', '~'));
}

/// A letter of two bytes after every 20 letters or so.
fn latin(rng: &mut Rng, text: &mut String) {
    after(rng, 8, 32, text);
}

/// A letter of two bytes after every 100 letters or so.
fn sparse(rng: &mut Rng, text: &mut String) {
    after(rng, 40, 160, text);
}

/// A letter of two bytes after so many others.
fn after(rng: &mut Rng, least: usize, most: usize, text: &mut String) {
    for _ in 0..rng.between(least, most) {
        ascii(rng, text);
    }
    text.push(any(rng, 'à', 'ÿ'));
}

/// A Greek word and a space.
fn greek(rng: &mut Rng, text: &mut String) {
    for _ in 0..rng.between(2, 10) {
        text.push(any(rng, 'α', 'ω'));
    }
    text.push(' ');
}

fn three_bytes(rng: &mut Rng, text: &mut String) {
    text.push(any(rng, '\u{4E00}', '\u{9FFF}'));
}

fn all_widths(rng: &mut Rng, text: &mut String) {
    text.push(match rng.below(4) {
        0 => any(rng, ' ', '~'),
        1 => any(rng, '\u{80}', '\u{7FF}'),
        2 => any(rng, '\u{800}', '\u{D7FF}'),
        _ => any(rng, '\u{10000}', '\u{10FFFF}'),
    });
}

/// Labels of so many bytes, one after the other, a million bytes in all or one label: a run goes over
/// all of them, as the clock takes longer than a short one, and as the processor would learn the
/// characters of one that it meets again and again.
struct Labels {
    all: Vec<u8>,
    bytes: usize,
}

impl Labels {
    fn new(piece: Text, bytes: usize) -> Self {
        let mut rng = Rng::new(bytes as u64);
        let mut all = Vec::new();
        for _ in 0..(LAST / bytes).max(1) {
            let mut text = String::new();
            while text.len() < bytes {
                piece(&mut rng, &mut text);
            }
            while text.len() > bytes {
                text.pop();
            }
            all.extend(text.bytes());
            all.resize(all.len().next_multiple_of(bytes), b'~');
        }
        Self { all, bytes }
    }

    /// The nanoseconds that one call takes, of `is_utf8`, `scan_utf8` and `from_utf8`. All labels
    /// are gone over so many times in a run, and pass or don't.
    fn times(&self, rounds: usize, pass: bool) -> [f64; 3] {
        let often = rounds * self.all.len() / self.bytes;
        let run = |call: fn(&[u8]) -> bool| -> Run {
            timed(
                || (),
                move |()| {
                    for _ in 0..rounds {
                        for label in black_box(&self.all).chunks(self.bytes) {
                            assert_eq!(call(label), pass);
                        }
                    }
                },
            )
        };
        let runs = [
            run(sfr::is_utf8),
            run(|label| sfr::scan_utf8(label).passes),
            run(|label| from_utf8(label).is_ok()),
        ];
        best(runs).map(|time| time / often as f64)
    }
}

pub fn tables(last: usize) {
    println!("\n### labels\n");
    println!(
        "Nanoseconds for {PIECE} bytes of a label that passes; growth is the time beside that of a tenth of the bytes. A run goes \
         over a million bytes: of shorter labels over several, no two of them alike. `from_utf8` is the standard library's, to \
         which the sources leave a label. `sparse` and `Latin` are ASCII with a letter of two bytes after 40 to 160 and after 8 to 32 others, `two bytes` are \
         Greek words with a space between them, `three bytes` has no others, and in `all widths` each character has any of \
         the four.\n"
    );
    println!(
        "| text | bytes | is_utf8 | scan_utf8 | from_utf8 | from_utf8/is_utf8 | from_utf8/scan_utf8 | growth is_utf8 | \
         growth scan_utf8 | growth from_utf8 |"
    );
    println!("|---|---:|---:|---:|---:|---:|---:|---:|---:|---:|");
    for (name, piece) in TEXTS {
        passing(name, piece, last);
    }
    println!(
        "\nNanoseconds for a whole label of ASCII whose first byte is bad: the scan ends there.\n"
    );
    println!("| bytes | is_utf8 | scan_utf8 | from_utf8 |");
    println!("|---:|---:|---:|---:|");
    for bytes in sizes(last) {
        let mut labels = Labels::new(ascii, bytes);
        let firsts = labels.all.iter_mut().step_by(bytes);
        firsts.for_each(|first| *first = 0x80);
        let rounds = (CALLS * bytes / labels.all.len()).max(1);
        let [is, scan, from] = labels.times(rounds, false);
        println!("| {bytes} | {is:.1} | {scan:.1} | {from:.1} |");
    }
}

/// The lines of one kind of text.
fn passing(name: &str, piece: Text, last: usize) {
    let mut before: Option<[f64; 3]> = None;
    for bytes in sizes(last) {
        let now = Labels::new(piece, bytes).times(1, true);
        let [is, scan, from] = now.map(|time| format!("{:.1}", time * PIECE / bytes as f64));
        let growth = |i: usize| before.map_or(String::new(), |t| format!("{:.1}", now[i] / t[i]));
        println!(
            "| {name} | {bytes} | {is} | {scan} | {from} | {:.2} | {:.2} | {} | {} | {} |",
            now[2] / now[0],
            now[2] / now[1],
            growth(0),
            growth(1),
            growth(2),
        );
        before = Some(now);
    }
}

/// How many bytes labels have.
fn sizes(last: usize) -> impl Iterator<Item = usize> {
    iter::successors(Some(SHORTEST), |bytes| Some(10 * bytes))
        .take_while(move |bytes| *bytes <= last)
}
