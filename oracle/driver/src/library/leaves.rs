//! `leaves`: the proved library's leaves beside the standard library: units, UTF-8 (the place of
//! the first bad byte beside the second reading too), words in bytes, and items read into a store.

use sfr::{BabyBearUnit, FieldVar};

use crate::{
    calls::DIRT,
    compared::{same, Compared},
    leaf::{self, Item, Kind, ROW_ENDS},
    options::Options,
    rng::{Rng, EDGES},
};

/// What was compared, for the last line.
#[derive(Default)]
struct Counts {
    pairs: u64,
    texts: u64,
    words: u64,
    items: u64,
}

/// A million random cases of each kind where no count is given.
const COUNT: u64 = 1_000_000;

pub fn run(options: &Options) -> bool {
    let count = options.count.unwrap_or(COUNT);
    let mut rng = Rng::new(options.seed);
    let mut counts = Counts::default();
    let compared = field(&mut rng, count, &mut counts)
        .and_then(|()| utf8(&mut rng, count, &mut counts))
        .and_then(|()| words(&mut rng, count, &mut counts))
        .and_then(|()| items(&mut rng, count, &mut counts));
    let seed = options.seed;
    let Counts {
        pairs,
        texts,
        words,
        items,
    } = counts;
    if let Err(difference) = compared {
        let commands = pairs + texts + words + items;
        println!(
            "leaves: a difference after {commands} commands, seed {seed}: {}",
            difference.0
        );
        return false;
    }
    println!(
        "leaves: seed {seed}, {pairs} pairs of units added and multiplied, {texts} texts scanned, \
         {words} words read and written, {items} items, no difference"
    );
    true
}

/// Every two edges, and random pairs, of units and of any words.
fn field(rng: &mut Rng, count: u64, counts: &mut Counts) -> Compared {
    for a in EDGES {
        for b in EDGES {
            pair(a, b, counts)?;
        }
    }
    for i in 0..count {
        let (a, b) = match i % 4 {
            0 => (rng.word(), rng.word()),
            1 => (rng.edge(), rng.word()),
            _ => (rng.unit(), rng.word() % reading::P),
        };
        pair(a, b, counts)?;
    }
    Ok(())
}

fn pair(a: u32, b: u32, counts: &mut Counts) -> Compared {
    counts.pairs += 1;
    let (one, other) = (BabyBearUnit(a), BabyBearUnit(b));
    let library = (sfr::add_unit(one, other).0, sfr::mul_unit(one, other).0);
    let expected = (leaf::add(a, b), leaf::mul(a, b));
    if library == expected {
        return Ok(());
    }
    let what = format!("sum and product of {a} and {b}");
    same(&what, ("library", library), ("standard", expected))
}

/// Every string of up to 3 bytes, every one of 4 row ends, and longer ones.
fn utf8(rng: &mut Rng, count: u64, counts: &mut Counts) -> Compared {
    text(&[], counts)?;
    for a in 0..=255 {
        text(&[a], counts)?;
        for b in 0..=255 {
            let two = reading::scan_utf8(&[a, b]);
            text_as_read(&[a, b], two, counts)?;
            for c in 0..=255 {
                let bytes = [a, b, c];
                // After a bad byte no continuation, so no third byte, changes anything.
                let bad = two.place < 2;
                let three = if bad { two } else { reading::scan_utf8(&bytes) };
                text_as_read(&bytes, three, counts)?;
            }
        }
    }
    for a in ROW_ENDS {
        for b in ROW_ENDS {
            for c in ROW_ENDS {
                for d in ROW_ENDS {
                    text(&[a, b, c, d], counts)?;
                }
            }
        }
    }
    for _ in 0..count {
        text(&leaf::random_text(rng), counts)?;
    }
    labels(rng, count, counts)
}

fn text(bytes: &[u8], counts: &mut Counts) -> Compared {
    text_as_read(bytes, reading::scan_utf8(bytes), counts)
}

/// Where a scan ends and whether the bytes pass, beside the second reading's answer and the standard
/// library's; and that `is_utf8` says so too.
fn text_as_read(bytes: &[u8], read: reading::Utf8Scan, counts: &mut Counts) -> Compared {
    counts.texts += 1;
    let scan = sfr::scan_utf8(bytes);
    let library = (scan.place, scan.passes, sfr::is_utf8(bytes));
    let (place, passes) = leaf::scan_utf8(bytes);
    let standard = (place, passes, passes);
    let reading = (read.place, read.passes, read.passes);
    if library == standard && library == reading {
        return Ok(());
    }
    let what = format!("place, passes and is UTF-8, {bytes:02X?}");
    same(&what, ("library", library), ("standard", standard))?;
    same(&what, ("library", library), ("reading", reading))
}

/// The first and the last character of each row but ASCII's.
const ROW_CHARS: [char; 16] = [
    '\u{80}',
    '\u{7FF}',
    '\u{800}',
    '\u{FFF}',
    '\u{1000}',
    '\u{CFFF}',
    '\u{D000}',
    '\u{D7FF}',
    '\u{E000}',
    '\u{FFFF}',
    '\u{10000}',
    '\u{3FFFF}',
    '\u{40000}',
    '\u{FFFFF}',
    '\u{100000}',
    '\u{10FFFF}',
];

/// What stands among ASCII: each of these characters cut off after any of its bytes, by the end of
/// the text or by a row end, or not at all.
fn pieces() -> Vec<Vec<u8>> {
    let mut pieces = Vec::new();
    for character in ROW_CHARS {
        let bytes = character.to_string().into_bytes();
        for cut in 1..=bytes.len() {
            pieces.push(bytes[..cut].to_vec());
            for end in ROW_ENDS {
                pieces.push([&bytes[..cut], &[end]].concat());
            }
        }
    }
    pieces.extend(ROW_ENDS.map(|end| vec![end]));
    pieces.sort();
    pieces.dedup();
    pieces
}

/// Where a text lies: anywhere in a few cache lines, with bytes around it that aren't its own.
#[repr(align(64))]
struct Page([u8; 1024]);

impl Page {
    fn text(&mut self, rng: &mut Rng, bytes: &[u8], counts: &mut Counts) -> Compared {
        let Self(page) = self;
        let (start, len) = (rng.between(1, 64), bytes.len());
        page.fill(*rng.pick(&[0x41, 0x80, 0xBF, 0xFF]));
        page[start..start + len].copy_from_slice(bytes);
        text(&page[start..start + len], counts)
    }
}

/// ASCII of every length; characters, bad bytes and cut-offs at every place of a run of ASCII, every
/// second time with a character before it, at a text's end and before a short or a long run more;
/// random texts of that kind; and texts with no ASCII among their characters.
fn labels(rng: &mut Rng, count: u64, counts: &mut Counts) -> Compared {
    let mut page = Page([0; 1024]);
    for len in 0..=200 {
        for _ in 0..64 {
            let bytes: Vec<u8> = leaf::ascii(rng, len).collect();
            page.text(rng, &bytes, counts)?;
        }
    }
    let pieces = pieces();
    for place in 0..=132 {
        for piece in &pieces {
            for after in [0, rng.below(80), 128 + rng.below(40)] {
                let mut bytes = Vec::new();
                if rng.once_in(2) {
                    bytes.extend("\u{E9}".bytes());
                }
                bytes.extend(leaf::ascii(rng, place));
                bytes.extend(piece);
                bytes.extend(leaf::ascii(rng, after));
                page.text(rng, &bytes, counts)?;
            }
        }
    }
    for _ in 0..count {
        let bytes = leaf::random_label(rng, 600);
        page.text(rng, &bytes, counts)?;
    }
    dense(rng, &mut page, counts)
}

/// Labels of one character again and again, after up to three bytes of ASCII: cut off at every place,
/// and with a row end put at every place.
fn dense(rng: &mut Rng, page: &mut Page, counts: &mut Counts) -> Compared {
    for character in ROW_CHARS {
        for before in 0..4 {
            let mut label: Vec<u8> = leaf::ascii(rng, before).collect();
            while label.len() < 60 {
                label.extend(character.to_string().bytes());
            }
            for place in 0..label.len() {
                page.text(rng, &label[..place], counts)?;
                for end in ROW_ENDS {
                    let mut bytes = label.clone();
                    bytes[place] = end;
                    page.text(rng, &bytes, counts)?;
                }
            }
        }
    }
    Ok(())
}

/// Places within, at the end of and far beyond short strings of bytes.
fn words(rng: &mut Rng, count: u64, counts: &mut Counts) -> Compared {
    for len in 0..=9 {
        for at in (0..=12).chain(usize::MAX - 12..=usize::MAX) {
            word(rng, len, at, counts)?;
        }
    }
    for _ in 0..count {
        let len = rng.below(20);
        let at = rng.below(len + 3);
        word(rng, len, at, counts)?;
    }
    Ok(())
}

fn word(rng: &mut Rng, len: usize, at: usize, counts: &mut Counts) -> Compared {
    counts.words += 1;
    let bytes: Vec<u8> = (0..len).map(|_| rng.byte()).collect();
    let held = leaf::word_at(&bytes, at as u128);
    let library = sfr::read_u32(&bytes, at);
    let expected = match held {
        None => (20, 0, at),
        Some(word) => (0, word, at + 4),
    };
    let given = (library.number, library.value, library.next);
    let what = format!("word at {at} of {bytes:02X?}");
    same(&what, ("library", given), ("standard", expected))?;

    let value = rng.edge();
    let mut out = bytes.clone();
    let library = sfr::put_u32(&mut out, at, value);
    let mut left = bytes;
    let expected = match held {
        None => (10, at),
        Some(_) => {
            left[at..at + 4].copy_from_slice(&value.to_le_bytes());
            (0, at + 4)
        }
    };
    let given = (library.number, library.next);
    let what = format!("{value} written at {at} of {len} bytes");
    same(
        &what,
        ("library", (given, out)),
        ("standard", (expected, left)),
    )
}

/// Random items, and ones whose places or count no store has.
fn items(rng: &mut Rng, count: u64, counts: &mut Counts) -> Compared {
    let far = [0, 1, usize::MAX - 4, usize::MAX - 3, usize::MAX];
    for kind in [Kind::Units, Kind::Vars] {
        for at in far {
            for place in far {
                for n in [0, 1, 2, u32::MAX] {
                    let item = Item {
                        kind,
                        bytes: vec![1, 0, 0, 0, 1, 0, 0, 0],
                        at,
                        out_len: 2,
                        place,
                        n,
                    };
                    self::item(&item, counts)?;
                }
            }
        }
    }
    for _ in 0..count {
        item(&Item::random(rng), counts)?;
    }
    Ok(())
}

fn item(item: &Item, counts: &mut Counts) -> Compared {
    counts.items += 1;
    let mut out = vec![DIRT; item.out_len];
    let (bytes, at, place, n) = (&item.bytes, item.at, item.place, item.n);
    let library = match item.kind {
        Kind::Units => sfr::read_units(bytes, at, BabyBearUnit::list_mut(&mut out), place, n),
        Kind::Vars => sfr::read_vars(bytes, at, FieldVar::list_mut(&mut out), place, n),
    };
    let given = (library.number, library.next, out);
    let expected = item.read(DIRT);
    if given == expected {
        return Ok(());
    }
    same(
        &format!("{item:?}"),
        ("library", given),
        ("standard", expected),
    )
}
