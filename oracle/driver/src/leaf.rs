//! What the library's leaves mean, said with the standard library: remainders, its own
//! UTF-8, its own little-endian words.

use crate::rng::Rng;

const P: u64 = 2_013_265_921;

pub fn add(a: u32, b: u32) -> u32 {
    ((u64::from(a) + u64::from(b)) % P) as u32
}

pub fn mul(a: u32, b: u32) -> u32 {
    ((u64::from(a) * u64::from(b)) % P) as u32
}

pub fn is_utf8(bytes: &[u8]) -> bool {
    std::str::from_utf8(bytes).is_ok()
}

/// Where a scan for UTF-8 ends and whether the bytes pass (02, R-3), by the standard library's
/// error: how its places and 02's are related is said here and nowhere else.
///
/// The error's place is where the character begins that isn't one, and its length counts the bytes
/// from there on with which some character begins, so that the bad byte follows them; it has no
/// length where the bytes end first. Where no character begins with the first of them, the length
/// is 1 all the same, and that byte is the bad one.
pub fn scan_utf8(bytes: &[u8]) -> (usize, bool) {
    let Err(error) = std::str::from_utf8(bytes) else {
        return (bytes.len(), true);
    };
    let start = error.valid_up_to();
    let place = match error.error_len() {
        None => return (bytes.len(), false),
        Some(begun) if (0xC2..=0xF4).contains(&bytes[start]) => start + begun,
        Some(len) => {
            assert_eq!(len, 1, "no character begins at {start}");
            start
        }
    };
    assert!(place < bytes.len(), "a bad byte is one of the bytes");
    (place, false)
}

/// The word that starts at a place, where the bytes hold it.
pub fn word_at(bytes: &[u8], at: u128) -> Option<u32> {
    let at = usize::try_from(at).ok()?;
    let field = bytes.get(at..)?.first_chunk()?;
    Some(u32::from_le_bytes(*field))
}

/// What an item's words are.
#[derive(Clone, Copy, Debug, PartialEq, Eq)]
pub enum Kind {
    Units,
    Vars,
}

impl Kind {
    /// The first word that is none, and the number for it.
    pub const fn limit(self) -> (u32, u32) {
        match self {
            Self::Units => (P as u32, 4),
            Self::Vars => (1 << 30, 3),
        }
    }
}

/// One item to be read: `n` words from byte `at` on, into `out_len` words, from `place` on.
#[derive(Clone, Debug)]
pub struct Item {
    pub kind: Kind,
    pub bytes: Vec<u8>,
    pub at: usize,
    pub out_len: usize,
    pub place: usize,
    pub n: u32,
}

impl Item {
    /// The number, the place after it, and what it leaves in a store that held `dirt`.
    pub fn read(&self, dirt: u32) -> (u32, usize, Vec<u32>) {
        let mut out = vec![dirt; self.out_len];
        match self.words() {
            Err(number) => (number, self.at, out),
            Ok(words) => {
                for (slot, word) in out.iter_mut().skip(self.place).zip(&words) {
                    *slot = *word;
                }
                // The bytes hold the words, or there is none: the sum is a place.
                (0, self.at + 4 * words.len(), out)
            }
        }
    }

    fn words(&self) -> Result<Vec<u32>, u32> {
        let (limit, refused) = self.kind.limit();
        let mut words = Vec::new();
        for i in 0..self.n {
            let at = self.at as u128 + 4 * u128::from(i);
            let word = word_at(&self.bytes, at).ok_or(20u32)?;
            if word >= limit {
                return Err(refused);
            }
            words.push(word);
        }
        if (self.out_len as u128) < self.place as u128 + u128::from(self.n) {
            return Err(10);
        }
        Ok(words)
    }

    /// An item that is mostly sound, with places at the ends of bytes and store.
    pub fn random(rng: &mut Rng) -> Self {
        let kind = *rng.pick(&[Kind::Units, Kind::Vars]);
        let (limit, _) = kind.limit();
        let count = rng.below(8);
        let before = rng.below(5);
        let mut bytes: Vec<u8> = (0..before).map(|_| rng.byte()).collect();
        for _ in 0..count {
            let word = match rng.below(12) {
                0 => rng.edge(),
                1 => limit - 1,
                2 => 0,
                3 if rng.once_in(3) => limit,
                _ => rng.word() % limit,
            };
            bytes.extend(word.to_le_bytes());
        }
        bytes.extend((0..rng.below(4)).map(|_| rng.byte()));
        let n = match rng.below(8) {
            0 => rng.below(10) as u32,
            1 => count as u32 + 1,
            2 => rng.edge(),
            _ => rng.below(count + 1) as u32,
        };
        let out_len = rng.below(12);
        let room = (out_len as u64).saturating_sub(u64::from(n)) as usize;
        let place = match rng.below(6) {
            0 => rng.below(14),
            1 => room + 1,
            _ => rng.below(room + 1),
        };
        let at = match rng.below(10) {
            0 => rng.below(bytes.len() + 6),
            _ => before,
        };
        Self {
            kind,
            bytes,
            at,
            out_len,
            place,
            n,
        }
    }
}

/// Bytes at the ends of document 01's nine rows, and their neighbours.
pub const ROW_ENDS: [u8; 24] = [
    0x00, 0x7F, 0x80, 0x8F, 0x90, 0x9F, 0xA0, 0xBF, 0xC0, 0xC1, 0xC2, 0xDF, 0xE0, 0xE1, 0xEC, 0xED,
    0xEE, 0xEF, 0xF0, 0xF1, 0xF3, 0xF4, 0xF5, 0xFF,
];

/// A string of 4 to 8 bytes: characters at the ends of the rows, every second time with
/// some byte put in their place or the last one cut off.
pub fn random_text(rng: &mut Rng) -> Vec<u8> {
    let len = rng.between(4, 8);
    let mut text = String::new();
    while text.len() < len {
        text.push(random_char(rng));
    }
    let mut bytes = text.into_bytes();
    if bytes.len() > 8 || rng.once_in(2) {
        bytes.truncate(len);
        for _ in 0..rng.below(3) {
            let at = rng.below(len);
            bytes[at] = *rng.pick(&ROW_ENDS);
        }
    }
    bytes
}

fn random_char(rng: &mut Rng) -> char {
    let ends = [
        '\0',
        '\u{7F}',
        '\u{80}',
        '\u{7FF}',
        '\u{800}',
        '\u{D7FF}',
        '\u{E000}',
        '\u{FFFF}',
        '\u{10000}',
        '\u{10FFFF}',
    ];
    match rng.below(3) {
        0 => char::from_u32(rng.word() % 0x11_0000).unwrap_or('a'),
        _ => *rng.pick(&ends),
    }
}

/// So many ASCII bytes.
pub fn ascii(rng: &mut Rng, len: usize) -> impl Iterator<Item = u8> + '_ {
    (0..len).map(|_| rng.byte() % 0x80)
}

/// A text of at most so many bytes: runs of ASCII, many of which end around a multiple of 8, 16, 32, 64 or
/// 128, with characters after each; every second time with a row end put somewhere, every third time
/// cut off anywhere.
pub fn random_label(rng: &mut Rng, most: usize) -> Vec<u8> {
    let mut bytes = Vec::new();
    for _ in 0..rng.between(1, 4) {
        let block = *rng.pick(&[8, 16, 32, 64, 128]);
        let to_its_end = block - bytes.len() % block;
        let run = match rng.below(3) {
            0 => rng.below(16),
            1 => to_its_end + rng.below(6) + 128 * rng.below(2),
            _ => to_its_end.saturating_sub(rng.below(6)),
        };
        bytes.extend(ascii(rng, run));
        for _ in 0..rng.below(8) {
            bytes.extend(random_char(rng).to_string().bytes());
        }
    }
    bytes.truncate(most);
    if !bytes.is_empty() && rng.once_in(2) {
        let at = rng.below(bytes.len());
        bytes[at] = *rng.pick(&ROW_ENDS);
    }
    if rng.once_in(3) {
        bytes.truncate(rng.below(bytes.len() + 1));
    }
    bytes
}
