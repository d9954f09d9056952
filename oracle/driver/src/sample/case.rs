//! One case of a sample: its operation and its lists.

/// The lists of a case by number, as `crates/replay/src/sample.rt` has them.
pub const GIVEN: usize = 0;
pub const ANSWER: usize = 1;
pub const TEXT: usize = 2;
pub const FIRST: usize = 3;
pub const FIRST_AFTER: usize = 4;
pub const ONE: usize = 5;
pub const TWO: usize = 6;
pub const OTHER: usize = 7;
pub const THREE: usize = 8;
pub const FOUR: usize = 9;
pub const FIVE: usize = 10;
pub const SECOND: usize = 11;
pub const SECOND_AFTER: usize = 12;
pub const THIRD: usize = 13;
pub const THIRD_AFTER: usize = 14;
pub const FOURTH: usize = 15;
const LISTS: usize = 16;

/// Lists of which words that are missing at the end count as 0.
const CUT: [usize; 5] = [GIVEN, ANSWER, FIRST_AFTER, SECOND_AFTER, THIRD_AFTER];

pub struct Case {
    pub operation: u32,
    lists: [Vec<u32>; LISTS],
}

impl Case {
    pub fn new(operation: u32) -> Self {
        let lists = Default::default();
        Self { operation, lists }
    }

    pub fn list(mut self, number: usize, words: &[u32]) -> Self {
        self.lists[number] = words.to_vec();
        self
    }

    pub fn bytes(self, number: usize, bytes: &[u8]) -> Self {
        self.list(number, &packed(bytes))
    }

    /// The numbers that are handed in: two arguments, then a record.
    pub fn given(self, numbers: &[u32]) -> Self {
        self.list(GIVEN, numbers)
    }

    pub fn answer(self, words: &[u32]) -> Self {
        self.list(ANSWER, words)
    }

    /// The first word of the answer.
    pub fn number(&self) -> u32 {
        self.lists[ANSWER].first().copied().unwrap_or(0)
    }

    pub fn words(mut self) -> Vec<u32> {
        for number in CUT {
            let list = &mut self.lists[number];
            let used = list.iter().rposition(|&word| word != 0);
            list.truncate(used.map_or(0, |last| last + 1));
        }
        let used = self.lists.iter().rposition(|list| !list.is_empty());
        let lists = &mut self.lists[..used.map_or(0, |last| last + 1)];
        // Where other lists follow, bytes have their count in any case.
        for number in [TEXT, OTHER] {
            if number < lists.len() && lists[number].is_empty() {
                lists[number].push(0);
            }
        }
        laid_out(self.operation, lists)
    }
}

/// How many bytes there are, and the bytes, four in each word, the first byte lowest.
pub fn packed(bytes: &[u8]) -> Vec<u32> {
    let mut words = vec![bytes.len() as u32];
    for chunk in bytes.chunks(4) {
        let mut packed = [0; 4];
        packed[..chunk.len()].copy_from_slice(chunk);
        words.push(u32::from_le_bytes(packed));
    }
    words
}

/// The operation with how many lists there are, how many words, where each list begins, and
/// the lists.
pub fn laid_out(operation: u32, lists: &[Vec<u32>]) -> Vec<u32> {
    let mut words = vec![operation + 256 * lists.len() as u32, 0];
    let mut start = 2 + lists.len() as u32;
    for list in lists {
        words.push(start);
        start += list.len() as u32;
    }
    words.extend(lists.iter().flatten());
    words[1] = words.len() as u32;
    words
}
