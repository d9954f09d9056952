//! Random numbers from a seed, and words that lie where calls change their minds.

use reading::{MAX_COUNT, P};

/// SplitMix64: small, and good enough to wander through inputs.
pub struct Rng(u64);

/// Words at which some question turns from yes to no.
pub const EDGES: [u32; 20] = [
    0,
    1,
    2,
    3,
    24,
    25,
    255,
    256,
    65_535,
    MAX_COUNT - 1,
    MAX_COUNT,
    MAX_COUNT + 1,
    P - 1,
    P,
    P + 1,
    1 << 31,
    (1 << 31) + 1,
    0xABAB_ABAB,
    u32::MAX - 1,
    u32::MAX,
];

impl Rng {
    pub const fn new(seed: u64) -> Self {
        Self(seed)
    }

    pub fn next(&mut self) -> u64 {
        self.0 = self.0.wrapping_add(0x9E37_79B9_7F4A_7C15);
        let mut mixed = self.0;
        mixed = (mixed ^ (mixed >> 30)).wrapping_mul(0xBF58_476D_1CE4_E5B9);
        mixed = (mixed ^ (mixed >> 27)).wrapping_mul(0x94D0_49BB_1331_11EB);
        mixed ^ (mixed >> 31)
    }

    /// A number below `bound`, which is at least 1. That it favours small ones by a hair
    /// is of no account here.
    pub fn below(&mut self, bound: usize) -> usize {
        (self.next() % bound as u64) as usize
    }

    /// A number from `low` to `high`, both included.
    pub fn between(&mut self, low: usize, high: usize) -> usize {
        low + self.below(high - low + 1)
    }

    /// Yes, once in `times`.
    pub fn once_in(&mut self, times: usize) -> bool {
        self.below(times) == 0
    }

    pub fn pick<'a, T>(&mut self, from: &'a [T]) -> &'a T {
        &from[self.below(from.len())]
    }

    pub fn byte(&mut self) -> u8 {
        self.next() as u8
    }

    pub fn word(&mut self) -> u32 {
        self.next() as u32
    }

    /// Any word, edges more often than not.
    pub fn edge(&mut self) -> u32 {
        if self.once_in(3) {
            self.word()
        } else {
            *self.pick(&EDGES)
        }
    }

    /// A unit, small ones and the largest more often than others.
    pub fn unit(&mut self) -> u32 {
        match self.below(8) {
            0 => 0,
            1 => 1,
            2 => P - 1,
            3..=5 => self.below(6) as u32,
            _ => self.word() % P,
        }
    }

    /// A width, the smallest and the largest more often than others.
    pub fn width(&mut self) -> u32 {
        match self.below(6) {
            0 => 1,
            1 => 2,
            2 => 24,
            _ => self.between(1, 24) as u32,
        }
    }
}
