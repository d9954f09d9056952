//! How many words a store needs, and how many bytes are written: the header's macros as functions.

/// The wires of so many queries.
#[must_use]
pub const fn queries_words(width: u32, queries: u32) -> usize {
    2 * width as usize * queries as usize
}

/// The units of so many steps.
#[must_use]
pub const fn trace_words(width: u32, steps: u32) -> usize {
    2 * width as usize * steps as usize
}

/// The words of an equation of so many terms.
#[must_use]
pub const fn equation_words(terms: usize) -> usize {
    2 * terms + 2
}

/// The words of so many publics.
#[must_use]
pub const fn publics_words(publics: u32) -> usize {
    2 * publics as usize
}

/// The words of a permutation's parameters.
#[must_use]
pub const fn params_words(width: u32, rounds: u32) -> usize {
    let width = width as usize;
    rounds as usize * (width + 1) + width * width
}

/// The bytes of SFRI: with such a label, and equations that use so many words.
///
/// ```
/// assert_eq!(sfr::sfri_bytes(0, 1, 2, 1, 4), 73); // docs/SCOPE.md's instance A
/// ```
#[must_use]
pub const fn sfri_bytes(
    label_len: usize,
    width: u32,
    publics: u32,
    queries: u32,
    words: u32,
) -> usize {
    let held = publics_words(publics) + queries_words(width, queries) + words as usize;
    33 + label_len + 4 * held
}

/// The bytes of SFRW.
#[must_use]
pub const fn sfrw_bytes(width: u32, steps: u32) -> usize {
    17 + 4 * trace_words(width, steps)
}
