//! Units, UTF-8, and words in bytes. In each call, a pointer and the length after it are those of
//! one slice.

use crate::{sys, BabyBearUnit, FieldVar, Place, Utf8Scan, Word};

/// The sum of two units modulo p. No questions: of a word of p or more the remainder modulo p is
/// taken.
#[must_use]
pub fn add_unit(a: BabyBearUnit, b: BabyBearUnit) -> BabyBearUnit {
    sys::sfr_add_unit(a, b)
}

/// The product of two units modulo p. No questions, as for [`add_unit`].
#[must_use]
pub fn mul_unit(a: BabyBearUnit, b: BabyBearUnit) -> BabyBearUnit {
    sys::sfr_mul_unit(a, b)
}

/// Are the bytes UTF-8 by RFC 3629? No questions; the empty slice is.
#[must_use]
pub fn is_utf8(bytes: &[u8]) -> bool {
    // SAFETY: see the head of this file.
    unsafe { sys::sfr_is_utf8(bytes.as_ptr(), bytes.len()) }
}

/// Scans the bytes for UTF-8 up to the place that it answers; of what lies behind it at most 127
/// bytes are looked at.
///
/// No questions: there is no number. `passes` is what [`is_utf8`] answers. The empty slice passes,
/// with place 0.
///
/// ```
/// let scan = |bytes: &[u8]| {
///     let scan = sfr::scan_utf8(bytes);
///     (scan.place, scan.passes)
/// };
/// assert_eq!(scan(b"\xC0\x80"), (0, false));
/// assert_eq!(scan(b"\xED\xA0\x80"), (1, false));
/// assert_eq!(scan(b"\xC3\xA9"), (2, true));
/// assert_eq!(scan(b"\xC3"), (1, false)); // cut off: its length, and yet it fails
/// ```
pub fn scan_utf8(bytes: &[u8]) -> Utf8Scan {
    // SAFETY: see the head of this file.
    unsafe { sys::sfr_scan_utf8(bytes.as_ptr(), bytes.len()) }
}

/// The little-endian word at `bytes[at..at + 4]`.
///
/// Question 20; a place beyond the bytes holds nothing.
pub fn read_u32(bytes: &[u8], at: usize) -> Word {
    // SAFETY: see the head of this file.
    unsafe { sys::sfr_read_u32(bytes.as_ptr(), bytes.len(), at) }
}

/// Puts a word, little-endian, at `out[at..at + 4]`.
///
/// Question 10. A refusal leaves `out` as it was.
pub fn put_u32(out: &mut [u8], at: usize, value: u32) -> Place {
    // SAFETY: see the head of this file.
    unsafe { sys::sfr_put_u32(out.as_mut_ptr(), out.len(), at, value) }
}

/// Reads an item of n units from byte `at` on and puts it at `out[place..place + n]`.
///
/// Per word questions 20, 4; after all n words 10. A refusal leaves `out` as it was.
pub fn read_units(
    bytes: &[u8],
    at: usize,
    out: &mut [BabyBearUnit],
    place: usize,
    n: u32,
) -> Place {
    let (words, len) = (out.as_mut_ptr(), out.len());
    // SAFETY: see the head of this file.
    unsafe { sys::sfr_read_units(bytes.as_ptr(), bytes.len(), at, words, len, place, n) }
}

/// Reads an item of n wires from byte `at` on and puts it at `out[place..place + n]`.
///
/// Per word questions 20, 3; after all n words 10. A refusal leaves `out` as it was.
pub fn read_vars(bytes: &[u8], at: usize, out: &mut [FieldVar], place: usize, n: u32) -> Place {
    let (words, len) = (out.as_mut_ptr(), out.len());
    // SAFETY: see the head of this file.
    unsafe { sys::sfr_read_vars(bytes.as_ptr(), bytes.len(), at, words, len, place, n) }
}
