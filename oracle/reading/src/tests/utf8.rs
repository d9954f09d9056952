//! Where a scan for UTF-8 ends (02, R-3).

use super::*;
use crate::utf8::goes_on;

fn scan(bytes: &[u8]) -> (usize, bool) {
    let Utf8Scan { place, passes } = scan_utf8(bytes);
    (place, passes)
}

/// Bytes at the ends of the nine rows, and their neighbours.
const ROW_ENDS: [u8; 24] = [
    0x00, 0x7F, 0x80, 0x8F, 0x90, 0x9F, 0xA0, 0xBF, 0xC0, 0xC1, 0xC2, 0xDF, 0xE0, 0xE1, 0xEC, 0xED,
    0xEE, 0xEF, 0xF0, 0xF1, 0xF3, 0xF4, 0xF5, 0xFF,
];

#[test]
fn the_place_of_the_first_bad_byte() {
    assert_eq!(scan(b"\xC0\x80"), (0, false));
    assert_eq!(scan(b"\xED\xA0\x80"), (1, false));
    assert_eq!(scan(b"\x80"), (0, false));
    assert_eq!(scan(b"\xF5"), (0, false));
    assert_eq!(scan(b"\xE0\x80"), (1, false));
    assert_eq!(scan(b"\xF0\x8F"), (1, false));
    assert_eq!(scan(b"\xF4\x90"), (1, false));
    assert_eq!(scan(b"\xC3\x41"), (1, false));
    assert_eq!(scan(b"\xE1\x80\x41"), (2, false));
    assert_eq!(scan(b"\xF1\x80\x80\xC0"), (3, false));
    assert_eq!(scan(b"batch \xFF7"), (6, false));
    assert_eq!(scan(b"\xC3\xA9\xC3\xA9\xE2\x28\xA1"), (5, false));
}

#[test]
fn the_length_where_no_byte_is_bad() {
    assert_eq!(scan(b""), (0, true));
    assert_eq!(scan(b"batch 7"), (7, true));
    assert_eq!(scan(b"\xC3\xA9"), (2, true));
    assert_eq!(scan(b"\xF4\x8F\xBF\xBF"), (4, true));
}

#[test]
fn a_label_cut_off_inside_a_character_fails() {
    for character in ["\u{E9}", "\u{20AC}", "\u{1F33E}"] {
        for cut in 1..character.len() {
            assert_eq!(scan(&character.as_bytes()[..cut]), (cut, false));
            let label = [b"batch ", &character.as_bytes()[..cut]].concat();
            assert_eq!(scan(&label), (6 + cut, false));
        }
    }
}

/// 02's words as they stand, from the first byte on for every place.
#[test]
fn from_a_character_s_start_as_from_the_first_byte() {
    let plain = |bytes: &[u8]| {
        let bad = (0..bytes.len()).find(|&i| !goes_on(&mut bytes[..=i].to_vec(), 3));
        (bad.unwrap_or(bytes.len()), is_utf8(bytes))
    };
    for a in ROW_ENDS {
        for b in ROW_ENDS {
            for c in ROW_ENDS {
                let bytes = [a, b, c, 0x80];
                for len in 0..=4 {
                    assert_eq!(scan(&bytes[..len]), plain(&bytes[..len]), "{bytes:02X?}");
                }
            }
        }
    }
}

/// One byte more of all 256 leads no further than 80 or BF, whatever was there: so,
/// list by list, do three. After three bytes of a character one more is left, after two two.
#[test]
fn two_bytes_continue_as_all_bytes_do() {
    let as_all = |bytes: &[u8], more: usize| {
        let some = |byte| goes_on(&mut [bytes, &[byte]].concat(), more - 1);
        let of_all = is_utf8(bytes) || (0..=255).any(some);
        let of_two = goes_on(&mut bytes.to_vec(), more);
        assert_eq!(of_two, of_all, "{more} after {bytes:02X?}");
    };
    as_all(&[], 3);
    for a in 0..=255 {
        for more in 1..=3 {
            as_all(&[a], more);
        }
    }
    for a in ROW_ENDS {
        for b in ROW_ENDS {
            as_all(&[a, b], 1);
            as_all(&[a, b], 2);
            for c in ROW_ENDS {
                as_all(&[a, b, c], 1);
            }
        }
    }
}
