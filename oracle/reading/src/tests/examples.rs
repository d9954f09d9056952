//! The batch examples of document 01 and RFC 3629's.

use super::*;

#[test]
fn field() {
    assert_eq!(add(2_013_265_920, 1), 0);
    assert_eq!(mul(2_013_265_920, 2_013_265_920), 1);
}

#[test]
fn set_wire_0() {
    let mut stores = Stores::new(1);
    assert_eq!(stores.set(0, 0), 0);
    assert_eq!(stores.set(0, 5), 8);
}

#[test]
fn allocate_too_many() {
    let mut stores = Stores::sized(1, 8, 0, 0);
    assert_eq!(stores.allocate(M).0, 5);
    assert_eq!(stores.allocate(M - 1).0, 6);
}

#[test]
fn weight_0_on_an_unbound_wire() {
    let mut stores = Stores::new(1);
    stores.allocate(1);
    assert_eq!(stores.equation(&[(1, 0)], 0), 0);
    let (number, held) = stores.gate();
    assert_eq!(number, 0);
    assert_eq!(held.check(0, &[], PARAMS), 34);

    let mut stores = Stores::new(1);
    stores.allocate(1);
    assert_eq!(stores.equation(&[(1, 1)], 0), 0);
    assert_eq!(stores.gate().0, 15);
}

#[test]
fn no_terms() {
    for (image, number) in [(0, 0), (1, 35)] {
        let mut stores = Stores::new(1);
        assert_eq!(stores.equation(&[], image), 0);
        let (gated, held) = stores.gate();
        assert_eq!(gated, 0);
        assert_eq!(held.check(0, &[], PARAMS), number);
    }
}

#[test]
fn labels_when_read() {
    let labels: [(&[u8], u32); 3] = [
        (&[0xC0, 0x80], 25),
        (&[0xED, 0xA0, 0x80], 25),
        (&[0xF4, 0x8F, 0xBF, 0xBF], 0),
    ];
    for (label, number) in labels {
        let mut bytes = instance_a().bytes();
        bytes[13] = label.len() as u8;
        bytes.splice(17..17, label.iter().copied());
        assert_eq!(read(1, &bytes, AMPLE).0, number);
    }
}

#[test]
fn params() {
    for (input, output) in [(2, 5), (3, 640)] {
        let mut out = [DIRT];
        assert_eq!(permute(1, PARAMS, &[input], &mut out), 0);
        assert_eq!(out, [output]);
    }
}

#[test]
fn check_of_a() {
    let a = instance_a();
    assert_eq!(a.check(1, &[2, 5], PARAMS), 0);
    assert_eq!(a.check(0, &[], PARAMS), 31);
    assert_eq!(a.check(1, &[2, 6], PARAMS), 32);
    assert_eq!(a.check(1, &[3, 640], PARAMS), 33);
}

#[test]
fn bytes_of_a() {
    let a = instance_a();
    let bytes = a.bytes();
    assert_eq!(bytes.len(), 73);
    let (number, held) = read(1, &bytes, AMPLE);
    assert_eq!(number, 0);
    assert_eq!(held.ins, a.ins);
    for cut in 0..73 {
        assert_eq!(read(1, &bytes[..cut], AMPLE).0, 20);
    }
    let mut longer = bytes.clone();
    longer.push(0);
    assert_eq!(read(1, &longer, AMPLE).0, 28);
    // The second public wire stands after 17 + 4 + 4 + 8 bytes.
    longer[33..37].copy_from_slice(&[0; 4]);
    assert_eq!(read(1, &longer, AMPLE).0, 27);
}

#[test]
fn last_wire_and_last_unit_when_read() {
    let bytes = instance_a().bytes();
    // The term of the equation stands 12 bytes before the end, its weight 8.
    for (word, number) in [(M - 1, 14), (M, 3)] {
        let mut bytes = bytes.clone();
        bytes[61..65].copy_from_slice(&word.to_le_bytes());
        assert_eq!(read(1, &bytes, AMPLE).0, number);
    }
    for (word, number) in [(P - 1, 0), (P, 4)] {
        let mut bytes = bytes.clone();
        bytes[65..69].copy_from_slice(&word.to_le_bytes());
        assert_eq!(read(1, &bytes, AMPLE).0, number);
    }
}

#[test]
fn rfc_3629() {
    let sound: [&[u8]; 4] = [
        b"\x41\xE2\x89\xA2\xCE\x91\x2E",
        b"\xED\x95\x9C\xEA\xB5\xAD\xEC\x96\xB4",
        b"\xE6\x97\xA5\xE6\x9C\xAC\xE8\xAA\x9E",
        b"\xEF\xBB\xBF\xF0\xA3\x8E\xB4",
    ];
    assert!(sound.iter().all(|bytes| is_utf8(bytes)));
    let unsound: [&[u8]; 5] = [
        b"\xC0\x80",
        b"\xED\xA1\x8C\xED\xBE\xB4",
        b"\xF0\x82\x82\xAC",
        b"\x2F\xC0\xAE\x2E\x2F",
        b"\xF4\x90\x80\x80",
    ];
    assert!(unsound.iter().all(|bytes| !is_utf8(bytes)));
}

#[test]
fn utf8_by_its_rows_is_the_standard_library_s() {
    // Every string of up to 2 bytes, and every first two bytes with some later ones.
    for first in 0..=255 {
        assert_eq!(is_utf8(&[first]), std::str::from_utf8(&[first]).is_ok());
        for second in 0..=255 {
            let tails: [&[u8]; 7] = [
                &[],
                &[0x7F],
                &[0x80],
                &[0xBF],
                &[0xC0],
                &[0x80, 0xBF],
                &[0x80, 0xC0],
            ];
            for tail in tails {
                let mut bytes = vec![first, second];
                bytes.extend(tail);
                assert_eq!(is_utf8(&bytes), std::str::from_utf8(&bytes).is_ok());
            }
        }
    }
}
