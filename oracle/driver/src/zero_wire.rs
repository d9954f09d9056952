//! The rule of the strict SFRI read, that wire 0 is listed with value 0 (02, R-7), said of a file's
//! bytes: by it the strict read is held beside the plain one.

use crate::{
    compared::{same, Compared},
    held::Held,
    leaf,
};

/// The ways to break the rule, under which a run counts what the plain read says of such files. One
/// without wires counts as that, whatever it lists; the plain read accepts some that list nothing.
pub const NO_PUBLICS: &str = "strict 46: no publics";
pub const MISSING: &str = "strict 46: no wire 0";
pub const UNEQUAL: &str = "strict 46: 0 isn't 0";
pub const NO_WIRES: &str = "strict 46: no wires";

/// How a file whose fields are sound and whose publics increase breaks the rule, if it does.
pub fn broken(bytes: &[u8]) -> Option<&'static str> {
    let word = |at: u128| leaf::word_at(bytes, at);
    let after_label = 17 + u128::from(word(13)?);
    let [vars_count, publics, var, value] = [0, 4, 8, 12].map(|at| word(after_label + at));
    match (vars_count?, publics?, var?, value?) {
        (0, ..) => Some(NO_WIRES),
        (_, 0, ..) => Some(NO_PUBLICS),
        (_, _, 1.., _) => Some(MISSING),
        (.., 1..) => Some(UNEQUAL),
        _ => None,
    }
}

/// The strict read beside the plain one: 46 where this had come past 27 and the rule is broken, and
/// otherwise the very same.
pub fn compare(bytes: &[u8], plain: &(u32, Held), strict: &(u32, Held)) -> Compared {
    let past_27 = matches!(plain.0, 0 | 12..=16 | 28);
    let expected = if past_27 && broken(bytes).is_some() {
        (46, plain.1.refused())
    } else {
        plain.clone()
    };
    compare_reads("strict read", strict, &expected)
}

/// Both reads of what a gate has made: they accept it, and are the same.
pub fn compare_gated(plain: &(u32, Held), strict: &(u32, Held)) -> Compared {
    same("read of what is gated", ("plain", plain.0), ("expected", 0))?;
    compare_reads("strict read of what is gated", strict, plain)
}

/// The numbers first: stores take long to tell.
fn compare_reads(what: &str, strict: &(u32, Held), expected: &(u32, Held)) -> Compared {
    same(what, ("strict", strict.0), ("expected", expected.0))?;
    same(what, ("strict", &strict.1), ("expected", &expected.1))
}
