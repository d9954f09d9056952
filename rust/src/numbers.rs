//! What the numbers mean, and the parts of 11. `tools/numbers` writes this file from
//! `docs/numbers.txt`.

/// What a number means; none of 0, which is a yes, and of one that no call answers.
pub(crate) const fn meaning(number: u32) -> Option<&'static str> {
    Some(match number {
        1 => "the width isn't from 1 to 24",
        2 => "a lent list is too long, or a count is out of range or more than its store holds",
        3 => "a wire is 2^30 or more",
        4 => "a word that must be a unit is p (2013265921) or more",
        5 => "there would be more than 2^30 wires",
        6 => "there are fewer slots than there would be wires",
        7 => "the wire to be set isn't allocated",
        8 => "the wire already has another value",
        9 => "a list isn't as long as the width, or the two lists of a set list differ in length",
        10 => {
            "a list that would be written to is too short, or there isn't exactly one use count \
             per slot"
        }
        11 => {
            "the label or what a store holds isn't sound, or a count would be below 0 or above 2^30"
        }
        12 => "a public wire isn't below the wire count",
        13 => "a query's wire isn't below the wire count (a gate goes by the use counts)",
        14 => "a term's wire isn't below the wire count",
        15 => {
            "a term has a weight other than 0, and its wire is neither public nor in a query (a \
             gate goes by the use counts)"
        }
        16 => "scratch has fewer words than there are wires",
        17 => {
            "the parameters have over 128 rounds, a wrong length, a kind over 1 or a unit of p or \
             more"
        }
        20 => "the bytes end before the word or field to be read does",
        21 => "the bytes don't begin with SFRI for an instance, or SFRW for a trace",
        22 => "the version in the bytes isn't 1",
        23 => "the width in the bytes isn't the one asked for",
        24 => "the unit length in the bytes isn't 4",
        25 => "the label in the bytes isn't UTF-8",
        27 => "the public wires in the bytes don't strictly increase",
        28 => "bytes are left over at the end",
        31 => "the trace hasn't exactly one step per query",
        32 => "a step's outputs aren't what the permutation makes of its inputs",
        33 => "a step gives a wire another value than it already has",
        34 => "a term's wire has no value, neither public nor from a step",
        35 => "an equation's sum isn't its image",
        36 => "a public or query wire isn't below the wire count",
        40 => "a ticket line isn't in its form, or is cut short at the text's end",
        41 => "a ticket's grams come to p (2013265921) steps or more",
        42 => "no relation of this number is opened, or a ninth would be",
        43 => "the relation would have obtained more wires than its quota",
        44 => "there are rounds and the matrix is singular: two different inputs share an output",
        45 => "there is no query or equation of this number",
        46 => "there are no wires, or wire 0 isn't listed with value 0",
        _ => return None,
    })
}

/// The parts that 11 asks.
#[derive(Clone, Copy, Debug, PartialEq, Eq, Hash)]
pub enum Part {
    /// The equations don't end exactly at the used words, or hold a wire of 2^30 or more or a unit
    /// of p or more.
    Equations,
    /// A public wire is 2^30 or more, or its value p or more.
    Publics,
    /// A query's wire is 2^30 or more.
    Queries,
    /// An allocated wire's slot is neither a unit nor F.
    Slots,
    /// A word of a step is p or more.
    Trace,
    /// The label isn't UTF-8.
    Label,
    /// A use count or the stray count would be below 0 or above 2^30.
    Counts,
}

impl Part {
    /// What is wrong with the part.
    #[must_use]
    pub const fn meaning(self) -> &'static str {
        match self {
            Self::Equations => {
                "the equations don't end exactly at the used words, or hold a wire of 2^30 or more \
                 or a unit of p or more"
            }
            Self::Publics => "a public wire is 2^30 or more, or its value p or more",
            Self::Queries => "a query's wire is 2^30 or more",
            Self::Slots => "an allocated wire's slot is neither a unit nor F",
            Self::Trace => "a word of a step is p or more",
            Self::Label => "the label isn't UTF-8",
            Self::Counts => "a use count or the stray count would be below 0 or above 2^30",
        }
    }
}
