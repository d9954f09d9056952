//! Questions that said no.

use core::{error::Error, fmt, num::NonZeroU32};

use crate::numbers;

/// A refusal: the number of the first question that said no.
#[derive(Clone, Copy, Debug, PartialEq, Eq, Hash)]
pub struct Refused(NonZeroU32);

impl Refused {
    /// A call's number as a result: 0 is yes.
    #[inline]
    pub(crate) fn unless_0(number: u32) -> Result<(), Self> {
        match NonZeroU32::new(number) {
            None => Ok(()),
            Some(number) => Err(Self(number)),
        }
    }

    /// The number.
    #[must_use]
    pub fn number(self) -> u32 {
        self.0.get()
    }

    /// What the number means, as docs/NUMBERS.md has it.
    ///
    /// For 11 of a gate, a write or the check, [`unsound_part`](crate::unsound_part) and its like tell
    /// which part is meant. A query that is recorded, minted or withdrawn asks the counts alone, an
    /// equation that is withdrawn where the equations end.
    #[must_use]
    pub fn meaning(self) -> &'static str {
        numbers::meaning(self.number()).unwrap_or("no call answers this number")
    }
}

/// The number, a colon and what it means.
impl fmt::Display for Refused {
    fn fmt(&self, f: &mut fmt::Formatter<'_>) -> fmt::Result {
        write!(f, "{}: {}", self.number(), self.meaning())
    }
}

impl Error for Refused {}
