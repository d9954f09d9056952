//! What a gate or a read says no with.

use alloc::string::String;
use core::{error::Error, fmt};

use crate::Refused;

/// A relation, or bytes, of which no instance is made, or bytes of which no witness is.
///
/// Shown and compared by its message alone, as the source's, which has no number.
#[derive(Clone)]
pub struct InvalidRelation {
    message: String,
    refused: Refused,
}

impl PartialEq for InvalidRelation {
    fn eq(&self, other: &Self) -> bool {
        self.message == other.message
    }
}

impl Eq for InvalidRelation {}

impl fmt::Debug for InvalidRelation {
    fn fmt(&self, f: &mut fmt::Formatter<'_>) -> fmt::Result {
        f.debug_struct("InvalidRelation")
            .field("message", &self.message)
            .finish()
    }
}

impl InvalidRelation {
    pub(super) fn new(refused: Refused, message: String) -> Self {
        Self { message, refused }
    }

    /// What is wrong, in the source's words.
    #[must_use]
    pub fn message(&self) -> &str {
        &self.message
    }

    /// The number of the question that said no. Added; the source has messages alone.
    #[must_use]
    pub fn number(&self) -> u32 {
        self.refused.number()
    }
}

impl fmt::Display for InvalidRelation {
    fn fmt(&self, f: &mut fmt::Formatter<'_>) -> fmt::Result {
        write!(f, "invalid relation: {}", self.message)
    }
}

impl Error for InvalidRelation {}
