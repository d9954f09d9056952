//! The proved library beside the second reading.
//!
//! The library is given what the second reading is given, word for word, and everything
//! lent is compared afterwards. Sound inputs come from lists of calls; `astray` makes
//! others of them, with records, stores and held words that no list of calls makes.

pub mod check;
pub mod instance;
pub mod inverse;
mod large;
pub mod large_held;
pub mod leaves;
pub mod relation;
pub mod shared;
pub mod side;
pub mod terms;
pub mod tickets;
pub mod whole;
pub mod witness;
