//! The source's own interface, owned: spongefish's `circuit` over the proved calls.
//!
//! Names, signatures and meanings are the source's, for `T` = [`BabyBearUnit`], and its modules
//! and those of the crates that it leans on stand here under their names. So a program of
//! spongefish's changes its `use` lines, and may keep the others behind this one:
//!
//! ```
//! use sfr::circuit::{self as spongefish_circuit, p3_baby_bear, p3_field, spongefish};
//!
//! use p3_baby_bear::BabyBear;
//! use p3_field::integers::QuotientMap;
//! use spongefish_circuit::{BabyBearUnit, PermutationRelation};
//!
//! let unit = |number: u32| BabyBearUnit::from(<BabyBear as QuotientMap<u32>>::from_int(number));
//! let relation = PermutationRelation::<BabyBearUnit, 2>::labeled("mill");
//! let [sack] = relation.allocate_vars_with(&[unit(1)]);
//! let [hopper] = relation.allocate_vars();
//! let [seal, _] = relation.allocate_permutation(&[hopper, sack]);
//! relation.set_var(seal, unit(42));
//! relation.add_equation(hopper + sack * unit(2), unit(5));
//! let instance = relation.compile()?;
//! assert_eq!(instance.value(seal), Some(&unit(42)));
//! assert_eq!(instance.queries().len(), 1);
//! # Ok::<(), spongefish_circuit::InvalidRelation>(())
//! ```
//!
//! Handles are reference counted, and may be sent to and shared between threads. What is recorded, set,
//! written, read and judged goes through proved calls of this crate. This module isn't proved: it grows
//! the stores that are lent to them, turns their lists into the source's, and their refusals into the
//! source's panics and errors. Of a permutation of the user's own it asks itself whether each step is an
//! evaluation, and puts the rest of the check together of set lists and a check of the equations.
//!
//! # What is otherwise than in the source
//!
//! - Left out: sponges and session ids, `digest` and its tag, and `Encoding` and `FromNarg`. Methods are
//!   there for [`BabyBearUnit`] alone: no other unit, and no function that is generic over it. The
//!   width is 1 to 24, which is asked when a program is built.
//! - A unit holds its number, not a [`BabyBear`](baby_bear::BabyBear), which is another name of the same
//!   type: it is made by `from`, and not by `BabyBearUnit(element)`, its field is a `u32`, and there is
//!   nothing to dereference. Of the crates `p3-baby-bear` and `p3-field` there is no more than the
//!   source imports.
//! - Any word may be put into a [`FieldVar`] or a [`BabyBearUnit`]. A wire of 2^30 or more is
//!   nowhere allocated; where a query or a term names it, or a unit is p or more, the call panics
//!   with the refusal's text, and so it does where more than 2^30 words of queries, equations or
//!   steps would be held.
//! - Wires that are allocated together are allocated one after the other, or, where they would be
//!   more than [`FieldVar::MAX_COUNT`], not at all.
//! - A file of more than 2^30 wires is refused.
//! - A permutation by its parameters is an [`OwnedParameters`], which the proved calls evaluate
//!   themselves. [`InvalidRelation::number`] is added.

pub mod allocator;
pub mod baby_bear;
pub mod encoding;
pub mod error;
pub mod expr;
mod lock;
mod message;
pub mod p3_baby_bear;
pub mod p3_field;
pub mod permutation;
pub mod spongefish;

pub use allocator::{FieldVar, VarAllocator};
pub use baby_bear::BabyBearUnit;
pub use encoding::{INSTANCE_MAGIC, VERSION, WITNESS_MAGIC};
pub use error::InvalidRelation;
pub use expr::{Ring, Sum, Weighted};
pub use permutation::{
    LinearEquation, OwnedParameters, PermutationInstance, PermutationRelation, PermutationWitness,
    PermutationWitnessBuilder, QueryAnswerPair,
};
pub use spongefish::{Permutation, Unit};

/// Where a call refuses what the source can't be handed, or has no limit for.
#[cold]
fn refuse(refused: crate::Refused) -> ! {
    panic!("{refused}")
}
