//! Sealed-batch relations, proved: every function of `include/sfr.h` behind slices.
//!
//! Every function here answers on every input: it rests on nothing that its caller promises, and
//! never panics (module `circuit` panics where the source does). A call puts questions in a fixed order; its number is that of the first one
//! that says no, 0 for yes. `accepted()` on an answer makes a `Result` of it, whose error
//! [`Refused`] has the number and says what it means.
//!
//! What a call is lent it only reads, but for `&mut` slices; each function's comment says how
//! long these must be for a yes. Unless it says otherwise, a refusal leaves everything lent as
//! it was, and a yes changes nothing past what it writes. Scratch may hold anything before a
//! call, and is all 0 after it.
//!
//! w is the width, R the rounds of a permutation, p is [`PRIME`] and F [`UNASSIGNED`]. A *wire*
//! ([`FieldVar`]) is a number below 2^30, a *unit* ([`BabyBearUnit`]) one below p. The stores:
//!
//! - *slots*, of words: a unit or F per wire;
//! - *queries*, of wires: 2w each, inputs then outputs;
//! - *uses*, of words: per slot, how many cells of the relation's queries name its wire;
//! - *equations*, of words: each a term count, then wire and weight per term, then the image;
//! - *publics*, of words: wire and unit pairs;
//! - *trace*, of units: 2w per step, inputs then outputs.
//!
//! A use store is one relation's own, and exactly as long as the slots. [`new_relation`], or the
//! relation's opening, fills it with 0; from then on it is handed from call to call as the queries
//! are, and nobody else writes it. A cell whose wire has a slot is counted there, allocated or not;
//! any other is *stray*, and is counted in the relation's record.
//!
//! ```
//! use sfr::{BabyBearUnit, FieldVar};
//! let (mut slots, mut uses) = ([0; 8], [0; 8]);
//! let rel = sfr::new_relation(1, &mut slots, &mut uses).accepted()?; // wire 0, that carries 0
//! let mut set = |value| sfr::set_var(rel, &mut slots, FieldVar::ZERO, value).accepted();
//! assert_eq!(set(BabyBearUnit::ZERO)?, sfr::Set::Repeated);
//! let refused = set(BabyBearUnit(5)).unwrap_err();
//! assert_eq!(refused.to_string(), "8: the wire already has another value");
//! # Ok::<(), sfr::Refused>(())
//! ```
//!
//! From fresh to a yes, with one sealed weight and no bytes in between:
//!
//! ```
//! use sfr::{BabyBearUnit, FieldVar, Held, Parameters, Trace, Weighted, PRIME};
//! let (slots, uses, scratch) = (&mut [0; 3], &mut [0; 3], &mut [0; 3]);
//! let queries = &mut [FieldVar::ZERO; sfr::queries_words(1, 1)];
//! let equations = &mut [0; sfr::equation_words(1)];
//! let publics = &mut [0; sfr::publics_words(2)];
//! let trace = &mut [BabyBearUnit::ZERO; sfr::trace_words(1, 1)];
//!
//! let rel = sfr::new_relation(1, slots, uses).accepted()?;
//! let (weight, rel) = sfr::allocate_vars(rel, slots, 1).accepted()?;
//! let (seal, rel) = sfr::allocate_permutation(rel, slots, queries, uses, &[weight]).accepted()?;
//! let terms = [Weighted { var: weight, weight: BabyBearUnit(2) }]; // twice the weight is 6
//! let rel = sfr::add_equation(rel, equations, &terms, BabyBearUnit(6)).accepted()?;
//!
//! let params = Parameters { rounds: 1, words: &[0, PRIME - 1, 5] }; // x becomes 5(x - 1)^7
//! let none = Trace { width: 1, steps: 0 };
//! let rec = sfr::evaluate_step(none, trace, &[BabyBearUnit(3)], params).accepted()?;
//! sfr::set_var(rel, slots, seal, trace[1]).accepted()?; // the seal is public
//!
//! let held = Held { label: b"batch 7", slots, queries, equations, uses };
//! let parts = sfr::compile(rel, held, publics, scratch).accepted()?;
//! sfr::is_witness_valid(parts, rec.steps, trace, params, scratch).accepted()?; // yes
//! # Ok::<(), sfr::Refused>(())
//! ```
//!
//! # The archive
//!
//! What runs is `libsfr.a`, which `rt lib` makes, in the repository's folder `crates/sfr`, of the
//! functions that it has proved, and puts at `crates/sfr/out/libsfr.a`: there the build script looks
//! for it. `SFR_LIB` names another, such as the one that `./install PREFIX` puts at
//! `PREFIX/lib/libsfr.a`. It is x86-64 code for Linux. The proofs are of those functions. Not proved
//! are the compiler that made the archive of them, and this crate, which hands slices on as pointers
//! and lengths.
//!
//! # Features
//!
//! The crate is `no_std` and needs no heap. `alloc` brings `circuit`, the source's own interface,
//! owned: as there, what the source takes for a mistake of its caller is a panic.
#![no_std]
#![deny(missing_docs)]
#![deny(unsafe_op_in_unsafe_fn)]

#[cfg(feature = "alloc")]
extern crate alloc;

#[cfg(feature = "alloc")]
pub mod circuit;
mod instance;
mod leaves;
mod numbers;
mod records;
mod refused;
mod relation;
mod shared;
mod sizes;
mod sys;
mod trace;
mod types;
mod unsound;

pub use instance::*;
pub use leaves::*;
pub use numbers::Part;
pub use records::*;
pub use refused::*;
pub use relation::*;
pub use shared::*;
pub use sizes::*;
pub use trace::*;
pub use types::*;
pub use unsound::*;

/// p, the field's size: a unit is below it.
pub const PRIME: u32 = 2_013_265_921;

/// F, the slot of a wire that has no value.
pub const UNASSIGNED: u32 = u32::MAX;

/// 2^30: a wire is below it, and no store of words, nor a relation's wire count, may be above it.
pub const MAX_COUNT: u32 = 1 << 30;

/// The widths are 1 to this.
pub const MAX_WIDTH: u32 = 24;

/// A permutation has at most so many rounds.
pub const MAX_ROUNDS: u32 = 128;

/// So many relations may be opened on one allocator.
pub const MAX_RELATIONS: u32 = 8;
