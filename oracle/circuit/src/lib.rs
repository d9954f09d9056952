//! The source of the port: `circuit/src` of spongefish, its six files compiled
//! unchanged from where `build.rs` found them, over stand-in crates.
//!
//! Two modules here are ours. `unit_bytes` gives `BabyBearUnit` the byte form that
//! the listed files don't have. `parts` takes instances and witnesses apart and puts
//! them together without the gate, so that calls on ungated parts can be compared.

extern crate alloc;

include!(concat!(env!("OUT_DIR"), "/sources.rs"));

pub mod parts;
mod unit_bytes;

pub use allocator::{FieldVar, VarAllocator};
pub use baby_bear::BabyBearUnit;
pub use error::InvalidRelation;
pub use permutation::{
    LinearEquation, PermutationInstance, PermutationRelation, PermutationWitness,
    PermutationWitnessBuilder, QueryAnswerPair,
};
