//! Names the six sources where they lie, so that they are compiled unchanged and
//! no copy of them stands in this repository.
//!
//! `SFR_SOURCES` names the folder that contains `circuit/src`; without it, it is
//! `../shared/docs/src` seen from the root of the repository.

use std::{env, fmt::Write, fs, path::PathBuf};

const SOURCES: [&str; 6] = [
    "allocator",
    "baby_bear",
    "encoding",
    "error",
    "expr",
    "permutation",
];

fn main() {
    println!("cargo:rerun-if-env-changed=SFR_SOURCES");
    println!("cargo:rerun-if-changed=build.rs");
    let here = PathBuf::from(env::var("CARGO_MANIFEST_DIR").expect("cargo names the crate"));
    let folder = env::var_os("SFR_SOURCES")
        .map_or_else(|| here.join("../../../shared/docs/src"), PathBuf::from)
        .join("circuit/src");
    let folder = fs::canonicalize(&folder).unwrap_or_else(|error| {
        panic!(
            "no circuit sources at {}: {error}; SFR_SOURCES names the folder that contains \
             circuit/src",
            folder.display()
        )
    });

    let mut modules = String::new();
    for name in SOURCES {
        let file = folder.join(name).with_extension("rs");
        println!("cargo:rerun-if-changed={}", file.display());
        writeln!(modules, "#[path = {file:?}]\npub mod {name};").expect("a string takes it");
    }
    let out = PathBuf::from(env::var("OUT_DIR").expect("cargo names the output"));
    fs::write(out.join("sources.rs"), modules).expect("the output folder takes a file");
}
