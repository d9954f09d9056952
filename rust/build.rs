//! Links the proved library. `SFR_LIB` names its archive; without it, it is
//! `crates/sfr/out/libsfr.a` seen from the root of the repository, where `rt lib` in `crates/sfr`
//! puts it.

use std::{env, fs, path::PathBuf};

fn main() {
    println!("cargo:rerun-if-env-changed=SFR_LIB");
    println!("cargo:rerun-if-changed=build.rs");
    let set = |name| env::var(name).unwrap_or_else(|_| panic!("cargo sets {name}"));
    let target = set("TARGET");
    assert!(
        target.starts_with("x86_64-") && target.contains("linux"),
        "the proved archive is x86-64 code for Linux, and not for {target}"
    );
    let here = PathBuf::from(set("CARGO_MANIFEST_DIR"));
    let archive = env::var_os("SFR_LIB")
        .map_or_else(|| here.join("../crates/sfr/out/libsfr.a"), PathBuf::from);
    let archive = fs::canonicalize(&archive).unwrap_or_else(|error| {
        panic!(
            "no library at {}: {error}; `rt lib` in crates/sfr makes it, SFR_LIB names another",
            archive.display()
        )
    });
    let name = archive.file_name().and_then(|name| name.to_str());
    let folder = archive.parent().expect("a file lies in a folder");
    println!("cargo:rerun-if-changed={}", archive.display());
    println!("cargo:rustc-link-search=native={}", folder.display());
    println!(
        "cargo:rustc-link-lib=static:+verbatim={}",
        name.expect("the archive's name is text")
    );
    // For the build scripts of crates that use this one: DEP_SFR_ARCHIVE.
    println!("cargo:archive={}", archive.display());
}
