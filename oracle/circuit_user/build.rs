//! Makes two modules of each text that is compared: one as it stands, over `sfr::circuit`, and one in which that name is
//! replaced by that of the module with the six files' names, and nothing else.

use std::{env, fmt::Write, fs, path::PathBuf};

/// The texts, and the module that each becomes.
const TEXTS: [(&str, &str); 3] = [
    ("program", "../../examples/circuit.rs"),
    ("player", "src/player.rs"),
    ("work", "src/work.rs"),
];

/// The sides, and what stands for `sfr::circuit` there.
const SIDES: [(&str, &str); 2] = [("owned", "sfr::circuit"), ("source", "crate::six_files")];

fn main() {
    println!("cargo:rerun-if-changed=build.rs");
    let set = |name| PathBuf::from(env::var(name).unwrap_or_else(|_| panic!("cargo sets {name}")));
    let (here, out) = (set("CARGO_MANIFEST_DIR"), set("OUT_DIR"));
    for (side, named) in SIDES {
        let mut modules = String::new();
        for (name, text) in TEXTS {
            println!("cargo:rerun-if-changed={text}");
            let text = fs::read_to_string(here.join(text)).expect("the text is there");
            let file = out.join(format!("{side}_{name}.rs"));
            fs::write(&file, text.replace("sfr::circuit", named)).expect("the folder takes a file");
            let allowed = "#[allow(dead_code)] // the program's main";
            writeln!(modules, "{allowed}\n#[path = {file:?}]\npub mod {name};")
                .expect("a string takes it");
        }
        fs::write(out.join(side).with_extension("rs"), modules).expect("the folder takes a file");
    }
}
