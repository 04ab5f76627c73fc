//! Writes the list of modules that are compiled where they stand, under MICRO_BLOSSOM_SRC.

use std::path::Path;
use std::{env, fs};

const IN_PLACE: [&str; 4] = ["instruction", "interface", "layer_fusion", "util"];

fn main() {
    println!("cargo:rerun-if-env-changed=MICRO_BLOSSOM_SRC");
    let root = env::var("MICRO_BLOSSOM_SRC").expect("MICRO_BLOSSOM_SRC must name a checkout's root");
    let from = Path::new(&root).join("src/cpu/blossom-nostd/src");
    let mut modules = String::new();
    for name in IN_PLACE {
        let path = from.join(name).with_extension("rs");
        println!("cargo:rerun-if-changed={}", path.display());
        modules += &format!("#[path = {:?}] pub mod {name};\n", path.display().to_string());
    }
    fs::write(Path::new(&env::var("OUT_DIR").unwrap()).join("modules.rs"), modules).unwrap();
}
