//! Writes the list of modules that are compiled where they stand, under MICRO_BLOSSOM_SRC.

use std::path::Path;
use std::{env, fs};

const IN_PLACE: [&str; 6] = [
    "dual_module_adaptor",
    "dual_module_comb_edge",
    "dual_module_comb_offloading",
    "dual_module_comb_vertex",
    "resources",
    "simulation_tcp_client",
];

/// `execute_instruction` is private; a child module may call it.
const REACH: &str = "pub mod reach { pub fn execute(driver: &mut super::DualModuleCombDriver, \
    instruction: super::Instruction) -> super::CompactObstacle { driver.execute_instruction(instruction) } }\n";

fn main() {
    println!("cargo:rerun-if-env-changed=MICRO_BLOSSOM_SRC");
    let root = env::var("MICRO_BLOSSOM_SRC").expect("MICRO_BLOSSOM_SRC must name a checkout's root");
    let out = env::var("OUT_DIR").unwrap();
    let from = Path::new(&root).join("src/cpu/blossom/src");
    let mut modules = String::new();
    for name in IN_PLACE {
        modules += &module(name, &from.join(name).with_extension("rs"));
    }
    let original = from.join("dual_module_comb.rs");
    println!("cargo:rerun-if-changed={}", original.display());
    let mut bytes = fs::read(&original).expect("dual_module_comb.rs");
    bytes.extend_from_slice(REACH.as_bytes());
    let copy = Path::new(&out).join("dual_module_comb.rs");
    fs::write(&copy, bytes).unwrap();
    modules += &module("dual_module_comb", &copy);
    fs::write(Path::new(&out).join("modules.rs"), modules).unwrap();
}

fn module(name: &str, path: &Path) -> String {
    println!("cargo:rerun-if-changed={}", path.display());
    format!("#[path = {:?}] pub mod {name};\n", path.display().to_string())
}
