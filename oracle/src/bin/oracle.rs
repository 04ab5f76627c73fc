//! `oracle [--registers] [--batch]`: the Rust's listing of the sessions on standard input.

use oracle::batch::answer_input;
use oracle::replay::replay;
use oracle::rust::{silence_assertions, Rust};

fn main() {
    let flags: Vec<String> = std::env::args().skip(1).collect();
    let has = |flag: &str| flags.iter().any(|given| given == flag);
    silence_assertions();
    let registers = has("--registers");
    answer_input(has("--batch"), |session| replay(session, Rust::open, registers).0);
}
