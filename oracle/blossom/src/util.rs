//! Stand-in: what the simulation client's file names. Nothing here is called by the oracle, except
//! that a default configuration asks the environment and gets the defaults.

use std::io;
use std::process::Child;
use std::sync::Mutex;

pub const MAX_NODE_NUM: usize = 1;

pub struct ScalaRunner;

impl ScalaRunner {
    pub fn run(&self, _class: &str, _arguments: [String; 3]) -> io::Result<Child> {
        unimplemented!("no simulator")
    }
}

pub static SCALA_MICRO_BLOSSOM_RUNNER: ScalaRunner = ScalaRunner;
pub static SCALA_SIMULATION_LOCK: Mutex<()> = Mutex::new(());

pub fn env_is_set(_name: &str) -> bool {
    false
}

pub fn env_bool(_on: &str, _off: &str, default: bool) -> bool {
    default
}

pub fn env_usize(_name: &str, default: usize) -> usize {
    default
}

pub fn env_f64(_name: &str, default: f64) -> f64 {
    default
}
