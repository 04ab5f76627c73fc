//! `decoding SEED VERTICES EDGES FLAGS ROUNDS`: a session for timing on standard output; what it
//! reaches, by the Rust and the model, on standard error.

use oracle::counts::Counts;
use oracle::faults::Fault;
use oracle::generate::decoding::session;
use oracle::judge::{model_answer, rust_answer};
use std::io::{stdout, Write};

fn main() {
    let arguments: Vec<usize> = std::env::args()
        .skip(1)
        .map(|given| given.parse().expect("decoding SEED VERTICES EDGES FLAGS ROUNDS"))
        .collect();
    let [seed, vertices, edges, flags, rounds] = arguments[..] else {
        panic!("decoding SEED VERTICES EDGES FLAGS ROUNDS")
    };
    let session = session(seed as u64, vertices, edges, flags as u8, rounds);
    let (rust, executed) = rust_answer(&session);
    let (model, tally) = model_answer(&session, Fault::None);
    assert!(rust == model, "the Rust and the model differ");
    let mut counts = Counts::default();
    counts.add(&rust, executed, tally.held);
    eprintln!("{counts}");
    stdout().write_all(&session).unwrap();
}
