//! `generate SEED COUNT [--small] [--cut]`: sessions in the batch format on standard output; what
//! they reach, by the model, on standard error. With `--cut` a session ends with the first call
//! that the Rust answers by an assertion.

use oracle::batch::join;
use oracle::counts::Counts;
use oracle::faults::Fault;
use oracle::generate::{session, Style};
use oracle::judge::{cut_at_assertion, model_answer, rust_answer};
use oracle::rust::silence_assertions;
use std::io::{stdout, Write};

fn main() {
    let arguments: Vec<String> = std::env::args().skip(1).collect();
    let has = |flag: &str| arguments.iter().any(|given| given == flag);
    let number = |at: usize| arguments[at].parse::<u64>().expect("generate SEED COUNT [--small] [--cut]");
    let style = if has("--small") { Style::Small } else { Style::Any };
    silence_assertions();
    let mut counts = Counts::default();
    let mut sessions = vec![];
    for index in 0..number(1) {
        let mut session = session(number(0), index, style);
        if has("--cut") {
            session = cut_at_assertion(&session, &rust_answer(&session).0);
        }
        let (answer, tally) = model_answer(&session, Fault::None);
        counts.add(&answer, tally.instructions, tally.held);
        sessions.push(session);
    }
    eprintln!("{counts}");
    stdout().write_all(&join(&sessions)).unwrap();
}
