//! `compare SEED COUNT`: generated sessions on the Rust and on the model, listing and registers.
//! Prints each difference, and what the Rust's answers reached.

use oracle::counts::Counts;
use oracle::faults::Fault;
use oracle::generate::{session, Style};
use oracle::judge::{cut_at_assertion, is_asserted, model_answer, rust_answer};
use oracle::rust::silence_assertions;

fn main() {
    let arguments: Vec<u64> =
        std::env::args().skip(1).map(|given| given.parse().expect("compare SEED COUNT")).collect();
    let [seed, count] = arguments[..] else { panic!("compare SEED COUNT") };
    silence_assertions();
    let mut counts = Counts::default();
    let (mut asserted, mut differences) = (0, 0);
    for index in 0..count {
        let session = session(seed, index, Style::Any);
        let (rust, executed) = rust_answer(&session);
        let session = cut_at_assertion(&session, &rust);
        let (model, tally) = model_answer(&session, Fault::None);
        counts.add(&rust, executed, tally.held);
        asserted += u64::from(is_asserted(&rust));
        if rust != model {
            differences += 1;
            let hex: String = session.iter().map(|byte| format!("{byte:02X}")).collect();
            println!("session {index} differs: {hex}");
        }
    }
    println!("{counts}\n{asserted} sessions ended by an assertion of the Rust\n{differences} differences");
    std::process::exit(i32::from(differences > 0));
}
