//! The answers of the Rust and of the model, with registers.

use crate::faults::{Fault, FAULTS};
use crate::generate::PATIENCE;
use crate::image::Image;
use crate::model::{Model, Tally};
use crate::replay::{replay, RECORD};
use crate::rust::Rust;

/// The Rust's answer, and how many instructions it completed.
pub fn rust_answer(session: &[u8]) -> (String, u64) {
    let (answer, decoder) = replay(session, Rust::open, true);
    (answer, decoder.map_or(0, |decoder| decoder.executed))
}

pub fn model_answer(session: &[u8], fault: Fault) -> (String, Tally) {
    let (answer, decoder) = replay(session, |image| Model::open(image, fault, 2 * PATIENCE), true);
    (answer, decoder.map_or(Tally::default(), |decoder| decoder.tally))
}

/// The lines that are no registers.
pub fn listing(answer: &str) -> Vec<&str> {
    answer.lines().filter(|line| !line.starts_with("v ")).collect()
}

/// The Rust's last line is an assertion of its own, behind which nothing is compared.
pub fn is_asserted(rust: &str) -> bool {
    let last = listing(rust).pop().unwrap_or("");
    ["r 14", "r 16", "r 17"].iter().any(|refusal| last.starts_with(refusal))
}

/// The session without what stands behind an assertion of the Rust.
pub fn cut_at_assertion(session: &[u8], rust: &str) -> Vec<u8> {
    match Image::read(session) {
        Ok((_, records)) if is_asserted(rust) => {
            let answered = RECORD * (listing(rust).len() - 1);
            session[..session.len() - records.len() + answered].to_vec()
        }
        _ => session.to_vec(),
    }
}

/// The mutants, by number from 1, whose answer to the session differs from the model's.
pub fn kills(session: &[u8]) -> Vec<usize> {
    let (right, _) = model_answer(session, Fault::None);
    (1..=FAULTS.len()).filter(|&number| model_answer(session, FAULTS[number - 1].0).0 != right).collect()
}
