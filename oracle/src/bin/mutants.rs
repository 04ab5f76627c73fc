//! `mutants SEED COUNT`: for each mutant of the model, how many sessions pass until one catches it.

use oracle::faults::{Fault, FAULTS};
use oracle::generate::{session, Style};
use oracle::judge::model_answer;

fn main() {
    let arguments: Vec<u64> =
        std::env::args().skip(1).map(|given| given.parse().expect("mutants SEED COUNT")).collect();
    let [seed, count] = arguments[..] else { panic!("mutants SEED COUNT") };
    let mut caught_at = vec![None; FAULTS.len()];
    for index in 0..count {
        let session = session(seed, index, Style::Any);
        let (right, _) = model_answer(&session, Fault::None);
        for (number, &(fault, _)) in FAULTS.iter().enumerate() {
            if caught_at[number].is_none() && model_answer(&session, fault).0 != right {
                caught_at[number] = Some(index + 1);
            }
        }
        if caught_at.iter().all(Option::is_some) {
            break;
        }
    }
    for (number, (&(_, reading), caught)) in FAULTS.iter().zip(&caught_at).enumerate() {
        let caught = caught.map_or("not caught".to_string(), |sessions| format!("caught by session {sessions}"));
        println!("{:3} {caught}: {reading}", number + 1);
    }
    println!("{} of {} caught", caught_at.iter().flatten().count(), FAULTS.len());
}
