//! `model [--registers] [--batch] [--mutant N]`: the plain model's listing of the sessions on
//! standard input; `model --mutants` names the wrong readings.

use oracle::batch::answer_input;
use oracle::faults::{Fault, FAULTS};
use oracle::model::Model;
use oracle::replay::replay;

fn main() {
    let flags: Vec<String> = std::env::args().skip(1).collect();
    let place = |flag: &str| flags.iter().position(|given| given == flag);
    if place("--mutants").is_some() {
        FAULTS.iter().enumerate().for_each(|(index, (_, reading))| println!("{} {reading}", index + 1));
        return;
    }
    let number = place("--mutant").map_or(0, |at| flags[at + 1].parse().expect("a mutant's number"));
    let fault = Fault::numbered(number).expect("a mutant's number");
    // a wrong reading may search without end
    let patience = if fault == Fault::None { u64::MAX } else { 100_000 };
    let registers = place("--registers").is_some();
    answer_input(place("--batch").is_some(), |session| {
        replay(session, |image| Model::open(image, fault, patience), registers).0
    });
}
