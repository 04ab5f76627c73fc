//! What a run of sessions reached.

use crate::judge::listing;
use std::fmt::{Display, Formatter, Result};

#[derive(Default)]
pub struct Counts {
    pub sessions: u64,
    pub records: u64,
    pub searches: u64,
    /// Searches of several growth steps.
    pub long_searches: u64,
    pub conflicts: u64,
    pub pair_lists: u64,
    pub instructions: u64,
    /// DefectMatch, VirtualMatch and FusionMatch units that held, over all instructions.
    pub held: [u64; 3],
    pub refusals: [u64; 19],
}

impl Counts {
    pub fn add(&mut self, answer: &str, instructions: u64, held: [u64; 3]) {
        self.sessions += 1;
        self.instructions += instructions;
        (0..3).for_each(|kind| self.held[kind] += held[kind]);
        listing(answer).into_iter().for_each(|line| self.add_line(line));
    }

    fn add_line(&mut self, line: &str) {
        let words: Vec<&str> = line.split(' ').collect();
        self.records += u64::from(words[0] != "DCT" && words[0] != "bad");
        self.conflicts += u64::from(words.get(1) == Some(&"c"));
        self.pair_lists += u64::from(words[0] == "p" && words.len() > 1);
        if words[0] == "s" {
            let steps: u64 = words[words.len() - 2].parse().unwrap();
            self.searches += 1;
            self.long_searches += u64::from(steps > 1);
        }
        if words[0] == "r" || words[0] == "bad" {
            self.refusals[words[1].parse::<usize>().unwrap()] += 1;
        }
    }
}

impl Display for Counts {
    fn fmt(&self, f: &mut Formatter) -> Result {
        writeln!(f, "{} sessions, {} records, {} instructions", self.sessions, self.records, self.instructions)?;
        writeln!(f, "{} searches answered, {} of several steps", self.searches, self.long_searches)?;
        writeln!(f, "{} conflicts, {} pair lists not empty", self.conflicts, self.pair_lists)?;
        let [defect, named, fusion] = self.held;
        writeln!(f, "units held: DefectMatch {defect}, VirtualMatch {named}, FusionMatch {fusion}")?;
        let refusals: Vec<String> = (1..19).map(|number| format!("{number}: {}", self.refusals[number])).collect();
        write!(f, "refusals: {}", refusals.join(", "))
    }
}
