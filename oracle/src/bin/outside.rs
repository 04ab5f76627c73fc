//! `outside`: what the Rust does where the decoder gives 13 to a call that is no word: a negative
//! maximum, and instructions out of bounds; and what it answers to a search without a limit. A line
//! each: input, answer, maximum left, registers of vertex 0.

use micro_blossom::dual_module_comb::{reach, DualModuleCombDriver, Instruction};
use micro_blossom_nostd::dual_driver_tracked::DualTrackedDriver;
use micro_blossom_nostd::dual_module_stackless::DualStacklessDriver;
use micro_blossom_nostd::util::CompactGrowState::{Grow, Shrink};
use oracle::image::{Image, Vertex};
use oracle::rust::plain::open;
use std::fmt::Debug;

/// One vertex, of layer 32,768, made a defect of node 32,768 and set to Shrink.
fn shrinking() -> DualModuleCombDriver {
    let vertices = vec![Vertex { default_virtual: false, layer: Some(32_768) }];
    let mut driver = open(&Image { fusion: true, vertices, ..Image::default() });
    for instruction in [
        Instruction::LoadDefectsExternal { time: 32_768, channel: 0 },
        Instruction::AddDefectVertex { vertex: 0, node: 32_768 },
        Instruction::SetSpeed { node: 32_768, speed: Shrink },
    ] {
        execute(&mut driver, instruction);
    }
    driver
}

fn execute(driver: &mut DualModuleCombDriver, instruction: Instruction) {
    let answer = reach::execute(driver, instruction.clone());
    show(instruction, answer, driver);
}

fn show(input: impl Debug, answer: impl Debug, driver: &DualModuleCombDriver) {
    println!("{input:?}: {answer:?}, {}, {:?}", driver.maximum_growth, driver.vertices[0].registers);
}

fn main() {
    let mut driver = shrinking();
    let answer = driver.find_conflict(-1);
    show("search to -1", answer, &driver);
    for instruction in [
        Instruction::Grow { length: -1 },
        Instruction::SetSpeed { node: 32_768, speed: Grow },
        Instruction::Grow { length: 67_108_864 },
        Instruction::SetBlossom { node: 32_768, blossom: 32_769 },
        Instruction::AddDefectVertex { vertex: 32_768, node: 0 },
    ] {
        execute(&mut driver, instruction);
    }
    let answer = driver.find_obstacle();
    show("search", answer, &driver);
}
