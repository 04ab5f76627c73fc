//! The Rust's driver alone, for timing: no history, no listing, and each word read beforehand.

use super::{graph, instruction};
use crate::image::{u32_at, Image};
use crate::replay::RECORD;
use crate::words::Word;
use micro_blossom::dual_module_comb::{reach, DualCombConfig, DualModuleCombDriver, Instruction};
use micro_blossom::simulation_tcp_client::SimulationConfig;
use micro_blossom_nostd::dual_driver_tracked::DualTrackedDriver;
use micro_blossom_nostd::dual_module_stackless::DualStacklessDriver;
use std::hint::black_box;

pub enum Call {
    Execute(Instruction),
    Reset,
    SearchTo(i32),
    SearchOn,
    Pairs,
}

/// The calls of a session's records. A word that is not carried is no call.
pub fn calls(records: &[u8]) -> Vec<Call> {
    let call = |record: &[u8]| match (record[0], Word::read(u32_at(record, 1))) {
        (0, Some(Word::Reset)) => Some(Call::Reset),
        (0, Some(word)) => Some(Call::Execute(instruction(word))),
        (0, None) => None,
        (1, _) => Some(Call::SearchTo(u32_at(record, 1) as i32)),
        (2, _) => Some(Call::SearchOn),
        _ => Some(Call::Pairs),
    };
    records.chunks_exact(RECORD).filter_map(call).collect()
}

pub fn open(image: &Image) -> DualModuleCombDriver {
    let sim_config = SimulationConfig {
        support_layer_fusion: image.fusion,
        support_offloading: image.offloading,
        ..SimulationConfig::default()
    };
    DualModuleCombDriver::new(
        graph(image),
        DualCombConfig { log_instructions: false, log_responses: false, sim_config },
    )
}

pub fn run(driver: &mut DualModuleCombDriver, calls: &[Call]) {
    for call in calls {
        match call {
            Call::Execute(instruction) => drop(black_box(reach::execute(driver, instruction.clone()))),
            Call::Reset => driver.reset(),
            Call::SearchTo(maximum) => drop(black_box(driver.find_conflict(*maximum))),
            Call::SearchOn => drop(black_box(driver.find_obstacle())),
            Call::Pairs => drop(black_box(driver.pre_matching_edges())),
        }
    }
    // kept even where nothing is logged
    driver.profiler_response_history.clear();
}
