//! Stand-in: the one trait that the combinational driver implements.

use crate::resources::MicroBlossomSingle;
use fusion_blossom::dual_module::DualModuleInterfaceWeak;
use fusion_blossom::primal_module::PerfectMatching;

pub trait SolverTrackedDual {
    fn new_from_graph_config(graph: MicroBlossomSingle, config: serde_json::Value) -> Self;
    fn fuse_layer(&mut self, layer_id: usize);
    fn get_pre_matchings(&self, belonging: DualModuleInterfaceWeak) -> PerfectMatching;
    fn reset_profiler(&mut self);
    fn generate_profiler_report(&self) -> serde_json::Value;
}
