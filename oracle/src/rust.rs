//! The Rust as a decoder. What it finds, holds and counts is its own; around it stand the graph
//! made from an image, refusal 15, and which refusal each of its assertions is.

use crate::image::{Image, Unit};
use crate::replay::{Decoder, Finding, Node, Registers, Search, MOST_GROWN, UNKNOWN};
use crate::words::{Speed, Word};
use fusion_blossom::util::{NodeIndex, Weight};
use micro_blossom::dual_module_comb::{reach, DualCombConfig, DualModuleCombDriver, Instruction, VIRTUAL_NODE_INDEX};
use micro_blossom::dual_module_comb_vertex::VertexRegisters;
use micro_blossom::resources::{
    BinaryTree, LayerFusion, MicroBlossomSingle, OffloadingFinder, OffloadingType, WeightedEdge,
};
use micro_blossom::simulation_tcp_client::SimulationConfig;
use micro_blossom_nostd::dual_driver_tracked::DualTrackedDriver;
use micro_blossom_nostd::dual_module_stackless::DualStacklessDriver;
use micro_blossom_nostd::interface::CompactObstacle;
use micro_blossom_nostd::util::{CompactGrowState, CompactWeight, OptionCompactNodeIndex};
use std::any::Any;
use std::panic::{catch_unwind, set_hook, AssertUnwindSafe};

pub mod plain;

/// A part of each assertion's message, and its refusal.
const ASSERTIONS: [(&str, u8); 3] = [
    ("has negative grown value", 14),
    ("reported maxGrowth is rounding down", 16),
    ("report negative grow length", 17),
];

pub struct Rust {
    driver: DualModuleCombDriver,
    /// The pair list from before a refused instruction; the Rust keeps it only as signals, which
    /// that instruction has overwritten.
    kept_pairs: Option<Vec<usize>>,
    ended: bool,
    /// Completed instructions, those of searches included.
    pub executed: u64,
}

/// Assertions are caught, so their messages need not be shown.
pub fn silence_assertions() {
    set_hook(Box::new(|_| {}));
}

impl Rust {
    pub fn open(image: &Image) -> Self {
        let sim_config = SimulationConfig {
            support_layer_fusion: image.fusion,
            support_offloading: image.offloading,
            ..SimulationConfig::default()
        };
        // the history counts the growth steps
        let config = DualCombConfig { log_instructions: true, log_responses: false, sim_config };
        Self { driver: DualModuleCombDriver::new(graph(image), config), kept_pairs: None, ended: false, executed: 0 }
    }

    fn guarded<T>(&mut self, call: impl FnOnce(&mut DualModuleCombDriver) -> T) -> Result<T, u8> {
        catch_unwind(AssertUnwindSafe(|| call(&mut self.driver))).map_err(|panic| {
            self.ended = true;
            refusal(panic)
        })
    }

    fn execute(&mut self, instruction: Instruction) -> Result<Finding, u8> {
        let pairs = self.pairs();
        let result =
            self.check_growth(&instruction).and_then(|()| self.guarded(|driver| reach::execute(driver, instruction)));
        self.executed += u64::from(result.is_ok());
        self.kept_pairs = if result.is_err() { Some(pairs) } else { None };
        result.map(finding)
    }

    /// Refusals 14 and 15, the lowest vertex first, from the Rust's own signals.
    fn check_growth(&mut self, instruction: &Instruction) -> Result<(), u8> {
        if !matches!(instruction, Instruction::Grow { .. }) {
            return Ok(());
        }
        self.driver.propagate_signals(instruction.clone());
        for vertex in 0..self.driver.vertices.len() {
            let grown = self.guarded(|driver| driver.vertices[vertex].get_post_execute_state(driver).grown)?;
            if grown as i64 > MOST_GROWN {
                return Err(15);
            }
        }
        Ok(())
    }

    /// A search that the Rust left by an assertion, or that took a vertex too far, once more from
    /// its start, instruction by instruction from its history, up to the one that is refused.
    fn retrace(&mut self, before: Vec<VertexRegisters>, start: CompactWeight, asserted: Option<u8>) -> Search {
        let history = self.driver.profiler_instruction_history.clone();
        for (vertex, registers) in self.driver.vertices.iter_mut().zip(before) {
            vertex.registers = registers;
        }
        let mut completed = 0;
        let mut refused = asserted;
        for instruction in &history {
            if let Err(number) = self.execute(instruction.clone()) {
                refused = Some(number);
                break;
            }
            completed += 1;
        }
        self.ended = refused != Some(15);
        let (growth, steps) = growth_steps(&history[..completed]);
        self.driver.maximum_growth = start - growth as CompactWeight;
        Search { answer: Err(refused.unwrap_or(UNKNOWN)), growth, steps, left: self.driver.maximum_growth.into() }
    }

    fn is_too_far(&self) -> bool {
        self.driver.vertices.iter().any(|vertex| vertex.registers.grown as i64 > MOST_GROWN)
    }
}

impl Decoder for Rust {
    fn instruction(&mut self, word: Word) -> Result<Finding, u8> {
        self.execute(instruction(word))
    }

    fn reset(&mut self) {
        self.driver.reset();
        self.kept_pairs = None;
    }

    fn search(&mut self, maximum: Option<i32>) -> Result<Search, u8> {
        if maximum.is_some_and(|maximum| maximum < 0) {
            return Err(13);
        }
        let pairs = self.pairs();
        let before = self.driver.vertices.iter().map(|vertex| vertex.registers.clone()).collect();
        let start = maximum.unwrap_or(self.driver.maximum_growth);
        self.driver.profiler_instruction_history.clear();
        let result = self.guarded(|driver| match maximum {
            Some(maximum) => driver.find_conflict(maximum),
            None => driver.find_obstacle(),
        });
        self.kept_pairs = None;
        match result {
            Ok((obstacle, growth)) if !self.is_too_far() => {
                let history = &self.driver.profiler_instruction_history;
                let (_, steps) = growth_steps(history);
                self.executed += history.len() as u64;
                let left = self.driver.maximum_growth.into();
                Ok(Search { answer: Ok(finding(obstacle)), growth: growth.into(), steps, left })
            }
            result => {
                self.kept_pairs = Some(pairs);
                Ok(self.retrace(before, start, result.err()))
            }
        }
    }

    fn pairs(&self) -> Vec<usize> {
        self.kept_pairs.clone().unwrap_or_else(|| self.driver.pre_matching_edges())
    }

    fn registers(&self) -> Vec<Registers> {
        self.driver.vertices.iter().map(|vertex| registers(&vertex.registers)).collect()
    }

    fn ended(&self) -> bool {
        self.ended
    }
}

fn graph(image: &Image) -> MicroBlossomSingle {
    let edges = image.edges.iter();
    MicroBlossomSingle {
        positions: vec![],
        vertex_num: image.vertices.len(),
        weighted_edges: edges
            .map(|edge| WeightedEdge { l: edge.left, r: edge.right, w: edge.weight as isize })
            .collect(),
        virtual_vertices: (0..image.vertices.len()).filter(|&vertex| image.vertices[vertex].default_virtual).collect(),
        vertex_binary_tree: BinaryTree::new(0),
        edge_binary_tree: BinaryTree::new(0),
        vertex_edge_binary_tree: BinaryTree::new(0),
        vertex_max_growth: vec![],
        offloading: OffloadingFinder(image.units.iter().map(offloading).collect()),
        layer_fusion: Some(layer_fusion(image)),
        parity_reporters: None,
    }
}

fn layer_fusion(image: &Image) -> LayerFusion {
    let layers = image.vertices.iter().enumerate();
    let conditions = image.edges.iter().enumerate();
    LayerFusion {
        num_layers: 0,
        layers: vec![],
        vertex_layer_id: layers.filter_map(|(index, vertex)| Some((index, vertex.layer?.into()))).collect(),
        fusion_edges: conditions.filter_map(|(index, edge)| Some((index, edge.condition?))).collect(),
        unique_tight_conditions: Default::default(),
    }
}

fn offloading(unit: &Unit) -> OffloadingType {
    match *unit {
        Unit::DefectMatch { edge } => OffloadingType::DefectMatch { edge_index: edge },
        Unit::VirtualMatch { edge, named } => OffloadingType::VirtualMatch { edge_index: edge, virtual_vertex: named },
    }
}

fn instruction(word: Word) -> Instruction {
    match word {
        Word::SetSpeed { node, speed } => Instruction::SetSpeed { node: node as NodeIndex, speed: compact(speed) },
        Word::SetBlossom { node, blossom } => {
            Instruction::SetBlossom { node: node as NodeIndex, blossom: blossom as NodeIndex }
        }
        Word::AddDefectVertex { vertex, node } => {
            Instruction::AddDefectVertex { vertex: vertex as usize, node: node as NodeIndex }
        }
        Word::FindObstacle => Instruction::FindObstacle,
        Word::LoadDefectsExternal { layer } => Instruction::LoadDefectsExternal { time: layer as usize, channel: 0 },
        Word::Grow { length } => Instruction::Grow { length: length as Weight },
        Word::Reset => unreachable!("the driver has a call of its own for it"),
    }
}

fn compact(speed: Speed) -> CompactGrowState {
    match speed {
        Speed::Stay => CompactGrowState::Stay,
        Speed::Grow => CompactGrowState::Grow,
        Speed::Shrink => CompactGrowState::Shrink,
    }
}

fn refusal(panic: Box<dyn Any + Send>) -> u8 {
    let text = panic.downcast_ref::<&str>().copied();
    let message = text.or(panic.downcast_ref::<String>().map(String::as_str)).unwrap_or("");
    ASSERTIONS.iter().find(|(part, _)| message.contains(part)).map_or(UNKNOWN, |&(_, number)| number)
}

/// The sum and the number of the Grow instructions.
fn growth_steps(history: &[Instruction]) -> (i64, u64) {
    let lengths = history.iter().filter_map(|instruction| match instruction {
        Instruction::Grow { length } => Some(*length as i64),
        _ => None,
    });
    lengths.fold((0, 0), |(growth, steps), length| (growth + length, steps + 1))
}

fn finding(obstacle: CompactObstacle) -> Finding {
    match obstacle {
        CompactObstacle::None | CompactObstacle::GrowLength { length: CompactWeight::MAX } => Finding::NoLimit,
        CompactObstacle::GrowLength { length } => Finding::Length(length.into()),
        CompactObstacle::Conflict { node_1, node_2, touch_1, touch_2, vertex_1, vertex_2 } => Finding::Conflict {
            nodes: [node_1, node_2].map(compact_node),
            touches: [touch_1, touch_2].map(compact_node),
            vertices: [vertex_1, vertex_2].map(|vertex| vertex.get() as usize),
        },
        CompactObstacle::BlossomNeedExpand { .. } => unreachable!("this driver never reports it"),
    }
}

fn compact_node(node: OptionCompactNodeIndex) -> Node {
    node.option().map_or(Node::None, |number| Node::Number(number.get()))
}

fn node(index: Option<NodeIndex>) -> Node {
    match index {
        None => Node::None,
        Some(VIRTUAL_NODE_INDEX) => Node::Virtual,
        Some(number) => Node::Number(number as u32),
    }
}

fn registers(held: &VertexRegisters) -> Registers {
    Registers {
        speed: Speed::ALL[held.speed as usize],
        grown: held.grown as i64,
        is_virtual: held.is_virtual,
        defect: held.is_defect,
        node: node(held.node_index),
        root: node(held.root_index),
    }
}
