//! Stand-in: dual nodes and the interface of a dual module.

use crate::util::{NodeIndex, SolverInitializer, VertexIndex, Weight};
use std::num::NonZeroUsize;
use std::rc::{Rc, Weak};

#[derive(Clone, Debug)]
pub struct DualModuleInterfaceWeak;

pub struct SyncRequest;

#[derive(Debug)]
pub enum DualNodeGrowState {
    Grow,
    Stay,
    Shrink,
}

#[derive(Debug)]
pub enum DualNodeClass {
    Blossom { nodes_circle: Vec<DualNodeWeak>, touching_children: Vec<(DualNodeWeak, DualNodeWeak)> },
    DefectVertex { defect_index: VertexIndex },
}

impl DualNodeClass {
    pub fn is_blossom(&self) -> bool {
        matches!(self, Self::Blossom { .. })
    }
}

#[derive(Debug)]
pub struct DualNode {
    pub index: NodeIndex,
    pub class: DualNodeClass,
    pub grow_state: DualNodeGrowState,
    pub defect_size: NonZeroUsize,
    pub parent_blossom: Option<DualNodeWeak>,
    pub dual_variable_cache: (Weight, Weight),
    pub belonging: DualModuleInterfaceWeak,
}

#[derive(Clone, Debug)]
pub struct DualNodePtr(Rc<DualNode>);

impl DualNodePtr {
    pub fn new_value(node: DualNode) -> Self {
        Self(Rc::new(node))
    }
    pub fn read_recursive(&self) -> &DualNode {
        &self.0
    }
}

#[derive(Clone, Debug)]
pub struct DualNodeWeak(Weak<DualNode>);

impl DualNodeWeak {
    pub fn upgrade_force(&self) -> DualNodePtr {
        DualNodePtr(self.0.upgrade().unwrap())
    }
}

pub enum MaxUpdateLength {
    NonZeroGrow((Weight, bool)),
    Conflicting((DualNodePtr, DualNodePtr), (DualNodePtr, DualNodePtr)),
    TouchingVirtual((DualNodePtr, DualNodePtr), (VertexIndex, bool)),
    BlossomNeedExpand(DualNodePtr),
}

pub struct GroupMaxUpdateLength(Vec<MaxUpdateLength>);

impl GroupMaxUpdateLength {
    pub fn new() -> Self {
        Self(vec![])
    }
    pub fn add(&mut self, length: MaxUpdateLength) {
        self.0.push(length);
    }
}

pub trait DualModuleImpl {
    fn new_empty(initializer: &SolverInitializer) -> Self;
    fn clear(&mut self);
    fn add_dual_node(&mut self, dual_node_ptr: &DualNodePtr);
    fn remove_blossom(&mut self, dual_node_ptr: DualNodePtr);
    fn set_grow_state(&mut self, dual_node_ptr: &DualNodePtr, grow_state: DualNodeGrowState);
    fn compute_maximum_update_length(&mut self) -> GroupMaxUpdateLength;
    fn grow(&mut self, length: Weight);
    fn prepare_nodes_shrink(&mut self, nodes_circle: &[DualNodePtr]) -> &mut Vec<SyncRequest>;
}
