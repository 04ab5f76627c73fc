//! Stand-in: the wrapper's type and the trait that the driver implements. The wrapper's own calls
//! are not used.

use crate::interface::{CompactObstacle, DualInterface, PrimalInterface};
use crate::util::{CompactGrowState, CompactNodeIndex, CompactVertexIndex, CompactWeight};

pub struct DualModuleStackless<D> {
    pub driver: D,
}

impl<D> DualModuleStackless<D> {
    pub fn new(driver: D) -> Self {
        Self { driver }
    }
}

pub trait DualStacklessDriver {
    fn reset(&mut self);
    fn set_speed(&mut self, is_blossom: bool, node: CompactNodeIndex, speed: CompactGrowState);
    fn set_blossom(&mut self, node: CompactNodeIndex, blossom: CompactNodeIndex);
    fn find_obstacle(&mut self) -> (CompactObstacle, CompactWeight);
    fn add_defect(&mut self, vertex: CompactVertexIndex, node: CompactNodeIndex);
}

impl<D> DualInterface for DualModuleStackless<D> {
    fn reset(&mut self) {
        unimplemented!()
    }
    fn create_blossom(&mut self, _primal_module: &impl PrimalInterface, _blossom: CompactNodeIndex) {
        unimplemented!()
    }
    fn expand_blossom(&mut self, _primal_module: &impl PrimalInterface, _blossom: CompactNodeIndex) {
        unimplemented!()
    }
    fn set_speed(&mut self, _is_blossom: bool, _node: CompactNodeIndex, _speed: CompactGrowState) {
        unimplemented!()
    }
    fn find_obstacle(&mut self) -> (CompactObstacle, CompactWeight) {
        unimplemented!()
    }
    fn add_defect(&mut self, _vertex: CompactVertexIndex, _node: CompactNodeIndex) {
        unimplemented!()
    }
}
