//! Stand-in: the wrapper's type and the trait that the driver implements.

use crate::interface::CompactObstacle;
use crate::util::CompactWeight;

pub struct DualDriverTracked<D, const N: usize> {
    pub driver: D,
}

impl<D, const N: usize> DualDriverTracked<D, N> {
    pub fn new(driver: D) -> Self {
        Self { driver }
    }
}

pub trait DualTrackedDriver {
    fn find_conflict(&mut self, maximum_growth: CompactWeight) -> (CompactObstacle, CompactWeight);
}
