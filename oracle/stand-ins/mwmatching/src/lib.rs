//! Stand-in: the type that the graph builder names. The oracle builds its graphs itself.

pub struct Matching;

impl Matching {
    pub fn new(_edges: Vec<(usize, usize, i32)>) -> Self {
        unimplemented!()
    }
    pub fn max_cardinality(&mut self) -> &mut Self {
        unimplemented!()
    }
    pub fn solve(&mut self) -> Vec<usize> {
        unimplemented!()
    }
}
