//! Stand-in: the types and traits of `fusion_blossom` that the compiled files name. Only `util`
//! carries values while the oracle runs.

pub mod dual_module;

pub mod util {
    pub type Weight = isize;
    pub type VertexIndex = usize;
    pub type EdgeIndex = usize;
    pub type NodeIndex = usize;

    #[derive(Clone)]
    pub struct SolverInitializer {
        pub vertex_num: usize,
        pub weighted_edges: Vec<(VertexIndex, VertexIndex, Weight)>,
        pub virtual_vertices: Vec<VertexIndex>,
    }

    impl SolverInitializer {
        pub fn new(
            vertex_num: usize,
            weighted_edges: Vec<(VertexIndex, VertexIndex, Weight)>,
            virtual_vertices: Vec<VertexIndex>,
        ) -> Self {
            Self { vertex_num, weighted_edges, virtual_vertices }
        }
    }
}

pub mod visualize {
    #[derive(Clone)]
    pub struct VisualizePosition {
        pub i: f64,
        pub j: f64,
        pub t: f64,
    }

    impl VisualizePosition {
        pub fn new(i: f64, j: f64, t: f64) -> Self {
            Self { i, j, t }
        }
    }

    pub trait FusionVisualizer {
        fn snapshot(&self, abbrev: bool) -> serde_json::Value;
    }
}

pub mod example_codes {
    use crate::util::SolverInitializer;
    use crate::visualize::VisualizePosition;

    pub trait ExampleCode {
        fn get_initializer(&self) -> SolverInitializer;
        fn get_positions(&self) -> Vec<VisualizePosition>;
    }
}

pub mod primal_module {
    use crate::dual_module::DualNodePtr;
    use crate::util::VertexIndex;

    #[derive(Default)]
    pub struct PerfectMatching {
        pub peer_matchings: Vec<(DualNodePtr, DualNodePtr)>,
        pub virtual_matchings: Vec<(DualNodePtr, VertexIndex)>,
    }
}

pub mod pointers {}
