//! The search for cycles: the archive `bench_c` and the original, on the same heads and reads.

pub mod archive;
pub mod make;
pub mod original;

/// Nodes and different edges that a graph holds.
pub const NODES: usize = 512;
pub const EDGES: usize = 4096;

/// A signal, or an output of an instance, with its index or none.
#[derive(Clone, Copy, Debug, PartialEq, Eq, Hash)]
pub enum Node {
    Signal(u32),
    Output {
        inst: u32,
        index: Option<i32>,
        out: u32,
    },
}

/// A line that heads a node: its START and what it reads.
#[derive(Clone, Debug)]
pub struct Head {
    pub node: Node,
    pub start: u32,
    pub reads: Vec<Node>,
}

/// A loop report: the START of the node that was stepped onto, and the walk, that node first and last.
#[derive(Clone, Debug, PartialEq, Eq)]
pub struct Report {
    pub start: u32,
    pub walk: Vec<Node>,
}
