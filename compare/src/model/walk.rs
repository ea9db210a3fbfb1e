//! The search for loops (01, "The walk").

use super::edge::{Graph, Node};
use super::tree::Start;
use std::collections::BTreeSet;

/// One report: the START of the node stepped onto, and the walk that closes there.
pub struct Cycle {
    pub start: Start,
    pub walk: Vec<Node>,
}

struct Search<'a> {
    graph: &'a Graph,
    entered: BTreeSet<Node>,
    path: Vec<Node>,
    cycles: Vec<Cycle>,
}

/// Roots ascend by START; no node, root or next, is entered a second time.
pub fn find_cycles(graph: &Graph) -> Vec<Cycle> {
    let mut search = Search {
        graph,
        entered: BTreeSet::new(),
        path: Vec::new(),
        cycles: Vec::new(),
    };
    for root in ascending(graph, graph.headed()) {
        if !search.entered.contains(&root) {
            search.enter(root);
        }
    }
    search.cycles
}

/// By START, then by 01's order on ties.
fn ascending(graph: &Graph, nodes: impl Iterator<Item = Node>) -> Vec<Node> {
    let mut nodes: Vec<Node> = nodes.collect();
    nodes.sort_by_key(|&n| (graph.start(n), n));
    nodes
}

impl Search<'_> {
    /// Next nodes ascend and are taken last first; each step onto the open path is a report.
    fn enter(&mut self, node: Node) {
        self.entered.insert(node);
        self.path.push(node);
        for next in ascending(self.graph, self.graph.next(node))
            .into_iter()
            .rev()
        {
            if let Some(at) = self.path.iter().position(|&n| n == next) {
                self.close(at);
            } else if !self.entered.contains(&next) {
                self.enter(next);
            }
        }
        self.path.pop();
    }

    fn close(&mut self, at: usize) {
        let mut walk = self.path[at..].to_vec();
        walk.push(walk[0]);
        self.cycles.push(Cycle {
            start: self.graph.start(walk[0]),
            walk,
        });
    }
}

/// Whether two different live nodes have one START (see `model::ties`).
pub fn tied(graph: &Graph) -> bool {
    let mut starts = BTreeSet::new();
    live(graph)
        .into_iter()
        .any(|n| !starts.insert(graph.start(n)))
}

/// The nodes from which a closed walk can be reached: what is left after taking away, again and
/// again, every node that leads to none of those left.
fn live(graph: &Graph) -> BTreeSet<Node> {
    let mut left: BTreeSet<Node> = graph.headed().collect();
    loop {
        let before = left.len();
        let keep = |n: &Node| graph.next(*n).any(|m| left.contains(&m));
        left = left.iter().copied().filter(keep).collect();
        if left.len() == before {
            return left;
        }
    }
}
