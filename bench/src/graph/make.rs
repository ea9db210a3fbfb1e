//! Graphs as heads and reads. Every START is another one, so that no tie is left to a hash order.

use super::{Head, Node};
use compare::gen::rng::Rng;
use std::collections::HashSet;

/// What the edges of a graph make.
#[derive(Clone, Copy, Debug, PartialEq, Eq)]
pub enum Shape {
    /// Up to two reads a node.
    Sparse,
    /// Reads of up to all nodes.
    Dense,
    /// Each node reads the next.
    Chain,
    /// Rings of up to eight nodes.
    Rings,
    /// A node reads later nodes only: no loop.
    Downward,
    /// Downward, and one read back to the first.
    OneBack,
}

pub const SHAPES: [Shape; 6] = [
    Shape::Sparse,
    Shape::Dense,
    Shape::Chain,
    Shape::Rings,
    Shape::Downward,
    Shape::OneBack,
];

/// Of a hundred nodes, how many are outputs of instances.
pub const OUTPUTS: [u64; 3] = [0, 50, 100];

/// A graph with so many nodes at most: those that nothing reads and no line heads are left out.
pub fn random(rng: &mut Rng, nodes: usize, shape: Shape, outputs: u64) -> Vec<Head> {
    let nodes = different(rng, nodes, outputs);
    let unheaded = rng.pick(&[0, 0, 20]);
    let mut heads = Vec::new();
    for (k, node) in nodes.iter().enumerate() {
        if rng.chance(unheaded) {
            continue;
        }
        let mut reads = reads(rng, &nodes, k, shape);
        while rng.chance(15) {
            let some = reads.len() / 2;
            let more = reads.split_off(some);
            heads.push(head(*node, more));
        }
        heads.push(head(*node, reads));
    }
    rng.shuffle(&mut heads);
    set_starts(rng, &mut heads);
    heads
}

fn head(node: Node, reads: Vec<Node>) -> Head {
    Head {
        node,
        start: 0,
        reads,
    }
}

/// So many different nodes; few names, so that outputs share instances and indexes.
fn different(rng: &mut Rng, count: usize, outputs: u64) -> Vec<Node> {
    let names = (2 * count as u64).max(256);
    let mut seen = HashSet::new();
    let mut nodes = Vec::new();
    while nodes.len() < count {
        let node = any_node(rng, outputs, names);
        if seen.insert(node) {
            nodes.push(node);
        }
    }
    nodes
}

fn any_node(rng: &mut Rng, outputs: u64, names: u64) -> Node {
    if !rng.chance(outputs) {
        return Node::Signal(rng.below(names) as u32);
    }
    let index = match rng.below(8) {
        0 => Some(i32::MIN),
        1 => Some(i32::MAX),
        2..=5 => Some(rng.range(-3, 3) as i32),
        _ => None,
    };
    Node::Output {
        inst: rng.below(names / 32) as u32,
        index,
        out: rng.below(8) as u32,
    }
}

/// What the node at the place k reads.
fn reads(rng: &mut Rng, nodes: &[Node], k: usize, shape: Shape) -> Vec<Node> {
    let n = nodes.len();
    let mut any = |count: u64, from: usize| -> Vec<Node> {
        let left = (n - from) as u64;
        let places = (0..count.min(left)).map(|_| from + rng.below(left) as usize);
        places.map(|place| nodes[place]).collect()
    };
    match shape {
        Shape::Sparse => any(k as u64 % 3, 0),
        Shape::Dense => any(n as u64, 0),
        Shape::Chain => nodes.get(k + 1).copied().into_iter().collect(),
        Shape::Rings => vec![nodes[ring_next(n, k)]],
        Shape::Downward => any(4, k + 1),
        Shape::OneBack if k + 1 == n => vec![nodes[0]],
        Shape::OneBack => any(4, k + 1),
    }
}

/// The next place of a ring of eight, of fewer at the end.
fn ring_next(n: usize, k: usize) -> usize {
    let first = k / 8 * 8;
    if k + 1 == n || k + 1 == first + 8 {
        first
    } else {
        k + 1
    }
}

/// Different STARTs, in no order; 0 among them now and then.
fn set_starts(rng: &mut Rng, heads: &mut [Head]) {
    let (low, step) = (rng.below(2) as u32, rng.range(1, 100_000) as u32);
    let mut starts: Vec<u32> = (0..heads.len() as u32).map(|k| low + k * step).collect();
    rng.shuffle(&mut starts);
    for (head, start) in heads.iter_mut().zip(starts) {
        head.start = start;
    }
}

/// A graph for timing: so many nodes, half of them outputs, one line each, with so many different
/// edges where there are as many; a node reads later ones only, or any.
pub fn timed(nodes: usize, edges: usize, loops: bool) -> Vec<Head> {
    let mut rng = Rng::new("timed", nodes as u64, edges as u64);
    let all = different(&mut rng, nodes, 50);
    let mut heads: Vec<Head> = all.iter().map(|node| head(*node, Vec::new())).collect();
    let mut pairs = pairs(nodes, loops);
    rng.shuffle(&mut pairs);
    for (from, to) in pairs.into_iter().take(edges) {
        heads[from].reads.push(all[to]);
    }
    set_starts(&mut rng, &mut heads);
    heads
}

fn pairs(nodes: usize, loops: bool) -> Vec<(usize, usize)> {
    let to = move |from| (if loops { 0 } else { from + 1 })..nodes;
    (0..nodes)
        .flat_map(|from| to(from).map(move |to| (from, to)))
        .collect()
}

/// A chain, or rings of eight nodes, for timing.
pub fn linked(nodes: usize, shape: Shape) -> Vec<Head> {
    let mut rng = Rng::new("linked", nodes as u64, 0);
    let all = different(&mut rng, nodes, 50);
    let line =
        |(k, node): (usize, &Node)| head(*node, reads(&mut Rng::new("", 0, 0), &all, k, shape));
    let mut heads: Vec<Head> = all.iter().enumerate().map(line).collect();
    set_starts(&mut rng, &mut heads);
    heads
}
