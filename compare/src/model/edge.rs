//! Nodes and edges of one module (01, "The edge").

use super::full::{Full, Reason};
use super::tree::{Name, Start};
use std::collections::{BTreeMap, BTreeSet};
use std::fmt;

const MAX_NODES: usize = 512;
const MAX_EDGES: usize = 4_096;

/// The derived order is 01's order on ties: signals by name, then outputs by instance, index
/// (none first), output.
#[derive(Clone, Copy, Debug, PartialEq, Eq, PartialOrd, Ord)]
pub enum Node {
    Sig(Name),
    InstOut {
        inst: Name,
        index: Option<i128>,
        out: Name,
    },
}

impl fmt::Display for Node {
    fn fmt(&self, f: &mut fmt::Formatter) -> fmt::Result {
        match self {
            Node::Sig(name) => write!(f, "{name}"),
            Node::InstOut {
                inst,
                index: Some(i),
                out,
            } => write!(f, "(u {inst} {i} {out})"),
            Node::InstOut {
                inst,
                index: None,
                out,
            } => write!(f, "(u {inst} - {out})"),
        }
    }
}

#[derive(Default)]
pub struct Graph {
    /// Headed nodes with the START of the first line that heads them.
    heads: BTreeMap<Node, Start>,
    edges: BTreeMap<Node, BTreeSet<Node>>,
    /// All nodes, headed or read.
    nodes: BTreeSet<Node>,
    edge_count: usize,
}

impl Graph {
    /// A line at `start` heads `head` and reads `reads`.
    pub fn add(&mut self, head: Node, start: Start, reads: &[Node]) -> Result<(), Full> {
        self.heads.entry(head).or_insert(start);
        self.nodes.insert(head);
        let next = self.edges.entry(head).or_default();
        for &read in reads {
            self.nodes.insert(read);
            self.edge_count += next.insert(read) as usize;
        }
        if self.nodes.len() > MAX_NODES {
            return Err(Reason::Nodes.into());
        }
        if self.edge_count > MAX_EDGES {
            return Err(Reason::Edges.into());
        }
        Ok(())
    }

    pub fn headed(&self) -> impl Iterator<Item = Node> + '_ {
        self.heads.keys().copied()
    }

    /// The START of the first line that heads the node, 0 if none.
    pub fn start(&self, node: Node) -> Start {
        self.heads.get(&node).copied().unwrap_or(0)
    }

    pub fn next(&self, node: Node) -> impl Iterator<Item = Node> + '_ {
        self.edges.get(&node).into_iter().flatten().copied()
    }

    pub fn edges(&self) -> impl Iterator<Item = (Node, Node)> + '_ {
        let steps = |(&head, reads)| BTreeSet::iter(reads).map(move |&read| (head, read));
        self.edges.iter().flat_map(steps)
    }

    /// The names for which `stop` holds that `from` reaches, stopping there.
    pub fn reached(&self, from: Node, stop: impl Fn(Name) -> bool) -> BTreeSet<Name> {
        let mut found = BTreeSet::new();
        let mut seen = BTreeSet::new();
        let mut open = vec![from];
        while let Some(node) = open.pop() {
            if !seen.insert(node) {
                continue;
            }
            match node {
                Node::Sig(name) if stop(name) => {
                    found.insert(name);
                }
                _ => open.extend(self.next(node)),
            }
        }
        found
    }
}
