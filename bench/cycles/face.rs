//! A way into `find_cycles`: a child module of `drivers`, which sees what is private there.

use super::{Dcx, Node, REPEAT_BUDGET};
use crate::checker::Checker;
use crate::checker::names::Scope;
use crate::diag::Diag;
use crate::span::Span;
use std::collections::{HashMap, HashSet};
use std::mem;
use std::rc::Rc;

/// A node with its names.
#[derive(Clone, Debug, PartialEq, Eq)]
pub enum Named {
    Signal(String),
    Output {
        inst: String,
        index: Option<i128>,
        out: String,
    },
}

impl Named {
    /// The names are copied, as `expr_reads` copies them from the tree.
    fn node(&self) -> Node {
        match self {
            Named::Signal(name) => Node::Sig(name.clone()),
            Named::Output { inst, index, out } => Node::InstOut {
                inst: inst.clone(),
                index: *index,
                out: out.clone(),
            },
        }
    }
}

/// What `find_cycles` searches.
pub struct Graph {
    checker: Checker<'static>,
    dcx: Dcx<'static>,
}

impl Graph {
    pub fn new() -> Graph {
        Graph {
            checker: Checker::new(&[]),
            dcx: Dcx {
                file: 0,
                sc: Rc::new(Scope {
                    names: HashMap::new(),
                }),
                env: HashMap::new(),
                bound: true,
                report: true,
                sites: HashMap::new(),
                reg_blocks: HashMap::new(),
                poisoned: HashSet::new(),
                edges: HashMap::new(),
                node_spans: HashMap::new(),
                outs: Vec::new(),
                regs: Vec::new(),
                mems: Vec::new(),
                repeat_budget: REPEAT_BUDGET,
            },
        }
    }

    /// Leaves what `collect_items` leaves of a wire line, or of one output of an instance line.
    pub fn head(&mut self, node: &Named, start: usize, reads: &[Named]) {
        let signal = matches!(node, Named::Signal(_));
        let (node, span) = (node.node(), Span::new(start, start));
        self.dcx.node_spans.entry(node.clone()).or_insert(span);
        let mut nodes = Vec::new();
        for read in reads {
            nodes.push(read.node());
        }
        if signal || !nodes.is_empty() {
            self.dcx.edges.entry(node).or_default().extend(nodes);
        }
    }

    /// The reports of `find_cycles`.
    pub fn find_cycles(&mut self) -> Vec<Diag> {
        self.checker.find_cycles(&mut self.dcx);
        mem::take(&mut self.checker.diags)
    }
}

impl Default for Graph {
    fn default() -> Graph {
        Graph::new()
    }
}
