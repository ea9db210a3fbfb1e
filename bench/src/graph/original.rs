//! `find_cycles` of the original, on the tables that `collect_items` leaves for it.

use super::{Head, Node, Report};
use mimz_cycles::checker::face::{Graph, Named};
use mimz_cycles::diag::Diag;

/// What stands before the walk in a loop's message, and between its nodes.
const MESSAGE: &str = "combinational cycle: ";
const ARROW: &str = " -> ";

/// A line with its names, as the tree has them.
pub struct Line {
    pub node: Named,
    pub start: usize,
    pub reads: Vec<Named>,
}

pub fn lines(heads: &[Head]) -> Vec<Line> {
    let line = |head: &Head| Line {
        node: named(head.node),
        start: head.start as usize,
        reads: head.reads.iter().map(|read| named(*read)).collect(),
    };
    heads.iter().map(line).collect()
}

fn named(node: Node) -> Named {
    match node {
        Node::Signal(name) => Named::Signal(key(name)),
        Node::Output { inst, index, out } => Named::Output {
            inst: key(inst),
            index: index.map(i128::from),
            out: key(out),
        },
    }
}

fn key(name: u32) -> String {
    format!("n{name}")
}

/// The graph of the lines.
pub fn graph(lines: &[Line]) -> Graph {
    let mut graph = Graph::new();
    for line in lines {
        graph.head(&line.node, line.start, &line.reads);
    }
    graph
}

/// All reports of the heads, in order.
pub fn reports(heads: &[Head]) -> Result<Vec<Report>, String> {
    let diags = graph(&lines(heads)).find_cycles();
    diags.iter().map(report).collect()
}

fn report(diag: &Diag) -> Result<Report, String> {
    let unread = || format!("not a loop report: {diag:?}");
    let walk = diag.msg.strip_prefix(MESSAGE).ok_or_else(unread)?;
    let nodes: Option<Vec<Node>> = walk.split(ARROW).map(node).collect();
    Ok(Report {
        start: u32::try_from(diag.span.start).map_err(|_| unread())?,
        walk: nodes.ok_or_else(unread)?,
    })
}

/// A node as `show` writes it: `n3`, `n5.n7` or `n5[-2].n7`.
fn node(shown: &str) -> Option<Node> {
    let Some((inst, out)) = shown.split_once('.') else {
        return Some(Node::Signal(number(shown)?));
    };
    let (inst, index) = match inst.split_once('[') {
        None => (inst, None),
        Some((inst, index)) => (inst, Some(index.strip_suffix(']')?.parse().ok()?)),
    };
    Some(Node::Output {
        inst: number(inst)?,
        index,
        out: number(out)?,
    })
}

fn number(name: &str) -> Option<u32> {
    name.strip_prefix('n')?.parse().ok()
}
