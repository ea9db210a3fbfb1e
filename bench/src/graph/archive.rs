//! The functions of the archive, over slices of their own.

use super::{Head, Node, Report};

/// Words of the graph, with those for its hints, and of the work slice.
const GRAPH: usize = 16_898;
const WORK: usize = 29_190;

/// Nodes of the longest report: all, and the first again.
const LONGEST: usize = super::NODES + 1;

/// The answer of `head` where a limit is passed.
const FULL: u32 = 512;

/// What an index is held above its value.
const BIAS: u32 = 1 << 31;

extern "C" {
    fn drivercheck_graph_clear(g: *mut u32, g_len: usize);
    fn drivercheck_graph_head(
        g: *mut u32,
        g_len: usize,
        kind: u32,
        name: u32,
        index: u32,
        output: u32,
        start: u32,
    ) -> u32;
    fn drivercheck_graph_read(
        g: *mut u32,
        g_len: usize,
        from: u32,
        kind: u32,
        name: u32,
        index: u32,
        output: u32,
    ) -> u32;
    fn drivercheck_graph_start(g: *const u32, g_len: usize, i: u32) -> u32;
    fn drivercheck_graph_node(
        g: *const u32,
        g_len: usize,
        i: u32,
        words: *mut u32,
        words_len: usize,
    );
    fn drivercheck_graph_begin(g: *const u32, g_len: usize, w: *mut u32, w_len: usize);
    fn drivercheck_graph_next(
        g: *const u32,
        g_len: usize,
        w: *mut u32,
        w_len: usize,
        nodes: *mut u32,
        nodes_len: usize,
    ) -> usize;
}

/// A graph, the work slice of its search, and the last report.
pub struct Graph {
    g: Vec<u32>,
    w: Vec<u32>,
    nodes: Vec<u32>,
}

/// A limit is passed: one node or edge too many.
#[derive(Clone, Copy, Debug, PartialEq, Eq)]
pub struct Full;

/// The four numbers of a node.
fn words(node: Node) -> [u32; 4] {
    match node {
        Node::Signal(name) => [0, name, 0, 0],
        Node::Output {
            inst,
            index: None,
            out,
        } => [1, inst, 0, out],
        Node::Output {
            inst,
            index: Some(index),
            out,
        } => [2, inst, index as u32 ^ BIAS, out],
    }
}

// SAFETY of each call below: every slice is passed with its own length, those that the archive
// writes are borrowed mutably and apart from the others, and it keeps no pointer.
impl Graph {
    /// The words hold what is given until `clear`.
    pub fn new(fill: u32) -> Graph {
        Graph {
            g: vec![fill; GRAPH],
            w: vec![fill; WORK],
            nodes: vec![fill; LONGEST],
        }
    }

    pub fn clear(&mut self) {
        unsafe { drivercheck_graph_clear(self.g.as_mut_ptr(), self.g.len()) }
    }

    /// Heads a node and has it read what the line reads.
    pub fn head(&mut self, head: &Head) -> Result<(), Full> {
        let from = self.head_node(head.node, head.start)?;
        head.reads
            .iter()
            .try_for_each(|read| self.read(from, *read))
    }

    fn head_node(&mut self, node: Node, start: u32) -> Result<u32, Full> {
        let [kind, name, index, output] = words(node);
        let (g, len) = (self.g.as_mut_ptr(), self.g.len());
        match unsafe { drivercheck_graph_head(g, len, kind, name, index, output, start) } {
            FULL => Err(Full),
            number => Ok(number),
        }
    }

    fn read(&mut self, from: u32, node: Node) -> Result<(), Full> {
        let [kind, name, index, output] = words(node);
        let (g, len) = (self.g.as_mut_ptr(), self.g.len());
        match unsafe { drivercheck_graph_read(g, len, from, kind, name, index, output) } {
            0 => Err(Full),
            _ => Ok(()),
        }
    }

    pub fn begin(&mut self) {
        let (w, len) = (self.w.as_mut_ptr(), self.w.len());
        unsafe { drivercheck_graph_begin(self.g.as_ptr(), self.g.len(), w, len) }
    }

    /// The numbers of the next report's nodes.
    pub fn next(&mut self) -> Option<&[u32]> {
        let (w, len) = (self.w.as_mut_ptr(), self.w.len());
        let (nodes, room) = (self.nodes.as_mut_ptr(), self.nodes.len());
        let (g, g_len) = (self.g.as_ptr(), self.g.len());
        match unsafe { drivercheck_graph_next(g, g_len, w, len, nodes, room) } {
            0 => None,
            n => self.nodes.get(..n),
        }
    }

    pub fn start(&self, i: u32) -> u32 {
        unsafe { drivercheck_graph_start(self.g.as_ptr(), self.g.len(), i) }
    }

    pub fn node(&self, i: u32) -> Node {
        let mut words = [0; 4];
        let (g, len) = (self.g.as_ptr(), self.g.len());
        unsafe { drivercheck_graph_node(g, len, i, words.as_mut_ptr(), words.len()) }
        let [kind, inst, index, out] = words;
        match kind {
            0 => Node::Signal(inst),
            1 => Node::Output {
                inst,
                index: None,
                out,
            },
            _ => Node::Output {
                inst,
                index: Some((index ^ BIAS) as i32),
                out,
            },
        }
    }

    /// All reports of the heads, in order.
    pub fn reports(&mut self, heads: &[Head]) -> Result<Vec<Report>, Full> {
        self.clear();
        heads.iter().try_for_each(|head| self.head(head))?;
        self.begin();
        let mut reports = Vec::new();
        while let Some(numbers) = self.next() {
            let numbers = numbers.to_vec();
            reports.push(self.report(&numbers));
        }
        Ok(reports)
    }

    fn report(&self, numbers: &[u32]) -> Report {
        Report {
            start: numbers.first().map_or(0, |i| self.start(*i)),
            walk: numbers.iter().map(|i| self.node(*i)).collect(),
        }
    }
}
