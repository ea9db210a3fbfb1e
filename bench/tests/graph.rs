//! The archive `bench_c` on random graphs: the same loop reports, in order, as the original's
//! `find_cycles`; and its limits.

use bench::graph::archive::{Full, Graph};
use bench::graph::make::{self, Shape, OUTPUTS, SHAPES};
use bench::graph::{original, Head, Node, Report, EDGES, NODES};
use compare::gen::rng::Rng;
use std::collections::{HashMap, HashSet};

const GRAPHS: u64 = 12_000;
const SEED: u64 = 1;

/// Nodes of the smallest and the largest graph.
const SMALLEST: usize = 2;
const LARGEST: usize = 64;

/// Graphs of `LARGEST` to 512 nodes.
const LARGE: u64 = 120;

/// What was compared, by what came out.
#[derive(Debug, Default)]
struct Counts(HashMap<String, u64>);

impl Counts {
    fn add(&mut self, class: impl Into<String>, found: bool) {
        *self.0.entry(class.into()).or_default() += u64::from(found);
    }

    /// Prints the counts and fails where one is 0.
    fn show(&self) {
        let mut classes: Vec<_> = self.0.iter().collect();
        classes.sort();
        for (class, count) in &classes {
            println!("{count:>8}  {class}");
        }
        for (class, count) in classes {
            assert!(*count > 0, "nothing was compared: {class}");
        }
    }

    fn add_graph(&mut self, shape: Shape, heads: &[Head]) {
        let all = nodes(heads);
        let headed: HashSet<Node> = heads.iter().map(|head| head.node).collect();
        let index = |node: &Node| match node {
            Node::Signal(_) => None,
            Node::Output { index, .. } => Some(*index),
        };
        self.add(format!("{shape:?}"), true);
        self.add("2 to 7 nodes", all.len() < 8);
        self.add("8 to 31 nodes", (8..32).contains(&all.len()));
        self.add("32 to 64 nodes", all.len() >= 32);
        self.add("all 64 nodes", all.len() == LARGEST);
        self.add("signals only", all.iter().all(|n| index(n).is_none()));
        self.add("outputs only", all.iter().all(|n| index(n).is_some()));
        self.add(
            "output without an index",
            all.iter().any(|n| index(n) == Some(None)),
        );
        let ends = [Some(Some(i32::MIN)), Some(Some(i32::MAX))];
        self.add(
            "index at an end of INT",
            all.iter().any(|n| ends.contains(&index(n))),
        );
        self.add("a node headed twice", headed.len() < heads.len());
        self.add("a node read and not headed", headed.len() < all.len());
        self.add(
            "a line that reads nothing",
            heads.iter().any(|h| h.reads.is_empty()),
        );
        self.add("a node read twice by a line", heads.iter().any(read_twice));
        self.add("START 0", heads.iter().any(|h| h.start == 0));
    }

    fn add_reports(&mut self, reports: &[Report]) {
        let walks = || reports.iter().map(|report| report.walk.len());
        let mut sorted: Vec<u32> = reports.iter().map(|report| report.start).collect();
        sorted.sort_unstable();
        let ascend = reports.iter().map(|report| report.start).eq(sorted);
        self.add("no report", reports.is_empty());
        self.add("one report", reports.len() == 1);
        self.add("2 to 9 reports", (2..10).contains(&reports.len()));
        self.add("10 reports or more", reports.len() >= 10);
        self.add("100 reports or more", reports.len() >= 100);
        self.add("reports whose STARTs do not ascend", !ascend);
        self.add("a node that reads itself", walks().any(|n| n == 2));
        self.add(
            "a walk of 3 to 9 nodes",
            walks().any(|n| (3..10).contains(&n)),
        );
        self.add("a walk of 10 nodes or more", walks().any(|n| n >= 10));
        self.add("a walk of 50 nodes or more", walks().any(|n| n >= 50));
    }
}

fn nodes(heads: &[Head]) -> HashSet<Node> {
    let all = heads.iter().flat_map(|h| h.reads.iter().chain([&h.node]));
    all.copied().collect()
}

fn read_twice(head: &Head) -> bool {
    let mut seen = HashSet::new();
    head.reads.iter().any(|read| !seen.insert(*read))
}

/// Shape, share of outputs and size go round; the rest depends on the number.
fn case(profile: &str, i: u64, smallest: usize, largest: usize) -> (Shape, Vec<Head>) {
    let mut rng = Rng::new(profile, SEED, i);
    let (shape, rest) = (SHAPES[(i % 6) as usize], i / 6);
    let (outputs, rest) = (OUTPUTS[(rest % 3) as usize], rest / 3);
    let size = smallest + rest as usize % (largest - smallest + 1);
    (shape, make::random(&mut rng, size, shape, outputs))
}

/// The reports of both, which are the same.
fn same(graph: &mut Graph, heads: &[Head], shown: &str) -> Result<Vec<Report>, String> {
    let wanted = original::reports(heads)?;
    let reports = graph
        .reports(heads)
        .map_err(|Full| format!("{shown}: Full"))?;
    assert_eq!(reports, wanted, "{shown}: {heads:?}");
    Ok(reports)
}

#[test]
fn random_graphs() -> Result<(), String> {
    let (mut counts, mut graph) = (Counts::default(), Graph::new(u32::MAX));
    for i in 0..GRAPHS {
        let (shape, heads) = case("graph", i, SMALLEST, LARGEST);
        let reports = same(&mut graph, &heads, &format!("{i}"))?;
        counts.add_graph(shape, &heads);
        counts.add_reports(&reports);
    }
    println!("{GRAPHS:>8}  graphs of {SMALLEST} to {LARGEST} nodes");
    counts.show();
    Ok(())
}

/// To the limits: graphs past them are refused, the others have the same reports.
#[test]
fn large_graphs() -> Result<(), String> {
    let (mut graph, mut within, mut past) = (Graph::new(7), 0, 0);
    for i in 0..LARGE {
        let (_, heads) = case("large", i * 101, LARGEST, NODES);
        let edges: HashSet<(Node, Node)> = heads
            .iter()
            .flat_map(|h| h.reads.iter().map(move |read| (h.node, *read)))
            .collect();
        if edges.len() > EDGES {
            assert_eq!(graph.reports(&heads), Err(Full), "{i}");
            past += 1;
        } else {
            same(&mut graph, &heads, &format!("{i}"))?;
            within += 1;
        }
    }
    println!("{within:>8}  graphs of {LARGEST} to {NODES} nodes, {past} past {EDGES} edges");
    assert!(within > 0 && past > 0);
    Ok(())
}

/// A head of the signal k, which reads so many signals.
fn line(k: u32, reads: u32) -> Head {
    Head {
        node: Node::Signal(k),
        start: k + 1,
        reads: (0..reads).map(Node::Signal).collect(),
    }
}

/// The last node and edge that fit, and the first that do not.
#[test]
fn limits() -> Result<(), String> {
    let mut graph = Graph::new(1);
    let nodes: Vec<Head> = (0..NODES as u32).map(|k| line(k, 1)).collect();
    same(&mut graph, &nodes, "512 nodes")?;
    assert_eq!(graph.head(&line(511, 1)), Ok(()));
    assert_eq!(graph.head(&line(512, 0)), Err(Full));
    let edges: Vec<Head> = (0..64).map(|k| line(k, 64)).collect();
    let reports = same(&mut graph, &edges, "4,096 edges")?;
    assert!(!reports.is_empty());
    assert_eq!(graph.head(&line(63, 64)), Ok(()));
    assert_eq!(graph.head(&line(63, 65)), Err(Full));
    Ok(())
}

/// The walk of the first report, and that a change of one node is a difference.
#[test]
fn stated_reports() -> Result<(), String> {
    let read = |node, start, reads: &[u32]| Head {
        node: Node::Signal(node),
        start,
        reads: reads.iter().copied().map(Node::Signal).collect(),
    };
    let heads = [read(3, 30, &[1, 2]), read(2, 40, &[3]), read(2, 50, &[4])];
    let reports = same(&mut Graph::new(0), &heads, "P1")?;
    let walk = [3, 2, 3].map(Node::Signal).to_vec();
    assert_eq!(reports, [Report { start: 30, walk }]);
    let reports = same(&mut Graph::new(0), &[read(3, 30, &[3])], "P10")?;
    let walk = [3, 3].map(Node::Signal).to_vec();
    assert_eq!(reports, [Report { start: 30, walk }]);
    Ok(())
}
