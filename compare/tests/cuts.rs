//! U8, cutting the listed loops is enough, held by running. The walks are parsed from the bytes of
//! printed report lines: those of the original, those of the model, which have 01's order on ties,
//! and those of the program that CUTS_CHECKER names, if it names one. Edges and opened designs are
//! the model's. Closed walks are looked for by Kahn's algorithm, not by the model's own search.
//!
//! CUTS_TEXTS is the number of texts of each profile and of tangles, and CUTS_SEED their seed.

use compare::compare::command::CheckerCommand;
use compare::compare::rules::lines;
use compare::compare::shrink::shrink;
use compare::gen::rng::Rng;
use compare::model::opened::{Node, Opened, Signal};
use compare::oracle::{self, fields};
use compare::{gen, model};
use std::collections::{BTreeMap, BTreeSet};
use std::{env, fmt, iter};

/// The texts of each kind in a short run.
const TEXTS: u64 = 1_000;
const SEED: u64 = 8;
/// The profiles whose texts have loops, and `tangle`.
const KINDS: [&str; 7] = [
    "loops", "ties", "tangle", "dense", "small", "values", "fields",
];
/// Those in which a test has to see enough.
const RICH: [&str; 3] = ["loops", "ties", "tangle"];
/// Opened designs with more signals are passed over.
const SIGNALS: usize = 3_000;

type Walk = Vec<Node>;
type Step = (Node, Node);
type Print = Box<dyn Fn(&[u8]) -> Vec<u8>>;

/// A number that the environment gives, or `other`.
fn number(variable: &str, other: u64) -> u64 {
    match env::var(variable) {
        Ok(value) => value.parse().unwrap(),
        Err(_) => other,
    }
}

/// The texts of one kind.
fn texts(kind: &'static str) -> impl Iterator<Item = Vec<u8>> {
    let seed = number("CUTS_SEED", SEED);
    (0..number("CUTS_TEXTS", TEXTS)).map(move |i| match kind {
        "tangle" => tangle(Rng::new(kind, seed, i)),
        _ => gen::text(kind, seed, i).unwrap(),
    })
}

/// One to three modules in which anything may read anything, many of them with dozens of loops.
fn tangle(mut r: Rng) -> Vec<u8> {
    let count = 1 + r.below(3);
    let starts = r.pick(&[3, 40, 1_000_000]);
    let modules = (0..count).map(|k| tangled(&mut r, k, count, starts));
    modules.collect::<String>().into_bytes()
}

/// Inputs 1 and 2, outputs 3 and 4, wires from 10 on, instances of later modules from 50 on.
fn tangled(r: &mut Rng, k: u64, count: u64, starts: u64) -> String {
    let wires = 10..13 + r.below(37);
    let insts = 50..50 + if k + 1 < count { 1 + r.below(2) } else { 0 };
    let mut read: Vec<String> = wires.clone().map(|n| format!("(n {n})")).collect();
    read.extend([1, 3, 4].map(|n| format!("(n {n})")));
    read.extend(insts.clone().map(|n| format!("(f (n {n}) 3)")));
    read.extend(insts.clone().map(|n| format!("(f (n {n}) 4)")));
    let mut out =
        format!("(module {k} bound)\n(kind 1 in)\n(kind 2 in)\n(kind 3 out)\n(kind 4 out)\n");
    let mut items = String::new();
    for n in wires {
        out += &format!("(kind {n} wire)\n");
        items += &format!("(wire {n} {} {})\n", some(r, &read), r.below(starts));
    }
    for n in [3, 4] {
        items += &format!("(port out {n} bit {})\n", r.below(starts));
        items += &format!("(drive (lv {n} {}) {})\n", r.below(starts), some(r, &read));
    }
    for n in insts {
        out += &format!("(kind {n} inst)\n");
        let module = k + 1 + r.below(count - k - 1);
        let conns = [1, 2].map(|port| format!(" (conn {port} {})", some(r, &read)));
        items += &format!(
            "(inst {n} - {module} {}{})\n",
            r.below(starts),
            conns.concat()
        );
    }
    out + &items
}

/// One to four of these reads.
fn some(r: &mut Rng, read: &[String]) -> String {
    let one = |r: &mut Rng| format!(" {}", read[r.below(read.len() as u64) as usize]);
    let reads: String = (0..1 + r.below(4)).map(|_| one(r)).collect();
    format!("(all{reads})")
}

/// Who prints the lines.
fn printers() -> Vec<(&'static str, Print)> {
    let mut printers = model_alone();
    printers.insert(0, ("the original", Box::new(original)));
    if let Ok(program) = env::var("CUTS_CHECKER") {
        let args = Vec::new();
        let command = CheckerCommand { program, args };
        let print = move |text: &[u8]| command.print(text).unwrap();
        printers.push(("the program", Box::new(print)));
    }
    printers
}

fn model_alone() -> Vec<(&'static str, Print)> {
    vec![("the model", Box::new(model::printed))]
}

/// What the original prints where it reads fields of signals too.
fn original(text: &[u8]) -> Vec<u8> {
    let rewritten = fields::rewritten(text);
    let read = rewritten.as_deref().unwrap_or(text);
    let lines = oracle::check(read).unwrap().into_iter();
    lines.map(|l| l + "\n").collect::<String>().into_bytes()
}

/// The walks of each module, in order, from the bytes that are printed for an accepted text.
fn walks(printed: &[u8], modules: usize) -> Vec<Vec<Walk>> {
    let mut found = vec![Vec::new(); modules];
    for line in lines(printed).expect("no final line feed") {
        assert!(line.starts_with("(E05"), "no report: {line}");
        if line.starts_with("(E0504") {
            let (m, walk) = loop_line(&line).unwrap_or_else(|| panic!("no loop report: {line}"));
            found[m].push(walk);
        }
    }
    found
}

/// Module and walk of a line `(E0504 M START (walk NODE ...))`; none where it is anything else.
fn loop_line(line: &str) -> Option<(usize, Walk)> {
    let inner = line.strip_prefix("(E0504 ")?.strip_suffix("))")?;
    let (place, nodes) = inner.split_once(" (walk ")?;
    let (m, start) = place.split_once(' ')?;
    let (m, start): (usize, u32) = (m.parse().ok()?, start.parse().ok()?);
    let mut words = nodes.split(' ');
    let walk: Walk = iter::from_fn(|| node(&mut words)).collect();
    let shown: Vec<String> = walk.iter().map(Node::to_string).collect();
    let again = format!("(E0504 {m} {start} (walk {}))", shown.join(" "));
    (again == line).then_some((m, walk))
}

/// The next node: a number, or `(u NAME INDEX NAME)`.
fn node<'a>(words: &mut impl Iterator<Item = &'a str>) -> Option<Node> {
    let word = words.next()?;
    if word != "(u" {
        return Some(Node::Sig(word.parse().ok()?));
    }
    let inst = words.next()?.parse().ok()?;
    let index = match words.next()? {
        "-" => None,
        value => Some(value.parse().ok()?),
    };
    let out = words.next()?.strip_suffix(')')?.parse().ok()?;
    Some(Node::InstOut { inst, index, out })
}

fn steps(walk: &Walk) -> impl Iterator<Item = Step> + '_ {
    walk.windows(2).map(|w| (w[0], w[1]))
}

fn first_step(walk: &Walk) -> Step {
    (walk[0], walk[1])
}

fn final_step(walk: &Walk) -> Step {
    (walk[walk.len() - 2], walk[walk.len() - 1])
}

/// Whether a step is from a summary: only instance lines head instance outputs.
fn is_from_summary(step: &Step) -> bool {
    matches!(step.0, Node::InstOut { .. })
}

/// Whether there is a closed walk. Nodes that no step leads to are taken away with their steps,
/// again and again, and some are left exactly where a walk closes.
fn closes<N: Ord>(steps: &[(N, N)]) -> bool {
    let mut next: BTreeMap<&N, Vec<&N>> = BTreeMap::new();
    let mut leading: BTreeMap<&N, usize> = BTreeMap::new();
    for (u, v) in steps {
        next.entry(u).or_default().push(v);
        leading.entry(u).or_default();
        *leading.entry(v).or_default() += 1;
    }
    let free = leading.iter().filter(|(_, &n)| n == 0);
    let mut free: Vec<&N> = free.map(|(&node, _)| node).collect();
    let mut taken = 0;
    while let Some(u) = free.pop() {
        taken += 1;
        for v in next.get(u).into_iter().flatten() {
            let left = leading.get_mut(v).unwrap();
            *left -= 1;
            if *left == 0 {
                free.push(v);
            }
        }
    }
    taken < leading.len()
}

/// Whether a closed walk is left when these steps are taken away.
fn closes_without(edges: &BTreeSet<Step>, cut: &BTreeSet<Step>) -> bool {
    closes(&edges.difference(cut).copied().collect::<Vec<_>>())
}

/// What is wrong with a module's walks, held against the edges that its search walks.
fn wrong(edges: &BTreeSet<Step>, walks: &[Walk]) -> Option<&'static str> {
    for walk in walks {
        if walk.len() < 2 || walk[0] != walk[walk.len() - 1] {
            return Some("a walk does not end where it begins");
        }
        if walk[1..].iter().collect::<BTreeSet<_>>().len() < walk.len() - 1 {
            return Some("a walk names another node twice");
        }
        if !steps(walk).all(|step| edges.contains(&step)) {
            return Some("a step is no edge");
        }
    }
    let cut: BTreeSet<Step> = walks.iter().map(final_step).collect();
    if cut.len() < walks.len() {
        return Some("a final step is reported twice");
    }
    closes_without(edges, &cut).then_some("a closed walk is left")
}

/// The first thing that is wrong in a text; nothing in one that is refused.
fn wrong_in_text(print: &Print, text: &[u8]) -> Option<&'static str> {
    let graphs = model::edges(text)?;
    let found = walks(&print(text), graphs.len());
    graphs
        .iter()
        .zip(&found)
        .find_map(|(edges, walks)| wrong(edges, walks))
}

/// Fails with a small text in which the same is wrong.
fn fail(text: &[u8], what: &str, is_wrong: impl FnMut(&[u8]) -> bool) -> ! {
    let small = shrink(text, 2_000, is_wrong);
    panic!("{what}:\n{}", String::from_utf8_lossy(&small));
}

/// What was seen, counted by name.
#[derive(Default)]
struct Seen(Vec<(&'static str, usize)>);

impl Seen {
    fn add(&mut self, what: &'static str, count: usize) {
        match self.0.iter_mut().find(|(name, _)| *name == what) {
            Some((_, sum)) => *sum += count,
            None => self.0.push((what, count)),
        }
    }

    fn get(&self, what: &str) -> usize {
        let found = self.0.iter().find(|(name, _)| *name == what);
        found.map_or(0, |(_, sum)| *sum)
    }
}

impl fmt::Display for Seen {
    fn fmt(&self, f: &mut fmt::Formatter) -> fmt::Result {
        let counts: Vec<String> = self.0.iter().map(|(n, sum)| format!("{n} {sum}")).collect();
        f.write_str(&counts.join(", "))
    }
}

/// Holds all texts, with the lines of each printer, and shows what was seen of each kind and of
/// all. Of each rich kind there have to be so many for a thousand texts.
fn hold_all(
    printers: Vec<(&str, Print)>,
    hold: fn(&Print, &[u8], &mut Seen),
    enough: &[(&'static str, usize)],
) {
    for (who, print) in printers {
        let mut all = Seen::default();
        for kind in KINDS {
            let mut seen = Seen::default();
            for text in texts(kind) {
                seen.add("texts", 1);
                hold(&print, &text, &mut seen);
            }
            println!("{who}, {kind}: {seen}");
            for (what, least) in enough.iter().filter(|_| RICH.contains(&kind)) {
                let many = seen.get(what) * 1_000 >= least * seen.get("texts");
                assert!(many, "too few: {what}, of {kind}");
            }
            seen.0.into_iter().for_each(|(what, n)| all.add(what, n));
        }
        println!("{who}, all: {all}");
    }
}

/// Holds the walks of each module of a text against its edges.
fn hold_walks(print: &Print, text: &[u8], seen: &mut Seen) {
    let Some(graphs) = model::edges(text) else {
        return;
    };
    seen.add("accepted", 1);
    let found = walks(&print(text), graphs.len());
    for (edges, walks) in graphs.iter().zip(&found) {
        if let Some(what) = wrong(edges, walks) {
            fail(text, what, |t| wrong_in_text(print, t) == Some(what));
        }
        see_walks(walks, seen);
    }
}

fn see_walks(walks: &[Walk], seen: &mut Seen) {
    let all: Vec<Step> = walks.iter().flat_map(steps).collect();
    let shared = all.iter().collect::<BTreeSet<_>>().len() < all.len();
    let summaries = walks.iter().map(final_step).filter(is_from_summary);
    seen.add("modules", 1);
    seen.add("modules with walks", (!walks.is_empty()) as usize);
    seen.add("walks", walks.len());
    seen.add("final steps from summaries", summaries.count());
    seen.add(SHARED, (walks.len() > 2 && shared) as usize);
    seen.add("modules with 24 walks or more", (walks.len() > 23) as usize);
}

const SHARED: &str = "modules with 3 walks or more of which two share a step";

#[test]
fn without_the_final_steps_no_closed_walk_is_left() {
    let enough = [
        ("walks", 1_000),
        ("final steps from summaries", 200),
        (SHARED, 10),
    ];
    hold_all(printers(), hold_walks, &enough);
}

/// The edges and walks of the modules that have walks.
fn looped(print: &Print, text: &[u8]) -> Vec<(BTreeSet<Step>, Vec<Walk>)> {
    let Some(graphs) = model::edges(text) else {
        return Vec::new();
    };
    let found = walks(&print(text), graphs.len());
    let modules = graphs.into_iter().zip(found);
    modules.filter(|(_, walks)| !walks.is_empty()).collect()
}

/// Cuts the first steps in place of the final ones.
fn cut_first(print: &Print, text: &[u8], seen: &mut Seen) {
    for (edges, walks) in looped(print, text) {
        let cut = walks.iter().map(first_step).collect();
        seen.add("modules with walks", 1);
        seen.add(STILL, closes_without(&edges, &cut) as usize);
    }
}

const STILL: &str = "a closed walk is left in";

#[test]
fn cutting_the_first_steps_is_not_always_enough() {
    hold_all(model_alone(), cut_first, &[(STILL, 5)]);
}

/// Cuts all final steps but one, for each. No walk has the final step of another, so the walk
/// whose final step is not cut is left.
fn cut_all_but_one(print: &Print, text: &[u8], seen: &mut Seen) {
    for (edges, walks) in looped(print, text) {
        let all: BTreeSet<Step> = walks.iter().map(final_step).collect();
        for spared in &all {
            let mut cut = all.clone();
            cut.remove(spared);
            assert!(closes_without(&edges, &cut), "{spared:?} can be spared");
            seen.add("walks", 1);
        }
    }
}

#[test]
fn no_final_step_can_be_spared() {
    hold_all(model_alone(), cut_all_but_one, &[("walks", 1_000)]);
}

/// The modules from which on the premises hold that demand 3 needs.
fn held(opened: &Opened) -> impl Iterator<Item = usize> + '_ {
    (0..opened.modules()).filter(|&m| {
        let p = opened.premises_from(m);
        p.not_inside_itself && p.inputs_not_wired && p.outputs_are_ports
    })
}

/// The design with those of the final steps taken away, in every copy of their modules, for which
/// `cut` holds.
fn cut_design(text: &[u8], found: &[Vec<Walk>], cut: impl Fn(usize, &Step) -> bool) -> Opened {
    let mut opened = model::opened(text).unwrap();
    for (k, walks) in found.iter().enumerate() {
        for step in walks.iter().map(final_step).filter(|step| cut(k, step)) {
            opened.cut(k, step.0, step.1);
        }
    }
    opened
}

/// Whether a walk closes among these signals.
fn opened_closes(opened: &Opened, m: usize, signals: &BTreeSet<Signal>) -> bool {
    let mut steps = Vec::new();
    for signal in signals {
        let reads = opened.reads(m, signal).into_iter();
        steps.extend(reads.map(|read| (signal.clone(), read)));
    }
    closes(&steps)
}

/// Whether, from some module on, a closed walk is left in the opened design.
fn left_in_text(print: &Print, text: &[u8]) -> bool {
    let Some(opened) = model::opened(text) else {
        return false;
    };
    let cut = cut_design(text, &walks(&print(text), opened.modules()), |_, _| true);
    let mut held = held(&opened).filter_map(|m| Some((m, opened.signals(m, SIGNALS)?)));
    held.any(|(m, signals)| opened_closes(&cut, m, &signals))
}

/// Holds the designs opened from the modules of a text, cut.
fn hold_opened(print: &Print, text: &[u8], seen: &mut Seen) {
    let Some(opened) = model::opened(text) else {
        return;
    };
    let found = walks(&print(text), opened.modules());
    let cut = cut_design(text, &found, |_, _| true);
    for m in held(&opened) {
        let Some(signals) = opened.signals(m, SIGNALS) else {
            seen.add("designs passed over", 1);
            continue;
        };
        if opened_closes(&cut, m, &signals) {
            fail(text, "a closed walk is left", |t| left_in_text(print, t));
        }
        let closed = opened_closes(&opened, m, &signals);
        see_opened(&opened.leads(m), &found, closed, seen);
    }
}

/// Counts a design in which a walk closed before the cut, or none.
fn see_opened(leads: &BTreeSet<usize>, found: &[Vec<Walk>], closed: bool, seen: &mut Seen) {
    let mut steps = leads.iter().flat_map(|&k| found[k].iter().map(final_step));
    let connection = steps.any(|step| is_from_summary(&step));
    seen.add("opened designs", 1);
    seen.add("cut", closed as usize);
    seen.add("cut, with copies", (closed && leads.len() > 1) as usize);
    seen.add("cut at a connection", (closed && connection) as usize);
}

#[test]
fn an_opened_design_without_the_final_steps_has_no_closed_walk() {
    let enough = [
        ("cut", 400),
        ("cut, with copies", 200),
        ("cut at a connection", 100),
    ];
    hold_all(printers(), hold_opened, &enough);
}

/// Cuts only some of the final steps: those of the module itself, and those that are not from a
/// summary.
fn cut_some_places(print: &Print, text: &[u8], seen: &mut Seen) {
    let Some(opened) = model::opened(text) else {
        return;
    };
    let found = walks(&print(text), opened.modules());
    for m in held(&opened).filter(|&m| !opened.inside(m).is_empty()) {
        let Some(signals) = opened.signals(m, SIGNALS) else {
            continue;
        };
        let own = cut_design(text, &found, |k, _| k == m);
        let plain = cut_design(text, &found, |_, step| !is_from_summary(step));
        seen.add("opened designs with copies", 1);
        seen.add(OWN, opened_closes(&own, m, &signals) as usize);
        seen.add(PLAIN, opened_closes(&plain, m, &signals) as usize);
    }
}

const OWN: &str = "still closed, cut in the module alone";
const PLAIN: &str = "still closed, cut in wire and drive lines alone";

#[test]
fn cutting_some_places_of_an_opened_design_is_not_enough() {
    hold_all(model_alone(), cut_some_places, &[(OWN, 50), (PLAIN, 50)]);
}

/// Original and model print these reports and no other; nothing is wrong with their walks.
#[track_caller]
fn checked(text: &str, reports: &[&str]) -> (Vec<BTreeSet<Step>>, Vec<Vec<Walk>>) {
    let printed: String = reports.iter().map(|r| format!("{r}\n")).collect();
    for (who, print) in printers() {
        assert_eq!(print(text.as_bytes()), printed.as_bytes(), "{who}");
        assert_eq!(wrong_in_text(&print, text.as_bytes()), None, "{who}");
        assert!(!left_in_text(&print, text.as_bytes()), "{who}");
    }
    let graphs = model::edges(text.as_bytes()).unwrap();
    let found = walks(printed.as_bytes(), graphs.len());
    (graphs, found)
}

#[test]
fn walks_that_share_a_step() {
    let text = "\
(module 0 bound)
(kind 1 wire)
(kind 2 wire)
(kind 3 wire)
(wire 1 (n 2) 10)
(wire 2 (all (n 1) (n 3)) 20)
(wire 3 (all (n 1) (n 3)) 30)
";
    let reports = [
        "(E0504 0 30 (walk 3 3))",
        "(E0504 0 10 (walk 1 2 3 1))",
        "(E0504 0 10 (walk 1 2 1))",
    ];
    let (graphs, found) = checked(text, &reports);
    let sig = |(u, v)| (Node::Sig(u), Node::Sig(v));
    let cut: BTreeSet<Step> = found[0].iter().map(final_step).collect();
    assert_eq!(cut, [(3, 3), (3, 1), (2, 1)].map(sig).into());
    assert_eq!(&graphs[0] - &cut, [(1, 2), (2, 3)].map(sig).into());
    let mut seen = Seen::default();
    see_walks(&found[0], &mut seen);
    assert_eq!(seen.get(SHARED), 1);
}

#[test]
fn one_walk_and_two_loops_through_its_final_step() {
    let text = "\
(module 0 bound)
(kind 1 wire)
(kind 2 wire)
(kind 3 wire)
(wire 1 (all (n 2) (n 3)) 10)
(wire 2 (n 1) 30)
(wire 3 (n 2) 20)
";
    let (graphs, found) = checked(text, &["(E0504 0 10 (walk 1 2 1))"]);
    let first = first_step(&found[0][0]);
    assert!(closes_without(&graphs[0], &[first].into()));
}

#[test]
fn a_cut_connection_and_a_cut_in_the_copy() {
    let text = "\
(module 0 bound)
(kind 2 wire)
(kind 5 inst)
(wire 2 (f (ix (n 5) (neg 1)) 3) 10)
(inst 5 (neg 1) 1 20 (conn 1 (n 2)) (conn 6 (n 2)))
(module 1 bound)
(kind 1 in)
(kind 3 out)
(kind 4 wire)
(kind 6 in)
(port out 3 bit 30)
(drive (lv 3 40) (all (n 1) (n 4) (n 6)))
(wire 4 (n 3) 50)
";
    let outer = "(E0504 0 10 (walk 2 (u 5 -1 3) 2))";
    let (_, found) = checked(text, &[outer, "(E0504 1 40 (walk 3 4 3))"]);
    let output = Node::InstOut {
        inst: 5,
        index: Some(-1),
        out: 3,
    };
    assert_eq!(final_step(&found[0][0]), (output, Node::Sig(2)));
    let signals = model::opened(text.as_bytes()).unwrap().signals(0, SIGNALS);
    for kept in [0, 1] {
        let cut = cut_design(text.as_bytes(), &found, |k, _| k != kept);
        assert!(opened_closes(&cut, 0, signals.as_ref().unwrap()));
    }
}

#[test]
fn lines_that_are_no_loop_reports() {
    let nodes = "3 (u 4 - 5) (u 4 0 5) (u 4 -2 5) 3";
    let (m, walk) = loop_line(&format!("(E0504 2 7 (walk {nodes}))")).unwrap();
    assert_eq!((m, walk.len()), (2, 5));
    for bad in [
        "(E0504 2 7 (walk 3 3)",
        "(E0504 2 7 (walk 3  3))",
        "(E0504 2 7 (walk 3 x 3))",
        "(E0504 2 7 (walk 3 (u 4 - 5 3))",
        "(E0504 2 7 (walk 3 (u 4 5) 3))",
        "(E0504 2 (walk 3 3))",
        "(E0504 02 7 (walk 3 3))",
        "(E0504 2 7 (walk +3 3))",
    ] {
        assert_eq!(loop_line(bad), None, "{bad}");
    }
}

#[test]
fn what_is_wrong_is_seen() {
    let steps = |s: &[(u32, u32)]| {
        s.iter()
            .map(|&(u, v)| (Node::Sig(u), Node::Sig(v)))
            .collect()
    };
    let walk = |w: &[u32]| w.iter().map(|&n| Node::Sig(n)).collect::<Walk>();
    let edges: BTreeSet<Step> = steps(&[(1, 2), (2, 1), (2, 3), (3, 2), (1, 4), (4, 1)]);
    let three = [walk(&[1, 2, 1]), walk(&[2, 3, 2]), walk(&[1, 4, 1])];
    assert_eq!(wrong(&edges, &three), None);
    let is = |walks: &[Walk], what| assert_eq!(wrong(&edges, walks), Some(what));
    is(&[walk(&[1])], "a walk does not end where it begins");
    is(&[walk(&[1, 2])], "a walk does not end where it begins");
    is(&[walk(&[1, 2, 3, 2, 1])], "a walk names another node twice");
    is(&[walk(&[1, 2, 1, 4, 1])], "a walk names another node twice");
    is(&[walk(&[1, 3, 1])], "a step is no edge");
    is(
        &[three[0].clone(), three[0].clone()],
        "a final step is reported twice",
    );
    is(&three[1..], "a closed walk is left");
    is(&[], "a closed walk is left");
}

#[test]
fn closed_walks() {
    assert!(!closes::<u32>(&[]));
    assert!(closes(&[(1, 1)]));
    assert!(!closes(&[(1, 2), (1, 3), (2, 4), (3, 4), (3, 4)]));
    assert!(closes(&[(0, 1), (1, 2), (2, 3), (3, 1), (3, 4)]));
}
