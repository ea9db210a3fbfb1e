//! The opened design (01, "The edge"): copies, signals and what they read; the premises of the
//! claim about loops and rest.

pub use super::edge::Node;
use super::full::Full;
use super::tree::*;
use super::value::{eval, module_table, Table};
use std::collections::{BTreeMap, BTreeSet};

/// A node of a copy; the copy is the positions of the instance lines that lead to it, outermost
/// first.
pub type Signal = (Vec<usize>, Node);

/// The rounds that a module has for all its repeats.
const MODULE_ROUNDS: i128 = 4_096;

/// A collected instance line whose module exists.
struct Instance {
    name: Name,
    index: Option<i128>,
    module: usize,
    /// The port of each connection to an input, and what it reads; nothing reads another.
    conns: Vec<(Name, Vec<Node>)>,
}

/// The collected lines of a module that head or instance something.
#[derive(Default)]
struct Lines {
    /// What wire and drive lines head, and what they read.
    heads: BTreeMap<Node, Vec<Node>>,
    /// The names of wire lines.
    wired: BTreeSet<Name>,
    instances: Vec<Instance>,
}

impl Lines {
    /// All that is read, by what heads something and by connections to inputs.
    fn read(&self) -> impl Iterator<Item = &Node> {
        let conns = self.instances.iter().flat_map(|i| &i.conns);
        let connected = conns.flat_map(|(_, reads)| reads);
        self.heads.values().flatten().chain(connected)
    }
}

/// The premises, the second in its two halves.
#[derive(Clone, Copy, Debug, PartialEq, Eq)]
pub struct Premises {
    pub not_inside_itself: bool,
    pub inputs_not_wired: bool,
    pub registers_not_wired: bool,
    pub inputs_no_ports: bool,
    pub outputs_are_ports: bool,
}

/// A design, ready to be opened from any of its modules.
pub struct Opened {
    design: Vec<Module>,
    lines: Vec<Lines>,
}

impl Opened {
    /// The lines of each module under its own `val` lines.
    pub(super) fn new(design: Vec<Module>) -> Result<Opened, Full> {
        let mut lines = Vec::new();
        for module in &design {
            let mut collected = Lines::default();
            let mut table = module_table(module)?;
            let items = &module.items;
            collect(
                &mut collected,
                &design,
                module,
                items,
                &mut table,
                MODULE_ROUNDS,
            )?;
            lines.push(collected);
        }
        Ok(Opened { design, lines })
    }

    pub fn modules(&self) -> usize {
        self.design.len()
    }

    /// The premises of the whole text.
    pub fn premises(&self) -> Premises {
        self.premises_of(&(0..self.modules()).collect())
    }

    /// The premises from module `m` on: no other module bears on the design opened from it.
    pub fn premises_from(&self, m: usize) -> Premises {
        self.premises_of(&self.leads(m))
    }

    fn premises_of(&self, modules: &BTreeSet<usize>) -> Premises {
        let none = |breaks: fn(&Opened, usize) -> bool| !modules.iter().any(|&k| breaks(self, k));
        Premises {
            not_inside_itself: none(Opened::contains_itself),
            inputs_not_wired: none(|opened, k| opened.wires(k, Kind::In)),
            registers_not_wired: none(|opened, k| opened.wires(k, Kind::Reg)),
            inputs_no_ports: none(Opened::input_is_port),
            outputs_are_ports: none(Opened::reads_what_is_no_port),
        }
    }

    /// The modules that collected instance lines of `m` lead to.
    pub fn inside(&self, m: usize) -> BTreeSet<usize> {
        let mut found = BTreeSet::new();
        let mut open = vec![m];
        while let Some(k) = open.pop() {
            for i in &self.lines[k].instances {
                if found.insert(i.module) {
                    open.push(i.module);
                }
            }
        }
        found
    }

    /// The same, and `m` itself.
    pub fn leads(&self, m: usize) -> BTreeSet<usize> {
        let mut found = self.inside(m);
        found.insert(m);
        found
    }

    fn contains_itself(&self, k: usize) -> bool {
        self.inside(k).contains(&k)
    }

    /// Whether a wire line heads a name of this kind.
    fn wires(&self, k: usize, kind: Kind) -> bool {
        let mut wired = self.lines[k].wired.iter();
        wired.any(|name| self.design[k].kinds.get(name) == Some(&kind))
    }

    /// Whether an out port has the name of an input.
    fn input_is_port(&self, k: usize) -> bool {
        let module = &self.design[k];
        ports(module).any(|name| module.kinds.get(&name) == Some(&Kind::In))
    }

    /// Whether an instance output is read that is no out port of a module so instanced.
    fn reads_what_is_no_port(&self, k: usize) -> bool {
        let lines = &self.lines[k];
        lines.read().any(|node| match *node {
            Node::Sig(_) => false,
            Node::InstOut { inst, index, out } => {
                let mut named = lines.instances.iter();
                named.any(|i| {
                    (i.name, i.index) == (inst, index)
                        && ports(&self.design[i.module]).all(|port| port != out)
                })
            }
        })
    }

    /// Takes a step away from module `k`, and so from each copy of it: the wire and drive lines that
    /// head `u` no longer read `v`; where `u` is an instance output, the connections to inputs of
    /// the instances with its name and index no longer read `v`.
    pub fn cut(&mut self, k: usize, u: Node, v: Node) {
        let lines = &mut self.lines[k];
        if let Some(reads) = lines.heads.get_mut(&u) {
            reads.retain(|&read| read != v);
        }
        let Node::InstOut { inst, index, .. } = u else {
            return;
        };
        let all = lines.instances.iter_mut();
        for i in all.filter(|i| (i.name, i.index) == (inst, index)) {
            for (_, reads) in &mut i.conns {
                reads.retain(|&read| read != v);
            }
        }
    }

    /// The module of a copy.
    fn module_of(&self, m: usize, copy: &[usize]) -> usize {
        copy.iter()
            .fold(m, |k, &at| self.lines[k].instances[at].module)
    }

    /// What a signal reads in the design opened from module `m`.
    pub fn reads(&self, m: usize, signal: &Signal) -> Vec<Signal> {
        let (copy, node) = signal;
        let k = self.module_of(m, copy);
        let own = self.lines[k].heads.get(node).into_iter().flatten();
        let mut found: Vec<Signal> = own.map(|&read| (copy.clone(), read)).collect();
        match *node {
            Node::Sig(name) => {
                if let Some((&at, outer)) = copy.split_last() {
                    if self.design[k].kinds.get(&name) == Some(&Kind::In) {
                        let o = self.module_of(m, outer);
                        let conns = self.lines[o].instances[at].conns.iter();
                        let to = conns.filter(|(port, _)| *port == name);
                        found.extend(to.flat_map(|(_, r)| r.iter().map(|&n| (outer.to_vec(), n))));
                    }
                }
            }
            Node::InstOut { inst, index, out } => {
                for (at, i) in self.lines[k].instances.iter().enumerate() {
                    if (i.name, i.index) == (inst, index) {
                        found.push(([&copy[..], &[at]].concat(), Node::Sig(out)));
                    }
                }
            }
        }
        found
    }

    /// All signals of the design opened from `m`, each once; none where a module contains itself
    /// or there are more than `limit`.
    pub fn signals(&self, m: usize, limit: usize) -> Option<BTreeSet<Signal>> {
        if !self.premises_from(m).not_inside_itself {
            return None;
        }
        let mut found = BTreeSet::new();
        let mut open = vec![Vec::new()];
        while let Some(copy) = open.pop() {
            let k = self.module_of(m, &copy);
            for node in self.nodes(k) {
                let signal = (copy.clone(), node);
                found.extend(self.reads(m, &signal));
                found.insert(signal);
            }
            let copies = 0..self.lines[k].instances.len();
            open.extend(copies.map(|at| [&copy[..], &[at]].concat()));
            if found.len() + open.len() > limit {
                return None;
            }
        }
        Some(found)
    }

    /// What is headed or read in a module, and its inputs. An instance line heads too: the
    /// top-level outputs of its module, whether or not they are read.
    fn nodes(&self, k: usize) -> BTreeSet<Node> {
        let lines = &self.lines[k];
        let mut nodes: BTreeSet<Node> = lines.heads.keys().copied().collect();
        nodes.extend(lines.read());
        nodes.extend(lines.instances.iter().flat_map(|i| self.outputs(i)));
        let kinds = self.design[k].kinds.iter();
        nodes.extend(
            kinds
                .filter(|(_, &kind)| kind == Kind::In)
                .map(|(&n, _)| Node::Sig(n)),
        );
        nodes
    }

    /// The outputs that an instance line heads.
    fn outputs<'a>(&'a self, i: &'a Instance) -> impl Iterator<Item = Node> + 'a {
        ports(&self.design[i.module]).map(|out| Node::InstOut {
            inst: i.name,
            index: i.index,
            out,
        })
    }

    /// Whether a walk closes among these signals: they are taken away, again and again, where
    /// they read none that is left.
    pub fn closes(&self, m: usize, signals: &BTreeSet<Signal>) -> bool {
        let mut left = signals.clone();
        loop {
            let before = left.len();
            let now = left.clone();
            left.retain(|s| self.reads(m, s).iter().any(|r| now.contains(r)));
            if left.len() == before {
                return before > 0;
            }
        }
    }
}

/// The names of top-level out ports.
fn ports(module: &Module) -> impl Iterator<Item = Name> + '_ {
    module.items.iter().filter_map(|item| match item {
        Item::PortOut { name, .. } => Some(*name),
        _ => None,
    })
}

/// Collects items with `left` rounds, and gives the rounds left.
fn collect(
    lines: &mut Lines,
    design: &[Module],
    module: &Module,
    items: &[Item],
    table: &mut Table,
    left: i128,
) -> Result<i128, Full> {
    let mut left = left;
    for item in items {
        match item {
            Item::Wire { name, init, .. } => {
                lines.wired.insert(*name);
                head(lines, *name, reads(module, table, &[init])?);
            }
            Item::Drive { lhs, rhs } => {
                if let Some(Kind::Out | Kind::Wire) = module.kinds.get(&lhs.name) {
                    let mut parts = vec![rhs];
                    match &lhs.index {
                        LvIndex::None => {}
                        LvIndex::Bit(bit) => parts.push(bit),
                        LvIndex::HighLow(high, low) => parts.extend([high, low]),
                    }
                    head(lines, lhs.name, reads(module, table, &parts)?);
                }
            }
            Item::Inst(i) if i.module < design.len() => {
                let index = match &i.index {
                    Some(e) => eval(e, table)?,
                    None => None,
                };
                let kinds = &design[i.module].kinds;
                let mut conns = Vec::new();
                for (port, signal) in &i.conns {
                    if kinds.get(port) == Some(&Kind::In) {
                        conns.push((*port, reads(module, table, &[signal])?));
                    }
                }
                lines.instances.push(Instance {
                    name: i.name,
                    index,
                    module: i.module,
                    conns,
                });
            }
            Item::Repeat { var, lo, hi, items } => {
                left = match (eval(lo, table)?, eval(hi, table)?) {
                    (Some(lo), Some(hi)) if hi - lo <= left => {
                        let mut left = left - (hi - lo).max(0);
                        for v in lo..hi {
                            let mut inner = table.clone();
                            inner.put(*var, Some(v));
                            left = collect(lines, design, module, items, &mut inner, left)?;
                        }
                        left
                    }
                    _ => collect(lines, design, module, items, table, left)?,
                };
            }
            Item::ConstIf { cond, then, els } => {
                let taken = match eval(cond, table)? {
                    None | Some(0) => els,
                    Some(_) => then,
                };
                left = collect(lines, design, module, taken, table, left)?;
            }
            _ => {}
        }
    }
    Ok(left)
}

fn head(lines: &mut Lines, name: Name, reads: Vec<Node>) {
    lines
        .heads
        .entry(Node::Sig(name))
        .or_default()
        .extend(reads);
}

/// What expressions read.
fn reads(module: &Module, table: &Table, exprs: &[&Expr]) -> Result<Vec<Node>, Full> {
    let mut found = Vec::new();
    for e in exprs {
        match e {
            Expr::Int(_) | Expr::Bool(_) => {}
            Expr::Ident(name) => {
                if let Some(Kind::In | Kind::Out | Kind::Wire) = module.kinds.get(name) {
                    found.push(Node::Sig(*name));
                }
            }
            Expr::Field(base, out) => found.extend(field(module, table, base, *out)?),
            Expr::Unary(_, x) => found.extend(reads(module, table, &[x])?),
            Expr::Index(x, y) | Expr::Binary(_, x, y) => {
                found.extend(reads(module, table, &[x, y])?)
            }
            Expr::If(x, y, z) => found.extend(reads(module, table, &[x, y, z])?),
            Expr::All(parts) => {
                found.extend(reads(module, table, &parts.iter().collect::<Vec<_>>())?);
            }
        }
    }
    Ok(found)
}

/// What a field reads: of an instance, indexed or not, that output, and nothing where the index has
/// no value; of anything else what that reads.
fn field(module: &Module, table: &Table, base: &Expr, out: Name) -> Result<Vec<Node>, Full> {
    let (core, at) = match base {
        Expr::Index(core, at) => (&**core, Some(at)),
        _ => (base, None),
    };
    let inst = match core {
        Expr::Ident(name) if module.kinds.get(name) == Some(&Kind::Inst) => *name,
        _ => return reads(module, table, &[base]),
    };
    let index = match at {
        None => None,
        Some(e) => match eval(e, table)? {
            None => return Ok(Vec::new()),
            value => value,
        },
    };
    Ok(vec![Node::InstOut { inst, index, out }])
}
