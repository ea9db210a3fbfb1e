//! Collection, sites, blocks, edges and summaries (01, "The collected item" to "The edge").

use super::edge::{Graph, Node};
use super::full::{Full, Outside, Reason};
use super::report::{report_module, Reports};
use super::tree::*;
use super::value::{eval, module_table, Table};
use std::collections::{BTreeMap, BTreeSet};
use std::rc::Rc;

/// The rounds that a module has for all its repeats.
const MODULE_ROUNDS: i128 = 4_096;
const MAX_SITES: usize = 1_024;
const MAX_BLOCKS: usize = 512;
const MAX_TRIPLES: usize = 1_024;

/// The bits of an output that one site drives.
#[derive(Clone, Copy)]
pub enum Extent {
    Whole,
    Range(i128, i128),
    Dynamic,
    Unknown,
}

#[derive(Clone, Copy)]
pub struct Site {
    pub name: Name,
    pub extent: Extent,
    pub start: Start,
}

/// The state of one collection of one module.
pub struct Dcx<'a> {
    pub number: usize,
    module: &'a Module,
    /// The text line that is being collected.
    line: u32,
    /// The module's own check reports; a summary's collection does not.
    reporting: bool,
    pub table: Table,
    /// In collected order, all names together.
    pub sites: Vec<Site>,
    /// Pairs of name and block.
    pub blocks: BTreeSet<(Name, Start)>,
    pub poisoned: BTreeSet<Name>,
    /// Outputs, regs and mems by their first collected line, in that order; outputs with its
    /// number.
    pub outs: Vec<(Name, &'a Type, Start, u32)>,
    pub regs: Vec<(Name, Start)>,
    pub mems: Vec<(Name, Start)>,
    pub graph: Graph,
}

/// Output to the inputs that it reaches; outputs that reach none are absent.
type Summary = Rc<BTreeMap<Name, BTreeSet<Name>>>;

/// What all modules' checks share: the reports and the table of summaries.
struct Checker<'a> {
    design: &'a [Module],
    reports: Reports,
    summaries: BTreeMap<usize, Summary>,
    in_progress: BTreeSet<usize>,
    shifted_by_zero: bool,
}

pub struct Checked {
    pub reports: Reports,
    pub rounds: u64,
    /// Whether anywhere a positive number was shifted right by 0.
    pub shifted_by_zero: bool,
    /// Each module's own graph, for `ties`.
    pub graphs: Vec<Graph>,
}

/// The modules in order, each by its own check.
pub fn check_drivers(design: &[Module]) -> Result<Checked, Full> {
    let mut checker = Checker {
        design,
        reports: Reports::default(),
        summaries: BTreeMap::new(),
        in_progress: BTreeSet::new(),
        shifted_by_zero: false,
    };
    let mut rounds = 0;
    let mut graphs = Vec::new();
    for number in 0..design.len() {
        let (spent, graph) = checker.check_module_drivers(number)?;
        rounds += spent;
        graphs.push(graph);
    }
    Ok(Checked {
        reports: checker.reports,
        rounds,
        shifted_by_zero: checker.shifted_by_zero,
        graphs,
    })
}

impl<'a> Checker<'a> {
    /// A module's own check; it does not count as summarising the module.
    fn check_module_drivers(&mut self, number: usize) -> Result<(u64, Graph), Full> {
        let mut dcx = self.context(number, true)?;
        let left = self.collect_module(&mut dcx)?;
        report_module(&mut dcx, &mut self.reports).map_err(|full| full.inside(number, true))?;
        self.shifted_by_zero |= dcx.table.shifted_by_zero();
        Ok(((MODULE_ROUNDS - left) as u64, dcx.graph))
    }

    fn context(&self, number: usize, reporting: bool) -> Result<Dcx<'a>, Full> {
        let module = &self.design[number];
        Ok(Dcx {
            number,
            module,
            reporting,
            line: 0,
            table: module_table(module).map_err(|full| full.inside(number, reporting))?,
            sites: Vec::new(),
            blocks: BTreeSet::new(),
            poisoned: BTreeSet::new(),
            outs: Vec::new(),
            regs: Vec::new(),
            mems: Vec::new(),
            graph: Graph::default(),
        })
    }

    /// Collects all lines of the context's module; gives the rounds left afterwards.
    fn collect_module(&mut self, dcx: &mut Dcx<'a>) -> Result<i128, Full> {
        let module = dcx.module;
        let mut left = MODULE_ROUNDS;
        for (item, &line) in module.items.iter().zip(&module.lines) {
            dcx.line = line;
            left = self
                .collect_item(dcx, item, left)
                .map_err(|full| full.on(line).inside(dcx.number, dcx.reporting))?;
        }
        Ok(left)
    }

    /// Collects the items with `left` rounds; gives the rounds left afterwards.
    fn collect_items(
        &mut self,
        dcx: &mut Dcx<'a>,
        items: &'a [Item],
        left: i128,
    ) -> Result<i128, Full> {
        let mut left = left;
        for item in items {
            left = self.collect_item(dcx, item, left)?;
        }
        Ok(left)
    }

    fn collect_item(
        &mut self,
        dcx: &mut Dcx<'a>,
        item: &'a Item,
        left: i128,
    ) -> Result<i128, Full> {
        match item {
            Item::PortIn | Item::Const { .. } => {}
            Item::PortOut { name, ty, start } => {
                if dcx.outs.iter().all(|(n, ..)| n != name) {
                    dcx.outs.push((*name, ty, *start, dcx.line));
                }
            }
            Item::Reg { name, start } => add_first(&mut dcx.regs, *name, *start),
            Item::Mem { name, start } => add_first(&mut dcx.mems, *name, *start),
            Item::Wire { name, init, start } => {
                let reads = reads_of(dcx, &[init])?;
                dcx.graph.add(Node::Sig(*name), *start, &reads)?;
            }
            Item::Drive { lhs, rhs } => self.drive(dcx, lhs, rhs)?,
            Item::On { start, body } => self.on_block(dcx, *start, body)?,
            Item::Inst(inst) => self.inst_edges(dcx, inst)?,
            Item::Repeat { var, lo, hi, items } => {
                return self.repeat(dcx, *var, (lo, hi), items, left);
            }
            Item::ConstIf { cond, then, els } => {
                let taken = match eval(cond, &dcx.table)? {
                    None | Some(0) => els,
                    Some(_) => then,
                };
                return self.collect_items(dcx, taken, left);
            }
        }
        Ok(left)
    }

    /// Rounds are spent before the body runs; where they cannot be, the body runs once and the
    /// variable is not set. Both bounds are always evaluated.
    fn repeat(
        &mut self,
        dcx: &mut Dcx<'a>,
        var: Name,
        bounds: (&Expr, &Expr),
        items: &'a [Item],
        left: i128,
    ) -> Result<i128, Full> {
        let lo = eval(bounds.0, &dcx.table)?;
        let hi = eval(bounds.1, &dcx.table)?;
        let (lo, hi) = match (lo, hi) {
            (Some(lo), Some(hi)) if hi - lo <= left => (lo, hi),
            _ => return self.collect_items(dcx, items, left),
        };
        let mut left = left - (hi - lo).max(0);
        let old = dcx.table.get(var);
        for v in lo..hi {
            dcx.table.put(var, Some(v));
            left = self.collect_items(dcx, items, left)?;
        }
        dcx.table.put(var, old);
        Ok(left)
    }

    /// A drive goes by the kind of its name (01, "The site").
    fn drive(&mut self, dcx: &mut Dcx, lhs: &LValue, rhs: &Expr) -> Result<(), Full> {
        match dcx.module.kinds.get(&lhs.name) {
            Some(Kind::Out) => {
                let extent = lvalue_extent(dcx, &lhs.index)?;
                add_site(dcx, lhs, extent)?;
            }
            Some(Kind::Wire) => self.poison(dcx, "E0501", lhs.start, lhs.name, "wire"),
            Some(Kind::Reg) => {
                self.poison(dcx, "E0505", lhs.start, lhs.name, "reg");
                return Ok(());
            }
            Some(Kind::Mem) => {
                self.poison(dcx, "E0505", lhs.start, lhs.name, "mem");
                return Ok(());
            }
            Some(Kind::In | Kind::Inst) | None => return Ok(()),
        }
        let read = match &lhs.index {
            LvIndex::None => vec![rhs],
            LvIndex::Bit(bit) => vec![rhs, bit],
            LvIndex::HighLow(hi, lo) => vec![rhs, hi, lo],
        };
        let reads = reads_of(dcx, &read)?;
        dcx.graph.add(Node::Sig(lhs.name), lhs.start, &reads)
    }

    /// The reports of collection: once a name, which is poisoned.
    fn poison(&mut self, dcx: &mut Dcx, code: &str, start: Start, name: Name, detail: &str) {
        if dcx.reporting && dcx.poisoned.insert(name) {
            self.reports.add(code, dcx.number, start, name, detail);
        }
    }

    /// `set` on reg or mem and `default` on reg count; `set` on wire or out is E0505 `arrow`.
    fn on_block(&mut self, dcx: &mut Dcx, block: Start, body: &[Seq]) -> Result<(), Full> {
        for s in body {
            match s {
                Seq::Set { name, start } => match dcx.module.kinds.get(name) {
                    Some(Kind::Reg | Kind::Mem) => add_block(dcx, *name, block)?,
                    Some(Kind::Wire | Kind::Out) => {
                        self.poison(dcx, "E0505", *start, *name, "arrow");
                    }
                    Some(Kind::In | Kind::Inst) | None => {}
                },
                Seq::Default { name } => {
                    if dcx.module.kinds.get(name) == Some(&Kind::Reg) {
                        add_block(dcx, *name, block)?;
                    }
                }
                Seq::Loop(body) => self.on_block(dcx, block, body)?,
                Seq::When(then, els) => {
                    self.on_block(dcx, block, then)?;
                    self.on_block(dcx, block, els)?;
                }
            }
        }
        Ok(())
    }

    /// The line heads every output in the summary, with reads or without; each leads to the reads
    /// of the connections to the inputs that it reaches.
    fn inst_edges(&mut self, dcx: &mut Dcx, inst: &Inst) -> Result<(), Full> {
        let summary = self.comb_summary(inst.module)?;
        let index = match &inst.index {
            Some(e) => eval(e, &dcx.table)?,
            None => None,
        };
        for (&out, ins) in summary.iter() {
            let conns = inst.conns.iter().filter(|(name, _)| ins.contains(name));
            let signals: Vec<&Expr> = conns.map(|(_, signal)| signal).collect();
            let reads = reads_of(dcx, &signals)?;
            let node = Node::InstOut {
                inst: inst.name,
                index,
                out,
            };
            dcx.graph.add(node, inst.start, &reads)?;
        }
        Ok(())
    }

    /// Made when first needed and then kept; a missing module or one already being summarised has
    /// an empty one, and that is not kept.
    fn comb_summary(&mut self, number: usize) -> Result<Summary, Full> {
        if let Some(kept) = self.summaries.get(&number) {
            return Ok(kept.clone());
        }
        if number >= self.design.len() || self.in_progress.contains(&number) {
            return Ok(Summary::default());
        }
        self.in_progress.insert(number);
        let mut dcx = self.context(number, false)?;
        self.collect_module(&mut dcx)?;
        self.in_progress.remove(&number);
        self.shifted_by_zero |= dcx.table.shifted_by_zero();
        self.summaries
            .insert(number, Rc::new(outputs_to_inputs(&dcx)));
        self.check_triples(number)?;
        Ok(self.summaries[&number].clone())
    }

    /// A triple is one different (module, output, input), over all kept summaries.
    fn check_triples(&self, number: usize) -> Result<(), Full> {
        let triples: usize = self
            .summaries
            .values()
            .flat_map(|s| s.values())
            .map(BTreeSet::len)
            .sum();
        if triples > MAX_TRIPLES {
            return Err(Full::from(Reason::Triples).inside(number, false));
        }
        Ok(())
    }
}

/// The in-kind names that each top-level output reaches, stopping there.
fn outputs_to_inputs(dcx: &Dcx) -> BTreeMap<Name, BTreeSet<Name>> {
    let is_in = |name| dcx.module.kinds.get(&name) == Some(&Kind::In);
    let mut summary = BTreeMap::new();
    for item in &dcx.module.items {
        if let Item::PortOut { name, .. } = item {
            let ins = dcx.graph.reached(Node::Sig(*name), is_in);
            if !ins.is_empty() {
                summary.insert(*name, ins);
            }
        }
    }
    summary
}

/// Regs and mems count by their first collected line.
fn add_first(lines: &mut Vec<(Name, Start)>, name: Name, start: Start) {
    if lines.iter().all(|&(n, _)| n != name) {
        lines.push((name, start));
    }
}

fn add_site(dcx: &mut Dcx, lhs: &LValue, extent: Extent) -> Result<(), Full> {
    dcx.sites.push(Site {
        name: lhs.name,
        extent,
        start: lhs.start,
    });
    if dcx.sites.len() > MAX_SITES {
        return Err(Reason::Sites.into());
    }
    Ok(())
}

/// A block is its START, repeats or not.
fn add_block(dcx: &mut Dcx, name: Name, block: Start) -> Result<(), Full> {
    dcx.blocks.insert((name, block));
    if dcx.blocks.len() > MAX_BLOCKS {
        return Err(Reason::Pairs.into());
    }
    Ok(())
}

/// Both indexes of an output's LV are always evaluated.
fn lvalue_extent(dcx: &Dcx, index: &LvIndex) -> Result<Extent, Outside> {
    let (hi, lo) = match index {
        LvIndex::None => return Ok(Extent::Whole),
        LvIndex::Bit(bit) => {
            let v = eval(bit, &dcx.table)?;
            (v, v)
        }
        LvIndex::HighLow(hi, lo) => (eval(hi, &dcx.table)?, eval(lo, &dcx.table)?),
    };
    Ok(match (hi, lo) {
        (Some(hi), Some(lo)) if hi >= lo && lo >= 0 => Extent::Range(lo, hi),
        _ if dcx.module.bound => Extent::Dynamic,
        _ => Extent::Unknown,
    })
}

fn reads_of(dcx: &Dcx, exprs: &[&Expr]) -> Result<Vec<Node>, Outside> {
    let mut reads = Vec::new();
    for e in exprs {
        expr_reads(dcx, e, &mut reads)?;
    }
    Ok(reads)
}

/// All that an expression reads (01, "The edge").
fn expr_reads(dcx: &Dcx, e: &Expr, reads: &mut Vec<Node>) -> Result<(), Outside> {
    match e {
        Expr::Int(_) | Expr::Bool(_) => {}
        Expr::Ident(name) => {
            if let Some(Kind::In | Kind::Out | Kind::Wire) = dcx.module.kinds.get(name) {
                reads.push(Node::Sig(*name));
            }
        }
        Expr::Field(base, out) => match instance(dcx, base) {
            Some((inst, at)) => reads.extend(output_read(dcx, inst, at, *out)?),
            None => expr_reads(dcx, base, reads)?,
        },
        Expr::Unary(_, x) => expr_reads(dcx, x, reads)?,
        Expr::Index(x, y) | Expr::Binary(_, x, y) => {
            expr_reads(dcx, x, reads)?;
            expr_reads(dcx, y, reads)?;
        }
        Expr::If(x, y, z) => {
            expr_reads(dcx, x, reads)?;
            expr_reads(dcx, y, reads)?;
            expr_reads(dcx, z, reads)?;
        }
        Expr::All(parts) => {
            for part in parts {
                expr_reads(dcx, part, reads)?;
            }
        }
    }
    Ok(())
}

/// The instance and its index, where a field's inner expression is `(n I)` or `(ix (n I) E)`, I an
/// inst. Every other field reads what its inner expression reads (U2).
fn instance<'e>(dcx: &Dcx, base: &'e Expr) -> Option<(Name, Option<&'e Expr>)> {
    let (core, at) = match base {
        Expr::Index(core, at) => (&**core, Some(&**at)),
        _ => (base, None),
    };
    match *core {
        Expr::Ident(name) if dcx.module.kinds.get(&name) == Some(&Kind::Inst) => Some((name, at)),
        _ => None,
    }
}

/// That output of the instance, or nothing at all if the index has no value; it is not read.
fn output_read(
    dcx: &Dcx,
    inst: Name,
    at: Option<&Expr>,
    out: Name,
) -> Result<Option<Node>, Outside> {
    let index = match at {
        None => None,
        Some(e) => match eval(e, &dcx.table)? {
            Some(v) => Some(v),
            None => return Ok(None),
        },
    };
    Ok(Some(Node::InstOut { inst, index, out }))
}
