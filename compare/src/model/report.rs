//! Report lines (01, "The report"), and the reports made after collection.

use super::collect::{Dcx, Extent, Site};
use super::full::{Full, Outside};
use super::tree::{Name, Start, Type};
use super::value::eval;
use super::walk::find_cycles;
use std::collections::BTreeSet;

const MAX_BITS: i128 = 4_096;

#[derive(Default)]
pub struct Reports {
    pub text: Vec<u8>,
    pub count: u32,
}

impl Reports {
    /// `(CODE M START NAME DETAIL)`.
    pub fn add(&mut self, code: &str, module: usize, start: Start, name: Name, detail: &str) {
        self.line(format!("({code} {module} {start} {name} {detail})\n"));
    }

    fn line(&mut self, line: String) {
        self.text.extend_from_slice(line.as_bytes());
        self.count += 1;
    }
}

/// After collection: conflicts by START then name, outputs, regs, mems, loops.
pub fn report_module(dcx: &mut Dcx, reports: &mut Reports) -> Result<(), Full> {
    report_conflicts(dcx, reports);
    report_coverage(dcx, reports)?;
    report_reg_blocks(dcx, reports);
    report_mem_blocks(dcx, reports);
    report_cycles(dcx, reports);
    Ok(())
}

/// E0501 `many` at the later site, once a name, and the name is poisoned.
fn report_conflicts(dcx: &mut Dcx, reports: &mut Reports) {
    let names: BTreeSet<Name> = dcx.sites.iter().map(|s| s.name).collect();
    let mut conflicts: Vec<(Start, Name)> = Vec::new();
    for name in names {
        if dcx.poisoned.contains(&name) {
            continue;
        }
        if let Some(start) = first_conflict(&sites_of(dcx, name)) {
            conflicts.push((start, name));
        }
    }
    conflicts.sort();
    for (start, name) in conflicts {
        dcx.poisoned.insert(name);
        reports.add("E0501", dcx.number, start, name, "many");
    }
}

fn sites_of(dcx: &Dcx, name: Name) -> Vec<Site> {
    dcx.sites
        .iter()
        .copied()
        .filter(|s| s.name == name)
        .collect()
}

/// The START of the first later site that meets an earlier one.
fn first_conflict(sites: &[Site]) -> Option<Start> {
    for (j, later) in sites.iter().enumerate() {
        for earlier in &sites[..j] {
            if meets(earlier.extent, later.extent) {
                return Some(later.start);
            }
        }
    }
    None
}

/// Unknown meets nothing; else Whole or Dynamic meets all; ranges meet when they share a bit.
fn meets(a: Extent, b: Extent) -> bool {
    match (a, b) {
        (Extent::Unknown, _) | (_, Extent::Unknown) => false,
        (Extent::Range(al, ah), Extent::Range(bl, bh)) => al.max(bl) <= ah.min(bh),
        _ => true,
    }
}

/// E0502 for each collected output, by its first port line: `never` or `gap`.
fn report_coverage(dcx: &Dcx, reports: &mut Reports) -> Result<(), Full> {
    for &(name, ty, start, line) in &dcx.outs {
        if dcx.poisoned.contains(&name) {
            continue;
        }
        let sites = sites_of(dcx, name);
        if sites.is_empty() {
            reports.add("E0502", dcx.number, start, name, "never");
            continue;
        }
        let gap = first_gap(dcx, ty, &sites).map_err(|outside| outside.at(line))?;
        if let Some(bit) = gap {
            reports.add("E0502", dcx.number, start, name, &format!("gap {bit}"));
        }
    }
    Ok(())
}

/// All Range and width evaluable and above 0: the first gap among the lowest bits.
fn first_gap(dcx: &Dcx, ty: &Type, sites: &[Site]) -> Result<Option<i128>, Outside> {
    let Some(ranges) = ranges(sites) else {
        return Ok(None);
    };
    let width = match ty {
        Type::Bit => Some(1),
        Type::Bits(w) | Type::Signed(w) => eval(w, &dcx.table)?,
        Type::Opaque => None,
    };
    let bits = width.unwrap_or(0).min(MAX_BITS);
    let driven = |bit: i128| ranges.iter().any(|&(lo, hi)| lo <= bit && bit <= hi);
    Ok((0..bits).find(|&bit| !driven(bit)))
}

fn ranges(sites: &[Site]) -> Option<Vec<(i128, i128)>> {
    sites
        .iter()
        .map(|s| match s.extent {
            Extent::Range(lo, hi) => Some((lo, hi)),
            _ => None,
        })
        .collect()
}

/// E0503 for a reg with no block or several.
fn report_reg_blocks(dcx: &Dcx, reports: &mut Reports) {
    for &(name, start) in &dcx.regs {
        if dcx.poisoned.contains(&name) {
            continue;
        }
        match block_count(dcx, name) {
            0 => reports.add("E0503", dcx.number, start, name, "none"),
            1 => {}
            _ => reports.add("E0503", dcx.number, start, name, "blocks"),
        }
    }
}

/// E0503 for a mem with several blocks; none is allowed.
fn report_mem_blocks(dcx: &Dcx, reports: &mut Reports) {
    for &(name, start) in &dcx.mems {
        if !dcx.poisoned.contains(&name) && block_count(dcx, name) > 1 {
            reports.add("E0503", dcx.number, start, name, "memblocks");
        }
    }
}

fn block_count(dcx: &Dcx, name: Name) -> usize {
    dcx.blocks.iter().filter(|(n, _)| *n == name).count()
}

/// `(E0504 M START (walk NODE ...))`.
fn report_cycles(dcx: &Dcx, reports: &mut Reports) {
    for cycle in find_cycles(&dcx.graph) {
        let nodes: Vec<String> = cycle.walk.iter().map(|n| n.to_string()).collect();
        reports.line(format!(
            "(E0504 {} {} (walk {}))\n",
            dcx.number,
            cycle.start,
            nodes.join(" ")
        ));
    }
}
