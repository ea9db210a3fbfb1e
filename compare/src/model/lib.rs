//! Document 01 as a plain Rust program, to hold other checkers against: reader, values,
//! collection, sites, blocks, edges, summaries, walk, reports. It is written from 01's words and,
//! for shifts in constants and fields of signals, from those of 02's U1 and U2. It shares no code
//! with the original or with the oracle's reader.

mod collect;
mod edge;
mod full;
pub mod opened;
mod read;
mod report;
mod tree;
mod value;
mod walk;

use std::collections::{BTreeMap, BTreeSet};

/// What one call gives back (01, "Refused because of the state"). On a refusal all but `number`
/// and `line` are zero or empty; on acceptance `line` is 0.
#[derive(Clone, Debug, PartialEq, Eq)]
pub struct Answer {
    pub number: u32,
    pub line: u32,
    pub bytes: usize,
    pub reports: u32,
    pub rounds: u64,
    pub text: Vec<u8>,
}

/// The report buffer of the program `drivercheck`.
pub const PROGRAM_BUFFER: usize = 65_536;

/// The whole answer for one text and a report buffer of `buffer` bytes.
pub fn answer(text: &[u8], buffer: usize) -> Answer {
    let design = match read::read(text) {
        Ok(design) => design,
        Err(fault) => return refused(fault.number, fault.line),
    };
    let Ok(checked) = collect::check_drivers(&design) else {
        return refused(20, 0);
    };
    if checked.reports.text.len() > buffer {
        return refused(21, 0);
    }
    Answer {
        number: 0,
        line: 0,
        bytes: checked.reports.text.len(),
        reports: checked.reports.count,
        rounds: checked.rounds,
        text: checked.reports.text,
    }
}

fn refused(number: u32, line: u32) -> Answer {
    Answer {
        number,
        line,
        bytes: 0,
        reports: 0,
        rounds: 0,
        text: Vec::new(),
    }
}

/// What the program prints for a text: the reports, or `(refused NUMBER LINE)`.
pub fn printed(text: &[u8]) -> Vec<u8> {
    let a = answer(text, PROGRAM_BUFFER);
    if a.number == 0 {
        a.text
    } else {
        format!("(refused {} {})\n", a.number, a.line).into_bytes()
    }
}

/// Why a text is refused with 20, in one sentence; none where it is not. Where several limits are
/// passed, the first that this walk comes to.
pub fn why(text: &[u8]) -> Option<String> {
    let design = read::read(text).ok()?;
    let full = collect::check_drivers(&design).err()?;
    Some(full.to_string())
}

/// For each module, whether the Rust's hash order can change its loop reports, so that only loop
/// or no loop is compared. Empty for a text that is refused with 1 to 7 or 20.
///
/// Where the Rust's order is open: it sorts roots (the keys of `edges`) and next nodes by START
/// with a stable sort over a hash order, so nodes of equal START come in any order. Nothing else
/// in its search looks at hash order: `node_spans` keeps the first line that heads a node, the
/// outputs of one instance line are different nodes, a summary is plain reachability.
///
/// Which of these ties can be seen: call a node live if a closed walk can be reached from it. A
/// node that is not live leads only to nodes that are not live, so entering it early or late
/// reports nothing and closes no live node; and the nodes of a report are all live. So the reports
/// are fixed as soon as the order among live nodes is fixed: a module is tied exactly when two
/// different live nodes have one START. A live node reads something, so it is headed. In
/// particular:
/// - unheaded nodes (START 0) read nothing and are never live, so they tie with nothing, not even
///   with a node headed at START 0;
/// - an instance output without reads is headed but is no key of `edges`; it is not live either;
/// - outputs of one instance line, or of one line collected for several indexes, have one START
///   and tie as soon as two of them are live.
///
/// So a tied module always has a loop, and 01's "ties between headed nodes" that cannot be seen
/// are still compared exactly.
pub fn ties(text: &[u8]) -> Vec<bool> {
    let Ok(design) = read::read(text) else {
        return Vec::new();
    };
    let Ok(checked) = collect::check_drivers(&design) else {
        return Vec::new();
    };
    checked.graphs.iter().map(walk::tied).collect()
}

/// Whether a positive number was shifted right by 0 while the text was checked. The Rust has
/// another value there (`(shr 5 0)` is -3), so the text is not compared with it. False for a text
/// that is refused with 1 to 7 or 20.
pub fn shifted_by_zero(text: &[u8]) -> bool {
    let Ok(design) = read::read(text) else {
        return false;
    };
    collect::check_drivers(&design).is_ok_and(|checked| checked.shifted_by_zero)
}

/// The three answers for a constant.
#[derive(Clone, Copy, Debug, PartialEq, Eq)]
pub enum Constant {
    Value(i128),
    Missing,
    /// It, or a part of it, is outside INT: 20.
    Outside,
}

/// One expression in a constant place under these values of names, and whether a positive number
/// was shifted right by 0 for it. None where the expression is badly written.
pub fn constant(expression: &str, values: &BTreeMap<u32, i128>) -> Option<(Constant, bool)> {
    let table = value::Table::new(values.clone());
    let constant = match value::eval(&read::expression(expression)?, &table) {
        Ok(Some(v)) => Constant::Value(v),
        Ok(None) => Constant::Missing,
        Err(full::Outside(_)) => Constant::Outside,
    };
    Some((constant, table.shifted_by_zero()))
}

/// For each module of an accepted text the edges that its search for loops walks; none where the
/// text is refused.
pub fn edges(text: &[u8]) -> Option<Vec<BTreeSet<(opened::Node, opened::Node)>>> {
    if answer(text, PROGRAM_BUFFER).number != 0 {
        return None;
    }
    let checked = collect::check_drivers(&read::read(text).ok()?).ok()?;
    Some(checked.graphs.iter().map(|g| g.edges().collect()).collect())
}

/// The design of an accepted text, ready to be opened; none where the text is refused.
pub fn opened(text: &[u8]) -> Option<opened::Opened> {
    if answer(text, PROGRAM_BUFFER).number != 0 {
        return None;
    }
    opened::Opened::new(read::read(text).ok()?).ok()
}
