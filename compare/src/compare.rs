//! Holding a checker against the original, by 01's rules of comparison, or against the model.
//!
//! A checker is anything that prints reports, or `(refused NUMBER LINE)`, for a text.

pub mod before;
pub mod command;
pub mod options;
pub mod rules;
pub mod run;
pub mod shrink;

use crate::model;
use crate::oracle::{self, fields, Prepared};

/// What is printed for a text; the error is one line.
pub type Checker<'a> = dyn FnMut(&[u8]) -> Result<Vec<u8>, String> + 'a;

/// What the checker is held against.
#[derive(Clone, Copy, Debug, PartialEq, Eq)]
pub enum Against {
    /// The original. Refused texts are counted, not compared, and so are texts in which a positive
    /// number is shifted right by 0: the original has another value there. The original does not
    /// read fields of signals: a text with one is compared as it is, but for the loops, and then
    /// with its fields rewritten so that the original reads them, loops and all.
    Oracle,
    /// The model's refusals: number and line, and which texts are accepted.
    Refusals,
    /// All that the model prints, byte for byte, 01's order on ties included.
    Model,
}

#[derive(Clone, Debug, PartialEq, Eq)]
pub enum Verdict {
    /// Refused with this number, and not compared or rightly so.
    Refused(u32),
    /// Not compared, since the other is known to answer something else.
    LeftOut,
    Exact,
    /// In some module only loop or no loop was compared.
    Tied,
    /// Compared as it is, but for the loops, and with its fields rewritten; with ties or exactly.
    Rewritten {
        tied: bool,
    },
    Different(Difference),
}

/// What is said of one text.
pub trait Outcome {
    /// The difference, where it is one.
    fn difference(&self) -> Option<&Difference>;
}

impl Outcome for Verdict {
    fn difference(&self) -> Option<&Difference> {
        match self {
            Verdict::Different(found) => Some(found),
            _ => None,
        }
    }
}

#[derive(Clone, Debug, PartialEq, Eq)]
pub struct Difference {
    /// One line.
    pub what: String,
    pub checker: Vec<String>,
    pub other: Vec<String>,
}

/// With ties the original runs so often: its hash order is random in each map.
const TIED_RUNS: usize = 8;

/// Runs the checker on one text and compares.
pub fn judge(checker: &mut Checker, against: Against, text: &[u8]) -> Verdict {
    let printed = match checker(text) {
        Ok(printed) => printed,
        Err(what) => return different(what, Vec::new(), Vec::new()),
    };
    let Some(lines) = rules::lines(&printed) else {
        let lines = vec![String::from_utf8_lossy(&printed).into_owned()];
        return different(
            "the output has no final line feed".into(),
            lines,
            Vec::new(),
        );
    };
    match against {
        Against::Oracle => by_oracle(lines, text),
        Against::Refusals => by_refusals(lines, text),
        Against::Model => by_model(lines, text),
    }
}

fn different(what: String, checker: Vec<String>, other: Vec<String>) -> Verdict {
    Verdict::Different(Difference {
        what,
        checker,
        other,
    })
}

fn by_oracle(lines: Vec<String>, text: &[u8]) -> Verdict {
    let rewritten = fields::rewritten(text);
    if let Some((number, _)) = rules::refusal(&lines) {
        return match number {
            // fields that are read can pass a limit, so the refusal has to be the model's
            20 | 21 if rewritten.is_some() => by_refusals(lines, text),
            _ => Verdict::Refused(number),
        };
    }
    let oracle = match oracle::prepare(text) {
        Ok(oracle) => oracle,
        Err(e) => {
            return different(
                format!("accepted, but the original: {e}"),
                lines,
                Vec::new(),
            )
        }
    };
    let ties = model::ties(text);
    if ties.is_empty() && !text.is_empty() {
        return different(
            "accepted, but to be refused".into(),
            lines,
            model_lines(text),
        );
    }
    if model::shifted_by_zero(text) {
        return Verdict::LeftOut;
    }
    match rewritten {
        None => by_runs(lines, &oracle, &ties),
        Some(rewritten) => by_rewriting(lines, &oracle, &rewritten, &ties),
    }
}

/// All reports, with ties by several runs.
fn by_runs(lines: Vec<String>, oracle: &Prepared, ties: &[bool]) -> Verdict {
    let tied = ties.contains(&true);
    for _ in 0..if tied { TIED_RUNS } else { 1 } {
        let other = oracle.run();
        let checked = rules::comparable(&lines, ties);
        if let Some(what) = rules::first_difference(&checked, &rules::comparable(&other, ties)) {
            return different(what, lines, other);
        }
    }
    if tied {
        Verdict::Tied
    } else {
        Verdict::Exact
    }
}

/// The reports other than loops with the original's on the text as it is; then all reports with the
/// original's on the rewritten text.
fn by_rewriting(lines: Vec<String>, oracle: &Prepared, rewritten: &[u8], ties: &[bool]) -> Verdict {
    let other = oracle.run();
    let besides = |lines: &[String]| rules::comparable(&rules::without_loops(lines), ties);
    if let Some(what) = rules::first_difference(&besides(&lines), &besides(&other)) {
        return different(format!("loops aside, {what}"), lines, other);
    }
    let oracle = oracle::prepare(rewritten).expect("a rewritten text is read as it was");
    match by_runs(lines, &oracle, ties) {
        Verdict::Different(found) => Verdict::Different(Difference {
            what: format!("with its fields rewritten, {}", found.what),
            ..found
        }),
        same => Verdict::Rewritten {
            tied: same == Verdict::Tied,
        },
    }
}

fn by_refusals(lines: Vec<String>, text: &[u8]) -> Verdict {
    let other = model_lines(text);
    let (ours, theirs) = (rules::refusal(&lines), rules::refusal(&other));
    match (ours, theirs) {
        (Some((number, _)), _) if ours == theirs => Verdict::Refused(number),
        (None, None) => Verdict::Exact,
        _ => different("refusals differ".into(), lines, other),
    }
}

fn by_model(lines: Vec<String>, text: &[u8]) -> Verdict {
    let other = model_lines(text);
    if let Some(what) = rules::first_difference(&lines, &other) {
        return different(what, lines, other);
    }
    match rules::refusal(&lines) {
        Some((number, _)) => Verdict::Refused(number),
        None => Verdict::Exact,
    }
}

fn model_lines(text: &[u8]) -> Vec<String> {
    rules::lines(&model::printed(text)).expect("the model ends its lines")
}
