//! The program of an earlier landing and the one of now on the same texts: they print the same bytes.

use super::command::CheckerCommand;
use super::run::{cannot_write, judge_all, shown_refused};
use super::{rules, Checker, Difference, Outcome};
use std::collections::BTreeMap;
use std::fmt;
use std::io::Write;

/// How a text comes out.
#[derive(Clone, Debug, PartialEq, Eq)]
pub enum Verdict {
    /// The same bytes: reports.
    Accepted,
    /// The same bytes: a refusal with this number.
    Refused(u32),
    Different(Difference),
}

impl Outcome for Verdict {
    fn difference(&self) -> Option<&Difference> {
        match self {
            Verdict::Different(found) => Some(found),
            _ => None,
        }
    }
}

#[derive(Clone, Debug, Default, PartialEq, Eq)]
pub struct Counts {
    pub texts: u64,
    pub accepted: u64,
    /// By number.
    pub refused: BTreeMap<u32, u64>,
    pub differences: u64,
}

impl Counts {
    pub fn add(&mut self, verdict: &Verdict) {
        self.texts += 1;
        let count = match verdict {
            Verdict::Accepted => &mut self.accepted,
            Verdict::Refused(number) => self.refused.entry(*number).or_default(),
            Verdict::Different(_) => &mut self.differences,
        };
        *count += 1;
    }
}

impl fmt::Display for Counts {
    fn fmt(&self, f: &mut fmt::Formatter) -> fmt::Result {
        let (texts, accepted, refused) = (self.texts, self.accepted, shown_refused(&self.refused));
        let differences = self.differences;
        write!(
            f,
            "texts {texts}; the same bytes: accepted {accepted}, refused {refused}; different {differences}"
        )
    }
}

/// Runs both on each text, shows the differences and, at the end, the counts under `title`.
pub fn compare_all(
    title: &str,
    texts: impl Iterator<Item = (String, Vec<u8>)>,
    before: &CheckerCommand,
    now: &mut Checker,
    out: &mut dyn Write,
) -> Result<Counts, String> {
    let mut before = |text: &[u8]| before.print(text);
    let mut counts = Counts::default();
    judge_all(
        texts,
        &mut |text| judge(&mut before, now, text),
        &mut |verdict| counts.add(verdict),
        out,
    )?;
    writeln!(out, "{title}: {counts}").map_err(cannot_write)?;
    Ok(counts)
}

/// Whether both print the same bytes.
pub fn judge(before: &mut Checker, now: &mut Checker, text: &[u8]) -> Verdict {
    let failed = |who: &str, what: String| different(format!("{who}: {what}"), vec![], vec![]);
    let was = match before(text) {
        Ok(printed) => printed,
        Err(what) => return failed("before", what),
    };
    let is = match now(text) {
        Ok(printed) => printed,
        Err(what) => return failed("now", what),
    };
    if was == is {
        let refusal = rules::refusal(&shown_lines(&was));
        return refusal.map_or(Verdict::Accepted, |(number, _)| Verdict::Refused(number));
    }
    let (is, was) = (shown_lines(&is), shown_lines(&was));
    let what = rules::first_difference(&is, &was);
    different(what.unwrap_or("bytes differ".into()), is, was)
}

fn different(what: String, checker: Vec<String>, other: Vec<String>) -> Verdict {
    Verdict::Different(Difference {
        what,
        checker,
        other,
    })
}

/// The lines of an output, whether or not the last has its line feed.
fn shown_lines(printed: &[u8]) -> Vec<String> {
    let text = String::from_utf8_lossy(printed);
    text.split_terminator('\n').map(str::to_string).collect()
}
