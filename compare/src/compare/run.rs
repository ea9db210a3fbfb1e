//! Many texts: counting, and showing each difference with a small text.

use super::options::Options;
use super::rules::refusal;
use super::shrink::shrink;
use super::{before, judge, Against, Checker, Difference, Outcome, Verdict};
use crate::{cases, gen, model};
use std::collections::BTreeMap;
use std::fmt;
use std::io::{self, Write};
use std::time::{Duration, Instant};

/// How often the checker is run to make one text smaller.
const SHRINK_TRIES: usize = 2_000;
/// And for how long.
const SHRINK_TIME: Duration = Duration::from_secs(60);
/// So many differences of a profile are made smaller and shown; the others are only named.
const SHOWN: u64 = 10;

#[derive(Clone, Debug, Default, PartialEq, Eq)]
pub struct Counts {
    pub texts: u64,
    /// By number.
    pub refused: BTreeMap<u32, u64>,
    pub left_out: u64,
    pub exact: u64,
    pub tied: u64,
    /// Those of `exact` and `tied` whose fields were rewritten for the original.
    pub rewritten: u64,
    pub differences: u64,
}

impl Counts {
    pub fn add(&mut self, verdict: &Verdict) {
        self.texts += 1;
        match verdict {
            Verdict::Refused(number) => *self.refused.entry(*number).or_default() += 1,
            Verdict::LeftOut => self.left_out += 1,
            Verdict::Exact => self.exact += 1,
            Verdict::Tied => self.tied += 1,
            Verdict::Rewritten { tied } => {
                self.rewritten += 1;
                self.exact += u64::from(!tied);
                self.tied += u64::from(*tied);
            }
            Verdict::Different(_) => self.differences += 1,
        }
    }
}

/// How many are refused, and how many of them with each number.
pub fn shown_refused(by_number: &BTreeMap<u32, u64>) -> String {
    let refused: u64 = by_number.values().sum();
    if refused == 0 {
        return "0".to_string();
    }
    let by = by_number.iter().map(|(n, c)| format!("{n}: {c}"));
    format!("{refused} ({})", by.collect::<Vec<_>>().join(", "))
}

impl fmt::Display for Counts {
    fn fmt(&self, f: &mut fmt::Formatter) -> fmt::Result {
        let (texts, refused, left_out) = (self.texts, shown_refused(&self.refused), self.left_out);
        let (exact, tied, rewritten) = (self.exact, self.tied, self.rewritten);
        write!(
            f,
            "texts {texts}, refused {refused}, left out {left_out}, compared exactly {exact}, \
             with ties {tied}, {rewritten} of these by rewriting, differences {}",
            self.differences
        )
    }
}

/// The program: all texts that the options name. Gives the number of differences.
pub fn run(options: &Options, out: &mut dyn Write) -> Result<u64, String> {
    let mut in_process = |text: &[u8]| Ok(model::printed(text));
    let mut by_command;
    let checker: &mut Checker = match &options.checker {
        None => &mut in_process,
        Some(command) => {
            command.try_start()?;
            by_command = |text: &[u8]| command.print(text);
            &mut by_command
        }
    };
    if let Some(before) = &options.before {
        before.try_start()?;
    }
    let mut on_texts =
        |title: &str, texts: &mut dyn Iterator<Item = (String, Vec<u8>)>| match &options.before {
            Some(before) => before::compare_all(title, texts, before, checker, out)
                .map(|counts| counts.differences),
            None => compare_all(title, texts, checker, options.against, out)
                .map(|counts| counts.differences),
        };
    if let Some(file) = &options.cases {
        let bytes = std::fs::read(file).map_err(|e| format!("cannot read {file}: {e}"))?;
        let cases = cases::read_cases(&bytes).map_err(|e| format!("{file}: {e}"))?;
        return on_texts(file, &mut cases.into_iter().map(|c| (c.name, c.text)));
    }
    let mut differences = 0;
    for profile in &options.profiles {
        differences += on_texts(profile, &mut generated(options, profile))?;
    }
    Ok(differences)
}

fn generated<'a>(
    options: &'a Options,
    profile: &'a str,
) -> impl Iterator<Item = (String, Vec<u8>)> + 'a {
    let (seed, from) = (options.seed, options.from);
    (from..from.saturating_add(options.count)).map_while(move |i| {
        let text = gen::text(profile, seed, i)?;
        Some((format!("{profile} {seed} {i}"), text))
    })
}

/// Compares on each text, shows the differences and, at the end, the counts under `title`.
pub fn compare_all(
    title: &str,
    texts: impl Iterator<Item = (String, Vec<u8>)>,
    checker: &mut Checker,
    against: Against,
    out: &mut dyn Write,
) -> Result<Counts, String> {
    let mut counts = Counts::default();
    judge_all(
        texts,
        &mut |text| judge(checker, against, text),
        &mut |verdict| counts.add(verdict),
        out,
    )?;
    writeln!(out, "{title}: {counts}").map_err(cannot_write)?;
    Ok(counts)
}

/// What says how a text comes out.
pub type Judge<'a, O> = dyn FnMut(&[u8]) -> O + 'a;

/// Has the texts judged and counted, and shows the differences.
pub fn judge_all<O: Outcome>(
    texts: impl Iterator<Item = (String, Vec<u8>)>,
    judge: &mut Judge<O>,
    count: &mut dyn FnMut(&O),
    out: &mut dyn Write,
) -> Result<(), String> {
    let mut differences = 0;
    for (name, text) in texts {
        let outcome = judge(&text);
        count(&outcome);
        if let Some(found) = outcome.difference() {
            differences += 1;
            let small = (differences <= SHOWN).then(|| smallest(judge, &text, found));
            show(out, &name, found, small).map_err(cannot_write)?;
        }
    }
    Ok(())
}

pub fn cannot_write(e: io::Error) -> String {
    format!("cannot write: {e}")
}

/// A small text that still shows a difference of the same shape, and that difference.
pub fn smallest<O: Outcome>(
    judge: &mut Judge<O>,
    text: &[u8],
    found: &Difference,
) -> (Vec<u8>, Difference) {
    let sought = shape(text, found);
    let begun = Instant::now();
    let mut last = found.clone();
    let small = shrink(text, SHRINK_TRIES, |candidate| {
        if begun.elapsed() > SHRINK_TIME {
            return false;
        }
        match judge(candidate).difference() {
            Some(found) if shape(candidate, found) == sought => {
                last = found.clone();
                true
            }
            _ => false,
        }
    });
    (small, last)
}

/// The model's number and the checker's refusal: so an accepted text does not shrink to a refused
/// one on which the checker is wrong in another way.
fn shape(text: &[u8], found: &Difference) -> (u32, Option<u32>) {
    let model = model::answer(text, model::PROGRAM_BUFFER).number;
    (model, refusal(&found.checker).map(|(number, _)| number))
}

fn show(
    out: &mut dyn Write,
    name: &str,
    found: &Difference,
    small: Option<(Vec<u8>, Difference)>,
) -> io::Result<()> {
    writeln!(out, "difference in {name}: {}", found.what)?;
    let Some((text, found)) = small else {
        return Ok(());
    };
    writeln!(out, "  smallest text ({})", found.what)?;
    for line in text.split_inclusive(|&b| b == b'\n') {
        writeln!(
            out,
            "    {}",
            line.strip_suffix(b"\n").unwrap_or(line).escape_ascii()
        )?;
    }
    show_lines(out, "checker", &found.checker)?;
    show_lines(out, "other", &found.other)
}

fn show_lines(out: &mut dyn Write, who: &str, lines: &[String]) -> io::Result<()> {
    writeln!(out, "  {who} prints {} lines", lines.len())?;
    for line in lines {
        writeln!(out, "    {line}")?;
    }
    Ok(())
}
