//! The stored vectors: stated cases, a sample of generated texts, refusals.

use super::refusals::{self, Answer};
use crate::cases::Case;
use crate::{model, oracle};

/// Small cases with their answers, worked out by hand.
const STATED: &str = include_str!("stated.txt");
const SEED: u64 = 1;
/// Texts of each profile in the sample.
const SAMPLE: usize = 36;
const SAMPLED: [&str; 6] = ["small", "sites", "blocks", "loops", "values", "fields"];
/// How often the Rust is asked before an answer counts as free of its hash order.
const ASKED: usize = 12;

/// How a stated answer is held against the Rust.
#[derive(Clone, Copy, PartialEq, Eq)]
pub enum Held {
    Exactly,
    /// But for what the Rust leaves to the order of its hash tables.
    ByHand,
    /// The Rust has to answer something else: a positive number is shifted right by 0, or a loop
    /// goes through a field that it does not read.
    Unlike,
}

pub struct Stated {
    pub case: Case,
    pub held: Held,
}

/// The vector files by name. The error lists everything that does not agree.
pub fn files() -> Result<Vec<(&'static str, Vec<Case>)>, String> {
    Ok(vec![
        ("cases.cases", stated_cases()?),
        ("generated.cases", generated_cases()?),
        ("refusals.cases", refusal_cases()?),
    ])
}

/// The stated cases, each held against the Rust.
fn stated_cases() -> Result<Vec<Case>, String> {
    let stated = stated()?;
    let wrong: Vec<String> = stated.iter().filter_map(disagreement).collect();
    if !wrong.is_empty() {
        return Err(format!(
            "the Rust disagrees with stated answers\n{}",
            wrong.join("\n")
        ));
    }
    Ok(stated.into_iter().map(|s| s.case).collect())
}

fn disagreement(s: &Stated) -> Option<String> {
    let Case { name, text, answer } = &s.case;
    let (own, rust) = match own_answer(text).and_then(|own| Ok((own, rust_answer(text)?))) {
        Ok(answers) => answers,
        Err(why) => return Some(format!("{name}: {why}")),
    };
    let as_held = match s.held {
        Held::Exactly => *answer == rust && rust == own,
        Held::ByHand => agree_but_for_ties(answer, &rust),
        Held::Unlike if model::shifted_by_zero(text) => *answer != rust,
        Held::Unlike => *answer == rust && rust != own,
    };
    let [answer, rust, own] = [answer, &rust, &own].map(|a| show(a));
    (!as_held).then(|| format!("{name}\nstated:\n{answer}Rust, fields read:\n{rust}Rust:\n{own}"))
}

fn show(bytes: &[u8]) -> String {
    String::from_utf8_lossy(bytes).into_owned()
}

/// The report lines of the Rust, each with its line feed.
fn own_answer(text: &[u8]) -> Result<Vec<u8>, String> {
    let lines = oracle::check(text)?;
    Ok(lines
        .iter()
        .flat_map(|l| format!("{l}\n").into_bytes())
        .collect())
}

/// The report lines of the Rust with fields of signals read. But for loops they have to be its own.
fn rust_answer(text: &[u8]) -> Result<Vec<u8>, String> {
    let own = own_answer(text)?;
    let Some(read) = oracle::fields::rewritten(text) else {
        return Ok(own);
    };
    let answer = own_answer(&read)?;
    if other_reports(&answer) != other_reports(&own) {
        let (answer, own) = (show(&answer), show(&own));
        return Err(format!(
            "reports other than loops differ\nRust, fields read:\n{answer}Rust:\n{own}"
        ));
    }
    Ok(answer)
}

/// All reports but loops, as a set: the Rust orders conflicts at one START by its hash order.
fn other_reports(answer: &[u8]) -> Vec<String> {
    let mut lines: Vec<String> = show(answer).lines().map(str::to_string).collect();
    lines.retain(|line| !line.starts_with("(E0504 "));
    lines.sort();
    lines
}

/// Equal as sets, loops by module only: loop or no loop.
pub fn agree_but_for_ties(a: &[u8], b: &[u8]) -> bool {
    loose(a) == loose(b)
}

fn loose(answer: &[u8]) -> Vec<String> {
    let mut lines: Vec<String> = show(answer).lines().map(loop_by_module).collect();
    lines.sort();
    lines.dedup();
    lines
}

fn loop_by_module(line: &str) -> String {
    match line.strip_prefix("(E0504 ") {
        Some(rest) => format!("loop {}", rest.split(' ').next().unwrap_or("")),
        None => line.to_string(),
    }
}

/// Reads the list of stated cases.
pub fn stated() -> Result<Vec<Stated>, String> {
    let mut out: Vec<Stated> = Vec::new();
    for line in STATED.lines() {
        if let Some(header) = line.strip_prefix("== ") {
            out.push(opened(header));
        } else if line.is_empty() || line.starts_with(';') {
            continue;
        } else {
            let last = out.last_mut().ok_or("a line before the first case")?;
            add_line(&mut last.case, line);
        }
    }
    Ok(out)
}

fn opened(header: &str) -> Stated {
    let (name, held) = match header.rsplit_once(' ') {
        Some((name, "hand")) => (name, Held::ByHand),
        Some((name, "unlike")) => (name, Held::Unlike),
        _ => (header, Held::Exactly),
    };
    let case = Case {
        name: name.to_string(),
        text: Vec::new(),
        answer: Vec::new(),
    };
    Stated { case, held }
}

fn add_line(case: &mut Case, line: &str) {
    let (part, line) = match line.strip_prefix("> ") {
        Some(line) => (&mut case.answer, line),
        None => (&mut case.text, line),
    };
    part.extend_from_slice(line.as_bytes());
    part.push(b'\n');
}

/// Texts of the profiles with the answers of the Rust, fields of signals read. The model only says
/// which of them the rules accept; where both have an answer they must agree.
fn generated_cases() -> Result<Vec<Case>, String> {
    let mut out = Vec::new();
    for profile in SAMPLED {
        out.extend(with_answers(profile, SEED, SAMPLE)?);
    }
    Ok(out)
}

/// The first `count` texts of a profile that are accepted and to which the Rust always gives one
/// answer, with that answer. The error says where the model disagrees, or that the profile has too few.
pub fn with_answers(profile: &str, seed: u64, count: usize) -> Result<Vec<Case>, String> {
    let mut out = Vec::new();
    let end = 100 * (count as u64 + 1);
    for i in 0..end {
        if out.len() == count {
            return Ok(out);
        }
        if let Some(case) = with_answer(profile, seed, i, out.len())? {
            out.push(case);
        }
    }
    Err(format!(
        "{profile} has fewer than {count} such texts among {end}"
    ))
}

/// Text `i` where it is accepted and the Rust always gives it one answer, and no positive number
/// is shifted right by 0. One in six may be without reports.
fn with_answer(profile: &str, seed: u64, i: u64, taken: usize) -> Result<Option<Case>, String> {
    let text = super::text(profile, seed, i).ok_or_else(|| format!("no profile `{profile}`"))?;
    let model = model::answer(&text, model::PROGRAM_BUFFER);
    let quiet = model.reports == 0 && taken % 6 != 5;
    if model.number != 0 || quiet || text.len() > 2500 {
        return Ok(None);
    }
    if model::ties(&text).contains(&true) || model::shifted_by_zero(&text) {
        return Ok(None);
    }
    let answer = rust_answer(&text)?;
    for _ in 1..ASKED {
        if rust_answer(&text)? != answer {
            return Ok(None);
        }
    }
    let name = format!("{profile}-{seed}-{i}");
    if answer != model.text {
        return Err(format!(
            "{name}\nmodel:\n{}Rust:\n{}",
            show(&model.text),
            show(&answer)
        ));
    }
    Ok(Some(Case { name, text, answer }))
}

/// The refusals as they are stated, and their accepted neighbours with the answers of the Rust,
/// fields of signals read.
fn refusal_cases() -> Result<Vec<Case>, String> {
    refusals::all().into_iter().map(refusal_case).collect()
}

fn refusal_case(e: refusals::Entry) -> Result<Case, String> {
    let rust = || rust_answer(&e.text).map_err(|why| format!("{}: {why}", e.name));
    let answer = match e.answer {
        Answer::Refused(stated) => format!("{stated}\n").into_bytes(),
        Answer::Reports(stated) if rust()? == stated.as_bytes() => stated.into(),
        Answer::Reports(stated) => {
            let (name, rust) = (&e.name, show(&rust()?));
            return Err(format!("{name}\nstated:\n{stated}Rust:\n{rust}"));
        }
        Answer::Rust => rust()?,
    };
    Ok(Case {
        name: e.name,
        text: e.text,
        answer,
    })
}
