//! 01's rules of comparison, on report lines ("The walk").

/// The lines of an output, without line feeds; `None` where the last has none.
pub fn lines(printed: &[u8]) -> Option<Vec<String>> {
    let text = String::from_utf8_lossy(printed);
    if !text.is_empty() && !text.ends_with('\n') {
        return None;
    }
    Some(text.split_terminator('\n').map(str::to_string).collect())
}

/// Number and line, where the output is `(refused NUMBER LINE)`.
pub fn refusal(lines: &[String]) -> Option<(u32, u32)> {
    let [line] = lines else {
        return None;
    };
    let inner = line.strip_prefix("(refused ")?.strip_suffix(')')?;
    let (number, line) = inner.split_once(' ')?;
    Some((number.parse().ok()?, line.parse().ok()?))
}

/// The lines as far as they are compared: the loops of a tied module as one line that says there
/// are some; `many` conflicts at one START of a module as a set.
pub fn comparable(lines: &[String], ties: &[bool]) -> Vec<String> {
    let mut compared: Vec<String> = lines.iter().map(|l| loop_or_not(l, ties)).collect();
    compared.dedup_by(|a, b| a == b && a.ends_with(SOME_LOOP));
    for conflicts in compared.chunk_by_mut(|a, b| same_conflicts(a, b)) {
        conflicts.sort();
    }
    compared
}

/// The lines of reports other than loops.
pub fn without_loops(lines: &[String]) -> Vec<String> {
    let others = lines.iter().filter(|line| !line.starts_with(LOOP));
    others.cloned().collect()
}

const LOOP: &str = "(E0504 ";
const SOME_LOOP: &str = " some loop)";

fn loop_or_not(line: &str, ties: &[bool]) -> String {
    match loop_module(line) {
        Some(m) if ties.get(m) == Some(&true) => format!("(E0504 {m}{SOME_LOOP}"),
        _ => line.to_string(),
    }
}

/// The module of a loop report.
pub fn loop_module(line: &str) -> Option<usize> {
    line.strip_prefix(LOOP)?.split(' ').next()?.parse().ok()
}

fn same_conflicts(a: &str, b: &str) -> bool {
    conflict_place(a).is_some() && conflict_place(a) == conflict_place(b)
}

/// `(E0501 M START` of a `many` report.
fn conflict_place(line: &str) -> Option<&str> {
    let (place, _name) = line.strip_suffix(" many)")?.rsplit_once(' ')?;
    place.starts_with("(E0501 ").then_some(place)
}

/// The first line in which two outputs differ, as one line; none where they are the same.
pub fn first_difference(checker: &[String], other: &[String]) -> Option<String> {
    let longest = checker.len().max(other.len());
    let at = (0..longest).find(|&i| checker.get(i) != other.get(i))?;
    let show = |lines: &[String]| lines.get(at).cloned().unwrap_or("nothing".into());
    let (ours, theirs) = (show(checker), show(other));
    Some(format!("report {}: checker {ours}, other {theirs}", at + 1))
}
