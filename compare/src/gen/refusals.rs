//! Texts that are refused, and their neighbours that are just accepted.
//!
//! Every refusal here was worked out by hand from the scope (01) and the decisions on what
//! it leaves open; the remark above an entry, or above a run of entries, is the sentence that
//! decides. No checker computes any of these answers. Entries with `ok` are accepted, and their
//! answer is the one of the Rust, fields of signals read; for entries with `gives` it is stated
//! too, and has to be that.

// Tables, one entry a line.
#[rustfmt::skip]
mod limit;
#[rustfmt::skip]
mod order;
#[rustfmt::skip]
mod part;
#[rustfmt::skip]
mod whole;

pub struct Entry {
    pub name: String,
    pub text: Vec<u8>,
    pub answer: Answer,
}

pub enum Answer {
    Refused(&'static str),
    /// Accepted, with these report lines.
    Reports(&'static str),
    /// Accepted, with what the Rust reports where fields of signals are read.
    Rust,
}

/// All entries, in the order of the file.
pub fn all() -> Vec<Entry> {
    let mut out = Vec::new();
    for part in [
        whole::one,
        whole::two,
        whole::three,
        part::four_spaces,
        part::four_numbers,
        part::four_lines,
        part::four_expressions,
        part::five,
        order::six,
        order::seven,
        order::operators,
        order::within_a_line,
        order::between_lines,
        limit::nodes_and_edges,
        limit::sites_and_pairs,
        limit::triples,
        limit::constants,
        limit::constant_places,
        limit::twenty_one,
    ] {
        part(&mut out);
    }
    out
}

/// A text with its refusal.
fn no(out: &mut Vec<Entry>, name: &str, text: impl Into<Vec<u8>>, answer: &'static str) {
    out.push(Entry {
        name: name.to_string(),
        text: text.into(),
        answer: Answer::Refused(answer),
    });
}

/// A text that is accepted.
fn ok(out: &mut Vec<Entry>, name: &str, text: impl Into<Vec<u8>>) {
    out.push(Entry {
        name: name.to_string(),
        text: text.into(),
        answer: Answer::Rust,
    });
}

/// One module with this line as its second; the refusal names line 2.
fn line(out: &mut Vec<Entry>, name: &str, line: &str, answer: &'static str) {
    no(out, name, second(line), answer);
}

/// One module with this line as its second, accepted with these reports.
fn gives(out: &mut Vec<Entry>, name: &str, line: &str, reports: &'static str) {
    out.push(Entry {
        name: name.to_string(),
        text: second(line).into(),
        answer: Answer::Reports(reports),
    });
}

/// One module with this line as its second, accepted.
fn ok_line(out: &mut Vec<Entry>, name: &str, line: &str) {
    ok(out, name, second(line));
}

fn second(line: &str) -> String {
    format!("(module 0 bound)\n{line}\n")
}
