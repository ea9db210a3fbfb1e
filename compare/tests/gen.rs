//! The generator and the stored vectors.

use compare::cases::{read_cases, Case};
use compare::gen::{text, vectors, PROFILES};
use compare::{model, oracle};
use std::collections::{BTreeMap, HashSet};
use std::path::Path;

/// The text of case P1 as the scope has it.
const P1: &str = "\
(module 0 bound)
(kind 1 in)
(kind 2 out)
(kind 3 wire)
(kind 4 reg)
(port out 2 (bits 8) 10)
(reg 4 20)
(wire 3 (all (n 1) (n 2)) 30)
(drive (lv 2 40 7 4) (n 3))
(drive (lv 2 50 2 0) (n 4))
";
const P1_ANSWER: &str = "\
(E0502 0 10 2 gap 3)
(E0503 0 20 4 none)
(E0504 0 30 (walk 3 2 3))
";

const FILES: [&str; 3] = ["cases.cases", "generated.cases", "refusals.cases"];

fn stored(file: &str) -> Vec<Case> {
    let path = Path::new(env!("CARGO_MANIFEST_DIR"))
        .join("vectors")
        .join(file);
    read_cases(&std::fs::read(path).unwrap()).unwrap()
}

fn is_refusal(answer: &[u8]) -> bool {
    answer.starts_with(b"(refused ")
}

#[test]
fn the_same_three_give_the_same_bytes() {
    for profile in PROFILES {
        for i in [0, 1, 77, u64::MAX] {
            assert_eq!(text(profile, 5, i), text(profile, 5, i), "{profile} {i}");
        }
    }
}

#[test]
fn other_indexes_and_seeds_give_other_bytes() {
    for profile in PROFILES {
        let many: HashSet<Vec<u8>> = (0..200).filter_map(|i| text(profile, 5, i)).collect();
        assert!(many.len() > 100, "{profile}: {} of 200 differ", many.len());
        let differ = (0..200)
            .filter(|&i| text(profile, 5, i) != text(profile, 6, i))
            .count();
        assert!(differ > 50, "{profile}: {differ} of 200 differ by seed");
    }
}

#[test]
fn what_was_made_before_changes_nothing() {
    for profile in PROFILES {
        let ascending: Vec<_> = (0..50).map(|i| text(profile, 7, i)).collect();
        let mut descending: Vec<_> = (0..50).rev().map(|i| text(profile, 7, i)).collect();
        descending.reverse();
        assert_eq!(ascending, descending, "{profile}");
    }
}

#[test]
fn the_profiles_are_these() {
    let names = "small sites blocks loops ties values limits damaged dense bits fields";
    assert_eq!(PROFILES.join(" "), names);
    let different: HashSet<Option<Vec<u8>>> = PROFILES.iter().map(|p| text(p, 5, 3)).collect();
    assert_eq!(different.len(), PROFILES.len());
}

#[test]
fn an_unknown_profile_gives_nothing() {
    assert_eq!(text("", 1, 1), None);
    assert_eq!(text("unknown", 1, 1), None);
}

/// All but `damaged` and the texts past a limit are well formed.
#[test]
fn texts_are_well_formed() {
    for profile in PROFILES
        .iter()
        .filter(|p| !["limits", "damaged"].contains(p))
    {
        for i in 0..3000 {
            let text = text(profile, 11, i).unwrap();
            let number = model::answer(&text, model::PROGRAM_BUFFER).number;
            assert!(
                [0, 20, 21].contains(&number),
                "{profile} 11 {i}: refused {number}"
            );
        }
    }
}

/// Whether some module has a line that begins so and goes on with a name of this kind.
fn has_line_of(text: &str, head: &str, kind: &str) -> bool {
    text.split("(module ").any(|module| {
        let mut names = module
            .lines()
            .filter_map(|l| l.strip_prefix(head)?.split(' ').next());
        names.any(|name| module.contains(&format!("(kind {name} {kind})\n")))
    })
}

#[test]
fn dense_texts_have_what_is_seldom_elsewhere() {
    let texts: Vec<String> = (0..1000)
        .map(|i| String::from_utf8(text("dense", 4, i).unwrap()).unwrap())
        .collect();
    let count = |what: &str, holds: &dyn Fn(&String) -> bool| {
        let found = texts.iter().filter(|t| holds(t)).count();
        assert!(found >= 40, "{what}: {found} of 1000");
    };
    count("an input that a wire line heads", &|t| {
        has_line_of(t, "(wire ", "in")
    });
    count("an output line of an input", &|t| {
        has_line_of(t, "(port out ", "in")
    });
    count("an instance line of a wire", &|t| {
        has_line_of(t, "(inst ", "wire")
    });
    count("a nested const", &|t| t.contains(" (const "));
    count("a nested output line", &|t| t.contains(" (port out "));
    count("an index without value", &|t| t.contains("(inst 5 (n 9) "));
    count("and with a missing operand", &|t| {
        t.contains("(and 0 (n 9))") || t.contains("(and (n 9) 0)")
    });
    count("or with a missing operand", &|t| {
        t.contains("(or 1 (n 9))") || t.contains("(or (n 9) 1)")
    });
    count("many rounds", &|t| {
        model::answer(t.as_bytes(), model::PROGRAM_BUFFER).rounds > 4000
    });
}

const BIT_OPS: [&str; 5] = ["(shl ", "(shr ", "(band ", "(bor ", "(bxor "];

fn has_bit_op(text: &str) -> bool {
    BIT_OPS.iter().any(|op| text.contains(op))
}

/// The parts of a form, its head first.
fn parts(form: &str) -> Vec<&str> {
    let inner = &form[1..form.len() - 1];
    let (mut found, mut depth, mut from) = (Vec::new(), 0, 0);
    for (k, b) in inner.bytes().enumerate() {
        match b {
            b'(' => depth += 1,
            b')' => depth -= 1,
            b' ' if depth == 0 => {
                found.push(&inner[from..k]);
                from = k + 1;
            }
            _ => {}
        }
    }
    found.push(&inner[from..]);
    found
}

/// Whether a constant place in this part of a line has one of the five operators.
fn in_constant_place(part: &str) -> bool {
    if !part.starts_with('(') {
        return false;
    }
    let parts = parts(part);
    let constants: &[&str] = match parts[0] {
        "bits" | "signed" => &parts[1..],
        "const" | "inst" => &parts[2..3],
        "lv" => &parts[3..],
        "repeat" => &parts[2..4],
        "constif" => &parts[1..2],
        "ix" if parts[1].starts_with("(n ") => &parts[2..],
        _ => &[],
    };
    constants.iter().any(|e| has_bit_op(e)) || parts.iter().any(|p| in_constant_place(p))
}

/// A third of the texts were accepted before the five operators had a place in constants.
#[test]
fn bits_texts_have_them_in_constant_places_or_outside_only() {
    let (mut inside, mut outside) = (0, 0);
    for i in 0..3000 {
        let text = String::from_utf8(text("bits", 4, i).unwrap()).unwrap();
        assert!(has_bit_op(&text), "bits 4 {i}");
        match text.lines().any(in_constant_place) {
            true => inside += 1,
            false => outside += 1,
        }
    }
    assert!(inside > 1900 && outside >= 1000, "{inside} and {outside}");
}

#[test]
fn bits_texts_are_mostly_accepted_and_comparable() {
    let (mut refused, mut left_out, mut quiet) = (0, 0, 0);
    for i in 0..3000 {
        let text = text("bits", 4, i).unwrap();
        let answer = model::answer(&text, model::PROGRAM_BUFFER);
        refused += usize::from(answer.number != 0);
        left_out += usize::from(model::shifted_by_zero(&text));
        quiet += usize::from(answer.number == 0 && answer.reports == 0);
    }
    assert!((100..1000).contains(&refused), "{refused} refused");
    assert!((50..400).contains(&left_out), "{left_out} left out");
    assert!(quiet < 1000, "{quiet} without a report");
}

/// With one operator for another, many accepted texts have other reports. None becomes `shl`, with
/// which most would leave INT.
#[test]
fn bits_texts_go_by_the_values() {
    let printed = |text: &str| model::printed(text.as_bytes());
    for op in BIT_OPS {
        for other in BIT_OPS.into_iter().filter(|o| *o != op && *o != "(shl ") {
            let (mut seen, mut changed) = (0, 0);
            for i in 0..500 {
                let text = String::from_utf8(text("bits", 4, i).unwrap()).unwrap();
                let (one, two) = (printed(&text), printed(&text.replace(op, other)));
                if !is_refusal(&one) && !is_refusal(&two) {
                    seen += 1;
                    changed += usize::from(one != two);
                }
            }
            assert!(6 * changed > seen, "{op}{other}: {changed} of {seen}");
            assert!(seen > 250, "{op}{other}: {seen}");
        }
    }
}

/// The second part of each `shl` and `shr`, as it is written.
fn shift_amounts(all: &str) -> Vec<String> {
    let part_end = |s: &str| {
        let mut open = 0;
        s.find(|c| match c {
            '(' => {
                open += 1;
                false
            }
            ')' if open == 0 => true,
            ')' => {
                open -= 1;
                false
            }
            ' ' => open == 0,
            _ => false,
        })
    };
    let heads = all
        .match_indices("(sh")
        .map(|(at, _)| &all[at + "(shl ".len()..]);
    heads
        .filter_map(|parts| {
            let second = &parts[part_end(parts)? + 1..];
            Some(second[..part_end(second)?].to_string())
        })
        .collect()
}

/// What the profile is for: each place with each operator, and the amounts that matter.
#[test]
fn bits_texts_have_every_place_and_amount() {
    let texts: Vec<String> = (0..3000)
        .map(|i| String::from_utf8(text("bits", 4, i).unwrap()).unwrap())
        .collect();
    let all = texts.concat();
    for op in BIT_OPS {
        for place in [
            "(bits ",
            "(signed ",
            "(constif ",
            "(repeat 36 ",
            "(const 30 ",
            "(inst 8 ",
            "(ix (n 8) ",
        ] {
            let found = all.matches(&format!("{place}{op}")).count();
            assert!(found >= 20, "{place}{op}: {found}");
        }
    }
    let amounts = shift_amounts(&all);
    for amount in [
        "(neg 1)",
        "0",
        "1",
        "30",
        "31",
        "32",
        "33",
        "999967",
        "999998",
        "999999",
        "1000000",
        "1000001",
        "2147483647",
    ] {
        let found = amounts.iter().filter(|a| *a == amount).count();
        assert!(found >= 3, "{amount}: {found}");
    }
}

/// Text i of `fields` under seed 4. Each sixteenth is at a limit.
fn fields_text(i: u64) -> String {
    String::from_utf8(text("fields", 4, i).unwrap()).unwrap()
}

fn fields_texts() -> impl Iterator<Item = String> {
    (0..3000).filter(|i| i % 16 != 15).map(fields_text)
}

/// Whether a field of this is an output of an instance: in `fields` these names are instances in
/// every module.
fn is_output(inner: &str) -> bool {
    ["(n 8)", "(n 9)", "(n 10)"]
        .iter()
        .any(|name| inner == *name || inner.starts_with(&format!("(ix {name} ")))
}

const SORTS: [&str; 14] = [
    "in",
    "out",
    "wire",
    "reg",
    "mem",
    "no kind",
    "output of an instance",
    "field",
    "index of a name",
    "index of a form",
    "if",
    "all",
    "one part",
    "two parts",
];

/// What a field in `fields` is a field of.
fn sort_of(inner: &str) -> &'static str {
    if !inner.starts_with('(') {
        return "number";
    }
    match parts(inner)[..] {
        ["n", "0" | "1"] => "in",
        ["n", "2" | "3"] => "out",
        ["n", "4" | "5" | "6" | "7"] => "wire",
        ["n", "11"] => "reg",
        ["n", "12"] => "mem",
        ["n", _] => "no kind",
        ["f", inner, _] if is_output(inner) => "output of an instance",
        ["f", ..] => "field",
        ["ix", of, _] if of.starts_with("(n ") => "index of a name",
        ["ix", ..] => "index of a form",
        ["if", ..] => "if",
        ["all", ..] => "all",
        [_, _] => "one part",
        _ => "two parts",
    }
}

/// How many fields, outputs of instances aside, stand in a form and are of a sort.
type FieldCounts = BTreeMap<(&'static str, &'static str), u64>;

/// Counts the fields of a form by the innermost of these forms around them.
fn count_fields(form: &str, place: &'static str, counts: &mut FieldCounts) {
    const PLACES: [&str; 8] = [
        "wire", "drive", "lv", "conn", "bits", "repeat", "constif", "const",
    ];
    if !form.starts_with('(') {
        return;
    }
    let parts = parts(form);
    let place = PLACES.into_iter().find(|p| *p == parts[0]).unwrap_or(place);
    if parts[0] == "f" && !is_output(parts[1]) {
        *counts.entry((place, sort_of(parts[1]))).or_default() += 1;
    }
    for part in &parts[1..] {
        count_fields(part, place, counts);
    }
}

#[test]
fn fields_texts_have_fields_of_everything_in_every_place() {
    let mut counts = FieldCounts::new();
    for text in fields_texts() {
        assert!(oracle::fields::rewritten(text.as_bytes()).is_some());
        for line in text.lines() {
            count_fields(line, "", &mut counts);
        }
    }
    for place in ["wire", "drive", "lv", "conn"] {
        for sort in SORTS {
            let found = counts.get(&(place, sort)).copied().unwrap_or_default();
            assert!(found >= 10, "{place}, {sort}: {found}");
        }
    }
    for place in ["bits", "repeat", "constif", "const"] {
        let there = counts.iter().filter(|((p, _), _)| *p == place);
        let found: u64 = there.map(|(_, n)| n).sum();
        assert!(found >= 100, "{place}: {found}");
    }
}

/// The form with `(all)`, which reads nothing, for each field but outputs of instances.
fn unread(form: &str) -> String {
    if !form.starts_with('(') {
        return form.to_string();
    }
    let parts = parts(form);
    if parts[0] == "f" && !is_output(parts[1]) {
        return "(all)".to_string();
    }
    let parts: Vec<String> = parts.into_iter().map(unread).collect();
    format!("({})", parts.join(" "))
}

fn all_unread(text: &str) -> String {
    text.lines().map(|l| unread(l) + "\n").collect()
}

/// The loops that the model reports of module `m`.
fn loops_of(m: usize, text: &str) -> Vec<String> {
    let printed = String::from_utf8(model::printed(text.as_bytes())).unwrap();
    let head = format!("(E0504 {m} ");
    let loops = printed.lines().filter(|l| l.starts_with(&head));
    loops.map(str::to_string).collect()
}

/// Whether some module has other loops where the fields in all other modules are not read.
fn through_summaries(text: &str) -> bool {
    let modules: Vec<String> = text
        .split("(module ")
        .skip(1)
        .map(|m| format!("(module {m}"))
        .collect();
    (0..modules.len()).any(|m| {
        let kept = |k: usize| match k == m {
            true => modules[k].clone(),
            false => all_unread(&modules[k]),
        };
        let others_unread: String = (0..modules.len()).map(kept).collect();
        loops_of(m, text) != loops_of(m, &others_unread)
    })
}

/// Loops and other reports, the others in the order of their letters.
fn by_loops(lines: Vec<String>) -> (Vec<String>, Vec<String>) {
    let (loops, mut others): (Vec<String>, Vec<String>) =
        lines.into_iter().partition(|l| l.starts_with("(E0504 "));
    others.sort();
    (loops, others)
}

#[test]
fn fields_texts_have_loops_that_the_original_misses() {
    let (mut missed, mut by_instances, mut by_summaries, mut without) = (0, 0, 0, 0);
    let (mut accepted, mut tied) = (0, 0);
    for text in fields_texts() {
        let answer = model::answer(text.as_bytes(), model::PROGRAM_BUFFER);
        if answer.number != 0 {
            continue;
        }
        accepted += 1;
        let lines = String::from_utf8(answer.text).unwrap();
        let (loops, others) = by_loops(lines.lines().map(str::to_string).collect());
        let (own, own_others) = by_loops(oracle::check(text.as_bytes()).unwrap());
        assert_eq!(others, own_others, "{text}");
        if model::ties(text.as_bytes()).contains(&true) {
            tied += 1;
            continue;
        }
        let new: Vec<&String> = loops.iter().filter(|l| !own.contains(l)).collect();
        missed += usize::from(!new.is_empty());
        by_instances += usize::from(new.iter().any(|l| l.contains("(u ")));
        by_summaries += usize::from(through_summaries(&text));
        without += usize::from(loops.is_empty());
    }
    assert!(accepted >= 2500, "{accepted} accepted");
    assert!(tied < 250, "{tied} with ties");
    assert!(missed >= 800, "{missed} with a loop by fields alone");
    assert!(by_instances >= 150, "{by_instances} through an instance");
    assert!(by_summaries >= 100, "{by_summaries} through a summary");
    assert!(without >= 1000, "{without} without a loop");
}

/// The index of an instance under a field leaves INT.
#[test]
fn fields_texts_come_to_20_by_what_a_field_reads() {
    let number = |text: &str| model::answer(text.as_bytes(), model::PROGRAM_BUFFER).number;
    let by_fields = fields_texts()
        .filter(|text| number(text) == 20 && number(&all_unread(text)) == 0)
        .count();
    assert!(by_fields >= 30, "{by_fields}");
}

#[test]
fn fields_texts_are_at_limits_and_past_them() {
    let mut counts: BTreeMap<(&str, u32), u64> = BTreeMap::new();
    for text in (15..3000).step_by(16).map(fields_text) {
        let limit = ["(repeat 5 0 51", "(repeat 5 0 256 ", "(inst ", "(reg "]
            .into_iter()
            .find(|head| text.contains(&format!("\n{head}")));
        let number = model::answer(text.as_bytes(), model::PROGRAM_BUFFER).number;
        *counts.entry((limit.unwrap(), number)).or_default() += 1;
    }
    for (limit, past) in [
        ("(repeat 5 0 51", 20),
        ("(repeat 5 0 256 ", 20),
        ("(inst ", 20),
        ("(reg ", 21),
    ] {
        for number in [0, past] {
            let found = counts.get(&(limit, number)).copied().unwrap_or_default();
            assert!(found >= 10, "{limit} {number}: {found}");
        }
    }
}

#[test]
fn limits_at_the_limit_are_accepted_and_past_it_not() {
    let passed_only = [15, 16, 18];
    for i in 0..400 {
        let text = text("limits", 3, i).unwrap();
        let number = model::answer(&text, model::PROGRAM_BUFFER).number;
        let limit = i / 2 % 20;
        let refused = limit == 19 || (i % 2 == 1 && !passed_only.contains(&limit));
        assert_eq!(number != 0, refused, "limits 3 {i}: {number}");
    }
}

#[test]
fn most_texts_are_small() {
    for profile in PROFILES.iter().filter(|p| **p != "limits") {
        let small = (0..1000)
            .filter(|&i| text(profile, 2, i).unwrap().len() <= 2048)
            .count();
        assert!(small > 750, "{profile}: {small} of 1000");
    }
}

#[test]
fn the_first_case_is_the_scope_pages() {
    let cases = stored("cases.cases");
    assert_eq!(cases[0].name, "P1");
    assert_eq!(cases[0].text, P1.as_bytes());
    assert_eq!(cases[0].answer, P1_ANSWER.as_bytes());
    for k in 1..=10 {
        assert!(cases.iter().any(|c| c.name == format!("P{k}")), "P{k}");
    }
}

#[test]
fn stored_vectors_are_what_the_program_writes() {
    for (file, cases) in vectors::files().unwrap() {
        assert!(
            stored(file) == cases,
            "{file} is not what gen --vectors writes"
        );
    }
}

#[test]
fn names_are_given_once() {
    let names: Vec<String> = FILES
        .iter()
        .flat_map(|f| stored(f))
        .map(|c| c.name)
        .collect();
    let different: HashSet<&String> = names.iter().collect();
    assert_eq!(names.len(), different.len());
    assert!(names.len() >= 300);
}

#[test]
fn the_model_gives_the_stored_answers() {
    for case in FILES.iter().flat_map(|f| stored(f)) {
        let printed = model::printed(&case.text);
        let shown = String::from_utf8_lossy(&printed);
        assert!(
            printed == case.answer,
            "{}: the model prints\n{shown}",
            case.name
        );
    }
}

/// A field reads what the name alone does: the stored loops are the same.
#[test]
fn loops_by_fields_are_stored_as_loops_by_names_are() {
    let refusals = stored("refusals.cases");
    let answer = |name: &str| &refusals.iter().find(|c| c.name == name).unwrap().answer;
    assert_eq!(
        answer("21-report-65536-by-fields"),
        answer("21-report-65536")
    );
    let cases = stored("cases.cases");
    let answer = |name: &str| &cases.iter().find(|c| c.name == name).unwrap().answer;
    for (by_fields, by_names) in [
        ("report-of-P1-with-fields", "P1"),
        (
            "walk-three-loops-share-steps-by-fields",
            "walk-three-loops-share-steps",
        ),
    ] {
        assert_eq!(answer(by_fields), answer(by_names));
    }
}

#[test]
fn every_refusal_number_is_there() {
    let refusals = stored("refusals.cases");
    for number in [1, 2, 3, 4, 5, 6, 7, 20, 21] {
        let head = format!("(refused {number} ");
        let count = refusals
            .iter()
            .filter(|c| c.answer.starts_with(head.as_bytes()))
            .count();
        assert!(count >= 2, "refusal {number}: {count}");
    }
    assert!(refusals
        .iter()
        .all(|c| !c.answer.starts_with(b"(refused 8 ")));
    for file in ["cases.cases", "generated.cases"] {
        assert!(
            stored(file).iter().all(|c| !is_refusal(&c.answer)),
            "{file}"
        );
    }
}
