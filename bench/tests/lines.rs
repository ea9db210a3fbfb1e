//! The archive `bench_c` against the model, which was written from the scope with a reader
//! of its own: number and line of every refusal 1 to 7, and which texts are well formed.

use bench::lines::make::{depth, SHAPES};
use bench::lines::{archive, Answer, LONGEST};
use compare::cases::read_cases;
use compare::{gen, model};
use std::collections::BTreeMap;
use std::fs;
use std::path::Path;

/// Texts of each profile under each seed.
const TEXTS: u64 = 6_000;
const PROFILES: [&str; 2] = ["damaged", "limits"];
const SEEDS: [u64; 2] = [1, 2];

/// The last number that the reader gives; they count from 1.
const LAST: u32 = 7;

/// How many texts have each number, 0 for those that are well formed.
type Counts = BTreeMap<u32, u64>;

/// What the reader is to say of a text to which the whole check answers with this number and line.
/// There is no 8 any more, and what is refused with 20 or 21 is well formed.
fn expected(number: u32, line: u32) -> Answer {
    match number {
        1..=LAST => Answer::Refused { number, line },
        0 | 20 | 21 => Answer::Formed,
        _ => panic!("there is no number {number}"),
    }
}

fn number(answer: Answer) -> u32 {
    match answer {
        Answer::Formed => 0,
        Answer::Refused { number, .. } => number,
    }
}

/// The archive and the model on one text.
fn hold(profile: &str, seed: u64, i: u64, counts: &mut Counts) {
    let text = gen::text(profile, seed, i).expect("a profile of the generator");
    let whole = model::answer(&text, model::PROGRAM_BUFFER);
    let wanted = expected(whole.number, whole.line);
    assert_eq!(
        archive::read(&text),
        wanted,
        "gen --one {profile} {seed} {i}"
    );
    *counts.entry(number(wanted)).or_default() += 1;
}

#[test]
fn damaged_and_limit_texts_are_refused_as_the_model_refuses_them() {
    let mut all = Counts::new();
    for profile in PROFILES {
        for seed in SEEDS {
            let mut counts = Counts::new();
            (0..TEXTS).for_each(|i| hold(profile, seed, i, &mut counts));
            println!("{profile}, seed {seed}: {counts:?}");
            counts
                .iter()
                .for_each(|(n, k)| *all.entry(*n).or_default() += k);
        }
    }
    println!("all: {all:?}, {} texts", all.values().sum::<u64>());
    let missing: Vec<u32> = (0..=LAST).filter(|n| !all.contains_key(n)).collect();
    assert!(missing.is_empty(), "no text has {missing:?}");
}

#[test]
fn stored_cases_are_answered_as_stored() {
    let folder = Path::new(env!("CARGO_MANIFEST_DIR")).join("../compare/vectors");
    let mut held = 0;
    for name in ["cases.cases", "generated.cases", "refusals.cases"] {
        let bytes = fs::read(folder.join(name)).expect("a stored file");
        for case in read_cases(&bytes).expect("stored cases") {
            let (number, line) = refusal(&case.answer);
            assert_eq!(
                archive::read(&case.text),
                expected(number, line),
                "{}",
                case.name
            );
            held += 1;
        }
    }
    println!("{held} stored cases");
    assert!(held > 0);
}

/// Number and line of `(refused NUMBER LINE)`, and 0 for another answer.
fn refusal(answer: &[u8]) -> (u32, u32) {
    let numbers = std::str::from_utf8(answer).ok().and_then(|a| {
        let (number, line) = a
            .strip_prefix("(refused ")?
            .strip_suffix(")\n")?
            .split_once(' ')?;
        Some((number.parse().ok()?, line.parse().ok()?))
    });
    numbers.unwrap_or((0, 0))
}

#[test]
fn timed_texts_are_well_formed_full_and_as_deep_as_they_say() {
    for shape in &SHAPES {
        let text = shape.text();
        assert_eq!(text.len(), LONGEST, "{}", shape.name);
        assert_eq!(depth(&text), shape.depth.max(2), "{}", shape.name);
        assert_eq!(archive::read(&text), Answer::Formed, "{}", shape.name);
        assert_eq!(
            model::answer(&text, model::PROGRAM_BUFFER).number % 20,
            0,
            "{}",
            shape.name
        );
    }
}

#[test]
fn an_answer_goes_by_the_slice_alone() {
    let text = b"(module 0 bound)\n(kind 1 in)\n";
    assert_eq!(archive::read(b""), Answer::Formed);
    assert_eq!(archive::read(text), Answer::Formed);
    for end in 1..text.len() {
        let wanted = model::answer(&text[..end], model::PROGRAM_BUFFER);
        assert_eq!(
            archive::read(&text[..end]),
            expected(wanted.number, wanted.line),
            "{end} bytes"
        );
    }
}
