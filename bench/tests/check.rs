//! The archive of `drivers_c` against the model, the original and the stored answers, with all that
//! it is lent. The program `hold_check` does the same on as many texts as it is told.

use bench::check::archive::{call, check, Working, PLACES};
use bench::check::hold::{Garbage, Holder};
use bench::check::make::{self, ROWS};
use compare::cases::read_cases;
use compare::compare::{judge, Against, Verdict};
use compare::gen::{self, limits};
use compare::model::PROGRAM_BUFFER;
use std::fs;
use std::path::Path;
use std::thread;

/// Texts of each profile.
const TEXTS: u64 = 400;
const SEED: u64 = 7;

/// The text of P1 with its stated reports.
const P1: &[u8] = include_bytes!("../../compare/vectors/p1.text");
const P1_REPORTS: &[u8] = b"(E0502 0 10 2 gap 3)\n(E0503 0 20 4 none)\n(E0504 0 30 (walk 3 2 3))\n";

#[test]
fn generated_texts_are_answered_as_by_model_and_original() {
    let mut holder = Holder::new(SEED);
    for profile in gen::PROFILES {
        for i in 0..TEXTS {
            let text = gen::text(profile, SEED, i).expect("a profile of the generator");
            let mut checker = |text: &[u8]| holder.print(text);
            let verdict = judge(&mut checker, Against::Oracle, &text);
            assert!(
                !matches!(verdict, Verdict::Different(_)),
                "gen --one {profile} {SEED} {i}: {verdict:?}"
            );
        }
    }
    for (class, count) in &holder.seen {
        println!("{count:>8}  {class}");
    }
    for code in ["E0501", "E0502", "E0503", "E0504", "E0505"] {
        assert!(holder.seen.contains_key(code), "no text has {code}");
    }
}

#[test]
fn stored_cases_are_answered_as_stored() {
    let folder = Path::new(env!("CARGO_MANIFEST_DIR")).join("../compare/vectors");
    let (mut holder, mut held) = (Holder::new(SEED), 0);
    for name in ["cases.cases", "generated.cases", "refusals.cases"] {
        let bytes = fs::read(folder.join(name)).expect("a stored file");
        for case in read_cases(&bytes).expect("stored cases") {
            assert_eq!(holder.print(&case.text), Ok(case.answer), "{}", case.name);
            held += 1;
        }
    }
    println!("{held} stored cases");
    assert!(held > 0);
}

#[test]
fn p1_has_its_three_lines() {
    let mut report = [b'x'; 100];
    let answer = check(P1, &mut report, &mut Working::new(PLACES)).expect("an answer");
    let numbers = (
        answer.number,
        answer.line,
        answer.bytes,
        answer.reports,
        answer.rounds,
    );
    assert_eq!(numbers, (0, 0, P1_REPORTS.len(), 3, 0));
    assert_eq!(&report[..answer.bytes], P1_REPORTS);
    assert!(report[answer.bytes..].iter().all(|&b| b == b'x'));
}

/// 20, before 1 and before acceptance, with every slice zero and the buffer as it was.
#[test]
fn each_slice_too_short_gives_20() {
    let (mut garbage, long) = (Garbage::new(SEED), vec![b'x'; limits::TEXT_BYTES + 1]);
    for text in [P1, b"", &long, b"(module 0 bound"] {
        for at in 0..PLACES.len() {
            for short in [0, 1, PLACES[at] / 2, PLACES[at] - 1] {
                let mut places = PLACES;
                places[at] = short;
                let mut lent = Working::new(places);
                lent.fill(&mut garbage);
                let mut report = [b'x'; 100];
                let answer = check(text, &mut report, &mut lent).expect("an answer");
                assert_eq!((answer.number, answer.line), (20, 0), "{places:?}");
                assert_eq!((answer.bytes, answer.reports, answer.rounds), (0, 0, 0));
                assert!(lent.is_zero() && report == [b'x'; 100], "{places:?}");
            }
        }
    }
}

/// As many of the five numbers as there is room for, and nothing behind them.
#[test]
fn the_numbers_go_by_their_slice() {
    let wanted = [0, 0, P1_REPORTS.len() as u64, 3, 0];
    for room in 0..9 {
        let mut numbers = vec![77; room];
        let mut report = vec![0; PROGRAM_BUFFER];
        let number = call(P1, &mut report, &mut numbers, &mut Working::new(PLACES));
        assert_eq!(number, 0);
        let stored = room.min(wanted.len());
        assert_eq!(numbers[..stored], wanted[..stored]);
        assert!(numbers[stored..].iter().all(|&n| n == 77));
    }
}

/// 32 modules, one in the other, take more stack than Rust gives a thread, and less than a process has.
const ORDINARY_STACK: usize = 8 << 20;

#[test]
fn timed_designs_are_answered_as_by_model_and_original() {
    let hold = || {
        let mut holder = Holder::new(SEED);
        let texts = ROWS.iter().map(|row| (row.name, (row.text)()));
        for (name, text) in texts.chain([("deepest", make::deepest())]) {
            let mut checker = |text: &[u8]| holder.print(text);
            let verdict = judge(&mut checker, Against::Oracle, &text);
            assert_eq!(verdict, Verdict::Exact, "{name}");
        }
    };
    let thread = thread::Builder::new().stack_size(ORDINARY_STACK);
    let thread = thread.spawn(hold).expect("a thread");
    thread.join().expect("no difference");
}
