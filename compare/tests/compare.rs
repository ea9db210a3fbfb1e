//! What `compare` must notice, and what it must let pass.

use compare::compare::command::CheckerCommand;
use compare::compare::run::{compare_all, smallest, Counts};
use compare::compare::{before, judge, options, rules, shrink, Against, Checker, Verdict};
use compare::oracle::{self, fields};
use compare::{gen, model};
use std::process::Command;

fn texts(profile: &'static str, count: u64) -> impl Iterator<Item = (String, Vec<u8>)> {
    (0..count).map(move |i| (i.to_string(), gen::text(profile, 3, i).unwrap()))
}

fn counts(checker: &mut Checker, against: Against, profile: &'static str) -> Counts {
    let mut counts = Counts::default();
    for (_, text) in texts(profile, 100) {
        counts.add(&judge(checker, against, &text));
    }
    counts
}

fn differences(mut checker: impl FnMut(&[u8]) -> Vec<u8>, against: Against) -> u64 {
    let mut checker = |text: &[u8]| Ok(checker(text));
    counts(&mut checker, against, "small").differences
}

fn lines(printed: &[u8]) -> Vec<&[u8]> {
    printed.split_inclusive(|&b| b == b'\n').collect()
}

#[test]
fn the_model_is_the_same() {
    let mut rewritten = 0;
    for profile in gen::PROFILES {
        let mut model = |text: &[u8]| Ok(model::printed(text));
        let counts = counts(&mut model, Against::Oracle, profile);
        assert_eq!(counts.differences, 0, "{profile}");
        let refused: u64 = counts.refused.values().sum();
        assert_eq!(counts.texts, 100);
        assert_eq!(refused + counts.left_out + counts.exact + counts.tied, 100);
        assert!(counts.rewritten <= counts.exact + counts.tied);
        rewritten += counts.rewritten;
    }
    assert!(rewritten > 50, "{rewritten}");
}

#[test]
fn notices_a_checker_that_prints_nothing() {
    assert!(differences(|_| Vec::new(), Against::Oracle) > 50);
    assert!(differences(|_| Vec::new(), Against::Model) > 50);
}

#[test]
fn notices_a_checker_that_drops_the_last_line() {
    let drops = |text: &[u8]| {
        let mut printed = model::printed(text);
        let kept = printed.len() - lines(&printed).last().map_or(0, |l| l.len());
        printed.truncate(kept);
        printed
    };
    assert!(differences(drops, Against::Oracle) > 50);
}

#[test]
fn notices_a_checker_that_checks_only_module_0() {
    let only_first = |text: &[u8]| {
        let printed = model::printed(text);
        let of_first = |l: &&&[u8]| l.split(|&b| b == b' ').nth(1) == Some(b"0");
        lines(&printed)
            .iter()
            .filter(of_first)
            .copied()
            .collect::<Vec<_>>()
            .concat()
    };
    assert!(differences(only_first, Against::Oracle) > 10);
}

#[test]
fn notices_a_checker_that_adds_or_changes_a_report() {
    let adds = |text: &[u8]| [model::printed(text), b"(E0503 9 9 9 none)\n".to_vec()].concat();
    assert_eq!(differences(adds, Against::Oracle), 100);
    let swaps = |text: &[u8]| {
        let printed = model::printed(text);
        lines(&printed)
            .iter()
            .rev()
            .copied()
            .collect::<Vec<_>>()
            .concat()
    };
    assert!(differences(swaps, Against::Oracle) > 10);
    let unended = |text: &[u8]| {
        let mut printed = model::printed(text);
        printed.pop();
        printed
    };
    assert!(differences(unended, Against::Oracle) > 50);
}

#[test]
fn counts_refusals_but_compares_them_only_when_asked() {
    let refuses = |_: &[u8]| b"(refused 5 2)\n".to_vec();
    assert_eq!(differences(refuses, Against::Oracle), 0);
    assert!(differences(refuses, Against::Refusals) > 90);
    let mut refuses = |_: &[u8]| Ok(b"(refused 20 0)\n".to_vec());
    let counted = counts(&mut refuses, Against::Oracle, "sites").refused;
    assert_eq!(counted.into_iter().collect::<Vec<_>>(), [(20, 100)]);
}

#[test]
fn notices_a_checker_that_passes_over_limits() {
    let mut no_limits = |text: &[u8]| {
        let printed = model::printed(text);
        Ok(if printed.starts_with(b"(refused 20 ") {
            Vec::new()
        } else {
            printed
        })
    };
    assert!(counts(&mut no_limits, Against::Oracle, "limits").differences > 5);
}

#[test]
fn refusals_are_compared_by_number_and_line() {
    let text = b"(module 0 bound)\n(reg 256 1)\n";
    let verdict = |printed: &'static [u8]| {
        let mut checker = |_: &[u8]| Ok(printed.to_vec());
        judge(&mut checker, Against::Refusals, text)
    };
    assert_eq!(verdict(b"(refused 5 2)\n"), Verdict::Refused(5));
    for wrong in [
        &b"(refused 5 1)\n"[..],
        b"(refused 4 2)\n",
        b"",
        b"(E0503 0 1 256 none)\n",
    ] {
        assert!(matches!(verdict(wrong), Verdict::Different(_)));
    }
    let mut accepts = |_: &[u8]| Ok(b"(E0503 0 1 4 none)\n".to_vec());
    let accepted = b"(module 0 bound)\n";
    assert_eq!(
        judge(&mut accepts, Against::Refusals, accepted),
        Verdict::Exact
    );
    assert!(matches!(
        judge(&mut accepts, Against::Model, accepted),
        Verdict::Different(_)
    ));
}

/// A positive number shifted right by 0 has another value in the original.
#[test]
fn a_positive_number_shifted_right_by_0_is_left_out() {
    let verdict = |text: &'static [u8], printed: &'static [u8]| {
        let mut checker = |_: &[u8]| Ok(printed.to_vec());
        judge(&mut checker, Against::Oracle, text)
    };
    let kept = b"(module 0 bound)\n(constif (lt (shr 5 0) 0) (then (reg 1 2)) (else))\n";
    assert_eq!(verdict(kept, b""), Verdict::LeftOut);
    assert_eq!(verdict(kept, b"(E0503 0 2 1 none)\n"), Verdict::LeftOut);
    assert_eq!(verdict(kept, b"(refused 20 0)\n"), Verdict::Refused(20));
    // shifted by 1, or beside a constant that is 20, it is compared
    let shifted = b"(module 0 bound)\n(constif (lt (shr 5 1) 0) (then (reg 1 2)) (else))\n";
    assert_eq!(verdict(shifted, b""), Verdict::Exact);
    let other = verdict(shifted, b"(E0503 0 2 1 none)\n");
    assert!(matches!(other, Verdict::Different(_)));
    let full = b"(module 0 bound)\n(const 1 (shr 5 0))\n(const 1 (shl 1 31))\n";
    assert!(matches!(verdict(full, b""), Verdict::Different(_)));
    // against the model there is nothing to leave out
    let mut wrong = |_: &[u8]| Ok(b"(E0503 0 2 1 none)\n".to_vec());
    let other = judge(&mut wrong, Against::Model, kept);
    assert!(matches!(other, Verdict::Different(_)));
}

/// Wire 3 reads itself through a field; register 4 has no block.
const FIELD: &[u8] = b"(module 0 bound)\n(kind 3 wire)\n(reg 4 1)\n(wire 3 (f (n 3) 1) 5)\n";

fn verdict_on(text: &'static [u8], printed: &'static str) -> Verdict {
    let mut checker = |_: &[u8]| Ok(printed.as_bytes().to_vec());
    judge(&mut checker, Against::Oracle, text)
}

#[test]
fn a_field_of_a_signal_is_compared_by_rewriting() {
    let same = Verdict::Rewritten { tied: false };
    let reports = "(E0503 0 1 4 none)\n(E0504 0 5 (walk 3 3))\n";
    assert_eq!(verdict_on(FIELD, reports), same);
    let what = |printed| match verdict_on(FIELD, printed) {
        Verdict::Different(found) => found.what,
        other => panic!("{other:?}"),
    };
    // reports other than loops on the text as it is
    for wrong in ["", "(E0504 0 5 (walk 3 3))\n", "(E0503 0 2 4 none)\n"] {
        assert!(
            what(wrong).starts_with("loops aside, report 1: "),
            "{wrong}"
        );
    }
    // and loops on the rewritten one: what the original prints for the text as it is will not do
    for wrong in [
        "(E0503 0 1 4 none)\n",
        "(E0503 0 1 4 none)\n(E0504 0 6 (walk 3 3))\n",
        "(E0504 0 5 (walk 3 3))\n(E0503 0 1 4 none)\n",
    ] {
        assert!(what(wrong).starts_with("with its fields rewritten, report "));
    }
}

#[test]
fn a_field_that_is_an_output_of_an_instance_is_compared_as_it_is() {
    let text = b"(module 0 bound)\n(kind 3 inst)\n(reg 4 1)\n(wire 3 (f (n 3) 1) 5)\n";
    assert_eq!(verdict_on(text, "(E0503 0 1 4 none)\n"), Verdict::Exact);
    let looped = "(E0503 0 1 4 none)\n(E0504 0 5 (walk 3 3))\n";
    assert!(matches!(verdict_on(text, looped), Verdict::Different(_)));
}

/// Two wires at one START that read each other through fields.
#[test]
fn ties_through_fields() {
    let text = b"(module 0 bound)\n(kind 1 wire)\n(kind 2 wire)\n\
        (wire 1 (f (n 2) 0) 5)\n(wire 2 (f (n 1) 0) 5)\n";
    for walk in ["(E0504 0 5 (walk 1 2 1))\n", "(E0504 0 5 (walk 2 1 2))\n"] {
        assert_eq!(verdict_on(text, walk), Verdict::Rewritten { tied: true });
    }
    assert!(matches!(verdict_on(text, ""), Verdict::Different(_)));
}

/// With fields a limit can be passed: the refusal is the model's, or the texts differ.
#[test]
fn a_text_with_fields_is_refused_only_where_the_model_refuses_it() {
    let full = b"(module 0 bound)\n(kind 3 wire)\n(kind 6 inst)\n\
        (wire 3 (f (neg (f (ix (n 6) (shl 1 31)) 1)) 2) 5)\n";
    assert_eq!(verdict_on(full, "(refused 20 0)\n"), Verdict::Refused(20));
    for wrong in ["", "(refused 21 0)\n"] {
        assert!(matches!(verdict_on(full, wrong), Verdict::Different(_)));
    }
    for wrong in ["(refused 20 0)\n", "(refused 21 0)\n"] {
        assert!(matches!(verdict_on(FIELD, wrong), Verdict::Different(_)));
    }
    // malformed texts are counted by what the checker says of them
    let malformed = b"(module 0 bound)\n(wire 3 (f (n 3) 256) 5)\n";
    assert_eq!(
        verdict_on(malformed, "(refused 5 2)\n"),
        Verdict::Refused(5)
    );
    assert_eq!(
        verdict_on(malformed, "(refused 4 2)\n"),
        Verdict::Refused(4)
    );
    assert!(matches!(verdict_on(malformed, ""), Verdict::Different(_)));
    let unread = b"(module 0 bound)\n(wire 3 (f (n 3) 1) 5)\n(x\n";
    assert_eq!(verdict_on(unread, "(refused 20 0)\n"), Verdict::Refused(20));
    assert!(matches!(verdict_on(unread, ""), Verdict::Different(_)));
}

#[test]
fn a_positive_number_shifted_by_0_is_left_out_with_fields_too() {
    let text = b"(module 0 bound)\n(kind 3 wire)\n(kind 6 inst)\n\
        (wire 3 (f (neg (f (ix (n 6) (shr 5 0)) 1)) 2) 5)\n";
    assert_eq!(verdict_on(text, ""), Verdict::LeftOut);
}

/// What the original says of the text as it is.
#[test]
fn notices_a_checker_that_does_not_read_fields() {
    let mut unread = |text: &[u8]| {
        let lines = oracle::check(text)?.into_iter();
        Ok(lines.map(|l| l + "\n").collect::<String>().into_bytes())
    };
    let verdict = judge(&mut unread, Against::Oracle, FIELD);
    assert!(matches!(verdict, Verdict::Different(_)));
}

/// `(all E)` is read as the field is, and has no value as it has none.
#[test]
fn the_model_says_the_same_of_a_rewritten_text() {
    let mut held = 0;
    for profile in gen::PROFILES {
        for (_, text) in texts(profile, 100) {
            let answer = |text: &[u8]| model::answer(text, model::PROGRAM_BUFFER);
            let said = answer(&text);
            let Some(other) =
                fields::rewritten(&text).filter(|_| matches!(said.number, 0 | 20 | 21))
            else {
                continue;
            };
            assert_eq!(answer(&other), said, "{}", String::from_utf8_lossy(&text));
            assert_eq!(fields::rewritten(&other), None);
            held += 1;
        }
    }
    assert!(held > 50, "{held}");
}

fn before_verdict(text: &[u8], was: &[u8], is: &[u8]) -> before::Verdict {
    let mut before = |_: &[u8]| Ok(was.to_vec());
    let mut now = |_: &[u8]| Ok(is.to_vec());
    before::judge(&mut before, &mut now, text)
}

#[track_caller]
fn is_unlike_before(text: &[u8], was: &[u8], is: &[u8]) {
    let verdict = before_verdict(text, was, is);
    assert!(
        matches!(verdict, before::Verdict::Different(_)),
        "{was:?} {is:?}"
    );
}

const REPORT: &[u8] = b"(E0503 0 1 4 none)\n";
const MALFORMED: &[u8] = b"(refused 5 2)\n";
const FULL: &[u8] = b"(refused 20 0)\n";
const TOO_LONG: &[u8] = b"(refused 21 0)\n";

#[test]
fn before_and_now_print_the_same_bytes() {
    let outputs = b"(module 0 bound)\n(kind 6 inst)\n(wire 3 (f (ix (n 6) 0) 1) 5)\n";
    for text in [
        &b""[..],
        b"(module 0 bound)\n",
        outputs,
        b"(f (n 3) 1)\n(x\n",
        FIELD,
    ] {
        let same = |printed| before_verdict(text, printed, printed);
        assert_eq!(same(REPORT), before::Verdict::Accepted);
        assert_eq!(same(b""), before::Verdict::Accepted);
        assert_eq!(same(MALFORMED), before::Verdict::Refused(5));
        assert_eq!(same(FULL), before::Verdict::Refused(20));
        for (was, is) in [
            (REPORT, &b""[..]),
            (b"", REPORT),
            (b"", b"(E0504 0 5 (walk 3 3))\n"),
            (REPORT, &REPORT[..REPORT.len() - 1]),
            (REPORT, FULL),
            (REPORT, TOO_LONG),
            (TOO_LONG, REPORT),
            (TOO_LONG, FULL),
            (MALFORMED, b"(refused 5 3)\n"),
            (MALFORMED, REPORT),
            (b"(refused 8 2)\n", REPORT),
            (b"\xff\n", b"\xfe\n"),
        ] {
            is_unlike_before(text, was, is);
        }
    }
}

#[test]
fn a_program_that_fails_before_or_now_is_different() {
    for text in [b"", FIELD] {
        let mut fails = |_: &[u8]| Err("no answer".to_string());
        let mut works = |_: &[u8]| Ok(Vec::new());
        for verdict in [
            before::judge(&mut fails, &mut works, text),
            before::judge(&mut works, &mut fails, text),
        ] {
            assert!(matches!(verdict, before::Verdict::Different(_)));
        }
    }
}

#[test]
fn before_and_now_are_counted() {
    let mut counts = before::Counts::default();
    for (text, was, is) in [
        (&b""[..], &b""[..], &b""[..]),
        (b"", MALFORMED, MALFORMED),
        (b"", REPORT, b""),
        (FIELD, REPORT, REPORT),
        (FIELD, b"", b"(E0504 0 5 (walk 3 3))\n"),
        (FIELD, FULL, FULL),
    ] {
        counts.add(&before_verdict(text, was, is));
    }
    assert_eq!(
        counts.to_string(),
        "texts 6; the same bytes: accepted 2, refused 2 (5: 1, 20: 1); different 2"
    );
}

const TIED: &[u8] = b"(module 0 bound)\n(kind 1 wire)\n(kind 2 wire)\n(kind 4 out)\n(kind 5 out)\n\
    (wire 1 (n 2) 5)\n(wire 2 (n 1) 5)\n\
    (drive (lv 4 1) 0)\n(drive (lv 5 1) 0)\n(drive (lv 4 2) 0)\n(drive (lv 5 2) 0)\n";

fn tied_verdict(printed: &'static str) -> Verdict {
    let mut checker = |_: &[u8]| Ok(printed.as_bytes().to_vec());
    judge(&mut checker, Against::Oracle, TIED)
}

#[test]
fn on_ties_only_loop_or_no_loop() {
    let conflicts = "(E0501 0 2 4 many)\n(E0501 0 2 5 many)\n";
    for walk in ["(walk 1 2 1)", "(walk 2 1 2)"] {
        let printed = format!("{conflicts}(E0504 0 5 {walk})\n").leak();
        assert_eq!(tied_verdict(printed), Verdict::Tied);
    }
    assert!(matches!(tied_verdict(conflicts), Verdict::Different(_)));
    let other_module = "(E0501 0 2 4 many)\n(E0501 0 2 5 many)\n(E0504 1 5 (walk 1 2 1))\n";
    assert!(matches!(tied_verdict(other_module), Verdict::Different(_)));
}

#[test]
fn conflicts_at_one_start_are_a_set() {
    let swapped = "(E0501 0 2 5 many)\n(E0501 0 2 4 many)\n(E0504 0 5 (walk 1 2 1))\n";
    assert_eq!(tied_verdict(swapped), Verdict::Tied);
    let doubled = "(E0501 0 2 5 many)\n(E0501 0 2 5 many)\n(E0504 0 5 (walk 1 2 1))\n";
    assert!(matches!(tied_verdict(doubled), Verdict::Different(_)));
    // at different STARTs the order counts, and only `many` is a set
    for (a, b) in [
        ("(E0501 0 2 5 many)", "(E0501 0 3 4 many)"),
        ("(E0501 0 2 5 wire)", "(E0501 0 2 4 wire)"),
        ("(E0502 0 2 5 never)", "(E0502 0 2 4 never)"),
        ("(E0501 0 2 5 many)", "(E0501 1 2 4 many)"),
    ] {
        let (a, b) = (a.to_string(), b.to_string());
        let one = rules::comparable(&[a.clone(), b.clone()], &[]);
        assert_ne!(one, rules::comparable(&[b, a], &[]));
    }
}

#[test]
fn loops_of_other_modules_stay_exact() {
    let looped = |m: u32, walk: &str| format!("(E0504 {m} 5 (walk {walk}))");
    let one = [looped(0, "1 2 1"), looped(0, "3 3"), looped(1, "1 1")];
    let two = [looped(0, "2 1 2"), looped(1, "1 1")];
    let three = [looped(0, "2 1 2"), looped(1, "2 2")];
    let ties = [true, false];
    assert_eq!(
        rules::comparable(&one, &ties),
        rules::comparable(&two, &ties)
    );
    assert_ne!(
        rules::comparable(&two, &ties),
        rules::comparable(&three, &ties)
    );
    assert_ne!(rules::comparable(&one, &[]), rules::comparable(&two, &[]));
}

#[test]
fn differences_are_shown_and_counted() {
    let mut silent = |_: &[u8]| Ok(Vec::new());
    let smallest = b"(module 0 bound)\n(reg 4 0)\n".to_vec();
    let larger = b"(module 0 bound)\n(reg 4 20)\n(reg 4 30)\n".to_vec();
    let texts = [("one", larger), ("two", Vec::new()), ("three", smallest)];
    let texts = texts
        .into_iter()
        .map(|(name, text)| (name.to_string(), text));
    let mut out = Vec::new();
    let counts = compare_all("these", texts, &mut silent, Against::Oracle, &mut out).unwrap();
    assert_eq!((counts.texts, counts.exact, counts.differences), (3, 1, 2));
    let what = "report 1: checker nothing, other (E0503 0";
    let small = format!(
        "  smallest text ({what} 0 4 none))\n    (module 0 bound)\n    (reg 4 0)\n  \
         checker prints 0 lines\n  other prints 1 lines\n    (E0503 0 0 4 none)\n"
    );
    let expected = format!(
        "difference in one: {what} 20 4 none)\n{small}difference in three: {what} 0 4 none)\n\
         {small}these: texts 3, refused 0, left out 0, compared exactly 1, with ties 0, \
         0 of these by rewriting, differences 2\n"
    );
    assert_eq!(String::from_utf8(out).unwrap(), expected);
}

#[test]
fn a_difference_is_made_small() {
    let mut no_regs = |text: &[u8]| {
        let printed = model::printed(text);
        let kept = |l: &&&[u8]| !l.starts_with(b"(E0503 ");
        Ok(lines(&printed)
            .iter()
            .filter(kept)
            .copied()
            .collect::<Vec<_>>()
            .concat())
    };
    let mut made_small = 0;
    for (_, text) in texts("small", 12) {
        let Verdict::Different(found) = judge(&mut no_regs, Against::Oracle, &text) else {
            continue;
        };
        let mut again = |text: &[u8]| judge(&mut no_regs, Against::Oracle, text);
        let (small, found) = smallest(&mut again, &text, &found);
        assert!(matches!(
            judge(&mut no_regs, Against::Oracle, &small),
            Verdict::Different(_)
        ));
        assert_eq!(model::answer(&small, usize::MAX).number, 0);
        assert!(found.other.iter().any(|l| l.starts_with("(E0503 ")));
        assert!(small.len() < text.len() && small.len() < 200);
        made_small += 1;
    }
    assert!(made_small > 2);
}

#[test]
fn shrinking_keeps_what_matters_and_stops() {
    let has_x = |text: &[u8]| text.contains(&b'x');
    assert_eq!(
        shrink::shrink(b"(a 1)\n(b (c 2 x) (d 3))\n(e)\n", 500, has_x),
        b"(b x)\n"
    );
    assert_eq!(shrink::shrink(b"(a 1)\n(x)\n", 0, has_x), b"(a 1)\n(x)\n");
    assert_eq!(shrink::shrink(b"", 10, |_| true), b"");
}

#[test]
fn a_command_is_run_for_each_text() {
    let model = CheckerCommand {
        program: env!("CARGO_BIN_EXE_model").into(),
        args: vec![],
    };
    model.try_start().unwrap();
    for (_, text) in texts("damaged", 20) {
        assert_eq!(model.print(&text).unwrap(), model::printed(&text));
    }
    let none = CheckerCommand {
        program: "no such checker".into(),
        args: vec![],
    };
    assert!(none.try_start().is_err());
    assert!(none.print(b"").is_err());
    // a program that fails and prints nothing is different, even where nothing is to be printed
    let fails = CheckerCommand {
        program: env!("CARGO_BIN_EXE_compare").into(),
        args: vec!["--no-such-option".into()],
    };
    let mut checker = |text: &[u8]| fails.print(text);
    assert!(matches!(
        judge(&mut checker, Against::Oracle, b""),
        Verdict::Different(_)
    ));
}

fn parse(args: &[&str]) -> Result<options::Options, String> {
    let args: Vec<String> = args.iter().map(|a| a.to_string()).collect();
    options::parse(&args, gen::PROFILES)
}

#[test]
fn arguments() {
    let options = parse(&[
        "--seed", "7", "--from", "5", "--count", "9", "check", "--seed", "x",
    ]);
    let options = options.unwrap();
    assert_eq!((options.seed, options.from, options.count), (7, 5, 9));
    assert_eq!(options.profiles, gen::PROFILES);
    let checker = CheckerCommand {
        program: "check".into(),
        args: vec!["--seed".into(), "x".into()],
    };
    assert_eq!(options.checker, Some(checker));
    assert_eq!(options.against, Against::Oracle);
    assert_eq!(options.before, None);
    let options = parse(&["--before", "old", "new", "old"]).unwrap();
    let named = |c: Option<CheckerCommand>| c.map(|c| (c.program, c.args.len()));
    assert_eq!(named(options.before), Some(("old".to_string(), 0)));
    assert_eq!(named(options.checker), Some(("new".to_string(), 1)));
    let options = parse(&["--model", "--refusals", "--profile", gen::PROFILES[0]]).unwrap();
    assert_eq!((options.profiles.len(), options.checker), (1, None));
    for bad in [
        &[][..],
        &["--model", "check"],
        &["--what", "check"],
        &["--count", "check"],
        &["--count", "-1", "check"],
        &["--profile"],
        &["--profile", "none", "check"],
        &["--cases", "x", "--profile", gen::PROFILES[0], "check"],
        &["--refusals", "--against-model", "check"],
        &["--before", "check"],
        &["--before"],
        &["--before", "old", "--refusals", "check"],
        &["--against-model", "--before", "old", "check"],
    ] {
        let error = parse(bad).unwrap_err();
        assert_eq!(error.lines().count(), 1, "{error}");
    }
}

fn program(args: &[&str]) -> (Option<i32>, String, String) {
    let out = Command::new(env!("CARGO_BIN_EXE_compare"))
        .args(args)
        .output()
        .unwrap();
    let text = |bytes| String::from_utf8(bytes).unwrap();
    (out.status.code(), text(out.stdout), text(out.stderr))
}

#[test]
fn the_program_and_its_exit_status() {
    let model = env!("CARGO_BIN_EXE_model");
    let (status, out, _) = program(&["--count", "5", model]);
    assert_eq!(status, Some(0));
    assert_eq!(out.lines().count(), gen::PROFILES.len());
    let (status, _, _) = program(&["--refusals", "--profile", "damaged", "--count", "20", model]);
    assert_eq!(status, Some(0));
    // the same program before and now; then one that fails on every text
    let (status, out, _) = program(&["--profile", "damaged", "--before", model, model]);
    assert_eq!(status, Some(0));
    assert!(out.starts_with("damaged: texts 1000; the same bytes: accepted "));
    assert!(out.ends_with("; different 0\n"));
    let failing = env!("CARGO_BIN_EXE_compare");
    for (before, now) in [(failing, model), (model, failing)] {
        let (status, out, _) = program(&[
            "--profile",
            "sites",
            "--count",
            "3",
            "--before",
            before,
            now,
        ]);
        assert_eq!(status, Some(1));
        assert!(out.ends_with("accepted 0, refused 0; different 3\n"));
    }
    // `compare` without arguments is a checker that fails on every text
    let (status, out, _) = program(&["--count", "3", env!("CARGO_BIN_EXE_compare")]);
    assert_eq!(status, Some(1));
    assert!(out.contains("differences 3"));
    for bad in [
        &["no such checker"][..],
        &["--before", "no such checker", "--model"],
        &["--cases", "no such file", "--model"],
        &["--bad"],
    ] {
        let (status, out, error) = program(bad);
        assert_eq!((status, out.as_str()), (Some(2), ""));
        assert_eq!(error.lines().count(), 1);
    }
}
