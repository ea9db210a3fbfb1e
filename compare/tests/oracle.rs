//! The oracle on the cases P1 to P10, on each kind of report, and on texts that it cannot read.

use std::fs;
use std::io::Write;
use std::path::PathBuf;
use std::process::{Command, Output, Stdio};

use compare::cases::{write_cases, Case};
use compare::oracle::{self, fields};

const P1: &str = "\
(module 0 bound)
(kind 1 in)
(kind 2 out)
(kind 3 wire)
(kind 4 reg)
(port out 2 (bits 8) 10)
(reg 4 20)
(wire 3 (all (n 1) (n 2)) 30)
(drive (lv 2 40 7 4) (n 3))
(drive (lv 2 50 2 0) (n 4))
";

const P1_REPORTS: [&str; 3] = [
    "(E0502 0 10 2 gap 3)",
    "(E0503 0 20 4 none)",
    "(E0504 0 30 (walk 3 2 3))",
];

#[track_caller]
fn assert_reports(text: &str, reports: &[&str]) {
    assert_eq!(oracle::check(text.as_bytes()).unwrap(), reports, "{text}");
}

/// A module 0 whose name 2 is an output, with these further lines.
fn with_output(binding: &str, lines: &str) -> String {
    format!("(module 0 {binding})\n(kind 2 out)\n{lines}\n")
}

#[test]
fn p1_the_example() {
    assert_reports(P1, &P1_REPORTS);
}

#[test]
fn p2_empty_text() {
    assert_reports("", &[]);
}

#[test]
fn p3_ranges_that_share_a_bit_meet() {
    let text = with_output("bound", "(drive (lv 2 5 3 0) 0)\n(drive (lv 2 6 5 3) 0)");
    assert_reports(&text, &["(E0501 0 6 2 many)"]);
}

#[test]
fn p4_ranges_that_share_none_do_not() {
    assert_reports(
        &with_output("bound", "(drive (lv 2 5 3 0) 0)\n(drive (lv 2 6 5 4) 0)"),
        &[],
    );
}

#[test]
fn p5_unknown_and_whole_do_not_meet() {
    let lines = "(drive (lv 2 5 (n 9)) 0)\n(drive (lv 2 6) 0)";
    assert_reports(&with_output("unbound", lines), &[]);
    assert_reports(&with_output("bound", lines), &["(E0501 0 6 2 many)"]);
}

#[test]
fn p6_a_gap_at_the_last_bit_looked_at() {
    let text = with_output(
        "bound",
        "(port out 2 (bits 4097) 5)\n(drive (lv 2 6 4094 0) 0)",
    );
    assert_reports(&text, &["(E0502 0 5 2 gap 4095)"]);
}

#[test]
fn p7_no_gap_past_the_bits_looked_at() {
    let text = with_output(
        "bound",
        "(port out 2 (bits 5000) 5)\n(drive (lv 2 6 4095 0) 0)",
    );
    assert_reports(&text, &[]);
}

#[test]
fn p8_a_repeat_of_4096_unrolls() {
    assert_reports(
        &with_output("bound", "(repeat 9 0 4096 (drive (lv 2 5 (n 9)) 0))"),
        &[],
    );
}

#[test]
fn p9_a_repeat_of_4097_runs_once() {
    let repeat = "(repeat 9 0 4097 (drive (lv 2 5 (n 9)) 0))";
    assert_reports(&with_output("bound", repeat), &[]);
    // Once, and without its variable: the bit is dynamic and meets any other.
    let text = with_output("bound", &format!("{repeat}\n(drive (lv 2 6 5000) 0)"));
    assert_reports(&text, &["(E0501 0 6 2 many)"]);
}

#[test]
fn p10_a_wire_that_reads_itself() {
    let text = "(module 0 bound)\n(kind 3 wire)\n(wire 3 (n 3) 5)\n";
    assert_reports(text, &["(E0504 0 5 (walk 3 3))"]);
}

#[test]
fn every_kind_of_report() {
    let text = "\
(module 0 bound)
(module 1 bound)
(kind 1 wire)
(kind 2 reg)
(kind 3 mem)
(kind 4 out)
(kind 5 out)
(kind 6 out)
(kind 7 reg)
(kind 8 reg)
(kind 9 mem)
(port out 4 bit 10)
(port out 5 opaque 11)
(port out 6 (signed 3) 12)
(reg 7 13)
(reg 8 14)
(mem 9 15)
(mem 3 16)
(drive (lv 1 20) 0)
(drive (lv 2 21) 0)
(drive (lv 3 22) 0)
(on 23 (set 4 24) (loop (set 8 25)) (when (then (set 9 26)) (else (set 1 27))))
(on 28 (default 8) (set 9 29))
(drive (lv 6 31) 0)
(drive (lv 6 30) 0)
";
    assert_reports(
        text,
        &[
            "(E0501 1 20 1 wire)",
            "(E0505 1 21 2 reg)",
            "(E0505 1 22 3 mem)",
            "(E0505 1 24 4 arrow)",
            "(E0501 1 30 6 many)",
            "(E0502 1 11 5 never)",
            "(E0503 1 13 7 none)",
            "(E0503 1 14 8 blocks)",
            "(E0503 1 15 9 memblocks)",
        ],
    );
}

/// Module 1 leads its input 1 to its output 2; module 0 feeds an instance back into itself.
#[test]
fn loops_through_instances() {
    let child =
        "(module 1 bound)\n(kind 1 in)\n(kind 2 out)\n(port out 2 bit 1)\n(drive (lv 2 2) (n 1))\n";
    let parent = |index: &str, read: &str| {
        let head = "(module 0 bound)\n(kind 5 inst)\n(val 7 3)\n(val 7 -2)\n";
        format!("{head}(inst 5 {index} 1 8 (conn 1 {read}))\n{child}")
    };
    assert_reports(
        &parent("-", "(f (n 5) 2)"),
        &["(E0504 0 8 (walk (u 5 - 2) (u 5 - 2)))"],
    );
    let indexed = parent("(n 7)", "(f (ix (n 5) (neg 2)) 2)");
    assert_reports(&indexed, &["(E0504 0 8 (walk (u 5 -2 2) (u 5 -2 2)))"]);
    assert_reports(&parent("(n 7)", "(f (ix (n 5) 2) 2)"), &[]);
    assert_reports(
        &parent("-", "(f (n 5) 2)").replace("(inst 5 - 1", "(inst 5 - 2"),
        &[],
    );
}

/// The original does not read a field of a signal. Rewritten, it reads all that is in it.
#[test]
fn fields_of_signals() {
    let text = |e: &str| {
        format!("(module 0 bound)\n(kind 3 wire)\n(kind 5 inst)\n(reg 4 7)\n(wire 3 {e} 8)\n")
    };
    for e in [
        "(f (n 3) 1)",
        "(f (ix (n 7) (n 3)) 1)",
        "(f (f (n 3) 1) 2)",
        "(f (ix (ix (n 5) 0) (n 3)) 1)",
        "(f (ix (n 3) (f (ix (n 5) (n 9)) 1)) 1)",
    ] {
        assert_reports(&text(e), &["(E0503 0 7 4 none)"]);
        let rewritten = fields::rewritten(text(e).as_bytes()).unwrap();
        let reports = ["(E0503 0 7 4 none)", "(E0504 0 8 (walk 3 3))"];
        assert_reports(&String::from_utf8(rewritten).unwrap(), &reports);
    }
    for e in ["(f (n 5) 1)", "(f (ix (n 5) (n 3)) 1)", "(n 5)"] {
        assert_reports(&text(e), &["(E0503 0 7 4 none)"]);
        assert_eq!(fields::rewritten(text(e).as_bytes()), None);
    }
}

/// A constant of one module is none of another.
#[test]
fn constants_stay_in_their_module() {
    let drives =
        "(kind 2 out)\n(const 8 (add (n 7) 1))\n(drive (lv 2 5 (n 8)) 0)\n(drive (lv 2 6 1) 0)\n";
    let text = format!("(module 0 bound)\n(val 7 4)\n{drives}(module 1 bound)\n{drives}");
    assert_reports(&text, &["(E0501 1 6 2 many)"]);
}

#[test]
fn no_limit_of_the_format_is_enforced() {
    let wires: String = (0..600)
        .map(|n| format!("(wire {n} (n {}) {n})\n", n + 1))
        .collect();
    assert_reports(&format!("(module 0 bound)\n{wires}"), &[]);
    let modules: String = (0..40).map(|n| format!("(module {n} bound)\n")).collect();
    assert_reports(&modules, &[]);
    let deep = format!("{}0{}", "(neg ".repeat(200), ")".repeat(200));
    assert_reports(
        &with_output("bound", &format!("(drive (lv 2 5 {deep}) 0)")),
        &[],
    );
}

#[test]
fn texts_that_cannot_be_read() {
    let items = [
        "",
        "()",
        "(",
        "(module 1",
        "x",
        "(reg 4)",
        "(reg 04 1)",
        "(reg x 1)",
        "(reg (n 1) 1)",
        "(reg 4 1) ",
        "(reg  4 1)",
        "(reg 4 99999999999999999999)",
        "(port out 2 (bit) 1)",
        "(port inout 2 bit 1)",
        "(wire 1 (add 1) 2)",
        "(wire 1 (n) 2)",
        "(wire 1 (xor 1 2) 2)",
        "(drive 2 0)",
        "(drive (lv 2 3 4 5 6) 0)",
        "(on 1 2)",
        "(on 1 (when (then)))",
        "(constif 1 (else) (then))",
        "(inst 1 - 2 3 (con 1 2))",
        "(kind 2 out)",
        "(kind 3 x)",
        "(val 1 -0)",
        "(val 1 +1)",
        "(const 1 -1)",
        "(module 2 bound)",
        "(module 1 free)",
        "(\u{e9})",
    ];
    for item in items {
        assert_unreadable(&with_output("bound", item));
    }
    assert_unreadable("(kind 2 out)\n");
    assert_unreadable("(module 0 bound)");
    assert_unreadable(&with_output("bound", "(reg 4 1)\n(kind 3 in)"));
    assert_unreadable(&with_output("bound", &"(neg ".repeat(1_000_000)));
}

/// Texts with bytes changed, left out or doubled, at random.
#[test]
fn damaged_texts_do_no_harm() {
    let more =
        "(inst 5 (n 7) 0 8 (conn 1 (f (ix (n 5) 2) 2)))\n(constif 1 (then (mem 1 2)) (else))\n";
    let text = format!("{P1}{more}(repeat 9 0 3 (on 4 (loop (default 4))))\n").into_bytes();
    let mut state = 1u64;
    let mut below = |bound: usize| {
        state = state
            .wrapping_mul(6_364_136_223_846_793_005)
            .wrapping_add(1);
        (state >> 33) as usize % bound
    };
    let (mut read, mut rewritten) = (0, 0);
    for _ in 0..20_000 {
        let mut damaged = text.clone();
        for _ in 0..1 + below(3) {
            let at = below(damaged.len());
            match below(4) {
                0 => damaged[at] = b"0129( )-\nnx\xff"[below(12)],
                1 => drop(damaged.remove(at)),
                2 => damaged.insert(at, damaged[at]),
                _ => damaged.truncate(at + 1),
            }
        }
        match oracle::check(&damaged) {
            Ok(reports) => {
                read += 1;
                assert!(reports.iter().all(|line| line.starts_with("(E05")));
                if let Some(text) = fields::rewritten(&damaged) {
                    rewritten += 1;
                    oracle::check(&text).expect("a text that is read is read rewritten");
                }
            }
            Err(error) => assert!(!error.contains('\n'), "{error:?}"),
        }
    }
    // Most damage is seen; the few texts that it leaves whole must be checked to the end.
    assert!(read > 100 && rewritten > 50, "{read} {rewritten}");
}

#[track_caller]
fn assert_unreadable(text: &str) {
    let error = oracle::check(text.as_bytes()).expect_err(text);
    assert!(!error.is_empty() && !error.contains('\n'), "{error:?}");
}

#[test]
fn the_program_reads_standard_input() {
    let out = run(&[], P1);
    assert!(out.status.success() && out.stderr.is_empty());
    assert_eq!(lines(&out.stdout), P1_REPORTS);
}

#[test]
fn the_program_says_in_one_line_what_it_cannot_read() {
    let out = run(&[], "(module 0 bound)\n(reg 4)\n");
    assert_eq!(out.status.code(), Some(1));
    assert!(out.stdout.is_empty());
    assert_eq!(lines(&out.stderr), ["oracle: line 2: not an item: reg"]);
}

#[test]
fn the_program_refuses_other_arguments() {
    for args in [
        &["--help"][..],
        &["x"],
        &["--batch"],
        &["--bench", "--runs"],
        &["--batch", "--runs"],
    ] {
        let out = run(args, "");
        assert_eq!(out.status.code(), Some(2), "{args:?}");
        assert_eq!(
            (out.stdout.len(), lines(&out.stderr).len()),
            (0, 1),
            "{args:?}"
        );
    }
    for args in [["--batch", "no-such-file"], ["--bench", "no-such-file"]] {
        let out = run(&args, "");
        assert_eq!(
            (out.status.code(), lines(&out.stderr).len()),
            (Some(1), 1),
            "{args:?}"
        );
    }
}

#[test]
fn the_program_runs_many_texts() {
    let case = |name: &str, text: &str| Case {
        name: name.to_string(),
        text: text.as_bytes().to_vec(),
        answer: Vec::new(),
    };
    let cases = write_cases(&[case("first", P1), case("second", ""), case("third", "x\n")]);
    let file = temporary("many.cases", &cases);
    let out = run(&["--batch", &file], "");
    assert_eq!(out.status.code(), Some(1));
    let wanted = [
        &["== first"],
        &P1_REPORTS[..],
        &["== second", "== third", "(unreadable)"],
    ]
    .concat();
    assert_eq!(lines(&out.stdout), wanted);
    assert_eq!(lines(&out.stderr).len(), 2);
}

#[test]
fn the_program_measures() {
    let file = temporary("measured.txt", P1.as_bytes());
    let out = run(&["--bench", &file, "--runs", "3"], "");
    assert!(out.status.success());
    let lines = lines(&out.stdout);
    assert_eq!(lines.len(), 2);
    let words: Vec<&str> = lines[1]
        .strip_prefix(&file)
        .unwrap()
        .split_whitespace()
        .collect();
    assert_eq!(
        words[..2],
        [P1.len().to_string(), P1_REPORTS.len().to_string()]
    );
    assert!(words.len() == 6 && words.iter().all(|word| word.parse::<u64>().is_ok()));
}

fn run(args: &[&str], input: &str) -> Output {
    let mut child = Command::new(env!("CARGO_BIN_EXE_oracle"))
        .args(args)
        .stdin(Stdio::piped())
        .stdout(Stdio::piped())
        .stderr(Stdio::piped())
        .spawn()
        .unwrap();
    child
        .stdin
        .take()
        .unwrap()
        .write_all(input.as_bytes())
        .unwrap();
    child.wait_with_output().unwrap()
}

fn lines(bytes: &[u8]) -> Vec<String> {
    String::from_utf8_lossy(bytes)
        .lines()
        .map(str::to_string)
        .collect()
}

fn temporary(name: &str, bytes: &[u8]) -> String {
    let path = PathBuf::from(env!("CARGO_TARGET_TMPDIR")).join(name);
    fs::write(&path, bytes).unwrap();
    path.to_string_lossy().into_owned()
}
