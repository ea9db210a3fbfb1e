//! The model against 01, sentence by sentence: P1 to P10, refusals, values, collection, sites,
//! blocks, edges, fields as U2 has them, summaries, the walk, limits. Each accepted text is held
//! against the original too.

use compare::compare::{judge, Against, Verdict};
use compare::gen;
use compare::model::{answer, printed, shifted_by_zero, ties, why, Answer, PROGRAM_BUFFER};

fn text_of(lines: &[&str]) -> Vec<u8> {
    lines
        .iter()
        .flat_map(|l| [l.as_bytes(), b"\n"].concat())
        .collect()
}

#[track_caller]
fn as_the_original(text: &[u8]) {
    let mut model = |text: &[u8]| Ok(printed(text));
    let verdict = judge(&mut model, Against::Oracle, text);
    assert!(
        matches!(
            verdict,
            Verdict::Exact | Verdict::Tied | Verdict::Rewritten { .. }
        ),
        "{verdict:?}"
    );
}

#[track_caller]
fn prints(lines: &[&str], reports: &[&str]) {
    let printed = printed(&text_of(lines));
    let expected = text_of(reports);
    assert_eq!(
        String::from_utf8_lossy(&printed),
        String::from_utf8_lossy(&expected)
    );
    as_the_original(&text_of(lines));
}

#[track_caller]
fn refuses_bytes(text: &[u8], number: u32, line: u32) {
    let refused = Answer {
        number,
        line,
        bytes: 0,
        reports: 0,
        rounds: 0,
        text: vec![],
    };
    assert_eq!(answer(text, PROGRAM_BUFFER), refused);
}

#[track_caller]
fn refuses(lines: &[&str], number: u32, line: u32) {
    refuses_bytes(&text_of(lines), number, line);
}

#[track_caller]
fn accepts(lines: &[&str]) -> Answer {
    let a = answer(&text_of(lines), PROGRAM_BUFFER);
    assert_eq!((a.number, a.line), (0, 0));
    assert_eq!(a.bytes, a.text.len());
    assert_eq!(
        a.reports as usize,
        a.text.iter().filter(|&&b| b == b'\n').count()
    );
    as_the_original(&text_of(lines));
    a
}

/// One line, as an item of a module in which every kind is a name: 1 in, 2 out, 3 wire, 4 reg,
/// 5 mem, 6 inst; 7 has none.
fn with_kinds<'a>(bound: &'a str, items: &[&'a str]) -> Vec<&'a str> {
    let mut lines = vec![bound];
    lines.extend(["(kind 1 in)", "(kind 2 out)", "(kind 3 wire)"]);
    lines.extend(["(kind 4 reg)", "(kind 5 mem)", "(kind 6 inst)"]);
    lines.extend(items);
    lines
}

fn bound<'a>(items: &[&'a str]) -> Vec<&'a str> {
    with_kinds("(module 0 bound)", items)
}

#[track_caller]
fn bound_prints(items: &[&str], reports: &[&str]) {
    prints(&bound(items), reports);
}

/// Module 1 has an input 1, an output 2 by this drive, and an output 4 that reads nothing.
#[track_caller]
fn with_module_1(items: &[&str], drive: &str, reports: &[&str]) {
    let module = [
        "(module 1 bound)",
        "(kind 1 in)",
        "(kind 2 out)",
        "(kind 4 out)",
        "(port out 2 opaque 5)",
        drive,
        "(drive (lv 4 7) 1)",
    ];
    prints(&[&bound(items)[..], &module].concat(), reports);
}

#[track_caller]
fn unbound_prints(items: &[&str], reports: &[&str]) {
    prints(&with_kinds("(module 0 unbound)", items), reports);
}

/// The item stands on line 8.
#[track_caller]
fn item_refused(item: &str, number: u32) {
    let line = if number == 20 { 0 } else { 8 };
    refuses(&bound(&[item]), number, line);
}

#[track_caller]
fn items_full(items: &[&str]) {
    refuses(&bound(items), 20, 0);
}

#[track_caller]
fn item_accepted(item: &str) {
    accepts(&bound(&[item]));
}

/// Above INT by one part.
const OUTSIDE: &str = "(add 2147483647 1)";

fn repeated(item: &str, times: &str) -> String {
    format!("(repeat 9 0 {times} {item})")
}

mod ten_cases {
    use super::*;

    #[test]
    fn p1() {
        prints(
            &[
                "(module 0 bound)",
                "(kind 1 in)",
                "(kind 2 out)",
                "(kind 3 wire)",
                "(kind 4 reg)",
                "(port out 2 (bits 8) 10)",
                "(reg 4 20)",
                "(wire 3 (all (n 1) (n 2)) 30)",
                "(drive (lv 2 40 7 4) (n 3))",
                "(drive (lv 2 50 2 0) (n 4))",
            ],
            &[
                "(E0502 0 10 2 gap 3)",
                "(E0503 0 20 4 none)",
                "(E0504 0 30 (walk 3 2 3))",
            ],
        );
    }

    #[test]
    fn p2_empty_text() {
        let nothing = Answer {
            number: 0,
            line: 0,
            bytes: 0,
            reports: 0,
            rounds: 0,
            text: vec![],
        };
        assert_eq!(answer(b"", 0), nothing);
    }

    #[test]
    fn p3_ranges_that_share_a_bit_meet() {
        bound_prints(
            &["(drive (lv 2 40 3 0) 0)", "(drive (lv 2 50 5 3) 0)"],
            &["(E0501 0 50 2 many)"],
        );
    }

    #[test]
    fn p4_ranges_side_by_side_do_not() {
        bound_prints(&["(drive (lv 2 40 3 0) 0)", "(drive (lv 2 50 5 4) 0)"], &[]);
    }

    #[test]
    fn p5_unknown_and_whole_do_not() {
        unbound_prints(&["(drive (lv 2 40 (n 7)) 0)", "(drive (lv 2 50) 0)"], &[]);
    }

    #[test]
    fn p6_gap_at_the_last_bit_looked_at() {
        bound_prints(
            &["(port out 2 (bits 4097) 10)", "(drive (lv 2 40 4094 0) 0)"],
            &["(E0502 0 10 2 gap 4095)"],
        );
    }

    #[test]
    fn p7_no_gap_above_the_bits_looked_at() {
        bound_prints(
            &["(port out 2 (bits 5000) 10)", "(drive (lv 2 40 4095 0) 0)"],
            &[],
        );
    }

    #[test]
    fn p8_repeat_to_4096_unrolls() {
        let lines = bound(&[
            "(repeat 9 0 4096 (constif (eq (n 9) 4095) (then (port out 2 bit 5)) (else)))",
        ]);
        prints(&lines, &["(E0502 0 5 2 never)"]);
        assert_eq!(accepts(&lines).rounds, 4096);
    }

    #[test]
    fn p9_repeat_to_4097_runs_once() {
        let lines = bound(&[
            "(repeat 9 0 4097 (drive (lv 2 40 (n 9)) 0))",
            "(drive (lv 2 50 9) 0)",
        ]);
        prints(&lines, &["(E0501 0 50 2 many)"]); // Dynamic meets all
        assert_eq!(accepts(&lines).rounds, 0);
    }

    #[test]
    fn p10_wire_reading_itself() {
        bound_prints(&["(wire 3 (n 3) 30)"], &["(E0504 0 30 (walk 3 3))"]);
    }
}

mod text {
    use super::*;

    #[test]
    fn one_over_bytes() {
        refuses_bytes(&[b' '; 32_768], 2, 1);
        refuses_bytes(&[b' '; 32_769], 1, 0);
        refuses_bytes(&[0xff; 32_769], 1, 0);
    }

    #[test]
    fn exactly_all_bytes_are_read() {
        let wires = "(wire 7 (all) 1)\n".repeat(1925);
        let text = format!("(module 0 bound)\n{wires}(wire 7 (all) 1234567890)\n");
        assert_eq!(text.len(), 32_768);
        assert_eq!(answer(text.as_bytes(), 0).number, 0);
    }

    #[test]
    fn two_goes_over_the_whole_text() {
        refuses_bytes(b"junk\n(module 0 bound\x7f)\n", 2, 2);
        refuses_bytes(b"junk\n\t\n\x80\n", 2, 2);
        refuses_bytes(b"\r\n", 2, 1);
        refuses_bytes(b"\x1f", 2, 1);
        refuses_bytes(b"(module 0 bound)", 2, 1);
        refuses_bytes(b"junk\n(module 0 bound)", 2, 2);
        refuses_bytes(b"junk\n(mod\x00", 2, 2);
        refuses_bytes(b"~", 2, 1);
    }

    #[test]
    fn three_not_one_closed_form() {
        for line in [
            "",
            " ",
            "module",
            ")",
            "(",
            ")(",
            "()()",
            "(reg 1 2",
            "(reg 1 2))",
        ] {
            item_refused(line, 3);
        }
        for line in [
            " (reg 1 2)",
            "(reg 1 2) ",
            "x(reg 1 2)",
            "(reg 1 2)x",
            "(reg 1 2)(reg 1 3)",
        ] {
            item_refused(line, 3);
        }
    }

    #[test]
    fn three_at_33_deep() {
        let deep = |n: usize| format!("(wire 3 {}0{} 1)", "(neg ".repeat(n), ")".repeat(n));
        item_accepted(&deep(31));
        item_refused(&deep(32), 3);
        let all = |n: usize| format!("(wire 3 {}{} 1)", "(all ".repeat(n), ")".repeat(n));
        item_refused(&all(32), 3); // also a misplaced space
        item_refused(&all(31), 4);
    }

    #[test]
    fn four_heads_and_parts() {
        for line in [
            "()",
            "( )",
            "(())",
            "(foo)",
            "(foo 1)",
            "(reg)",
            "(reg 1)",
            "(reg 1 2 3)",
        ] {
            item_refused(line, 4);
        }
        for line in [
            "(REG 1 2)",
            "(reg (n 1) 2)",
            "(reg x 2)",
            "((reg) 1 2)",
            "(then)",
            "(lv 1 2)",
        ] {
            item_refused(line, 4);
        }
        for line in [
            "(port inout 1 bit 5)",
            "(port in 1 bits 5)",
            "(port in 1 (bit) 5)",
        ] {
            item_refused(line, 4);
        }
        for line in [
            "(port in 1 (bits) 5)",
            "(port in 1 (bits 1 2) 5)",
            "(port in 1 (opaque) 5)",
        ] {
            item_refused(line, 4);
        }
        for line in [
            "(port in 1 bit)",
            "(port in 1 5)",
            "(wire 3 5)",
            "(wire 3 - 5)",
            "(const 3)",
        ] {
            item_refused(line, 4);
        }
        for line in [
            "(drive (n 2) 0)",
            "(drive 2 0)",
            "(drive (lv 2) 0)",
            "(drive (lv 2 3))",
        ] {
            item_refused(line, 4);
        }
        for line in [
            "(drive (lv 2 3 4 5 6) 0)",
            "(on)",
            "(on 5 6)",
            "(on 5 (reg 1 2))",
        ] {
            item_refused(line, 4);
        }
        for line in [
            "(on 5 (set 1))",
            "(on 5 (default))",
            "(on 5 (when (then)))",
            "(on 5 (then))",
        ] {
            item_refused(line, 4);
        }
        for line in [
            "(on 5 (when (else) (then)))",
            "(on 5 (when (then) (else) (else)))",
        ] {
            item_refused(line, 4);
        }
        for line in [
            "(inst 6 - 0)",
            "(inst 6 0 5)",
            "(inst 6 (-) 0 5)",
            "(inst 6 - 0 5 (n 1))",
        ] {
            item_refused(line, 4);
        }
        for line in [
            "(inst 6 - 0 5 (conn 1))",
            "(inst 6 - 0 5 (conn 1 2 3))",
            "(inst 6 - - 5)",
        ] {
            item_refused(line, 4);
        }
        for line in [
            "(repeat 9 0)",
            "(repeat 9 0 2 (set 1 2))",
            "(repeat 9 0 2 (kind 1 in))",
        ] {
            item_refused(line, 4);
        }
        for line in [
            "(repeat 9 0 2 (module 1 bound))",
            "(constif 1 (then))",
            "(constif (then) (else))",
        ] {
            item_refused(line, 4);
        }
        for line in [
            "(constif 1 (else) (then))",
            "(repeat 9 0 2 3)",
            "(constif 1 (then 2) (else))",
        ] {
            item_refused(line, 4);
        }
        for e in [
            "(n)",
            "(n 1 2)",
            "(f 1)",
            "(f (n 1) (n 2))",
            "(ix 1)",
            "(if 1 2)",
            "(neg)",
        ] {
            item_refused(&format!("(wire 3 {e} 5)"), 4);
        }
        for e in [
            "(neg 1 2)",
            "(add 1)",
            "(add 1 2 3)",
            "(foo 1)",
            "(foo 1 2)",
            "TRUE",
            "(true)",
        ] {
            item_refused(&format!("(wire 3 {e} 5)"), 4);
        }
        for line in [
            "(module 1)",
            "(module 1 bound 2)",
            "(module bound)",
            "(module 1 Bound)",
        ] {
            item_refused(line, 4);
        }
        for line in [
            "(module (n 1) bound)",
            "(kind 1)",
            "(kind 1 input)",
            "(kind 1 (in))",
            "(val 1)",
        ] {
            item_refused(line, 4);
        }
    }

    #[test]
    fn four_spaces() {
        for line in [
            "( reg 1 2)",
            "(reg  1 2)",
            "(reg 1 2 )",
            "(reg 1  2)",
            "(wire 3(n 1) 5)",
        ] {
            item_refused(line, 4);
        }
        for line in [
            "(wire 3 (n 1)5)",
            "(wire 3 ( n 1) 5)",
            "(wire 3 (n 1 ) 5)",
            "(on 5 )",
        ] {
            item_refused(line, 4);
        }
    }

    #[test]
    fn four_numbers() {
        for number in [
            "-1", "-0", "00", "01", "+1", "1a", "0x1", "1.0", "-", "--1", "1-", "~",
        ] {
            item_refused(&format!("(reg 1 {number})"), 4);
            item_refused(&format!("(wire 3 {number} 1)"), 4);
            item_refused(&format!("(reg {number} 1)"), 4);
            item_refused(&format!("(module {number} bound)"), 4);
        }
        for number in [
            "-0", "-00", "-01", "00", "01", "+1", "-", "--1", "1-", "-1a", "true",
        ] {
            refuses(&["(module 0 bound)", &format!("(val 1 {number})")], 4, 2);
        }
    }

    #[test]
    fn five_ranges() {
        let digits = "9".repeat(60);
        let digits = digits.as_str();
        for n in ["256", "1000", digits] {
            item_refused(&format!("(reg {n} 5)"), 5);
            item_refused(&format!("(inst 6 - {n} 5)"), 5);
            item_refused(&format!("(wire 3 (n {n}) 5)"), 5);
            item_refused(&format!("(wire 3 (f (n 1) {n}) 5)"), 5);
            item_refused(&format!("(on 5 (default {n}))"), 5);
        }
        for n in ["2147483648", digits] {
            item_refused(&format!("(reg 4 {n})"), 5);
            item_refused(&format!("(wire 3 {n} 5)"), 5);
            item_refused(&format!("(const 3 {n})"), 5);
            refuses(&["(module 0 bound)", &format!("(val 1 {n})")], 5, 2);
        }
        for n in ["-2147483649", &format!("-{digits}")] {
            refuses(&["(module 0 bound)", &format!("(val 1 {n})")], 5, 2);
        }
        for n in ["-2147483648", "-1", "0", "2147483647"] {
            accepts(&["(module 0 bound)", &format!("(val 255 {n})")]);
        }
        item_accepted("(reg 255 2147483647)");
        item_accepted("(inst 255 2147483647 255 0)");
    }

    #[test]
    fn six_places() {
        for line in ["(reg 1 2)", "(kind 1 in)", "(val 1 2)", "(module 1 bound)"] {
            refuses(&[line], 6, 1);
        }
        let digits = "9".repeat(60);
        for m in ["0", "2", "33", "256", "4294967297", &digits] {
            refuses(&["(module 0 bound)", &format!("(module {m} bound)")], 6, 2);
        }
        for item in ["(const 1 2)", "(port in 1 bit 5)", "(repeat 9 0 0)"] {
            refuses(&["(module 0 bound)", item, "(kind 1 in)"], 6, 3);
            refuses(&["(module 0 bound)", item, "(val 1 2)"], 6, 3);
            accepts(&[
                "(module 0 bound)",
                item,
                "(module 1 bound)",
                "(kind 1 in)",
                "(val 1 2)",
            ]);
        }
        accepts(&[
            "(module 0 bound)",
            "(val 1 2)",
            "(kind 1 in)",
            "(val 1 3)",
            "(kind 2 in)",
        ]);
    }

    #[test]
    fn seven_second_kind_and_33rd_module() {
        refuses(&["(module 0 bound)", "(kind 1 in)", "(kind 1 out)"], 7, 3);
        refuses(&["(module 0 bound)", "(kind 1 in)", "(kind 1 in)"], 7, 3);
        accepts(&[
            "(module 0 bound)",
            "(kind 1 in)",
            "(module 1 bound)",
            "(kind 1 in)",
        ]);
        let modules: Vec<String> = (0..34).map(|m| format!("(module {m} bound)")).collect();
        let modules: Vec<&str> = modules.iter().map(String::as_str).collect();
        accepts(&modules[..32]);
        refuses(&modules, 7, 33);
        refuses(&[&modules[..32], &modules[33..]].concat(), 6, 33);
    }

    /// What had number 8 has no fault.
    #[test]
    fn eight_is_no_longer_given() {
        for op in ["shl", "shr", "band", "bor", "bxor"] {
            let e = format!("({op} 1 2)");
            for place in [
                format!("(wire 3 {e} 5)"),
                format!("(drive (lv 2 5) {e})"),
                format!("(inst 6 - 0 5 (conn 1 {e}))"),
                format!("(drive (lv 2 5 {e}) 0)"),
                format!("(drive (lv 2 5 0 {e}) 0)"),
                format!("(port out 2 (bits {e}) 5)"),
                format!("(port in 1 (signed {e}) 5)"),
                format!("(const 7 {e})"),
                format!("(inst 6 {e} 0 5)"),
                format!("(repeat 9 {e} 0)"),
                format!("(repeat 9 0 {e})"),
                format!("(constif {e} (then) (else))"),
                format!("(repeat 9 0 0 (const 7 {e}))"),
                format!("(wire 3 (f (ix (n 6) {e}) 1) 5)"),
                format!("(wire 3 (f (ix (n 7) {e}) 1) 5)"),
                format!("(const 7 (if 1 2 {e}))"),
                format!("(const 7 (all {e}))"),
                format!("(const 7 (f {e} 1))"),
                format!("(const 7 (ix {e} 0))"),
                format!("(const 7 (f (ix (ix (n 6) {e}) 0) 1))"),
                format!("(wire 3 (f (ix (n 6) (all (neg {e}))) 1) 5)"),
                format!("(wire 3 (ix (n 6) {e}) 5)"),
                format!("(wire 3 (f (ix (ix (n 6) 0) {e}) 1) 5)"),
                format!("(wire 3 (f {e} 1) 5)"),
                format!("(wire 3 (f (all (ix (n 6) {e})) 1) 5)"),
            ] {
                item_accepted(&place);
            }
        }
    }

    #[test]
    fn lowest_fault_of_a_line_and_first_line() {
        item_refused("(reg 256 2)x", 3);
        item_refused("(wire 256 (foo) 5)", 4);
        item_refused("(const 256 (shl 1 2))", 5);
        item_refused("(const 7 (shl 1 2147483648))", 5);
        refuses(&["(reg 256 5)"], 5, 1);
        refuses(&["(const 1 (shl 1 1))"], 6, 1);
        refuses(
            &[
                "(module 0 bound)",
                "(kind 1 in)",
                "(reg 1 2)",
                "(kind 1 in)",
            ],
            6,
            4,
        );
        // the line with the operator is in order, and the next is looked at
        refuses(&["(module 0 bound)", "(const 1 (shl 1 1))", "x"], 3, 3);
        refuses(&["(module 0 bound)", "(const 0 (shl 0 0))", ""], 3, 3);
        refuses(&["(module 0 bound)", "(kind 256 in)", "(", "()"], 5, 2);
    }

    #[test]
    fn dots_include_none() {
        for item in [
            "(wire 3 (all) 5)",
            "(on 5)",
            "(on 5 (loop) (when (then) (else)))",
            "(repeat 9 0 2)",
            "(constif 1 (then) (else))",
            "(inst 6 - 9 5)",
        ] {
            bound_prints(&[item], &[]);
        }
    }
}

mod values {
    use super::*;

    /// The value of `e`, seen through a gap: width 64, all bits driven but that one.
    #[track_caller]
    fn value(e: &str, expected: u32) {
        let lines = [
            "(port out 2 (bits 64) 5)".to_string(),
            format!("(const 8 {e})"),
            "(repeat 9 0 64 (constif (ne (n 9) (n 8)) (then (drive (lv 2 6 (n 9)) 0)) (else)))"
                .into(),
        ];
        let lines: Vec<&str> = lines.iter().map(String::as_str).collect();
        bound_prints(&lines, &[&format!("(E0502 0 5 2 gap {expected})")]);
    }

    /// `e` has no value: the constant keeps its older one.
    #[track_caller]
    fn no_value(e: &str) {
        let lines = [
            "(const 8 33)".to_string(),
            format!("(const 8 {e})"),
            "(port out 2 (bits 64) 5)".into(),
            "(repeat 9 0 64 (constif (ne (n 9) (n 8)) (then (drive (lv 2 6 (n 9)) 0)) (else)))"
                .into(),
        ];
        let lines: Vec<&str> = lines.iter().map(String::as_str).collect();
        bound_prints(&lines, &["(E0502 0 5 2 gap 33)"]);
    }

    #[track_caller]
    fn outside(e: &str) {
        item_refused(&format!("(const 8 {e})"), 20);
    }

    #[test]
    fn operators() {
        value("17", 17);
        value("true", 1);
        value("false", 0);
        value("(add 3 4)", 7);
        value("(sub 9 4)", 5);
        value("(mul 3 4)", 12);
        value("(neg (neg 5))", 5);
        value("(mul (neg 3) (neg 4))", 12);
        value("(add (sub 3 4) 1)", 0);
        for (op, less, same, more) in [
            ("eq", 0, 1, 0),
            ("ne", 1, 0, 1),
            ("lt", 1, 0, 0),
            ("le", 1, 1, 0),
            ("gt", 0, 0, 1),
            ("ge", 0, 1, 1),
        ] {
            value(&format!("({op} (neg 2) 1)"), less);
            value(&format!("({op} 2 2)"), same);
            value(&format!("({op} 1 (neg 2))"), more);
        }
    }

    #[test]
    fn truth_is_not_0() {
        value("(and 2 (neg 1))", 1);
        value("(and 2 0)", 0);
        value("(and 0 2)", 0);
        value("(or 0 0)", 0);
        value("(or 0 (neg 7))", 1);
        value("(or 7 0)", 1);
        value("(not 0)", 1);
        value("(not (neg 3))", 0);
        value("(if (neg 1) 5 6)", 5);
        value("(if 0 5 6)", 6);
        bound_prints(
            &["(constif (neg 1) (then (reg 4 5)) (else (reg 4 6)))"],
            &["(E0503 0 5 4 none)"],
        );
    }

    #[test]
    fn clog2() {
        for (n, bits) in [
            ("1", 1),
            ("2", 1),
            ("3", 2),
            ("4", 2),
            ("5", 3),
            ("8", 3),
            ("9", 4),
        ] {
            value(&format!("(clog2 {n})"), bits);
        }
        value("(clog2 2147483647)", 31);
        value("(clog2 1073741824)", 30);
        value("(clog2 1073741825)", 31);
        no_value("(clog2 0)");
        no_value("(clog2 (neg 1))");
    }

    #[test]
    fn missing() {
        for e in [
            "(f 1 2)",
            "(ix 1 2)",
            "(all 1)",
            "(n 7)",
            "(add (n 7) 1)",
            "(add 1 (n 7))",
        ] {
            no_value(e);
        }
        for e in [
            "(and 0 (n 7))",
            "(or 1 (n 7))",
            "(if (n 7) 1 2)",
            "(not (n 7))",
            "(neg (all))",
        ] {
            no_value(e);
        }
        value("(if 1 5 (n 7))", 5);
        value("(if 0 (n 7) 5)", 5);
    }

    #[test]
    fn a_missing_operand_ends_it() {
        no_value(&format!("(add (n 7) {OUTSIDE})"));
        no_value(&format!("(if (n 7) {OUTSIDE} 1)"));
        no_value(&format!("(all {OUTSIDE})"));
        no_value(&format!("(f {OUTSIDE} 1)"));
        no_value(&format!("(ix {OUTSIDE} 1)"));
        value(&format!("(if 1 5 {OUTSIDE})"), 5);
        outside(&format!("(add {OUTSIDE} (n 7))"));
        outside(&format!("(or 1 {OUTSIDE})"));
        outside(&format!("(and 0 {OUTSIDE})"));
        outside(&format!("(if {OUTSIDE} (n 7) 1)"));
    }

    #[test]
    fn outside_int() {
        outside(OUTSIDE);
        outside("(sub (add 2147483647 1) 1)");
        outside("(mul 65536 32768)");
        outside("(mul (mul 65536 32767) (mul 65536 32767))");
        outside("(sub (neg 2147483647) 2)");
        outside("(neg (sub (neg 2147483647) 1))");
        value("(add (add (sub (neg 2147483647) 1) 2147483647) 4)", 3);
    }

    /// A module whose output 3 follows its input 2.
    const CHILD: [&str; 5] = [
        "(module 1 bound)",
        "(kind 2 in)",
        "(kind 3 out)",
        "(port out 3 bit 1)",
        "(drive (lv 3 2) (n 2))",
    ];
    const LOWEST: &str = "(sub (neg 2147483647) 1)";

    /// A text in which an instance with this index reads its own output.
    fn looped(e: &str) -> Vec<u8> {
        let inst = format!("(inst 6 {e} 1 5 (conn 2 (f (ix (n 6) {e}) 3)))");
        text_of(&[&bound(&[&inst])[..], &CHILD].concat())
    }

    fn loop_at(v: i64) -> String {
        format!("(E0504 0 5 (walk (u 6 {v} 3) (u 6 {v} 3)))\n")
    }

    /// The value of `e`, also a negative one, seen through the index of an instance.
    #[track_caller]
    fn index(e: &str, v: i64) {
        let e = e.replace("LOWEST", LOWEST);
        let text = looped(&e);
        assert_eq!(String::from_utf8_lossy(&printed(&text)), loop_at(v), "{e}");
        as_the_original(&text);
    }

    #[test]
    fn shl() {
        index("(shl 3 4)", 48);
        index("(shl (neg 3) 4)", -48);
        index("(shl 5 0)", 5);
        index("(shl (neg 5) 0)", -5);
        index("(shl 1 30)", 1_073_741_824);
        index("(shl (neg 1) 31)", -2_147_483_648);
        index("(shl 1073741823 1)", 2_147_483_646);
        for e in [
            "(shl 1 31)",
            "(shl (neg 1) 32)",
            "(shl 1073741824 1)",
            "(shl (neg 1073741825) 1)",
            "(shl 1 999998)",
            "(shl 1 999999)",
            "(shl (neg 1) 2147483647)",
        ] {
            outside(e);
        }
    }

    #[test]
    fn shl_of_0_has_a_width_limit() {
        for n in [0, 31, 32, 128, 999_997, 999_998] {
            index(&format!("(shl 0 {n})"), 0);
        }
        for n in [999_999, 1_000_000, 2_147_483_647] {
            no_value(&format!("(shl 0 {n})"));
        }
    }

    #[test]
    fn shr_rounds_towards_minus_infinity() {
        index("(shr 7 1)", 3);
        index("(shr (neg 7) 1)", -4);
        index("(shr (neg 1) 1)", -1);
        index("(shr (neg 3) 1)", -2);
        index("(shr (neg 4) 1)", -2);
        index("(shr LOWEST 1)", -1_073_741_824);
        index("(shr LOWEST 30)", -2);
        index("(shr 2147483647 30)", 1);
        for n in [31, 32, 33, 128, 999_998, 999_999, 2_147_483_647] {
            index(&format!("(shr 2147483647 {n})"), 0);
            index(&format!("(shr 0 {n})"), 0);
            index(&format!("(shr (neg 1) {n})"), -1);
            index(&format!("(shr LOWEST {n})"), -1);
        }
    }

    #[test]
    fn a_negative_amount_is_rejected() {
        for op in ["shl", "shr"] {
            for z in ["0", "1", "(neg 1)", "2147483647", LOWEST] {
                no_value(&format!("({op} {z} (neg 1))"));
                no_value(&format!("({op} {z} {LOWEST})"));
            }
        }
    }

    #[test]
    fn bit_operators_have_no_width() {
        for (a, b, and, or, xor) in [
            ("12", "10", 8, 14, 6),
            ("(neg 4)", "7", 4, -1, -5),
            ("(neg 4)", "(neg 6)", -8, -2, 6),
            ("(neg 1)", "0", 0, -1, -1),
            ("5", "5", 5, 5, 0),
            ("LOWEST", "2147483647", 0, -1, -1),
            ("LOWEST", "(neg 1)", -2_147_483_648, -1, 2_147_483_647),
            ("2147483647", "(neg 1)", 2_147_483_647, -1, -2_147_483_648),
        ] {
            for (op, v) in [("band", and), ("bor", or), ("bxor", xor)] {
                index(&format!("({op} {a} {b})"), v);
                index(&format!("({op} {b} {a})"), v);
            }
        }
    }

    /// Both operands come before an amount is rejected; a missing one ends it.
    #[test]
    fn operands_of_shifts_and_bit_operators() {
        for op in ["shl", "shr", "band", "bor", "bxor"] {
            no_value(&format!("({op} (n 7) {OUTSIDE})"));
            no_value(&format!("({op} (n 7) 0)"));
            no_value(&format!("({op} 0 (n 7))"));
            outside(&format!("({op} {OUTSIDE} (n 7))"));
            outside(&format!("({op} {OUTSIDE} (neg 1))"));
            outside(&format!("({op} 0 {OUTSIDE})"));
            outside(&format!("({op} 0 (mul 65536 65536))"));
            index(&format!("(if 0 ({op} {OUTSIDE} 1) 6)"), 6);
        }
    }

    #[test]
    fn shr_by_0_keeps_a_positive_number() {
        for (e, v) in [
            ("(shr 1 0)", 1),
            ("(shr 5 0)", 5),
            ("(shr 2147483647 0)", 2_147_483_647),
            ("(shr 5 (shr 0 0))", 5),
            ("(neg (shr 5 0))", -5),
        ] {
            let text = looped(e);
            assert_eq!(String::from_utf8_lossy(&printed(&text)), loop_at(v), "{e}");
            left_out(&text);
        }
        index("(shr 0 0)", 0);
        index("(shr (neg 5) 0)", -5);
        index("(shr LOWEST 0)", -2_147_483_648);
    }

    /// The model says so, and `compare` leaves the text out.
    #[track_caller]
    fn left_out(text: &[u8]) {
        assert!(shifted_by_zero(text));
        let mut model = |text: &[u8]| Ok(printed(text));
        assert_eq!(judge(&mut model, Against::Oracle, text), Verdict::LeftOut);
    }

    #[test]
    fn shr_by_0_counts_where_it_is_evaluated() {
        for item in [
            "(const 7 (shr 5 0))",
            "(const 7 (add (n 7) 0))\n(const 7 (and 0 (shr 5 0)))",
            "(port out 2 (bits (shr 5 0)) 5)\n(drive (lv 2 6 0) 0)",
            "(drive (lv 2 5 (shr 5 0)) 0)",
            "(drive (lv 2 5 (n 7) (shr 5 0)) 0)",
            "(inst 6 (shr 5 0) 9 5)",
            "(repeat 9 (n 7) (shr 5 0))",
            "(repeat 9 (shr 5 0) 0)",
            "(constif (shr 5 0) (then) (else))",
            "(wire 3 (f (ix (n 6) (shr 5 0)) 1) 5)",
            "(repeat 9 0 2 (constif (shr (n 9) 0) (then) (else)))",
        ] {
            let items: Vec<&str> = item.split('\n').collect();
            left_out(&text_of(&bound(&items)));
        }
        for item in [
            "(port in 1 (bits (shr 5 0)) 5)",
            "(port out 2 (bits (shr 5 0)) 5)",
            "(const 7 (if 1 2 (shr 5 0)))",
            "(const 7 (all (shr 5 0)))",
            "(const 7 (and (n 7) (shr 5 0)))",
            "(constif 0 (then (const 7 (shr 5 0))) (else))",
            "(wire 3 (shr 5 0) 5)",
            "(drive (lv 2 5) (shr 5 0))",
            "(drive (lv 3 5 (shr 5 0)) 0)",
            "(repeat 9 0 1 (constif (shr (n 9) 0) (then) (else)))",
            "(const 7 (shl 5 0))",
            "(const 7 (shr 5 1))",
        ] {
            let text = text_of(&bound(&[item]));
            assert!(!shifted_by_zero(&text), "{item}");
            item_accepted(item);
        }
        // a text that is refused is not compared in any case
        let refused = ["(const 7 (shr 5 0))", "(const 7 (shl 1 31))"];
        assert!(!shifted_by_zero(&text_of(&bound(&refused))));
    }

    #[test]
    fn table_is_val_then_consts_in_order() {
        let tail = ["(port out 2 (bits 64) 5)", "(drive (lv 2 6 (n 8) 0) 0)"];
        let head = ["(module 0 bound)", "(kind 2 out)"];
        prints(
            &[&head[..], &["(val 8 9)", "(val 8 10)"], &tail].concat(),
            &["(E0502 0 5 2 gap 11)"],
        );
        prints(
            &[&head[..], &["(val 8 9)", "(const 8 (add (n 8) 3))"], &tail].concat(),
            &["(E0502 0 5 2 gap 13)"],
        );
        prints(
            &[
                &head[..],
                &["(val 8 9)", "(const 8 (n 7))", "(const 7 20)"],
                &tail,
            ]
            .concat(),
            &["(E0502 0 5 2 gap 10)"],
        );
        // later constants too, since the table stands before collection
        prints(
            &[&head[..], &tail, &["(const 8 3)", "(const 8 4)"]].concat(),
            &["(E0502 0 5 2 gap 5)"],
        );
    }
}

mod evaluated {
    use super::*;

    #[test]
    fn instance_index_of_every_collected_line() {
        item_refused(&format!("(inst 6 {OUTSIDE} 200 5)"), 20);
        item_refused(&format!("(inst 6 {OUTSIDE} 0 5)"), 20);
        item_accepted(&format!("(repeat 9 0 0 (inst 6 {OUTSIDE} 0 5))"));
    }

    #[test]
    fn connection_only_where_its_name_is_in_a_summary() {
        let inner = [
            "(module 1 bound)",
            "(kind 1 in)",
            "(kind 2 out)",
            "(kind 3 in)",
            "(port out 2 bit 5)",
            "(drive (lv 2 6) (n 1))",
        ];
        let output = format!("(f (ix (n 6) {OUTSIDE}) 1)");
        for read in [output.clone(), format!("(f (neg {output}) 2)")] {
            let used = format!("(inst 6 - 1 5 (conn 1 {read}))");
            let unused = format!("(inst 6 - 1 5 (conn 3 {read}) (conn 9 {read}))");
            refuses(&[&bound(&[&used])[..], &inner].concat(), 20, 0);
            accepts(&[&bound(&[&unused])[..], &inner].concat());
        }
    }

    #[test]
    fn width_only_where_needed() {
        let port = format!("(port out 2 (bits {OUTSIDE}) 5)");
        let port = port.as_str();
        items_full(&[port, "(drive (lv 2 6 0) 0)"]);
        item_accepted(port); // no sites
        accepts(&bound(&[port, "(drive (lv 2 6) 0)"])); // not ranges only
        accepts(&bound(&[
            port,
            "(drive (lv 2 6 0) 0)",
            "(drive (lv 2 6 (n 7)) 0)",
        ]));
        accepts(&bound(&[
            port,
            "(drive (lv 2 6 0) 0)",
            "(drive (lv 2 6 0) 0)",
        ])); // poisoned
        accepts(&bound(&[port, "(on 5 (set 2 6))", "(drive (lv 2 6 0) 0)"]));
        accepts(&bound(&[
            "(port out 2 bit 4)",
            port,
            "(drive (lv 2 6 0) 0)",
        ])); // not the first
        accepts(&bound(&[
            &format!("(repeat 9 0 0 {port})"),
            "(drive (lv 2 6 0) 0)",
        ]));
        accepts(&bound(&[
            &format!("(port in 2 (bits {OUTSIDE}) 5)"),
            "(drive (lv 2 6 0) 0)",
        ]));
    }

    #[test]
    fn nested_const_sets_nothing_and_is_not_evaluated() {
        item_accepted(&format!("(repeat 9 0 2 (const 8 {OUTSIDE}))"));
        item_accepted(&format!("(constif 1 (then (const 8 {OUTSIDE})) (else))"));
        bound_prints(
            &[
                "(port out 2 (bits 8) 5)",
                "(constif 1 (then (const 8 3)) (else))",
                "(drive (lv 2 6 (n 8)) 0)",
            ],
            &[], // Dynamic
        );
    }

    #[test]
    fn lv_indexes() {
        for lv in [
            format!("(lv 2 5 {OUTSIDE})"),
            format!("(lv 2 5 {OUTSIDE} 0)"),
            format!("(lv 2 5 (n 7) {OUTSIDE})"),
        ] {
            item_refused(&format!("(drive {lv} 0)"), 20);
            item_accepted(&format!("(drive {} 0)", lv.replace("lv 2", "lv 3")));
            for name in ["1", "4", "5", "6", "7"] {
                item_accepted(&format!(
                    "(drive {} 0)",
                    lv.replace("lv 2", &format!("lv {name}"))
                ));
            }
        }
    }

    #[test]
    fn f_index_only_where_read_and_an_inst() {
        let f = |name| format!("(f (ix (n {name}) {OUTSIDE}) 1)");
        item_refused(&format!("(wire 3 {} 5)", f(6)), 20);
        item_refused(&format!("(drive (lv 3 5 {}) 0)", f(6)), 20);
        item_refused(&format!("(drive (lv 2 5) {})", f(6)), 20);
        item_accepted(&format!("(wire 3 {} 5)", f(3)));
        item_accepted(&format!("(wire 3 {} 5)", f(7)));
        // inside another field it is read, but not in an index of an instance
        let inside = format!("(f (neg {}) 1)", f(6));
        item_refused(&format!("(wire 3 {inside} 5)"), 20);
        item_refused(&format!("(wire 3 (f (ix (n 7) {}) 1) 5)", f(6)), 20);
        item_refused(&format!("(drive (lv 3 5 {inside}) 0)"), 20);
        item_accepted(&format!("(wire 3 (f (ix (n 6) {}) 1) 5)", f(6)));
        item_accepted(&format!("(repeat 9 0 0 (wire 3 {inside} 5))"));
        for name in ["1", "4", "5", "6", "7"] {
            item_accepted(&format!("(drive (lv {name} 5) {})", f(6)));
            item_accepted(&format!("(drive (lv {name} 5) {inside})"));
        }
    }

    #[test]
    fn repeat_bounds_always_and_no_round_nothing() {
        item_refused(&format!("(repeat 9 (n 7) {OUTSIDE})"), 20);
        item_refused(&format!("(repeat 9 {OUTSIDE} (n 7))"), 20);
        item_accepted(&format!("(repeat 9 0 0 (constif {OUTSIDE} (then) (else)))"));
        item_accepted(&format!("(repeat 9 5 0 (repeat 8 {OUTSIDE} 0))"));
        item_refused(&format!("(constif {OUTSIDE} (then) (else))"), 20);
        // high - low may leave INT
        let lines = bound(&["(repeat 9 (neg 2147483647) 2147483647 (reg 4 5))"]);
        prints(&lines, &["(E0503 0 5 4 none)"]);
        bound_prints(&["(repeat 9 2147483647 (neg 2147483647) (reg 4 5))"], &[]);
    }

    #[test]
    fn in_a_summary_too_and_before_21() {
        let full = [
            "(module 0 bound)",
            "(module 1 bound)",
            "(const 8 (neg (sub (neg 2147483647) 1)))",
        ];
        refuses(&full, 20, 0);
        let text = text_of(&[
            "(module 0 bound)",
            "(reg 4 5)",
            "(const 8 (mul 2147483647 2))",
        ]);
        assert_eq!(answer(&text, 0).number, 20);
    }
}

mod collection {
    use super::*;

    #[test]
    fn repeat_rounds_are_shared_by_the_module() {
        let lines = bound(&[
            "(repeat 9 0 4000)",
            "(repeat 9 0 97 (drive (lv 2 5 (n 9)) 0))",
            "(repeat 9 5 101)",
        ]);
        prints(&lines, &[]);
        assert_eq!(accepts(&lines).rounds, 4096);
        let lines = bound(&[
            "(repeat 9 0 4096)",
            "(repeat 9 0 1 (drive (lv 2 5 (n 9)) 0))",
            "(drive (lv 2 6 9) 0)",
        ]);
        prints(&lines, &["(E0501 0 6 2 many)"]);
        assert_eq!(accepts(&lines).rounds, 4096);
    }

    #[test]
    fn rounds_are_spent_before_the_body() {
        let nested = |outer: u32, inner: u32| {
            let lines = bound(&[]).join("\n");
            let text = format!("{lines}\n(repeat 9 0 {outer} (repeat 8 0 {inner} (reg 4 5)))\n");
            answer(text.as_bytes(), PROGRAM_BUFFER).rounds
        };
        assert_eq!(nested(64, 63), 4096);
        assert_eq!(nested(64, 64), 64 + 63 * 64); // the last inner one has 0 left and runs once
        assert_eq!(nested(3, 2000), 3 + 2 * 2000);
        assert_eq!(nested(4096, 1), 4096);
    }

    #[test]
    fn an_inner_repeat_has_what_the_outer_left() {
        let inner = |n: u32| {
            let drives = format!("(repeat 8 0 {n} (drive (lv 2 6 (n 8)) 0))");
            format!("(repeat 9 0 4000 (constif (n 9) (then) (else {drives})))")
        };
        let port = "(port out 2 (bits 98) 5)";
        bound_prints(&[port, &inner(96)], &["(E0502 0 5 2 gap 96)"]);
        bound_prints(&[port, &inner(97)], &[]); // once, Dynamic
    }

    #[test]
    fn rounds_are_summed_over_modules_own_checks_only() {
        let lines = [
            "(module 0 bound)",
            "(inst 6 - 1 5)",
            "(repeat 9 0 10)",
            "(module 1 bound)",
            "(repeat 9 0 100)",
            "(repeat 9 5 5)",
            "(repeat 9 9 5)",
            "(repeat 9 0 (n 1))",
        ];
        assert_eq!(accepts(&lines).rounds, 110);
    }

    #[test]
    fn high_not_above_low_runs_no_round() {
        bound_prints(
            &["(repeat 9 3 3 (reg 4 5))", "(repeat 9 4 3 (reg 4 6))"],
            &[],
        );
    }

    #[test]
    fn body_once_leaves_an_older_value() {
        let lines = [
            "(module 0 bound)",
            "(kind 2 out)",
            "(val 9 3)",
            "(repeat 9 0 (n 7) (drive (lv 2 5 (n 9)) 0))",
            "(drive (lv 2 6 2) 0)",
            "(drive (lv 2 7 3) 0)",
        ];
        prints(&lines, &["(E0501 0 7 2 many)"]);
        assert_eq!(accepts(&lines).rounds, 0);
    }

    #[test]
    fn variable_is_set_and_returns() {
        let lines = [
            "(module 0 bound)",
            "(kind 2 out)",
            "(val 9 3)",
            "(repeat 9 0 2 (drive (lv 2 5 (n 9)) 0))",
            "(drive (lv 2 6 (n 9)) 0)",
            "(drive (lv 2 7 3) 0)",
        ];
        prints(&lines, &["(E0501 0 7 2 many)"]);
        bound_prints(
            &[
                "(repeat 9 0 2 (repeat 9 5 6) (drive (lv 2 5 (n 9)) 0))",
                "(drive (lv 2 6 2) 0)",
            ],
            &[],
        );
        bound_prints(
            &[
                "(repeat 9 0 2)",
                "(drive (lv 2 6 (n 9)) 0)",
                "(drive (lv 2 7 3) 0)",
            ],
            &["(E0501 0 7 2 many)"], // no value again: Dynamic
        );
    }

    #[test]
    fn constif_without_a_value_takes_else() {
        bound_prints(
            &["(constif (n 7) (then (reg 4 5)) (else (reg 4 6)))"],
            &["(E0503 0 6 4 none)"],
        );
        bound_prints(
            &["(constif 0 (then (reg 4 5)) (else (reg 4 6)))"],
            &["(E0503 0 6 4 none)"],
        );
        bound_prints(
            &["(constif 2 (then (reg 4 5)) (else (reg 4 6)))"],
            &["(E0503 0 5 4 none)"],
        );
    }

    #[test]
    fn width_is_taken_in_the_modules_own_table() {
        let lines = [
            "(module 0 bound)",
            "(kind 2 out)",
            "(val 9 8)",
            "(repeat 9 0 3 (port out 2 (bits (n 9)) 5) (drive (lv 2 6 (n 9)) 0))",
        ];
        prints(&lines, &["(E0502 0 5 2 gap 3)"]);
    }
}

mod sites {
    use super::*;

    #[test]
    fn extents() {
        for (lv, meets_9) in [
            ("", true),
            (" 9", true),
            (" 8", false),
            (" 9 8", true),
            (" 8 9", true),
            (" (neg 1)", true),
            (" 9 (neg 1)", true),
            (" (n 7)", true),
            (" (n 7) 0", true),
            (" 0 (n 7)", true),
            (" 8 0", false),
        ] {
            let first = format!("(drive (lv 2 5{lv}) 0)");
            let report: &[&str] = if meets_9 {
                &["(E0501 0 6 2 many)"]
            } else {
                &[]
            };
            bound_prints(&[&first, "(drive (lv 2 6 9) 0)"], report);
            // unbound: what was Dynamic is Unknown
            let known = [" 9", " 9 8", ""].contains(&lv);
            let report: &[&str] = if known { &["(E0501 0 6 2 many)"] } else { &[] };
            unbound_prints(&[&first, "(drive (lv 2 6 9) 0)"], report);
        }
        bound_prints(
            &["(drive (lv 2 5 (n 7)) 0)", "(drive (lv 2 6 (n 7)) 0)"],
            &["(E0501 0 6 2 many)"],
        );
        unbound_prints(
            &["(drive (lv 2 5 (n 7)) 0)", "(drive (lv 2 6 (n 7)) 0)"],
            &[],
        );
    }

    #[test]
    fn first_later_site_that_meets_an_earlier_one() {
        bound_prints(
            &[
                "(drive (lv 2 9 0) 0)",
                "(drive (lv 2 8 1) 0)",
                "(drive (lv 2 7 1) 0)",
                "(drive (lv 2 6) 0)",
            ],
            &["(E0501 0 7 2 many)"],
        );
    }

    #[test]
    fn conflicts_by_start_then_name() {
        let lines = [
            "(module 0 bound)",
            "(kind 1 out)",
            "(kind 2 out)",
            "(kind 3 out)",
            "(drive (lv 3 5) 0)",
            "(drive (lv 3 6) 0)",
            "(drive (lv 1 5) 0)",
            "(drive (lv 1 7) 0)",
            "(drive (lv 2 5) 0)",
            "(drive (lv 2 6) 0)",
        ];
        prints(
            &lines,
            &[
                "(E0501 0 6 2 many)",
                "(E0501 0 6 3 many)",
                "(E0501 0 7 1 many)",
            ],
        );
    }

    #[test]
    fn driving_a_wire() {
        bound_prints(
            &[
                "(drive (lv 3 5) (n 3))",
                "(drive (lv 3 6) 0)",
                "(wire 3 0 7)",
            ],
            &["(E0501 0 5 3 wire)", "(E0504 0 5 (walk 3 3))"],
        );
        // both drives' reads count, and LV indexes are read
        bound_prints(
            &["(drive (lv 3 5) 0)", "(drive (lv 3 6 (n 3)) 0)"],
            &["(E0501 0 5 3 wire)", "(E0504 0 5 (walk 3 3))"],
        );
    }

    #[test]
    fn driving_reg_or_mem_reads_nothing() {
        bound_prints(
            &[
                "(wire 3 (n 2) 4)",
                "(drive (lv 4 5) (n 3))",
                "(drive (lv 5 6) (n 3))",
                "(drive (lv 4 7) 0)",
                "(reg 4 8)",
                "(mem 5 9)",
            ],
            &["(E0505 0 5 4 reg)", "(E0505 0 6 5 mem)"],
        );
    }

    #[test]
    fn set_on_wire_or_out() {
        bound_prints(
            &[
                "(on 10 (loop (set 3 5)) (when (then (set 2 6)) (else (set 3 7))))",
                "(port out 2 bit 8)",
                "(drive (lv 2 9) 0)",
                "(drive (lv 2 9) 0)",
            ],
            &["(E0505 0 5 3 arrow)", "(E0505 0 6 2 arrow)"],
        );
    }

    #[test]
    fn first_collected_of_wire_and_arrow_wins() {
        bound_prints(
            &["(drive (lv 3 5) 0)", "(on 6 (set 3 7))"],
            &["(E0501 0 5 3 wire)"],
        );
        bound_prints(
            &["(on 6 (set 3 7))", "(drive (lv 3 5) 0)"],
            &["(E0505 0 7 3 arrow)"],
        );
    }

    #[test]
    fn others_do_nothing() {
        for name in ["1", "6", "7"] {
            bound_prints(
                &[
                    &format!("(drive (lv {name} 5) (n {name}))"),
                    &format!("(on 6 (set {name} 7) (default {name}))"),
                ],
                &[],
            );
        }
    }

    #[test]
    fn a_poisoned_name_gets_no_other_report_but_loops() {
        bound_prints(
            &[
                "(on 5 (set 3 6))",
                "(reg 3 7)",
                "(mem 3 8)",
                "(port out 3 bit 9)",
                "(wire 3 (n 3) 10)",
            ],
            &["(E0505 0 6 3 arrow)", "(E0504 0 10 (walk 3 3))"],
        );
        bound_prints(
            &[
                "(drive (lv 2 5) (n 2))",
                "(drive (lv 2 6) 0)",
                "(port out 2 bit 7)",
                "(reg 2 8)",
            ],
            &["(E0501 0 6 2 many)", "(E0504 0 5 (walk 2 2))"],
        );
    }

    #[test]
    fn coverage() {
        let port = |t: &str| format!("(port out 2 {t} 5)");
        let gap = |t: &str, lv: &str, reports: &[&str]| {
            bound_prints(&[&port(t), &format!("(drive (lv 2 6{lv}) 0)")], reports)
        };
        bound_prints(&[&port("bit")], &["(E0502 0 5 2 never)"]);
        bound_prints(&[&port("opaque")], &["(E0502 0 5 2 never)"]);
        gap("bit", " 0", &[]);
        gap("bit", " 1", &["(E0502 0 5 2 gap 0)"]);
        gap("(signed 3)", " 1 0", &["(E0502 0 5 2 gap 2)"]);
        gap("(bits 3)", " 9 0", &[]);
        gap("(bits 3)", "", &[]);
        gap("(bits 3)", " (n 7)", &[]);
        gap("(bits 0)", " 5", &[]);
        gap("(bits (neg 1))", " 5", &[]);
        gap("(bits (n 7))", " 5", &[]);
        gap("opaque", " 5", &[]);
        gap("(bits 2147483647)", " 2147483647 0", &[]);
        gap(
            "(bits 2147483647)",
            " 2147483647 1",
            &["(E0502 0 5 2 gap 0)"],
        );
    }

    #[test]
    fn first_port_out_line_and_order_of_first_lines() {
        bound_prints(
            &[
                "(port in 2 bit 4)",
                "(port out 2 (bits 2) 5)",
                "(port out 2 bit 6)",
                "(drive (lv 2 7 0) 0)",
            ],
            &["(E0502 0 5 2 gap 1)"],
        );
        bound_prints(
            &[
                "(port out 9 bit 9)",
                "(reg 4 8)",
                "(port out 2 bit 7)",
                "(reg 3 6)",
                "(port out 9 bit 5)",
            ],
            &[
                "(E0502 0 9 9 never)",
                "(E0502 0 7 2 never)",
                "(E0503 0 8 4 none)",
                "(E0503 0 6 3 none)",
            ],
        );
    }
}

mod blocks {
    use super::*;

    #[test]
    fn regs_and_mems() {
        bound_prints(&["(reg 4 5)", "(mem 5 6)"], &["(E0503 0 5 4 none)"]);
        bound_prints(
            &["(reg 4 5)", "(mem 5 6)", "(on 7 (set 4 8) (set 5 9))"],
            &[],
        );
        bound_prints(
            &[
                "(mem 5 6)",
                "(reg 4 5)",
                "(on 7 (set 4 8) (set 5 9))",
                "(on 8 (default 4) (set 5 8))",
            ],
            &["(E0503 0 5 4 blocks)", "(E0503 0 6 5 memblocks)"],
        );
    }

    #[test]
    fn a_block_is_its_start() {
        bound_prints(
            &[
                "(reg 4 5)",
                "(repeat 9 0 3 (on 7 (set 4 8)))",
                "(on 7 (set 4 9))",
            ],
            &[],
        );
    }

    #[test]
    fn default_counts_on_a_reg_only() {
        bound_prints(&["(reg 4 5)", "(on 7 (default 4))"], &[]);
        bound_prints(
            &["(mem 5 6)", "(on 7 (set 5 8))", "(on 8 (default 5))"],
            &[],
        );
        bound_prints(&["(on 8 (default 3) (default 2))"], &[]);
    }

    #[test]
    fn lines_declare_and_kinds_act() {
        // a reg line makes a reg for the reports; `set` goes by kind
        bound_prints(&["(reg 5 5)", "(on 7 (set 5 8))"], &[]);
        bound_prints(&["(reg 7 5)", "(on 7 (set 7 8))"], &["(E0503 0 5 7 none)"]);
        bound_prints(
            &["(mem 4 5)", "(on 7 (set 4 8))", "(on 8 (set 4 8))"],
            &["(E0503 0 5 4 memblocks)"],
        );
        bound_prints(
            &["(port out 3 bit 5)", "(wire 3 0 6)"],
            &["(E0502 0 5 3 never)"],
        );
        bound_prints(&["(wire 2 (n 2) 6)"], &["(E0504 0 6 (walk 2 2))"]);
        bound_prints(&["(wire 4 (n 4) 6)"], &[]);
    }

    #[test]
    fn first_collected_line() {
        bound_prints(
            &["(repeat 9 1 3 (reg 4 5))", "(reg 4 6)"],
            &["(E0503 0 5 4 none)"],
        );
    }
}

mod edges {
    use super::*;

    /// The instanced module's output 2 reads its input 1.
    #[track_caller]
    fn through(items: &[&str], reports: &[&str]) {
        with_module_1(items, "(drive (lv 2 6) (n 1))", reports);
    }

    #[test]
    fn what_is_read() {
        for e in [
            "(neg (n 3))",
            "(not (n 3))",
            "(clog2 (n 3))",
            "(if 0 1 (n 3))",
            "(if (n 3) 0 1)",
            "(if 0 (n 3) 1)",
            "(ix (n 3) 0)",
            "(ix 0 (n 3))",
            "(shl 1 (n 3))",
            "(and 0 (n 3))",
            "(all 0 (all (n 3)))",
            "(f (n 3) 3)",
            "(f (ix (n 3) 0) 3)",
            "(f (neg (n 3)) 3)",
            "(f (ix (ix (n 6) 0) (n 3)) 3)",
        ] {
            bound_prints(&[&format!("(wire 3 {e} 5)")], &["(E0504 0 5 (walk 3 3))"]);
        }
        for e in [
            "(f (ix (n 6) (n 3)) 3)",
            "0",
            "true",
            "(n 4)",
            "(n 5)",
            "(n 6)",
            "(n 7)",
        ] {
            bound_prints(&[&format!("(wire 3 {e} 5)")], &[]);
        }
        bound_prints(&["(drive (lv 2 5) (n 2))"], &["(E0504 0 5 (walk 2 2))"]);
        bound_prints(&["(drive (lv 2 5 (n 2)) 0)"], &["(E0504 0 5 (walk 2 2))"]);
        bound_prints(&["(drive (lv 2 5 0 (n 2)) 0)"], &["(E0504 0 5 (walk 2 2))"]);
    }

    #[test]
    fn instance_outputs() {
        through(
            &["(inst 6 - 1 5 (conn 1 (n 3)))", "(wire 3 (f (n 6) 2) 7)"],
            &["(E0504 0 5 (walk (u 6 - 2) 3 (u 6 - 2)))"],
        );
        through(
            &[
                "(inst 6 (sub 1 2) 1 5 (conn 1 (n 3)))",
                "(wire 3 (f (ix (n 6) (neg 1)) 2) 7)",
            ],
            &["(E0504 0 5 (walk (u 6 -1 2) 3 (u 6 -1 2)))"],
        );
        // different indexes are different nodes; none is not an index
        through(
            &[
                "(inst 6 0 1 5 (conn 1 (n 3)))",
                "(wire 3 (f (ix (n 6) 1) 2) 7)",
            ],
            &[],
        );
        through(
            &["(inst 6 0 1 5 (conn 1 (n 3)))", "(wire 3 (f (n 6) 2) 7)"],
            &[],
        );
        // an instance index without value counts as none, a read one reads nothing
        through(
            &[
                "(inst 6 (n 7) 1 5 (conn 1 (n 3)))",
                "(wire 3 (f (n 6) 2) 7)",
            ],
            &["(E0504 0 5 (walk (u 6 - 2) 3 (u 6 - 2)))"],
        );
        through(
            &[
                "(inst 6 (n 7) 1 5 (conn 1 (n 3)))",
                "(wire 3 (f (ix (n 6) (n 7)) 2) 7)",
            ],
            &[],
        );
        // the output without inputs heads nothing; other connections are not read
        through(
            &["(inst 6 - 1 5 (conn 1 (n 3)))", "(wire 3 (f (n 6) 4) 7)"],
            &[],
        );
        through(
            &[
                "(inst 6 - 1 5 (conn 2 (n 3)) (conn 9 (n 3)))",
                "(wire 3 (f (n 6) 2) 7)",
            ],
            &[],
        );
        // inst lines head nodes whatever the kind; reads go by kind
        through(
            &["(inst 7 - 1 5 (conn 1 (n 3)))", "(wire 3 (f (n 7) 2) 7)"],
            &[],
        );
    }

    #[test]
    fn an_instance_index_changes_with_the_rounds() {
        // ripple: 6[i] reads 6[i-1]; no loop. The other way round 6[0] and 6[1] read each other.
        through(
            &["(repeat 9 0 4 (inst 6 (n 9) 1 5 (conn 1 (f (ix (n 6) (sub (n 9) 1)) 2))))"],
            &[],
        );
        through(
            &["(repeat 9 0 2 (inst 6 (n 9) 1 5 (conn 1 (f (ix (n 6) (sub 1 (n 9))) 2))))"],
            &["(E0504 0 5 (walk (u 6 0 2) (u 6 1 2) (u 6 0 2)))"],
        );
    }

    #[test]
    fn several_lines_head_one_node() {
        through(
            &[
                "(inst 6 - 1 9 (conn 1 0))",
                "(inst 6 - 1 5 (conn 1 (n 3)))",
                "(wire 3 (f (n 6) 2) 7)",
            ],
            &["(E0504 0 7 (walk 3 (u 6 - 2) 3))"],
        );
    }

    #[test]
    fn missing_module() {
        bound_prints(
            &["(inst 6 - 200 5 (conn 1 (n 3)))", "(wire 3 (f (n 6) 2) 7)"],
            &[],
        );
    }

    #[test]
    fn summary_outputs_are_top_level_port_out_lines() {
        let parent = bound(&["(inst 6 - 1 5 (conn 1 (n 3)))", "(wire 3 (f (n 6) 2) 7)"]);
        let looped = ["(E0504 0 5 (walk (u 6 - 2) 3 (u 6 - 2)))"];
        let kinds = ["(module 1 bound)", "(kind 1 in)", "(kind 2 wire)"];
        // whatever the kind
        prints(
            &[
                &parent[..],
                &kinds,
                &["(wire 2 (n 1) 5)", "(port out 2 bit 6)"],
            ]
            .concat(),
            &[looped[0], "(E0502 1 6 2 never)"],
        );
        // not inside repeat or constif
        prints(
            &[
                &parent[..],
                &kinds,
                &["(wire 2 (n 1) 5)", "(repeat 9 0 1 (port out 2 bit 6))"],
            ]
            .concat(),
            &["(E0502 1 6 2 never)"],
        );
        // where its name is of kind in it reaches itself in no steps
        let parent = bound(&["(inst 6 - 1 5 (conn 2 (n 3)))", "(wire 3 (f (n 6) 2) 7)"]);
        prints(
            &[
                &parent[..],
                &["(module 1 bound)", "(kind 2 in)", "(port out 2 bit 6)"],
            ]
            .concat(),
            &[looped[0], "(E0502 1 6 2 never)"],
        );
    }

    #[test]
    fn a_summary_stops_at_inputs() {
        // 2 reads input 1, which a wire line heads as reading input 3: only 1 is in the summary
        let inner = [
            "(module 1 bound)",
            "(kind 1 in)",
            "(kind 2 out)",
            "(kind 3 in)",
            "(port out 2 opaque 5)",
            "(drive (lv 2 6) (n 1))",
            "(wire 1 (n 3) 7)",
        ];
        let parent = bound(&["(inst 6 - 1 5 (conn 3 (n 3)))", "(wire 3 (f (n 6) 2) 7)"]);
        prints(&[&parent[..], &inner].concat(), &[]);
    }

    #[test]
    fn through_two_levels_and_later_modules() {
        let lines = [
            "(module 0 bound)",
            "(kind 1 in)",
            "(kind 2 out)",
            "(port out 2 opaque 5)",
            "(drive (lv 2 6) (n 1))",
            "(module 1 bound)",
            "(kind 3 wire)",
            "(kind 6 inst)",
            "(inst 6 - 2 5 (conn 1 (n 3)))",
            "(wire 3 (f (n 6) 2) 7)",
            "(module 2 bound)",
            "(kind 1 in)",
            "(kind 2 out)",
            "(kind 6 inst)",
            "(port out 2 opaque 5)",
            "(inst 6 - 0 8 (conn 1 (n 1)))",
            "(drive (lv 2 6) (f (n 6) 2))",
        ];
        prints(&lines, &["(E0504 1 5 (walk (u 6 - 2) 3 (u 6 - 2)))"]);
    }

    #[test]
    fn a_module_that_contains_itself() {
        // Its own check is not summarising it, so its summary is made there; inside that, the
        // instance of itself is empty, so 2 reaches 1 only over the drive.
        let lines = [
            "(module 0 bound)",
            "(kind 1 in)",
            "(kind 2 out)",
            "(kind 6 inst)",
            "(port out 2 opaque 5)",
            "(inst 6 - 0 6 (conn 1 (f (n 6) 2)))",
            "(drive (lv 2 7) (n 1))",
        ];
        prints(&lines, &["(E0504 0 6 (walk (u 6 - 2) (u 6 - 2)))"]);
        let lines = [
            "(module 0 bound)",
            "(kind 1 in)",
            "(kind 2 out)",
            "(kind 6 inst)",
            "(port out 2 opaque 5)",
            "(inst 6 - 0 6 (conn 1 (n 2)))",
            "(drive (lv 2 7) (all (n 1) (f (n 6) 2)))",
        ];
        prints(&lines, &["(E0504 0 6 (walk (u 6 - 2) 2 (u 6 - 2)))"]);
    }

    #[test]
    fn a_summary_made_while_another_is_in_progress_is_kept() {
        // 0 needs 1 first; making 1 needs 2, and 2 meets 1 in progress: 2's summary is empty and
        // is kept. Were 2 needed first it would reach its input.
        let one = [
            "(kind 1 in)",
            "(kind 2 out)",
            "(kind 6 inst)",
            "(port out 2 opaque 5)",
            "(inst 6 - 2 6 (conn 1 (n 1)))",
            "(drive (lv 2 7) (n 1))",
        ];
        let two = [
            "(kind 1 in)",
            "(kind 2 out)",
            "(kind 6 inst)",
            "(port out 2 opaque 5)",
            "(inst 6 - 1 6 (conn 1 (n 1)))",
            "(drive (lv 2 7) (f (n 6) 2))",
        ];
        let reads = ["(wire 3 (f (n 6) 2) 9)"];
        let first = ["(inst 7 - 1 4)", "(inst 6 - 2 5 (conn 1 (n 3)))"];
        let tail = [
            &["(module 1 bound)"],
            &one[..],
            &["(module 2 bound)"],
            &two[..],
        ]
        .concat();
        prints(&[&bound(&first)[..], &reads, &tail].concat(), &[]);
        prints(
            &[&bound(&first[1..])[..], &reads, &tail].concat(),
            &["(E0504 0 5 (walk (u 6 - 2) 3 (u 6 - 2)))"],
        );
    }
}

mod fields {
    use super::*;

    /// The instanced module's output 2 reads a field of its input 1.
    #[track_caller]
    fn through(items: &[&str], reports: &[&str]) {
        with_module_1(items, "(drive (lv 2 6) (f (n 1) 9))", reports);
    }

    /// What wire 3 reads through `e`: itself, or not.
    #[track_caller]
    fn reads_3(e: &str) {
        bound_prints(&[&format!("(wire 3 {e} 5)")], &["(E0504 0 5 (walk 3 3))"]);
    }

    #[track_caller]
    fn does_not_read_3(e: &str) {
        bound_prints(&[&format!("(wire 3 {e} 5)")], &[]);
    }

    #[test]
    fn a_field_reads_the_whole_signal() {
        let text = [
            "(module 0 bound)",
            "(kind 0 wire)",
            "(wire 0 (f (n 0) 1) 0)",
        ];
        prints(&text, &["(E0504 0 0 (walk 0 0))"]);
        for e in [
            "(f (n 3) 0)",
            "(f (n 3) 255)",
            "(f (n 3) 6)",
            "(neg (f (n 3) 1))",
            "(ix (f (n 3) 1) 0)",
            "(ix 0 (f (n 3) 1))",
            "(f (if 0 1 (n 3)) 1)",
            "(f (add 0 (n 3)) 1)",
            "(f (all 0 (n 3)) 1)",
            "(f (f (n 3) 1) 2)",
            "(f (f (f (n 3) 1) 2) 3)",
            "(f (ix (f (n 3) 1) 0) 2)",
        ] {
            reads_3(e);
        }
    }

    #[test]
    fn a_field_goes_by_the_kind() {
        for (name, looped) in [
            (1, true),
            (2, true),
            (3, true),
            (4, false),
            (5, false),
            (7, false),
        ] {
            let walk = format!("(E0504 0 5 (walk {name} {name}))");
            let walks = [walk.as_str()];
            for inner in [format!("(n {name})"), format!("(ix (n {name}) 0)")] {
                let item = format!("(wire {name} (f {inner} 9) 5)");
                bound_prints(&[&item], if looped { &walks } else { &[] });
            }
        }
        // of an instance it is an output, and no signal of its name
        bound_prints(&["(wire 6 (f (n 6) 6) 5)"], &[]);
        // a kind is that of the module in which the field stands
        let other = [
            "(module 1 bound)",
            "(kind 6 wire)",
            "(wire 6 (f (n 6) 1) 5)",
        ];
        prints(
            &[&bound(&["(wire 6 (f (n 6) 1) 5)"])[..], &other].concat(),
            &["(E0504 1 5 (walk 6 6))"],
        );
    }

    #[test]
    fn an_index_is_read_where_no_instance_is_indexed() {
        let text = [
            "(module 0 bound)",
            "(kind 0 wire)",
            "(wire 0 (f (ix (n 1) (n 0)) 0) 0)",
        ];
        prints(&text, &["(E0504 0 0 (walk 0 0))"]);
        for name in [1, 2, 3, 4, 5, 7] {
            reads_3(&format!("(f (ix (n {name}) (n 3)) 1)"));
            reads_3(&format!("(f (ix (n {name}) (neg (f (n 3) 1))) 1)"));
        }
        reads_3("(f (ix 0 (n 3)) 1)");
        reads_3("(f (ix (ix (n 6) 0) (n 3)) 1)");
        reads_3("(f (ix (ix (n 6) (n 3)) 0) 1)");
        reads_3("(f (ix (all (n 6)) (n 3)) 1)");
        reads_3("(f (ix (f (n 6) 1) (n 3)) 1)");
        reads_3("(f (all (ix (n 6) (n 3))) 1)");
    }

    /// The index of an instance is not read, with a value or without.
    #[test]
    fn an_index_of_an_instance_is_not_read() {
        does_not_read_3("(f (ix (n 6) (n 3)) 1)");
        does_not_read_3("(f (ix (n 6) (f (n 3) 1)) 1)");
        does_not_read_3("(f (ix (n 6) (if 1 0 (n 3))) 1)");
        does_not_read_3("(f (f (ix (n 6) (n 3)) 1) 2)");
        does_not_read_3("(f (f (ix (n 6) (if 1 0 (f (n 3) 1))) 1) 2)");
        let valued = [
            "(module 0 bound)",
            "(kind 3 wire)",
            "(kind 6 inst)",
            "(val 3 0)",
        ];
        prints(
            &[&valued[..], &["(wire 3 (f (ix (n 6) (n 3)) 1) 5)"]].concat(),
            &[],
        );
    }

    /// Only indexes of instances are evaluated.
    #[test]
    fn an_index_that_is_read_is_not_evaluated() {
        does_not_read_3(&format!("(f (ix (n 7) {OUTSIDE}) 1)"));
        does_not_read_3(&format!("(f {OUTSIDE} 1)"));
        does_not_read_3(&format!("(f (ix (ix (n 6) {OUTSIDE}) 0) 1)"));
        let index = format!("(f (ix (n 6) {OUTSIDE}) 1)");
        item_refused(&format!("(wire 3 (f (ix (n 7) {index}) 1) 5)"), 20);
        item_refused(&format!("(wire 3 (f {index} 1) 5)"), 20);
        // one without a value takes nothing but its own output away
        does_not_read_3("(f (ix (n 7) (f (ix (n 6) (n 8)) 1)) 1)");
        reads_3("(f (ix (n 3) (f (ix (n 6) (n 8)) 1)) 1)");
    }

    #[test]
    fn a_field_of_an_output_reads_the_output() {
        let looped = ["(E0504 0 5 (walk (u 6 - 2) 3 (u 6 - 2)))"];
        let inst = "(inst 6 - 1 5 (conn 1 (n 3)))";
        for e in [
            "(f (n 6) 2)",
            "(f (f (n 6) 2) 9)",
            "(f (f (f (n 6) 2) 9) 8)",
            "(f (ix (f (n 6) 2) 0) 9)",
            "(f (ix 0 (f (n 6) 2)) 9)",
            "(f (f (n 6) 2) 4)",
        ] {
            through(&[inst, &format!("(wire 3 {e} 7)")], &looped);
        }
        for e in [
            "(f (f (n 6) 4) 2)",
            "(f (f (ix (n 6) 0) 2) 9)",
            "(f (all (n 6)) 2)",
        ] {
            through(&[inst, &format!("(wire 3 {e} 7)")], &[]);
        }
        through(
            &[
                "(inst 6 1 1 5 (conn 1 (n 3)))",
                "(wire 3 (f (f (ix (n 6) 1) 2) 9) 7)",
            ],
            &["(E0504 0 5 (walk (u 6 1 2) 3 (u 6 1 2)))"],
        );
    }

    #[test]
    fn fields_in_indexes_of_drives() {
        let looped = ["(E0504 0 5 (walk 2 2))"];
        bound_prints(&["(drive (lv 2 5) (f (n 2) 1))"], &looped);
        bound_prints(&["(drive (lv 2 5 (f (n 2) 1)) 0)"], &looped);
        bound_prints(&["(drive (lv 2 5 (f (n 2) 1) 0) 0)"], &looped);
        bound_prints(&["(drive (lv 2 5 0 (f (n 2) 1)) 0)"], &looped);
        bound_prints(
            &["(drive (lv 3 5 (f (n 3) 1)) 0)"],
            &["(E0501 0 5 3 wire)", "(E0504 0 5 (walk 3 3))"],
        );
        bound_prints(&["(drive (lv 4 5) (f (n 3) 1))"], &["(E0505 0 5 4 reg)"]);
    }

    #[test]
    fn fields_in_connections_and_in_summaries() {
        let wire = "(wire 3 (f (n 6) 2) 7)";
        let looped = ["(E0504 0 5 (walk (u 6 - 2) 3 (u 6 - 2)))"];
        through(&["(inst 6 - 1 5 (conn 1 (f (n 3) 9)))", wire], &looped);
        through(
            &["(inst 6 - 1 5 (conn 1 (f (ix (n 7) (n 3)) 9)))", wire],
            &looped,
        );
        through(&["(inst 6 - 1 5 (conn 2 (f (n 3) 9)))", wire], &[]);
        through(
            &["(inst 6 - 1 5 (conn 1 (f (f (n 6) 2) 9)))"],
            &["(E0504 0 5 (walk (u 6 - 2) (u 6 - 2)))"],
        );
    }

    #[test]
    fn a_loop_through_fields_of_several_signals() {
        bound_prints(
            &[
                "(drive (lv 2 20) (f (n 3) 8))",
                "(wire 3 (add (f (n 1) 7) (f (n 2) 9)) 10)",
            ],
            &["(E0504 0 10 (walk 3 2 3))"],
        );
    }

    #[test]
    fn reports_other_than_loops_stay() {
        let items = |e: &str| {
            [
                "(port out 2 (bits 8) 10)".to_string(),
                "(reg 4 20)".to_string(),
                format!("(wire 3 (all {e} (n 2)) 30)"),
                format!("(drive (lv 2 40 7 4) {})", e.replace('1', "3")),
                format!("(drive (lv 2 50 2 0) {})", e.replace('1', "4")),
                format!("(drive (lv 5 60) {e})"),
            ]
        };
        for e in ["(n 1)", "(f (n 1) 9)"] {
            let items = items(e);
            let items: Vec<&str> = items.iter().map(String::as_str).collect();
            bound_prints(
                &items,
                &[
                    "(E0505 0 60 5 mem)",
                    "(E0502 0 10 2 gap 3)",
                    "(E0503 0 20 4 none)",
                    "(E0504 0 30 (walk 3 2 3))",
                ],
            );
        }
    }

    /// 60 wires that each read a field of all: far more loops than the buffer holds.
    #[test]
    fn more_loops_can_be_too_long() {
        let mut lines = vec!["(module 0 bound)".to_string()];
        lines.extend((0..60).map(|w| format!("(kind {w} wire)")));
        let all: String = (0..60).map(|w| format!(" (n {w})")).collect();
        lines.extend((0..60).map(|w| format!("(wire {w} (f (all{all}) 9) {w})")));
        let lines: Vec<&str> = lines.iter().map(String::as_str).collect();
        refuses(&lines, 21, 0);
        // one report for each step back to a wire of lower or the same number
        assert_eq!(answer(&text_of(&lines), usize::MAX).reports, 60 * 61 / 2);
    }
}

mod walk {
    use super::*;

    fn wires(n: u32) -> Vec<String> {
        let mut lines = vec!["(module 0 bound)".to_string()];
        lines.extend((0..n).map(|i| format!("(kind {i} wire)")));
        lines
    }

    #[track_caller]
    fn walks(items: &[&str], walks: &[&str]) {
        let lines = wires(10);
        let mut lines: Vec<&str> = lines.iter().map(String::as_str).collect();
        lines.extend(items);
        let reports: Vec<String> = walks.iter().map(|w| format!("(E0504 0 {w})")).collect();
        let reports: Vec<&str> = reports.iter().map(String::as_str).collect();
        prints(&lines, &reports);
    }

    #[test]
    fn roots_ascend_by_start() {
        walks(
            &["(wire 1 (n 2) 20)", "(wire 2 (n 1) 10)"],
            &["10 (walk 2 1 2)"],
        );
        walks(
            &["(wire 1 (n 2) 10)", "(wire 2 (n 1) 20)"],
            &["10 (walk 1 2 1)"],
        );
    }

    #[test]
    fn next_nodes_are_taken_last_first() {
        walks(
            &[
                "(wire 0 (all (n 1) (n 2)) 1)",
                "(wire 1 (n 0) 2)",
                "(wire 2 (n 0) 3)",
            ],
            &["1 (walk 0 2 0)", "1 (walk 0 1 0)"],
        );
        walks(
            &[
                "(wire 0 (all (n 1) (n 2)) 1)",
                "(wire 1 (n 0) 3)",
                "(wire 2 (n 0) 2)",
            ],
            &["1 (walk 0 1 0)", "1 (walk 0 2 0)"],
        );
    }

    #[test]
    fn no_node_is_entered_twice() {
        // 0 takes 2 first, which enters 1; the step 0 to 1 is then no report
        walks(
            &[
                "(wire 0 (all (n 1) (n 2)) 1)",
                "(wire 1 (n 0) 2)",
                "(wire 2 (n 1) 3)",
            ],
            &["1 (walk 0 2 1 0)"],
        );
        // each step onto the open path is a report
        walks(
            &[
                "(wire 0 (n 1) 1)",
                "(wire 1 (all (n 0) (n 1) (n 2)) 2)",
                "(wire 2 (all (n 1) (n 0)) 3)",
            ],
            &[
                "2 (walk 1 2 1)",
                "1 (walk 0 1 2 0)",
                "2 (walk 1 1)",
                "1 (walk 0 1 0)",
            ],
        );
    }

    #[test]
    fn first_heading_line_counts() {
        walks(&["(wire 1 0 30)", "(wire 1 (n 1) 10)"], &["30 (walk 1 1)"]);
    }

    #[test]
    fn ties_go_by_name_and_last_first() {
        walks(
            &[
                "(wire 0 (all (n 1) (n 2)) 1)",
                "(wire 1 (n 0) 2)",
                "(wire 2 (n 0) 2)",
            ],
            &["1 (walk 0 2 0)", "1 (walk 0 1 0)"],
        );
        walks(
            &["(wire 2 (n 1) 5)", "(wire 1 (n 2) 5)"],
            &["5 (walk 1 2 1)"],
        );
    }

    #[test]
    fn ties_of_outputs_by_instance_index_output() {
        let inner = [
            "(module 1 bound)",
            "(kind 1 in)",
            "(kind 2 out)",
            "(kind 3 out)",
            "(port out 3 opaque 5)",
            "(port out 2 opaque 5)",
            "(drive (lv 2 6) (n 1))",
            "(drive (lv 3 6) (n 1))",
        ];
        let reads = "(all (f (n 6) 2) (f (n 6) 3) (f (ix (n 6) (neg 1)) 2) (f (ix (n 6) 0) 2) (f (n 7) 2) (n 3))";
        let parent = [
            "(module 0 bound)",
            "(kind 3 wire)",
            "(kind 6 inst)",
            "(kind 7 inst)",
            "(kind 9 wire)",
            &format!("(wire 9 {reads} 1)"),
            "(wire 3 (n 9) 5)",
            "(inst 7 - 1 5 (conn 1 (n 9)))",
            "(inst 6 0 1 5 (conn 1 (n 9)))",
            "(inst 6 (neg 1) 1 5 (conn 1 (n 9)))",
            "(inst 6 - 1 5 (conn 1 (n 9)))",
        ];
        let lines = [&parent[..], &inner].concat();
        let order = [
            "(u 7 - 2)",
            "(u 6 0 2)",
            "(u 6 -1 2)",
            "(u 6 - 3)",
            "(u 6 - 2)",
            "3",
        ];
        let reports: Vec<String> = order
            .iter()
            .map(|n| format!("(E0504 0 1 (walk 9 {n} 9))"))
            .collect();
        let reports: Vec<&str> = reports.iter().map(String::as_str).collect();
        prints(&lines, &reports);
        assert_eq!(ties(&text_of(&lines)), [true, false]);
    }

    #[test]
    fn tied_exactly_where_live_nodes_share_a_start() {
        let tied = |items: &[&str]| {
            let lines = wires(10);
            let mut lines: Vec<&str> = lines.iter().map(String::as_str).collect();
            lines.extend(items);
            ties(&text_of(&lines))
        };
        assert_eq!(tied(&["(wire 1 (n 2) 5)", "(wire 2 (n 1) 5)"]), [true]);
        assert_eq!(tied(&["(wire 1 (n 2) 5)", "(wire 2 (n 1) 6)"]), [false]);
        assert_eq!(tied(&["(wire 1 (n 1) 5)", "(wire 2 (n 1) 5)"]), [true]);
        assert_eq!(tied(&["(wire 1 (n 1) 5)", "(wire 2 (n 3) 5)"]), [false]); // 2 is not live
        assert_eq!(tied(&["(wire 1 (n 2) 5)", "(wire 2 (n 3) 5)"]), [false]); // no loop
        assert_eq!(
            tied(&["(wire 1 (n 1) 0)", "(wire 2 (all (n 1) (n 3)) 1)"]),
            [false]
        ); // 3 unheaded
        assert_eq!(tied(&["(wire 1 (n 1) 5)", "(wire 1 (n 1) 5)"]), [false]); // one node
    }

    #[test]
    fn outputs_of_one_line_tie_only_where_live() {
        let inner = [
            "(module 1 bound)",
            "(kind 1 in)",
            "(kind 2 out)",
            "(kind 3 out)",
            "(kind 4 in)",
            "(port out 3 opaque 5)",
            "(port out 2 opaque 5)",
            "(drive (lv 2 6) (n 1))",
            "(drive (lv 3 6) (n 4))",
        ];
        let parent = [
            "(module 0 bound)",
            "(kind 6 inst)",
            "(kind 9 wire)",
            "(wire 9 (all (f (n 6) 2) (f (n 6) 3)) 1)",
        ];
        let one = ["(inst 6 - 1 5 (conn 1 (n 9)))"];
        let both = ["(inst 6 - 1 5 (conn 1 (n 9)) (conn 4 (n 9)))"];
        assert_eq!(
            ties(&text_of(&[&parent[..], &one, &inner].concat())),
            [false, false]
        );
        assert_eq!(
            ties(&text_of(&[&parent[..], &both, &inner].concat())),
            [true, false]
        );
    }
}

mod reports {
    use super::*;

    #[test]
    fn order_within_a_module_and_over_modules() {
        let module = |m: &str| -> Vec<String> {
            let items = [
                "(mem 5 1)",
                "(wire 3 (n 3) 2)",
                "(reg 4 3)",
                "(port out 8 bit 4)",
                "(drive (lv 2 6) 0)",
                "(drive (lv 2 5) 0)",
                "(on 7 (set 5 1))",
                "(on 8 (set 5 1))",
                "(drive (lv 3 9) 0)",
                "(on 10 (set 3 11) (set 9 12))",
            ];
            let head = format!("(module {m} bound)");
            let mut lines: Vec<String> = with_kinds(&head, &["(kind 8 out)", "(kind 9 wire)"])
                .iter()
                .map(|l| l.to_string())
                .collect();
            lines.extend(items.iter().map(|l| l.to_string()));
            lines
        };
        let lines = [module("0"), module("1")].concat();
        let lines: Vec<&str> = lines.iter().map(String::as_str).collect();
        let reports = |m: &str| -> Vec<String> {
            [
                "(E0501 M 9 3 wire)",
                "(E0505 M 12 9 arrow)",
                "(E0501 M 5 2 many)",
                "(E0502 M 4 8 never)",
                "(E0503 M 3 4 none)",
                "(E0503 M 1 5 memblocks)",
                "(E0504 M 2 (walk 3 3))",
            ]
            .iter()
            .map(|l| l.replace('M', m))
            .collect()
        };
        let expected = [reports("0"), reports("1")].concat();
        let expected: Vec<&str> = expected.iter().map(String::as_str).collect();
        prints(&lines, &expected);
    }

    #[test]
    fn the_buffer() {
        let text = text_of(&["(module 0 bound)", "(reg 4 20)"]);
        let report = b"(E0503 0 20 4 none)\n";
        let full = answer(&text, report.len());
        assert_eq!(
            (full.number, full.bytes, full.reports),
            (0, report.len(), 1)
        );
        assert_eq!(full.text, report);
        let short = answer(&text, report.len() - 1);
        assert_eq!(
            (short.number, short.line, short.bytes, short.reports),
            (21, 0, 0, 0)
        );
        assert!(short.text.is_empty());
        // reading refusals go before 20 and 21
        refuses(
            &["(module 0 bound)", &format!("(const 8 {OUTSIDE})"), "x"],
            3,
            3,
        );
    }
}

/// Each limit, and one past it.
mod limits {
    use super::*;

    fn lines_of(head: &[&str], items: &[String]) -> Vec<u8> {
        let items: Vec<&str> = items.iter().map(String::as_str).collect();
        text_of(&[head, &items].concat())
    }

    #[track_caller]
    fn limit(build: impl Fn(usize) -> Vec<u8>, most: usize) {
        assert_eq!(answer(&build(most), usize::MAX).number, 0);
        assert_eq!(why(&build(most)), None);
        assert_eq!(answer(&build(most + 1), usize::MAX).number, 20);
        assert!(why(&build(most + 1)).is_some());
    }

    #[test]
    fn nodes_read() {
        // 3 is headed; the others are read
        let head = ["(module 0 bound)", "(kind 6 inst)"];
        let wire = |n: usize| repeated("(wire 3 (f (ix (n 6) (n 9)) 1) 5)", &(n - 1).to_string());
        limit(|n| lines_of(&head, &[wire(n)]), 512);
    }

    #[test]
    fn nodes_read_through_fields() {
        let head = ["(module 0 bound)", "(kind 6 inst)"];
        let item = "(wire 3 (f (neg (f (ix (n 6) (n 9)) 1)) 2) 5)";
        let wire = |n: usize| repeated(item, &(n - 1).to_string());
        limit(|n| lines_of(&head, &[wire(n)]), 512);
    }

    #[test]
    fn where_a_summary_begins_is_no_node() {
        let head = [
            "(module 0 bound)",
            "(inst 6 - 1 5)",
            "(module 1 bound)",
            "(kind 6 inst)",
        ];
        let port = "(port out 8 bit 5)".to_string();
        let wire = |n: usize| repeated("(wire 3 (f (ix (n 6) (n 9)) 1) 5)", &(n - 1).to_string());
        limit(|n| lines_of(&head, &[port.clone(), wire(n)]), 512);
    }

    #[test]
    fn nodes_headed_with_reads_or_without() {
        let head = ["(module 0 bound)"];
        let inner = [
            "(module 1 bound)",
            "(kind 1 in)",
            "(kind 2 out)",
            "(port out 2 bit 5)",
            "(drive (lv 2 6) (n 1))",
        ];
        let inner: Vec<String> = inner.iter().map(|l| l.to_string()).collect();
        limit(
            |n| {
                lines_of(
                    &head,
                    &[
                        vec![repeated("(inst 6 (n 9) 1 5)", &n.to_string())],
                        inner.clone(),
                    ]
                    .concat(),
                )
            },
            512,
        );
    }

    #[test]
    fn edges_different() {
        // 16 wires read 256 outputs each, some twice; the last wire reads one or two of them
        let build = |n: usize| {
            let mut lines = vec![];
            for w in 0..n.div_ceil(256) {
                let reads = 256.min(n - w * 256);
                lines.push(repeated(
                    &format!("(wire {w} (all (f (ix (n 60) (n 9)) 1) (f (ix (n 60) 0) 1)) 5)"),
                    &reads.to_string(),
                ));
            }
            lines_of(&["(module 0 bound)", "(kind 60 inst)"], &lines)
        };
        assert_eq!(answer(&build(4095), 0).number, 0);
        limit(build, 4096);
    }

    #[test]
    fn edges_through_fields() {
        // as above, but each wire reads one field of all that
        let build = |n: usize| {
            let mut lines = vec![];
            for w in 0..n.div_ceil(256) {
                let reads = 256.min(n - w * 256);
                let all = "(all (f (ix (n 60) (n 9)) 1) (f (ix (n 60) 0) 1))";
                let wire = format!("(wire {w} (f {all} 2) 5)");
                lines.push(repeated(&wire, &reads.to_string()));
            }
            lines_of(&["(module 0 bound)", "(kind 60 inst)"], &lines)
        };
        limit(build, 4096);
    }

    #[test]
    fn sites_as_often_as_collected_poisoned_too() {
        let head = [
            "(module 0 bound)",
            "(kind 2 out)",
            "(kind 3 out)",
            "(on 5 (set 3 6))",
        ];
        let sites = |n: usize| {
            vec![repeated(
                "(drive (lv 2 5 (n 9)) 0) (drive (lv 3 5) 0)",
                &(n / 2).to_string(),
            )]
        };
        let more = |n: usize| [sites(n), vec!["(drive (lv 3 5) 0)".to_string(); n % 2]].concat();
        limit(|n| lines_of(&head, &more(n)), 1024);
    }

    #[test]
    fn pairs_of_name_and_block() {
        let head = ["(module 0 bound)", "(kind 4 reg)", "(kind 5 mem)"];
        let blocks = |n: usize| {
            (0..n)
                .map(|i| format!("(on {} (set {} 1) (set 9 1))", i / 2, 4 + i % 2))
                .collect::<Vec<_>>()
        };
        limit(|n| lines_of(&head, &blocks(n)), 512);
        // the same pairs again are none
        let twice = |n: usize| [blocks(n), blocks(n)].concat();
        limit(|n| lines_of(&head, &twice(n)), 512);
    }

    #[test]
    fn summary_triples_in_all() {
        // 16 outputs over one wire over 32 inputs are 512 triples; two such modules and one more
        let inner = |m: usize, outs: usize, ins: usize| {
            let mut lines = vec![format!("(module {m} bound)"), "(kind 250 wire)".into()];
            lines.extend((0..ins).map(|i| format!("(kind {i} in)")));
            lines.extend((0..outs).map(|o| format!("(kind {} out)", 100 + o)));
            let all: Vec<String> = (0..ins).map(|i| format!("(n {i})")).collect();
            lines.push(format!("(wire 250 (all {}) 5)", all.join(" ")));
            for o in 100..100 + outs {
                lines.push(format!("(port out {o} bit 5)"));
                lines.push(format!("(port out {o} bit 6)"));
                lines.push(format!("(drive (lv {o} 5) (n 250))"));
            }
            lines
        };
        let build = |n: usize| {
            let head = [
                "(module 0 bound)",
                "(inst 6 - 1 5)",
                "(inst 6 - 2 5)",
                "(inst 6 - 2 5)",
                "(inst 6 - 3 5)",
            ];
            lines_of(
                &head,
                &[
                    inner(1, 16, 32),
                    inner(2, 16, 31),
                    inner(3, 1, n - 16 * 63),
                    inner(4, 16, 32),
                ]
                .concat(),
            )
        };
        limit(build, 1024); // module 4 is never summarised
    }
}

/// Why a text is refused with 20.
mod reasons {
    use super::*;

    #[track_caller]
    fn because(lines: &[&str], sentence: &str) {
        let text = text_of(lines);
        assert_eq!(answer(&text, PROGRAM_BUFFER).number, 20);
        assert_eq!(why(&text).as_deref(), Some(sentence));
    }

    const NODES: &str =
        "more than 512 nodes (signals and instance outputs that are headed or read)";

    #[test]
    fn nodes_and_edges() {
        let head = ["(module 0 bound)", "(kind 6 inst)", "(reg 4 5)"];
        let nodes = repeated("(wire 3 (f (ix (n 6) (n 9)) 1) 5)", "512");
        because(
            &[&head[..], &[&nodes]].concat(),
            &format!("With line 4 module 0 has {NODES}."),
        );
        let reads = "(f (ix (n 6) (n 9)) 1)";
        let wires: Vec<String> = (0..9).map(|w| format!("(wire {w} {reads} 5)")).collect();
        let edges = repeated(&wires.join(" "), "500");
        because(
            &[&head[..], &[&edges]].concat(),
            "With line 4 module 0 has more than 4,096 edges (a node and a node that it reads).",
        );
    }

    #[test]
    fn sites_and_pairs() {
        let sites = repeated("(drive (lv 2 5) 0)", "1025");
        because(
            &["(module 0 bound)", "(kind 2 out)", &sites],
            "With line 3 module 0 has more than 1,024 sites (drives of outputs, as often as they \
             are collected).",
        );
        // counted in the own check, though a summary's walk comes there first
        let module = ["(module 1 bound)", "(kind 2 out)", &sites];
        because(
            &[&["(module 0 bound)", "(inst 6 - 1 5)"][..], &module].concat(),
            "With line 5 module 1 has more than 1,024 sites (drives of outputs, as often as they \
             are collected).",
        );
        let mut lines = vec!["(module 0 bound)".to_string(), "(kind 4 reg)".to_string()];
        lines.extend((0..513).map(|block| format!("(on {block} (set 4 5))")));
        let lines: Vec<&str> = lines.iter().map(String::as_str).collect();
        because(
            &lines,
            "With line 515 module 0 has more than 512 pairs of a register or memory and a block \
             that sets it.",
        );
    }

    /// 33 outputs that reach 32 inputs through one wire.
    #[test]
    fn triples() {
        let mut lines = vec!["(module 0 bound)".to_string(), "(inst 6 - 1 5)".to_string()];
        lines.push("(module 1 bound)".to_string());
        lines.extend((0..32).map(|i| format!("(kind {i} in)")));
        let reads: Vec<String> = (0..32).map(|i| format!("(n {i})")).collect();
        lines.extend((100..134).map(|o| format!("(kind {o} wire)")));
        lines.push(format!("(wire 133 (all {}) 5)", reads.join(" ")));
        for o in 100..133 {
            lines.push(format!("(port out {o} bit 5)"));
            lines.push(format!("(wire {o} (n 133) 5)"));
        }
        let lines: Vec<&str> = lines.iter().map(String::as_str).collect();
        because(
            &lines,
            "With the summary of module 1 the text has more than 1,024 triples (a module, an \
             output of it, an input that this reaches).",
        );
    }

    #[test]
    fn constants() {
        let range = "outside -2,147,483,648 to 2,147,483,647";
        let part = "a constant, or a part of one, is";
        let items = |items: &[&str]| -> Vec<String> {
            let head = ["(module 0 bound)", "(kind 2 out)", "(reg 4 5)"];
            [&head[..], items]
                .concat()
                .iter()
                .map(|l| l.to_string())
                .collect()
        };
        let check = |lines: Vec<String>, line: u32, value: &str| {
            let lines: Vec<&str> = lines.iter().map(String::as_str).collect();
            let sentence = format!("In line {line}, of module 0, {part} {value}{range}.");
            because(&lines, &sentence);
        };
        check(
            items(&[&format!("(const 8 {OUTSIDE})")]),
            4,
            "2,147,483,648, ",
        );
        check(items(&["(const 8 (shl 1 40))"]), 4, "");
        check(
            items(&["(mem 8 6)", "(inst 6 (mul 65536 65536) 9 5)"]),
            5,
            "4,294,967,296, ",
        );
        // a width is evaluated last, and stands in its own line
        let wide = format!("(port out 2 (bits {OUTSIDE}) 5)");
        let width = items(&[&wide, "(drive (lv 2 6 0) 0)", "(mem 8 6)"]);
        check(width, 4, "2,147,483,648, ");
    }

    #[test]
    fn in_a_summary() {
        let nodes = repeated("(wire 3 (f (ix (n 6) (n 9)) 1) 5)", "512");
        let module = ["(module 1 bound)", "(kind 6 inst)", &nodes];
        because(
            &[&["(module 0 bound)", "(inst 6 - 1 5)"][..], &module].concat(),
            &format!("With line 5 module 1, which is summarised for its instances, has {NODES}."),
        );
        because(
            &[
                "(module 0 bound)",
                "(inst 6 - 1 5)",
                "(module 1 bound)",
                "(const 8 (neg (shl 1 33)))",
            ],
            "In line 4, of module 1, which is summarised for its instances, a constant, or a part of \
             one, is outside -2,147,483,648 to 2,147,483,647.",
        );
    }

    /// There is a reason exactly where the number is 20.
    #[test]
    fn of_generated_texts() {
        for profile in gen::PROFILES {
            for i in 0..100 {
                let text = gen::text(profile, 7, i).unwrap();
                let number = answer(&text, PROGRAM_BUFFER).number;
                assert_eq!(why(&text).is_some(), number == 20, "{profile} {i}");
            }
        }
    }
}
