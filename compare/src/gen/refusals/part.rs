//! Refusals 4 and 5: parts and numbers.

use super::super::limits;
use super::{line, no, ok, ok_line, second, Entry};

/// "4 ... a misplaced space"; "parts separated by one space".
pub fn four_spaces(out: &mut Vec<Entry>) {
    line(out, "4-two-spaces", "(reg  1 5)", "(refused 4 2)");
    line(out, "4-two-spaces-later", "(reg 1  5)", "(refused 4 2)");
    line(out, "4-space-after-the-bracket", "( reg 1 5)", "(refused 4 2)");
    line(out, "4-space-before-the-bracket", "(reg 1 5 )", "(refused 4 2)");
    line(out, "4-no-space-after-the-head", "(reg1 5)", "(refused 4 2)");
    line(out, "4-no-space-before-a-form", "(wire 1(n 1) 5)", "(refused 4 2)");
    line(out, "4-no-space-after-a-form", "(wire 1 (n 1)5)", "(refused 4 2)");
    line(out, "4-no-space-between-forms", "(wire 1 (all (n 1)(n 2)) 5)", "(refused 4 2)");
    line(out, "4-head-against-a-form", "(all(n 1))", "(refused 4 2)");
    line(out, "4-space-inside-a-form", "(wire 1 ( n 1) 5)", "(refused 4 2)");
    line(out, "4-space-at-the-end-of-a-form", "(wire 1 (n 1 ) 5)", "(refused 4 2)");
    line(out, "4-space-in-an-empty-list", "(wire 1 (all ) 5)", "(refused 4 2)");
    line(out, "4-space-after-on", "(on 5 )", "(refused 4 2)");
    no(out, "4-two-spaces-in-module", "(module  0 bound)\n", "(refused 4 1)");
    // `()` and `( )` are closed forms, so not 3; they have no head.
    line(out, "4-empty-form", "()", "(refused 4 2)");
    line(out, "4-form-of-a-space", "( )", "(refused 4 2)");
    line(out, "4-empty-form-inside", "(wire 1 () 5)", "(refused 4 2)");
    line(out, "4-form-as-head", "((reg 1 5))", "(refused 4 2)");
}

/// "4 ... badly written number"; "Numbers are decimal without leading zeros; only the INT of
/// `val` may have a minus, 0 never."
pub fn four_numbers(out: &mut Vec<Entry>) {
    for (name, text) in [
        ("4-leading-zero", "(reg 01 5)"),
        ("4-leading-zero-in-start", "(reg 1 05)"),
        ("4-two-zeros", "(reg 00 5)"),
        ("4-leading-zero-in-literal", "(wire 1 07 5)"),
        ("4-leading-zero-in-int", "(val 1 07)"),
        ("4-minus-zero-in-int", "(val 1 -0)"),
        ("4-minus-leading-zero-in-int", "(val 1 -07)"),
        ("4-two-minus", "(val 1 --7)"),
        ("4-minus-alone", "(val 1 -)"),
        ("4-minus-behind", "(val 1 7-)"),
        ("4-minus-apart", "(val 1 - 7)"),
        ("4-minus-in-name", "(val -1 7)"),
        ("4-minus-in-start", "(reg 1 -5)"),
        ("4-minus-in-literal", "(wire 1 -5 5)"),
        ("4-minus-in-const", "(const 1 -5)"),
        ("4-minus-in-index", "(inst 1 -1 0 5)"),
        ("4-minus-in-module", "(inst 1 - -1 5)"),
        ("4-minus-zero-in-name", "(reg -0 5)"),
        ("4-plus", "(val 1 +7)"),
        ("4-plus-in-name", "(reg +1 5)"),
        ("4-letter-in-number", "(reg 1x 5)"),
        ("4-letter-for-number", "(reg x 5)"),
        ("4-hexadecimal", "(reg 0x1 5)"),
        ("4-point", "(reg 1 5.0)"),
        ("4-comma", "(reg 1,5)"),
        ("4-word-for-start", "(reg 1 true)"),
        ("4-form-for-number", "(reg 1 (n 5))"),
        ("4-dash-for-number", "(reg - 5)"),
    ] {
        line(out, name, text, "(refused 4 2)");
    }
    no(out, "4-leading-zero-in-m", "(module 00 bound)\n", "(refused 4 1)");
    no(out, "4-minus-in-m", "(module -0 bound)\n", "(refused 4 1)");
    ok_line(out, "4-not-a-minus-in-int", "(val 1 -7)");
    ok_line(out, "4-not-zero-in-int", "(val 0 0)");
}

/// "4 unknown head, wrong parts".
pub fn four_lines(out: &mut Vec<Entry>) {
    for (name, text) in [
        ("4-unknown-head", "(foo 1 5)"),
        ("4-capital-head", "(Reg 1 5)"),
        ("4-head-too-long", "(regs 1 5)"),
        ("4-head-too-short", "(re 1 5)"),
        ("4-head-alone", "(reg)"),
        ("4-head-is-a-number", "(5 1 5)"),
        ("4-part-missing", "(reg 1)"),
        ("4-part-too-many", "(reg 1 5 6)"),
        ("4-kind-unknown", "(kind 1 clock)"),
        ("4-kind-without-kind", "(kind 1)"),
        ("4-kind-parts-swapped", "(kind in 1)"),
        ("4-val-without-int", "(val 1)"),
        ("4-port-direction", "(port inout 1 bit 5)"),
        ("4-port-bare-bits", "(port out 1 bits 5)"),
        ("4-port-bits-without-width", "(port out 1 (bits) 5)"),
        ("4-port-bits-with-two", "(port out 1 (bits 1 2) 5)"),
        ("4-port-bit-as-form", "(port out 1 (bit) 5)"),
        ("4-port-number-for-type", "(port out 1 8 5)"),
        ("4-port-unknown-type", "(port out 1 (array 8) 5)"),
        ("4-port-without-type", "(port out 1 5)"),
        ("4-wire-without-expression", "(wire 1 5)"),
        ("4-drive-without-lv", "(drive 1 0)"),
        ("4-drive-without-right-side", "(drive (lv 1 5))"),
        ("4-lv-without-start", "(drive (lv 1) 0)"),
        ("4-lv-with-three-indexes", "(drive (lv 1 5 1 2 3) 0)"),
        ("4-lv-as-line", "(lv 1 5)"),
        ("4-on-without-start", "(on)"),
        ("4-on-with-statement-for-start", "(on (set 1 5))"),
        ("4-on-with-an-item", "(on 5 (reg 1 5))"),
        ("4-on-with-a-number", "(on 5 6)"),
        ("4-set-without-start", "(on 5 (set 1))"),
        ("4-default-with-start", "(on 5 (default 1 5))"),
        ("4-when-without-else", "(on 5 (when (then)))"),
        ("4-when-else-first", "(on 5 (when (else) (then)))"),
        ("4-when-with-condition", "(on 5 (when 1 (then) (else)))"),
        ("4-loop-with-a-number", "(on 5 (loop 1))"),
        ("4-set-as-line", "(set 1 5)"),
        ("4-then-as-line", "(then)"),
        ("4-inst-without-index", "(inst 1 0 5)"),
        ("4-inst-with-an-expression-for-conn", "(inst 1 - 0 5 (n 1))"),
        ("4-inst-conn-without-expression", "(inst 1 - 0 5 (conn 1))"),
        ("4-inst-dash-as-form", "(inst 1 (-) 0 5)"),
        ("4-conn-as-line", "(conn 1 0)"),
        ("4-repeat-without-high", "(repeat 9 0)"),
        ("4-repeat-with-a-statement", "(repeat 9 0 2 (set 1 5))"),
        // `kind`, `val` and `module` are no items.
        ("4-repeat-with-a-kind-line", "(repeat 9 0 2 (kind 1 in))"),
        ("4-repeat-with-a-val-line", "(repeat 9 0 2 (val 1 5))"),
        ("4-repeat-with-a-module-line", "(repeat 9 0 2 (module 1 bound))"),
        ("4-constif-without-else", "(constif 1 (then))"),
        ("4-constif-without-condition", "(constif (then) (else))"),
        ("4-constif-else-first", "(constif 1 (else) (then))"),
        ("4-constif-with-a-third", "(constif 1 (then) (else) (else))"),
        ("4-expression-as-line", "(n 1)"),
        ("4-all-as-line", "(all)"),
        ("4-type-as-line", "(bits 8)"),
    ] {
        line(out, name, text, "(refused 4 2)");
    }
    four_modules(out);
}

fn four_modules(out: &mut Vec<Entry>) {
    no(out, "4-module-alone", "(module)\n", "(refused 4 1)");
    no(out, "4-module-without-bound", "(module 0)\n", "(refused 4 1)");
    no(out, "4-module-capital-bound", "(module 0 Bound)\n", "(refused 4 1)");
    no(out, "4-module-with-a-third", "(module 0 bound 1)\n", "(refused 4 1)");
    no(out, "4-module-parts-swapped", "(module bound 0)\n", "(refused 4 1)");
}

/// "4 unknown head, wrong parts", inside expressions.
pub fn four_expressions(out: &mut Vec<Entry>) {
    for (name, e) in [
        ("4-e-unknown-head", "(foo 1)"),
        ("4-e-item", "(drive (lv 1 5) 0)"),
        ("4-e-type", "(bits 1)"),
        ("4-e-dash", "-"),
        ("4-e-bare-word", "n"),
        ("4-e-capital-true", "True"),
        ("4-e-true-as-form", "(true)"),
        ("4-e-number-as-form", "(5)"),
        ("4-e-n-without-name", "(n)"),
        ("4-e-n-with-two", "(n 1 2)"),
        ("4-e-n-with-a-form", "(n (n 1))"),
        ("4-e-f-without-name", "(f 1)"),
        ("4-e-f-with-three", "(f 1 2 3)"),
        ("4-e-f-with-a-form-for-name", "(f 1 (n 2))"),
        ("4-e-ix-with-one", "(ix 1)"),
        ("4-e-ix-with-three", "(ix 1 2 3)"),
        ("4-e-if-with-two", "(if 1 2)"),
        ("4-e-if-with-four", "(if 1 2 3 4)"),
        ("4-e-neg-with-none", "(neg)"),
        ("4-e-neg-with-two", "(neg 1 2)"),
        ("4-e-clog2-with-none", "(clog2)"),
        ("4-e-add-with-one", "(add 1)"),
        ("4-e-add-with-three", "(add 1 2 3)"),
        ("4-e-shl-with-one", "(shl 1)"),
        ("4-e-word-in-all", "(all 1 x)"),
        ("4-e-unknown-operator", "(div 4 2)"),
        ("4-e-capital-operator", "(ADD 1 2)"),
    ] {
        line(out, name, &format!("(wire 1 {e} 5)"), "(refused 4 2)");
    }
}

/// "5 number out of range." The ranges: "NAME 0 to 255", "START ... and literals: 0 to
/// 2,147,483,647", "INT −2,147,483,648 to 2,147,483,647", "MOD 0 to 255".
pub fn five(out: &mut Vec<Entry>) {
    for k in 0..limits::NAME_LINES.len() {
        no(out, &format!("5-name-256-{k}"), limits::name(256, k), "(refused 5 2)");
    }
    ok(out, "5-name-255", (0..limits::NAME_LINES.len()).fold(String::new(), all_names));
    for k in 0..limits::START_LINES.len() {
        no(out, &format!("5-start-2147483648-{k}"), limits::start(2_147_483_648, k), "(refused 5 2)");
    }
    ok(out, "5-start-2147483647", (0..limits::START_LINES.len()).fold(String::new(), all_starts));
    for k in 0..4 {
        no(out, &format!("5-literal-2147483648-{k}"), limits::literal(2_147_483_648, k), "(refused 5 2)");
        ok(out, &format!("5-literal-2147483647-{k}"), limits::literal(2_147_483_647, k));
    }
    line(out, "5-mod-256", "(inst 1 - 256 5)", "(refused 5 2)");
    ok_line(out, "5-mod-255", "(inst 1 - 255 5)");
    line(out, "5-int-2147483648", "(val 1 2147483648)", "(refused 5 2)");
    line(out, "5-int-minus-2147483649", "(val 1 -2147483649)", "(refused 5 2)");
    ok_line(out, "5-int-2147483647", "(val 1 2147483647)");
    ok_line(out, "5-int-minus-2147483648", "(val 1 -2147483648)");
    // A well-written number that is too large is 5 however many digits it has.
    line(out, "5-name-1000", "(reg 1000 5)", "(refused 5 2)");
    line(out, "5-start-4294967296", "(reg 1 4294967296)", "(refused 5 2)");
    line(out, "5-start-4294967301", "(reg 1 4294967301)", "(refused 5 2)");
    line(out, "5-start-of-20-digits", "(reg 1 18446744073709551621)", "(refused 5 2)");
    line(out, "5-name-of-40-digits", &format!("(reg 1{} 5)", "0".repeat(39)), "(refused 5 2)");
    line(out, "5-int-of-40-digits", &format!("(val 1 -1{})", "0".repeat(39)), "(refused 5 2)");
    // Deep inside a line, and in a branch that is never taken.
    line(out, "5-inside", "(constif 0 (then (repeat 1 0 2 (wire 1 (all (n 256)) 5))) (else))", "(refused 5 2)");
}

fn all_names(text: String, k: usize) -> String {
    added(text, &limits::name(255, k), k)
}

fn all_starts(text: String, k: usize) -> String {
    added(text, &limits::start(2_147_483_647, k), k)
}

/// The first text whole, the line alone of each further one.
fn added(text: String, next: &str, k: usize) -> String {
    let head = second("");
    let next = if k == 0 { next } else { next.strip_prefix(head.trim_end_matches('\n')).unwrap_or(next) };
    text + next.trim_start_matches('\n')
}
