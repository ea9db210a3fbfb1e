//! Refusals 6 and 7, operators in constant places, and which of several faults is given.

use super::super::expr::BIT_OPS;
use super::super::limits;
use super::{gives, line, no, ok, Entry};

/// "6 a line out of place: before any module, M not the next number, `kind` or `val` after an
/// item."
pub fn six(out: &mut Vec<Entry>) {
    // Before any module.
    no(out, "6-kind-first", "(kind 1 in)\n", "(refused 6 1)");
    no(out, "6-val-first", "(val 1 5)\n", "(refused 6 1)");
    no(out, "6-item-first", "(reg 1 5)\n(module 0 bound)\n", "(refused 6 1)");
    no(out, "6-repeat-first", "(repeat 9 0 2)\n", "(refused 6 1)");
    // M not the next number; "M counts from 0".
    no(out, "6-module-1-first", "(module 1 bound)\n", "(refused 6 1)");
    no(out, "6-module-0-twice", "(module 0 bound)\n(module 0 bound)\n", "(refused 6 2)");
    no(out, "6-module-2-after-0", "(module 0 bound)\n(module 2 bound)\n", "(refused 6 2)");
    no(out, "6-module-back", "(module 0 bound)\n(module 1 bound)\n(module 0 bound)\n", "(refused 6 3)");
    // M has no range of its own: a well-written number that is not the next is 6.
    no(out, "6-module-256", "(module 256 bound)\n", "(refused 6 1)");
    no(out, "6-module-2147483648", "(module 2147483648 bound)\n", "(refused 6 1)");
    no(out, "6-module-4294967296", "(module 4294967296 bound)\n", "(refused 6 1)");
    no(out, "6-module-of-20-digits", "(module 18446744073709551616 bound)\n", "(refused 6 1)");
    // `kind` or `val` after an item.
    line(out, "6-kind-after-reg", "(reg 1 5)\n(kind 1 reg)", "(refused 6 3)");
    line(out, "6-val-after-reg", "(reg 1 5)\n(val 1 5)", "(refused 6 3)");
    line(out, "6-kind-after-port-in", "(port in 1 bit 5)\n(kind 1 in)", "(refused 6 3)");
    line(out, "6-kind-after-on", "(on 5)\n(kind 1 reg)", "(refused 6 3)");
    line(out, "6-val-after-repeat", "(repeat 9 0 2)\n(val 1 5)", "(refused 6 3)");
    // `const` is an item.
    line(out, "6-val-after-const", "(const 1 5)\n(val 2 5)", "(refused 6 3)");
    line(out, "6-kind-after-constif", "(constif 1 (then) (else))\n(kind 1 in)", "(refused 6 3)");
    // A new module line opens the next module's kinds.
    ok(out, "6-not-kind-after-module", "(module 0 bound)\n(reg 1 5)\n(module 1 bound)\n(kind 1 in)\n");
}

/// "7 a second kind for a name in its module, or a 33rd module."
pub fn seven(out: &mut Vec<Entry>) {
    line(out, "7-second-kind", "(kind 1 in)\n(kind 1 out)", "(refused 7 3)");
    // The same kind given twice is a second kind.
    line(out, "7-same-kind-twice", "(kind 1 in)\n(kind 1 in)", "(refused 7 3)");
    line(out, "7-second-kind-later", "(kind 1 in)\n(kind 2 in)\n(val 1 5)\n(kind 1 mem)", "(refused 7 5)");
    line(out, "7-second-kind-of-255", "(kind 255 in)\n(kind 0 in)\n(kind 255 wire)", "(refused 7 4)");
    ok(out, "7-not-in-another-module", "(module 0 bound)\n(kind 1 in)\n(module 1 bound)\n(kind 1 out)\n");
    ok(out, "7-not-a-second-val", "(module 0 bound)\n(val 1 5)\n(val 1 5)\n");
    ok(out, "7-modules-32", limits::modules(32));
    no(out, "7-modules-33", limits::modules(33), "(refused 7 33)");
}

/// "From this change the five operators work in constant places": each of these texts but those
/// named `read-` was refused before, and has no fault now. What the values are is shown in
/// `cases.cases`.
pub fn operators(out: &mut Vec<Entry>) {
    for op in BIT_OPS {
        gives(out, &format!("operators-{op}"), &format!("(const 1 ({op} 1 2))"), "");
    }
    operators_in_places(out);
    operators_inside(out);
}

/// "Constant places: E in LV, T, `const`, X, `repeat` bounds, the `constif` condition, and I in
/// `(f (ix (n NAME) I) NAME)`."
fn operators_in_places(out: &mut Vec<Entry>) {
    for (name, text, reports) in [
        // Name 1 has no kind: "A drive ... of ... a name without kind does nothing."
        ("in-lv-bit", "(drive (lv 1 5 (shl 1 2)) 0)", ""),
        ("in-lv-high", "(drive (lv 1 5 (shl 1 2) 0) 0)", ""),
        ("in-lv-low", "(drive (lv 1 5 9 (shl 1 2)) 0)", ""),
        // "no site E0502 `never`".
        ("in-bits", "(port out 1 (bits (shl 1 12)) 5)", "(E0502 0 5 1 never)\n"),
        ("in-signed", "(port out 1 (signed (shl 1 12)) 5)", "(E0502 0 5 1 never)\n"),
        ("in-bits-of-an-input", "(port in 1 (bits (shl 1 12)) 5)", ""),
        // Module 0 in itself has no outputs.
        ("in-x", "(inst 1 (shl 1 2) 0 5)", ""),
        ("in-low-bound", "(repeat 1 (shl 1 2) 9)", ""),
        ("in-high-bound", "(repeat 1 0 (shl 1 2))", ""),
        ("in-condition", "(constif (shl 1 2) (then) (else))", ""),
        // Name 9 has no kind, and the indexes have no names: the fields read nothing.
        ("in-f-index", "(wire 1 (f (ix (n 9) (shl 1 2)) 3) 5)", ""),
        ("in-f-index-of-a-connection", "(inst 1 - 0 5 (conn 2 (f (ix (n 9) (shl 1 2)) 3)))", ""),
        ("in-f-index-of-a-right-side", "(drive (lv 1 5) (f (ix (n 9) (shl 1 2)) 3))", ""),
        ("in-f-index-inside-all", "(wire 1 (all 1 (add 2 (f (ix (n 9) (shl 1 2)) 3))) 5)", ""),
        // Wire 9 is read, and reads nothing itself.
        ("in-f-index-of-a-wire", "(kind 9 wire)\n(wire 1 (f (ix (n 9) (shl 1 2)) 3) 5)", ""),
    ] {
        gives(out, &format!("operators-{name}"), text, reports);
    }
}

/// Anywhere inside a constant, also where nothing is evaluated.
fn operators_inside(out: &mut Vec<Entry>) {
    for (name, text) in [
        ("deep", "(const 1 (add 1 (neg (mul 2 (bor 1 2)))))"),
        ("in-a-branch-never-taken", "(const 1 (if 1 2 (shr 1 2)))"),
        ("in-all", "(const 1 (all 1 (band 1 2)))"),
        ("in-f", "(const 1 (f (bxor 1 2) 3))"),
        ("in-ix", "(const 1 (ix (shl 1 2) 3))"),
        ("in-second-of-ix", "(const 1 (ix 3 (shl 1 2)))"),
        ("in-nested-const", "(constif 0 (then (const 1 (shl 1 2))) (else))"),
        // The repeat has no round, and so the output is not collected.
        ("in-an-untaken-item", "(repeat 1 5 0 (constif 0 (then) (else (port out 1 (bits (shl 1 2)) 5))))"),
        ("in-f-over-two-ix-in-a-constant", "(const 1 (f (ix (ix (n 2) (shl 1 2)) 0) 3))"),
        // Name 1 has no kind and is not read.
        ("in-f-index-inside-an-index", "(wire 1 (ix (n 1) (f (ix (n 2) (shl 1 2)) 3)) 5)"),
    ] {
        gives(out, &format!("operators-{name}"), text, "");
    }
    // Where no value is taken: they were accepted before, too.
    for (name, e) in [
        ("read-in-f-over-two-ix", "(f (ix (ix (n 2) (shl 1 2)) (shr 1 2)) 3)"),
        ("read-in-ix-alone", "(ix (n 2) (shl 1 2))"),
        ("read-in-ix-under-all-under-f", "(f (all (ix (n 2) (shl 1 2))) 3)"),
        ("read-in-f-over-ix-of-no-name", "(f (ix (all (n 2)) (shl 1 2)) 3)"),
        ("read-in-f", "(f (shl 1 2) 3)"),
        ("read-in-all", "(all (shl 1 2))"),
    ] {
        gives(out, &format!("operators-{name}"), &format!("(wire 1 {e} 5)"), "");
    }
}

/// "Of several faults in one line the lowest number is given".
pub fn within_a_line(out: &mut Vec<Entry>) {
    for (name, text, answer) in [
        ("both-3-and-4", "(foo 1", "(refused 3 2)"),
        ("both-3-and-4-number", "(reg 01 5))", "(refused 3 2)"),
        ("both-3-and-4-space", "(reg  1 5) ", "(refused 3 2)"),
        ("both-3-and-5", "(reg 256 5", "(refused 3 2)"),
        ("both-4-and-5", "(reg 256 05)", "(refused 4 2)"),
        ("both-4-and-5-head", "(foo 256)", "(refused 4 2)"),
        ("both-4-and-5-parts", "(reg 256)", "(refused 4 2)"),
        ("both-4-and-5-inside", "(wire 256 (foo) 5)", "(refused 4 2)"),
        ("both-4-and-5-in-one-number", "(reg 0256 5)", "(refused 4 2)"),
        ("both-4-and-5-minus", "(reg -256 5)", "(refused 4 2)"),
        ("both-5-and-6", "(reg 1 5)\n(kind 256 in)", "(refused 5 3)"),
        ("both-5-and-6-int", "(reg 1 5)\n(val 1 2147483648)", "(refused 5 3)"),
        ("both-6-and-7", "(kind 1 in)\n(reg 1 5)\n(kind 1 in)", "(refused 6 4)"),
        ("both-4-and-7", "(kind 1 in)\n(kind 1  in)", "(refused 4 3)"),
        // An operator in a constant place is no fault beside the other.
        ("operators-and-3", "(const 1 (shl 1 2)))", "(refused 3 2)"),
        ("operators-and-4", "(const 1 (shl 1))", "(refused 4 2)"),
        ("operators-and-4-later", "(drive (lv 1 5 (shl 1 2)) (foo))", "(refused 4 2)"),
        ("operators-and-5", "(const 256 (shl 1 2))", "(refused 5 2)"),
        ("operators-and-5-inside", "(const 1 (shl 1 2147483648))", "(refused 5 2)"),
        ("operators-and-5-later", "(drive (lv 1 5 (shl 1 2)) (n 256))", "(refused 5 2)"),
    ] {
        line(out, name, text, answer);
    }
    no(out, "operators-and-6", "(const 1 (shl 1 2))\n", "(refused 6 1)");
    no(out, "both-4-and-6", "(kind 1 clock)\n", "(refused 4 1)");
    no(out, "both-4-and-6-module", "(module 01 bound)\n", "(refused 4 1)");
    no(out, "both-5-and-6-first", "(reg 256 5)\n", "(refused 5 1)");
    // A 33rd module with a wrong number is 6, with its right number 7.
    no(out, "both-6-and-7-module", limits::modules(32) + "(module 33 bound)\n", "(refused 6 33)");
    no(out, "both-6-and-7-module-0", limits::modules(32) + "(module 0 bound)\n", "(refused 6 33)");
}

/// "then line by line": "an earlier line goes before a later one".
pub fn between_lines(out: &mut Vec<Entry>) {
    // "Number 8 then no longer occurs": the line with the operator has no fault, and the next is
    // looked at.
    line(out, "line-3-after-operators", "(const 1 (shl 1 2))\n(", "(refused 3 3)");
    line(out, "line-3-empty-after-operators", "(const 0 (shl 0 0))\n", "(refused 3 3)");
    line(out, "line-7-before-line-4", "(kind 1 in)\n(kind 1 in)\n(foo)", "(refused 7 3)");
    line(out, "line-5-before-line-3", "(reg 256 5)\n\n", "(refused 5 2)");
    line(out, "line-6-before-line-4", "(module 5 bound)\n(foo)", "(refused 6 2)");
    line(out, "line-4-before-line-4", "(foo)\n(foo)", "(refused 4 2)");
    // Line 3 is in place; line 4 is the first with a fault.
    line(out, "line-after-good-lines", "(reg 1 5)\n(reg 2 6)\n(reg 256 7)\n(reg", "(refused 5 4)");
    // A fault of the text goes before a limit: the constant in line 2 is never evaluated.
    line(out, "text-before-state", "(const 1 (mul 65536 65536))\n(reg 1 05)", "(refused 4 3)");
    // A line number of several digits.
    let many = "(val 1 5)\n".repeat(1000);
    no(out, "line-1002", format!("(module 0 bound)\n{many}(val 1 05)\n"), "(refused 4 1002)");
}
