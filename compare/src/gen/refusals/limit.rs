//! Refusals 20 and 21: what the state cannot hold. The line is 0 for both.

use super::super::limits;
use super::{line, no, ok, ok_line, Entry};

const FULL: &str = "(refused 20 0)";

/// "in one module 512 nodes (headed or read), 4,096 different edges".
pub fn nodes_and_edges(out: &mut Vec<Entry>) {
    for (variant, what) in ["read-in-a-repeat", "read-by-number", "headed"].iter().enumerate() {
        ok(out, &format!("20-nodes-512-{what}"), limits::nodes(512, variant));
        no(out, &format!("20-nodes-513-{what}"), limits::nodes(513, variant), FULL);
    }
    for (variant, what) in ["wires", "instances"].iter().enumerate() {
        ok(out, &format!("20-edges-4096-{what}"), limits::edges(4096, variant));
        no(out, &format!("20-edges-4097-{what}"), limits::edges(4097, variant), FULL);
    }
    // "In one module": two with 512 nodes each. A node is counted once, however often it is met.
    let first = limits::nodes(512, 0);
    let again = first.replacen("(module 0 bound)\n", "", 1);
    ok(out, "20-nodes-512-in-two-modules", format!("{first}(module 1 bound)\n{again}"));
    let twice = "(repeat 5 0 511 (wire 1 (f (ix (n 9) (n 5)) 3) 10))\n";
    ok(out, "20-nodes-512-met-twice", format!("{first}{twice}"));
    nodes_that_are_none(out);
    // "different edges": each of the 4,096 once more.
    let edges = limits::edges(4096, 0);
    let lines = edges.lines().filter(|l| l.starts_with("(repeat")).collect::<String>();
    ok(out, "20-edges-4096-met-twice", format!("{edges}{lines}\n"));
    nodes_and_edges_by_fields(out);
}

/// What heads or reads a node, and what does not.
fn nodes_that_are_none(out: &mut Vec<Entry>) {
    let row = |rounds: usize| format!("(module 0 bound)\n(repeat 5 0 {rounds} (inst 9 (n 5) 1 10))\n");
    let follows = "(module 1 bound)\n(kind 2 in)\n(kind 3 out)\n(port out 3 bit 1)\n(drive (lv 3 2) (n 2))\n";
    // "`wire` and `inst` lines head nodes whatever the kind": name 9 has none here.
    ok(out, "20-nodes-512-headed-without-kind", format!("{}{follows}", row(512)));
    no(out, "20-nodes-513-headed-without-kind", format!("{}{follows}", row(513)), FULL);
    // "An output that reaches no input is not in the summary and heads nothing."
    let idle = "(module 1 bound)\n(kind 3 out)\n(port out 3 bit 1)\n(drive (lv 3 2) 0)\n";
    ok(out, "20-not-nodes-of-outputs-that-reach-no-input", format!("{}{idle}", row(513)));
    // "Where a summary's search begins is no node by itself": output 8 of a module of 512 nodes.
    let full = limits::nodes(512, 0) + "(port out 8 bit 30)\n(module 1 bound)\n(inst 9 - 0 5)\n";
    ok(out, "20-not-a-node-where-the-search-begins", full);
    // Reads of a reg, of a name without kind and of an instance without index value are none, under
    // a field too.
    let text = limits::nodes(512, 0).replacen("(kind 1 wire)\n", "(kind 1 wire)\n(kind 2 reg)\n", 1);
    let none = "(n 2) (n 6) (f (ix (n 9) (n 6)) 1)";
    let more = format!("(wire 1 (all {none} (f (n 2) 1) (f (n 6) 1) (f (all {none}) 1)) 40)\n");
    ok(out, "20-not-nodes-of-reads-that-are-none", text + &more);
    // A field of a signal takes the 513th node; one of an output that is a node already takes none.
    let text = limits::nodes(512, 0).replacen("(kind 1 wire)\n", "(kind 1 wire)\n(kind 4 wire)\n", 1);
    no(out, "20-nodes-513-by-a-field-of-a-signal", text.clone() + "(wire 1 (f (n 4) 1) 40)\n", FULL);
    ok(out, "20-nodes-512-by-a-field-of-a-node", text + "(wire 1 (f (f (ix (n 9) 7) 3) 1) 40)\n");
}

/// "An `f` form other than 01's two on an inst shall read everything that its inner expression
/// reads": the last node and the last edge are there by such a read alone.
fn nodes_and_edges_by_fields(out: &mut Vec<Entry>) {
    let whats = ["a-field", "a-field-of-a-field", "the-index-of-a-field", "a-field-of-if"];
    for (last, what) in limits::BY_A_FIELD.iter().zip(whats) {
        ok(out, &format!("20-nodes-512-the-last-by-{what}"), limits::nodes_by_fields(512, last));
        no(out, &format!("20-nodes-513-the-last-by-{what}"), limits::nodes_by_fields(513, last), FULL);
        ok(out, &format!("20-edges-4096-the-last-by-{what}"), limits::edges_by_fields(4096, last));
        no(out, &format!("20-edges-4097-the-last-by-{what}"), limits::edges_by_fields(4097, last), FULL);
    }
    // Each of the 4,096 edges once more, by a field.
    let edges = limits::edges(4096, 0);
    let lines = edges.lines().filter(|l| l.starts_with("(repeat")).collect::<String>();
    let again = lines.replace("(f (ix (n 9) (n 5)) 3)", "(f (f (ix (n 9) (n 5)) 3) 4)");
    ok(out, "20-edges-4096-met-twice-by-fields", format!("{edges}{again}\n"));
}

/// "1,024 sites, 512 pairs of name and block". "Sites and pairs count over the whole module,
/// poisoned names too, sites as often as collected."
pub fn sites_and_pairs(out: &mut Vec<Entry>) {
    for (variant, what) in ["of-one-output", "of-two-outputs", "poisoned"].iter().enumerate() {
        ok(out, &format!("20-sites-1024-{what}"), limits::sites(1024, variant));
        no(out, &format!("20-sites-1025-{what}"), limits::sites(1025, variant), FULL);
    }
    for (variant, what) in ["of-regs", "of-regs-and-mems"].iter().enumerate() {
        ok(out, &format!("20-pairs-512-{what}"), limits::pairs(512, variant));
        no(out, &format!("20-pairs-513-{what}"), limits::pairs(513, variant), FULL);
    }
    let first = limits::sites(1024, 0);
    let again = first.replacen("(module 0 bound)\n", "", 1);
    ok(out, "20-sites-1024-in-two-modules", format!("{first}(module 1 bound)\n{again}"));
    // A drive of a wire is no site.
    let wire = "(module 0 bound)\n(kind 1 wire)\n(repeat 5 0 1025 (drive (lv 1 10) 0))\n";
    ok(out, "20-not-sites-of-a-wire", wire);
    // A pair met again is the same pair; `default` on a reg counts as `set` does.
    let pairs = limits::pairs(512, 0);
    ok(out, "20-pairs-512-met-twice", format!("{pairs}(on 0 (default 10) (set 25 7))\n"));
    no(out, "20-pairs-513-by-default", format!("{pairs}(on 32 (default 10))\n"), FULL);
    // A set on a name without kind is no pair.
    ok(out, "20-not-pairs-of-other-names", format!("{pairs}(on 32 (set 99 5) (default 99))\n"));
}

/// "1,024 summary triples in all". "A triple is one different (module, output, input)."
pub fn triples(out: &mut Vec<Entry>) {
    for (variant, what) in ["of-one-module", "of-two-modules"].iter().enumerate() {
        ok(out, &format!("20-triples-1024-{what}"), limits::triples(1024, variant));
        no(out, &format!("20-triples-1025-{what}"), limits::triples(1025, variant), FULL);
    }
    // The outputs reach their inputs by fields.
    ok(out, "20-triples-1024-by-fields", limits::in_fields(&limits::triples(1024, 0)));
    no(out, "20-triples-1025-by-fields", limits::in_fields(&limits::triples(1025, 0)), FULL);
    // "made when first needed": without an instance line there is no summary.
    let text = limits::triples(1025, 0).replacen("(inst 9 - 1 5)\n", "", 1);
    ok(out, "20-triples-1025-never-needed", text);
    // "and then kept": a second instance line of the module adds no triple.
    let text = limits::triples(1024, 0).replacen("(inst 9 - 1 5)\n", "(inst 8 - 1 4)\n(inst 9 - 1 5)\n", 1);
    ok(out, "20-triples-1024-needed-twice", text);
}

/// "or a constant, or a part of one, evaluated outside INT".
pub fn constants(out: &mut Vec<Entry>) {
    for (name, e, outside) in [
        ("add-to-the-top", "(add 2147483646 1)", false),
        ("add-past-the-top", "(add 2147483647 1)", true),
        ("sub-to-the-bottom", "(sub (neg 2147483647) 1)", false),
        ("sub-past-the-bottom", "(sub (neg 2147483647) 2)", true),
        ("mul-to-the-bottom", "(mul (neg 65536) 32768)", false),
        ("mul-past-the-top", "(mul 65536 32768)", true),
        ("mul-past-the-bottom", "(mul (neg 46341) 46341)", true),
        ("mul-far-past", "(mul 2147483647 2147483647)", true),
        ("neg-of-the-bottom", "(neg (sub (neg 2147483647) 1))", true),
        // A part of a constant: the whole would be in INT, or have no value.
        ("part-of-a-sum", "(sub (add 2147483647 1) 1)", true),
        ("part-of-a-product", "(mul 0 (mul 65536 65536))", true),
        ("part-of-a-comparison", "(lt (mul 65536 65536) 5)", true),
        ("part-of-not", "(not (mul 65536 65536))", true),
        ("part-of-clog2", "(clog2 (mul 65536 65536))", true),
        ("condition-of-if", "(if (mul 65536 65536) 1 2)", true),
        ("branch-of-if", "(if 1 (mul 65536 65536) 2)", true),
        // "Operands left to right, both for `and`/`or`".
        ("second-of-and", "(and 0 (mul 65536 65536))", true),
        ("second-of-or", "(or 1 (mul 65536 65536))", true),
        // "a missing one ends it": the second operand is missing only after the first is out.
        ("before-a-missing-operand", "(add (mul 65536 65536) (n 9))", true),
        // "A result outside INT is still 20."
        ("shl-to-the-top", "(shl 1 30)", false),
        ("shl-past-the-top", "(shl 1 31)", true),
        ("shl-to-the-bottom", "(shl (neg 1) 31)", false),
        ("shl-past-the-bottom", "(shl (neg 1) 32)", true),
        ("shl-of-the-top", "(shl 2147483647 1)", true),
        ("shl-of-the-bottom", "(shl (sub (neg 2147483647) 1) 1)", true),
        // A number other than 0 past the Rust's width limit is outside INT first.
        ("shl-up-to-the-width-limit", "(shl 1 999998)", true),
        ("shl-past-the-width-limit", "(shl 1 999999)", true),
        ("shl-far-past", "(shl (neg 1) 2147483647)", true),
        ("part-of-shr", "(shr (shl 1 31) 1)", true),
        ("part-of-band", "(band 0 (mul 65536 65536))", true),
        ("part-of-bor", "(bor (mul 65536 65536) 1)", true),
        ("part-of-bxor", "(bxor (shl 1 31) (shl 1 31))", true),
        // Both operands before an amount is rejected; an amount outside INT is no amount.
        ("before-a-rejected-amount", "(shl (add 2147483647 1) (neg 1))", true),
        ("before-a-rejected-amount-of-shr", "(shr (add 2147483647 1) (neg 1))", true),
        ("amount-of-shl", "(shl 0 (mul 65536 65536))", true),
        ("amount-of-shr", "(shr 0 (mul 65536 65536))", true),
        ("amount-of-shr-far-below", "(shr 0 (mul (neg 65536) 65536))", true),
        // "a missing one ends it", and so does a branch that is not taken.
        ("amount-after-a-missing-operand", "(shl (n 9) (mul 65536 65536))", false),
        ("shl-in-a-branch-not-taken", "(if 0 (shl 1 31) 0)", false),
    ] {
        let text = format!("(const 1 {e})");
        let name = format!("20-constant-{name}");
        if outside {
            line(out, &name, &text, FULL);
        } else {
            ok_line(out, &name, &text);
        }
    }
    // INT's lowest value stands in `val`; its negative is outside.
    line(out, "20-constant-neg-of-val", "(val 1 -2147483648)\n(const 2 (neg (n 1)))", FULL);
    ok_line(out, "20-constant-val", "(val 1 -2147483648)\n(const 2 (n 1))");
}

/// Each of these texts evaluates a constant outside INT, BIG.
fn evaluated(out: &mut Vec<Entry>, places: &[(&str, &str)]) {
    for (name, text) in places {
        line(out, &format!("20-in-{name}"), &text.replace("BIG", "(mul 65536 65536)"), FULL);
    }
}

/// Where a constant is evaluated.
pub fn constant_places(out: &mut Vec<Entry>) {
    evaluated(out, &[
        // "then top-level `const` lines".
        ("const", "(const 1 BIG)"),
        // "both indexes of an output's LV always are", also where the other has no value.
        ("lv-bit", "(kind 1 out)\n(drive (lv 1 5 BIG) 0)"),
        ("lv-high", "(kind 1 out)\n(drive (lv 1 5 BIG 0) 0)"),
        ("lv-low", "(kind 1 out)\n(drive (lv 1 5 9 BIG) 0)"),
        ("lv-low-without-high", "(kind 1 out)\n(drive (lv 1 5 (n 9) BIG) 0)"),
        ("lv-high-without-low", "(kind 1 out)\n(drive (lv 1 5 BIG (n 9)) 0)"),
        ("lv-of-a-poisoned-output", "(kind 1 out)\n(on 4 (set 1 4))\n(drive (lv 1 5 BIG) 0)"),
        // "Both bounds of a `repeat` ... always are".
        ("low-bound", "(repeat 1 BIG 0)"),
        ("high-bound", "(repeat 1 0 BIG)"),
        ("high-bound-without-low", "(repeat 1 (n 9) BIG)"),
        ("low-bound-without-high", "(repeat 1 BIG (n 9))"),
        ("condition", "(constif BIG (then) (else))"),
        // "A width ... of its first `port out` line", ranges only.
        ("width", "(kind 1 out)\n(port out 1 (bits BIG) 5)\n(drive (lv 1 6 0) 0)"),
        ("width-signed", "(kind 1 out)\n(port out 1 (signed BIG) 5)\n(drive (lv 1 6 0) 0)"),
        // "X of every collected instance line is evaluated, also where the summary is empty or
        // the module missing."
        ("x-of-a-missing-module", "(inst 1 BIG 9 5)"),
        ("x-of-an-empty-summary", "(inst 1 BIG 0 5)"),
    ]);
    f_indexes(out);
    evaluated(out, &[
        // The body of a repeat that runs once, and of one that runs.
        ("body-run-once", "(repeat 1 0 (n 9) (constif BIG (then) (else)))"),
        ("body-run", "(repeat 1 0 1 (constif BIG (then) (else)))"),
        // By the variable: 0 and 1 times 2,000,000,000 are in INT, 2 times is not.
        ("third-round", "(repeat 1 0 3 (constif (mul (n 1) 2000000000) (then) (else)))"),
    ]);
    ok_line(out, "20-in-second-round", "(repeat 1 0 2 (constif (mul (n 1) 2000000000) (then) (else)))");
    constants_by_module(out);
}

fn f_indexes(out: &mut Vec<Entry>) {
    evaluated(out, &[
        // "An `f` index only where the expression is read and NAME is an inst."
        ("f-index", "(kind 9 inst)\n(wire 1 (f (ix (n 9) BIG) 3) 5)"),
        ("f-index-in-a-drive", "(kind 1 out)\n(kind 9 inst)\n(drive (lv 1 5) (f (ix (n 9) BIG) 3))"),
        ("f-index-in-a-driven-wire", "(kind 1 wire)\n(kind 9 inst)\n(drive (lv 1 5) (f (ix (n 9) BIG) 3))"),
        ("f-index-in-an-index", "(kind 1 wire)\n(kind 9 inst)\n(drive (lv 1 5 (f (ix (n 9) BIG) 3)) 0)"),
        // A field of anything else reads "everything that its inner expression reads", and so evaluates
        // the indexes of instances in it.
        ("f-index-in-a-field", "(kind 9 inst)\n(wire 1 (f (f (ix (n 9) BIG) 3) 4) 5)"),
        ("f-index-in-a-field-of-a-field", "(kind 9 inst)\n(wire 1 (f (f (f (ix (n 9) BIG) 3) 4) 4) 5)"),
        ("f-index-in-a-field-of-all", "(kind 9 inst)\n(wire 1 (f (all 0 (f (ix (n 9) BIG) 3)) 4) 5)"),
        ("f-index-in-the-index-of-a-field", "(kind 9 inst)\n(wire 1 (f (ix (n 8) (f (ix (n 9) BIG) 3)) 4) 5)"),
        ("f-index-in-a-field-in-a-drive", "(kind 1 out)\n(kind 9 inst)\n(drive (lv 1 5) (f (f (ix (n 9) BIG) 3) 4))"),
        ("f-index-in-a-field-in-an-index", "(kind 1 out)\n(kind 9 inst)\n(drive (lv 1 5 (f (f (ix (n 9) BIG) 3) 4)) 0)"),
        ("f-index-in-a-field-in-an-index-of-a-wire", "(kind 1 wire)\n(kind 9 inst)\n(drive (lv 1 5 (f (f (ix (n 9) BIG) 3) 4)) 0)"),
    ]);
}

fn constants_by_module(out: &mut Vec<Entry>) {
    // Bound or not makes no difference.
    no(out, "20-in-an-unbound-module", "(module 0 unbound)\n(const 1 (mul 65536 65536))\n", FULL);
    // Each module is checked.
    no(out, "20-in-module-1", "(module 0 bound)\n(module 1 bound)\n(const 1 (mul 65536 65536))\n", FULL);
    // "A connection is read, and its indexes evaluated, only if its name is in the summary".
    let child = "(module 1 bound)\n(kind 2 in)\n(kind 3 out)\n(port out 3 bit 1)\n(drive (lv 3 2) (n 2))\n";
    let host = "(kind 9 inst)\n(inst 9 - 1 5 (conn 2 (f (ix (n 9) (mul 65536 65536)) 3)))";
    no(out, "20-in-f-index-of-a-connection", format!("(module 0 bound)\n{host}\n{child}"), FULL);
    let host = "(kind 9 inst)\n(inst 9 - 1 5 (conn 2 (f (f (ix (n 9) (mul 65536 65536)) 3) 4)))";
    no(out, "20-in-f-index-in-a-field-of-a-connection", format!("(module 0 bound)\n{host}\n{child}"), FULL);
}

/// "21 the report text is longer than the lent buffer"; the program's has 65,536 bytes.
pub fn twenty_one(out: &mut Vec<Entry>) {
    ok(out, "21-report-65535", limits::report(65_535));
    ok(out, "21-report-65536", limits::report(65_536));
    no(out, "21-report-65537", limits::report(65_537), "(refused 21 0)");
    no(out, "21-report-65600", limits::report(65_600), "(refused 21 0)");
    // All loops go through fields.
    ok(out, "21-report-65536-by-fields", limits::in_fields(&limits::report(65_536)));
    no(out, "21-report-65537-by-fields", limits::in_fields(&limits::report(65_537)), "(refused 21 0)");
    // "20 goes before 21."
    let both = limits::report(65_537) + "(const 1 (mul 65536 65536))\n";
    no(out, "21-after-20", both, FULL);
    // A fault of the text goes before both.
    let all = limits::report(65_537) + "(const 1 (mul 65536 65536))\n(reg 256 5)\n";
    let answer = "(refused 5 130)";
    no(out, "21-after-5", all, answer);
}
