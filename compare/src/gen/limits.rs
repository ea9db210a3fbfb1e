//! Texts at a limit: each builder takes the number that the text is to have.

use super::rng::Rng;

pub const TEXT_BYTES: usize = 32_768;
pub const REPORT_BYTES: usize = 65_536;

/// `limits`: text `i` takes the limits in turn; the rest varies a little.
pub fn limits(mut r: Rng, i: u64) -> String {
    let text = at_limit(&mut r, i);
    if i / 2 % 20 == 0 {
        return text;
    }
    with_vals(&mut r, &text)
}

/// A few val lines after the first line, for names that no other line has.
fn with_vals(r: &mut Rng, text: &str) -> String {
    let mut out = String::new();
    for (k, line) in text.split_inclusive('\n').enumerate() {
        out.push_str(line);
        for _ in 0..if k == 0 { r.below(5) } else { 0 } {
            out.push_str(&format!(
                "(val {} {})\n",
                r.range(240, 249),
                r.range(-99, 99)
            ));
        }
    }
    out
}

fn at_limit(r: &mut Rng, i: u64) -> String {
    let past = (i % 2) as usize;
    let v = r.below(4) as usize;
    match i / 2 % 20 {
        0 => bytes(TEXT_BYTES + past, r),
        1 => deep(32 + past, v),
        2 => modules(32 + past),
        3 => name(255 + past, r.below(NAME_LINES.len() as u64) as usize),
        4 => module_number(255 + past),
        5 => start(
            2_147_483_647 + past as u64,
            r.below(START_LINES.len() as u64) as usize,
        ),
        6 => literal(2_147_483_647 + past as u64, v),
        7 => int(2_147_483_647 + past as i64),
        8 => int(-2_147_483_648 - past as i64),
        9 => constant(past, v),
        10 => nodes(512 + past, v % 3),
        11 => edges(4096 + past, v % 2),
        12 => sites(1024 + past, v % 3),
        13 => pairs(512 + past, v % 2),
        14 => triples(1024 + past, v % 2),
        15 => rounds(4096 + past),
        16 => two_repeats(1 + r.below(4095) as usize, past),
        17 => report(REPORT_BYTES + past),
        18 => report(REPORT_BYTES - 1 - past),
        _ => report(REPORT_BYTES + 2 + past),
    }
}

/// A text of exactly `n` bytes (40 or more): one module, val lines, no report.
pub fn bytes(n: usize, r: &mut Rng) -> String {
    let mut out = "(module 0 bound)\n".to_string();
    let digit = r.below(10);
    while n - out.len() >= 20 {
        out.push_str(&format!("(val {digit} {})\n", r.below(10)));
    }
    let last = n - out.len() - "(val 1 )\n".len();
    out.push_str(&format!("(val {digit} 1{})\n", "0".repeat(last - 1)));
    out
}

/// A line with `n` brackets around its innermost part.
pub fn deep(n: usize, variant: usize) -> String {
    let head = "(module 0 bound)\n(kind 1 wire)\n(kind 2 reg)\n";
    let line = match variant {
        0 => format!("(wire 1 {} 10)", nest("(neg ", n - 1, "7", ")")),
        1 => format!("(const 3 {})", nest("(add 1 ", n - 1, "7", ")")),
        2 => format!("(on 5 {})", nest("(loop ", n - 2, "(set 2 7)", ")")),
        4 => format!("(wire 1 {} 10)", nest("(f ", n - 2, "(n 1)", " 2)")),
        _ => format!("(wire 1 {} 10)", nest("(all (n 1) ", n - 2, "(all)", ")")),
    };
    format!("{head}{line}\n")
}

fn nest(open: &str, times: usize, core: &str, close: &str) -> String {
    format!("{}{core}{}", open.repeat(times), close.repeat(times))
}

pub fn modules(n: usize) -> String {
    (0..n).map(|m| format!("(module {m} unbound)\n")).collect()
}

/// Lines of module 0 with a name written `@`.
pub const NAME_LINES: [&str; 19] = [
    "(kind @ in)",
    "(val @ 5)",
    "(port in @ bit 5)",
    "(port out @ opaque 5)",
    "(wire @ 0 5)",
    "(reg @ 5)",
    "(mem @ 5)",
    "(const @ 5)",
    "(drive (lv @ 5) 0)",
    "(on 5 (set @ 5))",
    "(on 5 (default @))",
    "(inst @ - 0 5)",
    "(inst 1 - 0 5 (conn @ 0))",
    "(repeat @ 0 2)",
    "(wire 1 (n @) 5)",
    "(wire 1 (f (n 1) @) 5)",
    "(wire 1 (f (ix (n @) 0) 1) 5)",
    "(constif (n @) (then) (else))",
    "(on 5 (when (then) (else (loop (set @ 5)))))",
];

pub fn name(n: usize, line: usize) -> String {
    format!(
        "(module 0 bound)\n{}\n",
        NAME_LINES[line].replace('@', &n.to_string())
    )
}

pub fn module_number(n: usize) -> String {
    format!("(module 0 bound)\n(inst 1 - {n} 5)\n")
}

/// Lines of module 0 with a START written `@`.
pub const START_LINES: [&str; 9] = [
    "(port in 1 bit @)",
    "(port out 1 (bits 8) @)",
    "(wire 1 0 @)",
    "(reg 1 @)",
    "(mem 1 @)",
    "(drive (lv 1 @) 0)",
    "(on @)",
    "(on 5 (set 1 @))",
    "(inst 1 - 0 @)",
];

pub fn start(n: u64, line: usize) -> String {
    format!(
        "(module 0 bound)\n{}\n",
        START_LINES[line].replace('@', &n.to_string())
    )
}

pub fn literal(n: u64, variant: usize) -> String {
    let line = match variant {
        0 => format!("(wire 1 {n} 5)"),
        1 => format!("(const 1 {n})"),
        2 => format!("(port out 1 (bits {n}) 5)"),
        _ => format!("(repeat 1 {n} 0)"),
    };
    format!("(module 0 bound)\n{line}\n")
}

pub fn int(n: i64) -> String {
    format!("(module 0 bound)\n(val 1 {n})\n")
}

/// A constant at the end of INT (`past` 0) or one past it (1).
pub fn constant(past: usize, variant: usize) -> String {
    let e = match variant {
        0 => format!("(add 2147483647 {past})"),
        1 => format!("(sub (neg 2147483647) {})", 1 + past),
        2 => format!("(mul 1073741824 {})", 1 + past),
        _ => format!("(sub (add 2147483647 {past}) 1)"),
    };
    format!("(module 0 bound)\n(const 1 {e})\n")
}

/// A module whose output 3 follows its input 2.
const CHILD: &str =
    "(module 1 bound)\n(kind 2 in)\n(kind 3 out)\n(port out 3 bit 1)\n(drive (lv 3 2) (n 2))\n";

/// Module 0 has `n` nodes: read only, read by number, or headed only.
pub fn nodes(n: usize, variant: usize) -> String {
    let head = "(module 0 bound)\n(kind 1 wire)\n(kind 9 inst)\n";
    match variant {
        // Wire 1, and an instance output for each round.
        0 => format!(
            "{head}(repeat 5 0 {} (wire 1 (f (ix (n 9) (n 5)) 3) 10))\n",
            n - 1
        ),
        // Wire 1 and 200 inputs; the rest are instance outputs.
        1 => format!("{head}{}{}", in_kinds(10, 200), many_reads(n - 201)),
        // An instance line heads its output though nothing is connected.
        _ => format!("{head}(repeat 5 0 {n} (inst 9 (n 5) 1 10))\n{CHILD}"),
    }
}

fn in_kinds(from: usize, count: usize) -> String {
    (from..from + count)
        .map(|k| format!("(kind {k} in)\n"))
        .collect()
}

fn many_reads(outputs: usize) -> String {
    let ins: String = (10..210).map(|k| format!(" (n {k})")).collect();
    let outs: String = (0..outputs)
        .map(|k| format!(" (f (ix (n 9) {k}) 3)"))
        .collect();
    format!("(wire 1 (all{ins}) 10)\n(wire 1 (all{outs}) 20)\n")
}

/// Module 0 has `n` different edges, 4,096 or more.
pub fn edges(n: usize, variant: usize) -> String {
    let mut out = "(module 0 bound)\n(kind 9 inst)\n".to_string();
    if variant == 0 {
        // 16 wires read 256 instance outputs; some more read an input.
        for w in 10..26 + (n - 4096) {
            out.push_str(&format!("(kind {w} wire)\n"));
        }
        out.push_str("(kind 1 in)\n(repeat 5 0 256");
        for w in 10..26 {
            out.push_str(&format!(" (wire {w} (f (ix (n 9) (n 5)) 3) {w})"));
        }
        out.push_str(")\n");
        for w in 26..26 + (n - 4096) {
            out.push_str(&format!("(wire {w} (n 1) {w})\n"));
        }
        return out;
    }
    // 64 instance outputs read 64 inputs.
    let reads: String = (10..74).map(|k| format!(" (n {k})")).collect();
    out.push_str(&in_kinds(10, 64 + (n - 4096)));
    out.push_str(&format!(
        "(repeat 5 0 64 (inst 9 (n 5) 1 10 (conn 2 (all{reads}))))\n"
    ));
    for k in 74..74 + (n - 4096) {
        out.push_str(&format!("(inst 9 0 1 20 (conn 2 (n {k})))\n"));
    }
    out + CHILD
}

/// Reads of signal 6 by fields.
pub const BY_A_FIELD: [&str; 4] = [
    "(f (n 6) 1)",
    "(f (f (n 6) 1) 2)",
    "(f (ix (n 8) (n 6)) 1)",
    "(f (if 0 (n 6) 1) 2)",
];

const FIELD_READERS: &str = "(module 0 bound)\n(kind 6 in)\n(kind 9 inst)\n";
/// A field of instance output (9, variable 5, 3).
const OF_AN_OUTPUT: &str = "(f (f (ix (n 9) (n 5)) 3) 4)";

/// Module 0 has `n` nodes: wire 1 and what it reads by fields; `last` reads signal 6.
pub fn nodes_by_fields(n: usize, last: &str) -> String {
    format!(
        "{FIELD_READERS}(kind 1 wire)\n(repeat 5 0 {} (wire 1 {OF_AN_OUTPUT} 10))\n(wire 1 {last} 20)\n",
        n - 2
    )
}

/// Module 0 has `n` different edges, 3,842 or more, all by fields; `last` reads signal 6.
pub fn edges_by_fields(n: usize, last: &str) -> String {
    let mut out = FIELD_READERS.to_string();
    for w in 10..26 {
        out.push_str(&format!("(kind {w} wire)\n"));
    }
    // 15 wires read 256 instance outputs; wire 25 reads as many as are left, and signal 6.
    out.push_str("(repeat 5 0 256");
    for w in 10..25 {
        out.push_str(&format!(" (wire {w} {OF_AN_OUTPUT} {w})"));
    }
    let rest = n - 1 - 15 * 256;
    out + &format!(")\n(repeat 5 0 {rest} (wire 25 {OF_AN_OUTPUT} 25))\n(wire 25 {last} 26)\n")
}

/// The text with a field of each name in place of the name, as `(f (n 7) 1)` for `(n 7)`.
pub fn in_fields(text: &str) -> String {
    let mut parts = text.split("(n ");
    let mut out = parts.next().unwrap_or_default().to_string();
    for part in parts {
        let (name, rest) = part.split_once(')').unwrap_or((part, ""));
        out.push_str(&format!("(f (n {name}) 1){rest}"));
    }
    out
}

/// Module 0 has `n` sites: of one output, of two, or of one that is poisoned.
pub fn sites(n: usize, variant: usize) -> String {
    let head = "(module 0 bound)\n(kind 1 out)\n(kind 2 out)\n";
    let drive = "(drive (lv 1 10 (n 5)) 0)";
    match variant {
        0 => format!("{head}(repeat 5 0 {n} {drive})\n"),
        1 => format!(
            "{head}(repeat 5 0 {} {drive})\n(repeat 5 0 {} (drive (lv 2 20 0) 0))\n",
            n / 2,
            n - n / 2
        ),
        _ => format!("{head}(on 5 (set 1 5))\n(repeat 5 0 {n} {drive})\n"),
    }
}

/// Module 0 has `n` pairs of name and block.
pub fn pairs(n: usize, variant: usize) -> String {
    let mut out = "(module 0 bound)\n".to_string();
    let kinds = if variant == 0 {
        ["reg", "reg"]
    } else {
        ["reg", "mem"]
    };
    for k in 0..16 {
        out.push_str(&format!("(kind {} {})\n", 10 + k, kinds[k % 2]));
    }
    for block in 0..n.div_ceil(16) {
        let row: String = (0..16.min(n - 16 * block))
            .map(|k| format!(" (set {} 5)", 10 + k))
            .collect();
        out.push_str(&format!("(on {block}{row})\n"));
    }
    out
}

/// Summaries have `n` triples, 1,024 or more: in one module, or shared out between two.
pub fn triples(n: usize, variant: usize) -> String {
    let more = n - 1024;
    if variant == 0 {
        let host = "(module 0 bound)\n(inst 9 - 1 5)\n";
        return format!("{host}{}", crossbar(1, 32, 32, more));
    }
    let host = "(module 0 bound)\n(inst 8 - 1 5)\n(inst 9 - 2 6)\n";
    format!(
        "{host}{}{}",
        crossbar(1, 16, 32, 0),
        crossbar(2, 32, 16, more)
    )
}

/// A module with outputs that each follow all of its inputs, and `more` outputs that follow one.
fn crossbar(number: usize, outs: usize, ins: usize, more: usize) -> String {
    let mut out = format!(
        "(module {number} bound)\n(kind 9 wire)\n{}",
        in_kinds(10, ins)
    );
    for o in 100..100 + outs + more {
        out.push_str(&format!("(kind {o} out)\n"));
    }
    let reads: String = (10..10 + ins).map(|k| format!(" (n {k})")).collect();
    out.push_str(&format!("(wire 9 (all{reads}) 5)\n"));
    for o in 100..100 + outs + more {
        let read = if o < 100 + outs { 9 } else { 10 };
        out.push_str(&format!(
            "(port out {o} bit {o})\n(drive (lv {o} {o}) (n {read}))\n"
        ));
    }
    out
}

/// One repeat of `n` rounds. Reg 3 shows that the body runs, output 1 that the variable is set.
pub fn rounds(n: usize) -> String {
    format!("{ROUNDS_HEAD}(repeat 2 0 {n} {ROUNDS_BODY})\n")
}

/// Two repeats that together need 4,096 rounds, or one more.
pub fn two_repeats(first: usize, past: usize) -> String {
    let second = 4096 - first + past;
    format!("{ROUNDS_HEAD}(repeat 2 0 {first})\n(repeat 2 0 {second} {ROUNDS_BODY})\n")
}

const ROUNDS_HEAD: &str = "(module 0 bound)\n(kind 1 out)\n(port out 1 bit 10)\n";
const ROUNDS_BODY: &str = "(reg 3 20) (constif (not (n 2)) (then (drive (lv 1 30) 0)) (else))";

/// 43 wires, each reading itself, all before it and the next: 946 loops.
const CHAIN: usize = 43;
/// Loops from wire j back from wire i: `(E0504 0 SS (walk` 17 bytes, 3 for each of the
/// i - j + 2 names, `))` and a line feed. Sum over all pairs.
const CHAIN_BYTES: usize = 64_328;

/// A text whose reports have exactly `n` bytes, a little above 64,328.
pub fn report(n: usize) -> String {
    let mut out = "(module 0 bound)\n".to_string();
    for w in 10..10 + CHAIN {
        out.push_str(&format!("(kind {w} wire)\n"));
    }
    for w in 10..10 + CHAIN {
        let last = (w + 1).min(10 + CHAIN - 1);
        let reads: String = (10..=last).map(|k| format!(" (n {k})")).collect();
        out.push_str(&format!("(wire {w} (all{reads}) {w})\n"));
    }
    out + &idle_regs(n - CHAIN_BYTES)
}

/// Regs that no block sets; their reports have `n` bytes in all.
/// `(E0503 0 START NAME none)` and a line feed: 20 bytes and the digits of START.
fn idle_regs(n: usize) -> String {
    let count = n.div_ceil(30);
    let mut digits = n - 20 * count;
    let mut out = String::new();
    for k in 0..count {
        let here = (digits - (count - k - 1)).min(10);
        digits -= here;
        out.push_str(&format!("(reg {} 1{})\n", 100 + k, "0".repeat(here - 1)));
    }
    out
}
