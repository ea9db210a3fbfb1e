//! Designs to time the check on.

use compare::gen::limits;

/// A text of the table.
pub struct Row {
    pub name: &'static str,
    pub text: fn() -> Vec<u8>,
}

const fn row(name: &'static str, text: fn() -> Vec<u8>) -> Row {
    Row { name, text }
}

pub const ROWS: [Row; 13] = [
    row("P1", || P1.to_vec()),
    row("ordinary, 1 KB", || ordinary(1, 0)),
    row("ordinary, 8 KB", || ordinary(6, 0)),
    row("ordinary, 32 KB", || ordinary(25, 0)),
    row("ordinary, 8 KB, reports", || ordinary(6, 8)),
    row("4,096 rounds, 1 KB body", || rounds(32)),
    row("4,096 rounds, 15 KB body", || rounds(480)),
    row("4,096 edges", || limits::edges(4096, 0).into_bytes()),
    row("4,096 edges, 32 KB", || edges()),
    row("1,024 sites", || sites()),
    row("256 outputs of 4 sites", || sites_in_turn()),
    row("32 modules nested", || nested()),
    row("65,000 bytes of reports", || {
        limits::report(65_000).into_bytes()
    }),
];

const P1: &[u8] = include_bytes!("../../../compare/vectors/p1.text");

/// So many modules of about 1 KB, each with two instances of earlier ones; `idle` registers of the
/// first are never set, and so reported.
fn ordinary(modules: usize, idle: usize) -> Vec<u8> {
    let mut text = String::new();
    for m in 0..modules {
        text += &ordinary_module(m, if m == 0 { idle } else { 0 });
    }
    text.into_bytes()
}

/// Ports, wires, registers, a memory, drives in parts, a block, a repeat and instances.
fn ordinary_module(m: usize, idle: usize) -> String {
    let mut text = format!("(module {m} bound)\n");
    for (names, kind) in [
        (1..5, "in"),
        (5..9, "out"),
        (9..15, "wire"),
        (15..20, "reg"),
        (20..21, "mem"),
        (21..23, "inst"),
    ] {
        names.for_each(|name| text += &format!("(kind {name} {kind})\n"));
    }
    text += "(val 30 8)\n";
    (1..5).for_each(|name| text += &format!("(port in {name} (bits 8) {name})\n"));
    (5..9).for_each(|name| text += &format!("(port out {name} (bits (n 30)) {name})\n"));
    (15..20 + idle).for_each(|name| text += &format!("(reg {name} 1{name})\n"));
    text += "(mem 20 120)\n";
    text += "(wire 9 (add (n 1) (n 2)) 201)\n(wire 10 (if (eq (n 3) 1) (n 9) (n 15)) 202)\n";
    text += "(wire 11 (band (n 10) (n 4)) 203)\n(wire 12 (ix (n 16) (n 9)) 204)\n";
    text += &instances(m);
    text += "(drive (lv 5 220) (all (n 11) (n 12)))\n(drive (lv 6 221 7 4) (n 13))\n";
    text += "(drive (lv 6 222 3 0) (n 14))\n(repeat 31 0 8 (drive (lv 7 223 (n 31)) (ix (n 10) (n 31))))\n";
    text +=
        "(constif (gt (n 30) 4) (then (drive (lv 8 224) (n 18))) (else (drive (lv 8 225) 0)))\n";
    text += "(on 300 (when (then (set 15 301) (set 16 302)) (else (set 17 303))) (set 18 304) (set 19 305) (set 20 306))\n";
    text
}

/// Two instances of earlier modules, read by wires 13 and 14; plain wires in the first module.
fn instances(m: usize) -> String {
    if m == 0 {
        return "(wire 13 (n 17) 212)\n(wire 14 (n 18) 213)\n".to_string();
    }
    let (a, b) = (m - 1, m / 2);
    format!(
        "(inst 21 - {a} 210 (conn 1 (n 9)) (conn 2 (n 10)) (conn 3 (n 1)) (conn 4 (n 2)))\n\
         (inst 22 - {b} 211 (conn 1 (n 3)) (conn 2 (n 4)) (conn 3 (n 19)))\n\
         (wire 13 (f (n 21) 5) 212)\n(wire 14 (f (n 22) 6) 213)\n"
    )
}

/// 4,096 rounds over so many wires, each of which reads three names.
fn rounds(wires: usize) -> Vec<u8> {
    let mut text = "(module 0 bound)\n".to_string();
    (1..9).for_each(|name| text += &format!("(kind {name} in)\n"));
    (10..250).for_each(|name| text += &format!("(kind {name} wire)\n"));
    text += "(repeat 9 0 4096";
    for k in 0..wires {
        text += &format!(
            " (wire {} (all (n {}) (n {})) {})",
            10 + k % 240,
            1 + k % 8,
            1 + k / 8 % 8,
            100 + k
        );
    }
    text += ")\n";
    text.into_bytes()
}

/// 64 wires that each read the 64 inputs.
fn edges() -> Vec<u8> {
    let mut text = "(module 0 bound)\n".to_string();
    (10..74).for_each(|name| text += &format!("(kind {name} in)\n(kind {} wire)\n", name + 90));
    let reads: String = (10..74).map(|name| format!(" (n {name})")).collect();
    (100..164).for_each(|name| text += &format!("(wire {name} (all{reads}) {name})\n"));
    text.into_bytes()
}

/// 1,024 sites of one output, each of a bit of its own.
fn sites() -> Vec<u8> {
    let mut text = "(module 0 bound)\n(kind 1 out)\n(port out 1 (bits 1024) 5)\n".to_string();
    (0..1024).for_each(|bit| text += &format!("(drive (lv 1 {} {bit}) 0)\n", 10 + bit));
    text.into_bytes()
}

/// 256 outputs, each driven in four bits: the first bit of every output, then the second of every output, and so on. One is declared
/// a bit wide, since a line with a width would make the text too long.
fn sites_in_turn() -> Vec<u8> {
    let mut text = "(module 0 bound)\n".to_string();
    (0..256).for_each(|name| text += &format!("(kind {name} out)\n"));
    (0..256).for_each(|name| text += &format!("(port out {name} bit 5)\n"));
    for bit in 0..4 {
        (0..256).for_each(|name| text += &format!("(drive (lv {name} 6 {bit}) 0)\n"));
    }
    text.into_bytes()
}

/// Each module has an instance of the next, through which its output follows its input.
fn nested() -> Vec<u8> {
    let mut text = String::new();
    for m in 0..32 {
        text += &format!("(module {m} bound)\n(kind 1 in)\n(kind 2 out)\n(kind 3 inst)\n");
        text += "(port in 1 bit 1)\n(port out 2 bit 2)\n";
        text += &match m {
            31 => "(drive (lv 2 10) (n 1))\n".to_string(),
            _ => format!(
                "(inst 3 - {} 9 (conn 1 (n 1)))\n(drive (lv 2 10) (f (n 3) 2))\n",
                m + 1
            ),
        };
    }
    text.into_bytes()
}

/// The text that takes most stack: each module has an instance of the next, the last one of the first, in as many repeats as the
/// brackets allow.
pub fn deepest() -> Vec<u8> {
    let (open, close) = ("(repeat 9 0 1 ".repeat(31), ")".repeat(31));
    let mut text = String::new();
    for m in 0..32 {
        text += &format!("(module {m} bound)\n(kind 1 inst)\n(kind 2 out)\n(kind 3 in)\n(port out 2 bit 1)\n");
        text += &format!("{open}(inst 1 - {} 5){close}\n(drive (lv 2 7) (f (n 1) 2))\n", (m + 1) % 32);
    }
    text.into_bytes()
}
