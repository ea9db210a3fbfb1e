//! `values`: constants. Each value shows in a report: the index of an instance that reads itself,
//! the bit of a gap, the rounds of a repeat.

use super::expr::{self, Pool};
use super::rng::Rng;

const SMALL: [u64; 12] = [0, 1, 2, 3, 4, 5, 7, 8, 9, 16, 31, 33];
const WIDE: [u64; 20] = [
    0,
    1,
    2,
    3,
    255,
    256,
    1023,
    1024,
    1025,
    4095,
    4096,
    4097,
    46_340,
    46_341,
    65_535,
    65_536,
    1_073_741_823,
    1_073_741_824,
    2_147_483_646,
    2_147_483_647,
];
const ENDS: [i64; 8] = [
    -2_147_483_648,
    -2_147_483_647,
    -1,
    1,
    46_341,
    -46_341,
    2_147_483_646,
    2_147_483_647,
];
/// Names with a value, and one without.
const NAMES: [u32; 6] = [30, 31, 32, 33, 34, 35];
const MISSING: u32 = 39;

/// A module whose output 3 follows its input 2.
const CHILD: &str = "(kind 2 in)\n(kind 3 out)\n(port out 3 bit 1)\n(drive (lv 3 2) (n 2))\n";

pub fn values(mut r: Rng) -> String {
    let pool = pool(&mut r);
    let child_first = r.chance(50);
    let child = usize::from(!child_first);
    let host = host(&mut r, &pool, child, usize::from(child_first));
    let child_text = format!("(module {child} bound)\n{CHILD}");
    if child_first {
        child_text + &host
    } else {
        host + &child_text
    }
}

fn pool(r: &mut Rng) -> Pool {
    let literals = match r.weighted(&[60, 20, 20]) {
        0 => SMALL.to_vec(),
        1 => WIDE.to_vec(),
        _ => SMALL.iter().chain(&WIDE).copied().collect(),
    };
    Pool {
        consts: NAMES.to_vec(),
        insts: vec![9],
        fields: vec![3],
        any: vec![MISSING, 30, 9],
        literals,
        ..Pool::default()
    }
}

fn host(r: &mut Rng, pool: &Pool, child: usize, me: usize) -> String {
    let mut out = format!("(module {me} bound)\n(kind 9 inst)\n(kind 4 out)\n(kind 5 out)\n");
    for name in NAMES {
        if r.chance(45) {
            out.push_str(&format!("(val {name} {})\n", some_value(r)));
        }
    }
    for name in NAMES {
        if r.chance(20) {
            let e = value(r, pool);
            out.push_str(&format!("(const {name} {e})\n"));
        }
    }
    for k in 0..1 + r.below(5) {
        let e = value(r, pool);
        out.push_str(&observer(r, &e, child, 10 * (k + 1)));
    }
    out
}

fn some_value(r: &mut Rng) -> i64 {
    match r.weighted(&[60, 25, 15]) {
        0 => r.range(-9, 40),
        1 => r.range(-2_147_483_648, 2_147_483_647),
        _ => r.pick(&ENDS),
    }
}

/// A constant, now and then a deep one.
fn value(r: &mut Rng, pool: &Pool) -> String {
    match r.weighted(&[86, 10, 4]) {
        0 => {
            let depth = 1 + r.below(4) as u32;
            expr::constant(r, pool, depth)
        }
        1 => edge(r),
        _ => deep(r, pool),
    }
}

/// At the ends of INT and of `clog2`.
fn edge(r: &mut Rng) -> String {
    let lit = r.pick(&WIDE);
    let low = "(sub (neg 2147483647) 1)";
    match r.below(9) {
        0 => format!("(clog2 {lit})"),
        1 => format!("(clog2 (add {lit} 1))"),
        2 => format!("(clog2 (neg {lit}))"),
        3 => format!("(neg {low})"),
        4 => low.to_string(),
        5 => format!("(sub {low} 1)"),
        6 => format!("(add 2147483647 {})", r.below(2)),
        7 => format!("(mul {lit} {})", r.pick(&WIDE)),
        _ => format!("(mul {low} {})", r.pick(&["0", "1", "2", "(neg 1)"])),
    }
}

fn deep(r: &mut Rng, pool: &Pool) -> String {
    let mut e = pool.literal(r).to_string();
    for _ in 0..10 + r.below(15) {
        e = match r.below(6) {
            0 => format!("(neg {e})"),
            1 => format!("(not {e})"),
            2 => format!("(add 1 {e})"),
            3 => format!("(sub {e} 1)"),
            4 => format!("(if {e} {} 0)", pool.literal(r)),
            _ => format!("(if 0 0 {e})"),
        };
    }
    e
}

/// An item whose report shows the value of `e`.
fn observer(r: &mut Rng, e: &str, child: usize, start: u64) -> String {
    match r.weighted(&[60, 10, 8, 8, 8, 6]) {
        0 => format!("(inst 9 {e} {child} {start} (conn 2 (f (ix (n 9) {e}) 3)))\n"),
        1 => format!(
            "(port out 4 (bits {e}) {start})\n(drive (lv 4 {} 3 0) 0)\n",
            start + 1
        ),
        2 => format!(
            "(port out 5 (bits 4096) {start})\n(drive (lv 5 {} {e} 0) 0)\n",
            start + 1
        ),
        3 => format!(
            "(repeat 36 0 {e} (inst 9 (n 36) {child} {start} (conn 2 (f (ix (n 9) (n 36)) 3))))\n"
        ),
        4 => format!("(constif {e} (then (port out 40 bit {start})) (else (reg 41 {start})))\n"),
        _ => format!(
            "(port out 4 (bits 8) {start})\n(drive (lv 4 {} {e}) 0)\n",
            start + 1
        ),
    }
}
