//! `damaged`: texts of the other profiles with something wrong in them.

use super::expr::BIT_OPS;
use super::rng::Rng;

const NUMBERS: [&str; 22] = [
    "(shl 1 2)",
    "(bor 1 (n 1))",
    "(add 1 (bxor 2 3))",
    "1000",
    "00",
    "01",
    "-0",
    "-1",
    "--1",
    "-",
    "+1",
    "1-",
    "",
    "256",
    "255",
    "2147483647",
    "2147483648",
    "4294967296",
    "18446744073709551617",
    "99999999999999999999999999",
    "-2147483649",
    "x",
];
const BYTES: [u8; 12] = [0, 9, 11, 13, 31, 127, 128, 160, 255, b'~', b'!', b'A'];
const LINES: [&str; 22] = [
    "",
    " ",
    "()",
    "( )",
    "(module)",
    "(module 0 bound)",
    "(module 1 bound)",
    "(module 40 unbound)",
    "(kind 1 in)",
    "(kind 1 inst)",
    "(val 1 -0)",
    "(val 1 5 )",
    "(unknown 1)",
    "(on)",
    "(wire 1 5)",
    "(all (n 1))",
    "(drive (lv 1 5 (shl 1 2)) 0)",
    "(port out 1 (bits (band 1 1)) 5)",
    "(const 1 (if 1 2 (bor 1 2)))",
    "(repeat 1 0 2 (kind 1 in))",
    "(inst 1 -1 0 5)",
    "(drive (lv 1 5 1 2 3) 0)",
];

pub fn damage(mut r: Rng, text: Vec<u8>) -> Vec<u8> {
    let mut text = text;
    let times = 1 + r.weighted(&[78, 16, 6]);
    for _ in 0..times {
        text = once(&mut r, text);
    }
    text
}

fn once(r: &mut Rng, text: Vec<u8>) -> Vec<u8> {
    match r.weighted(&[10, 22, 12, 10, 16, 14, 6, 10]) {
        0 => one_byte(r, text),
        1 => a_number(r, text),
        2 => a_space(r, text),
        3 => a_bracket(r, text),
        4 => the_lines(r, text),
        5 => a_word(r, text),
        6 => the_end(r, text),
        _ => a_part(r, text),
    }
}

/// The positions of the bytes that `is` accepts.
fn places(text: &[u8], is: impl Fn(u8) -> bool) -> Vec<usize> {
    (0..text.len()).filter(|&k| is(text[k])).collect()
}

/// Puts `new` in place of the bytes from `from` to before `to`.
fn put(text: &[u8], from: usize, to: usize, new: &[u8]) -> Vec<u8> {
    [&text[..from], new, &text[to..]].concat()
}

/// A byte changed, dropped, doubled or put in.
fn one_byte(r: &mut Rng, mut text: Vec<u8>) -> Vec<u8> {
    if text.is_empty() {
        return vec![r.pick(&BYTES)];
    }
    let k = r.below(text.len() as u64) as usize;
    match r.below(5) {
        0 => text[k] = r.pick(&BYTES),
        1 => text[k] = 32 + r.below(95) as u8,
        2 => drop(text.remove(k)),
        3 => text.insert(k, text[k]),
        _ => text.insert(k, r.pick(&BYTES)),
    }
    text
}

/// A run of digits becomes another number, or none.
fn a_number(r: &mut Rng, text: Vec<u8>) -> Vec<u8> {
    let digit = |k: usize| text.get(k).is_some_and(u8::is_ascii_digit);
    let starts: Vec<usize> = (0..text.len())
        .filter(|&k| digit(k) && (k == 0 || !digit(k - 1)))
        .collect();
    if starts.is_empty() {
        return text;
    }
    let from = r.pick(&starts);
    let to = (from..text.len())
        .find(|&k| !digit(k))
        .unwrap_or(text.len());
    let old = &text[from..to];
    let new = match r.below(5) {
        0 => [b"0", old].concat(),
        1 => [b"-", old].concat(),
        2 => r.below(300).to_string().into_bytes(),
        _ => r.pick(&NUMBERS).as_bytes().to_vec(),
    };
    put(&text, from, to, &new)
}

fn a_space(r: &mut Rng, text: Vec<u8>) -> Vec<u8> {
    let spaces = places(&text, |b| b == b' ');
    let ends = places(&text, |b| b == b'(' || b == b')' || b == b'\n');
    if spaces.is_empty() || ends.is_empty() {
        return text;
    }
    let (k, e) = (r.pick(&spaces), r.pick(&ends));
    match r.below(6) {
        0 => put(&text, k, k + 1, b""),
        1 => put(&text, k, k, b" "),
        2 => put(&text, k, k + 1, b"\n"),
        3 => put(&text, k, k + 1, b"\t"),
        4 => put(&text, e, e, b" "),
        _ => put(&text, e + 1, e + 1, b" "),
    }
}

fn a_bracket(r: &mut Rng, text: Vec<u8>) -> Vec<u8> {
    let brackets = places(&text, |b| b == b'(' || b == b')');
    if brackets.is_empty() {
        return text;
    }
    let k = r.pick(&brackets);
    let other = if text[k] == b'(' { b")" } else { b"(" };
    match r.below(5) {
        0 => put(&text, k, k + 1, b""),
        1 => put(&text, k, k, &text[k..k + 1]),
        2 => put(&text, k, k + 1, other),
        3 => put(&text, k, k, &b"(neg ".repeat(33)),
        _ => put(&text, k, k, b"()"),
    }
}

fn the_lines(r: &mut Rng, text: Vec<u8>) -> Vec<u8> {
    let mut lines: Vec<Vec<u8>> = text
        .split_inclusive(|&b| b == b'\n')
        .map(<[u8]>::to_vec)
        .collect();
    let n = lines.len() as u64;
    let (a, b) = (r.below(n) as usize, r.below(n) as usize);
    match r.below(6) {
        _ if n == 0 => lines.push(new_line(r)),
        5 => second_kind(r, &mut lines),
        0 => lines.swap(a, b),
        1 => lines.insert(a, lines[b].clone()),
        2 => drop(lines.remove(a)),
        3 => lines.insert(a, new_line(r)),
        _ => {
            let line = lines.remove(a);
            lines.insert(b.min(lines.len()), line);
        }
    }
    lines.concat()
}

/// A kind line once more, with the same kind or another.
fn second_kind(r: &mut Rng, lines: &mut Vec<Vec<u8>>) {
    let kinds: Vec<usize> = (0..lines.len())
        .filter(|&k| lines[k].starts_with(b"(kind "))
        .collect();
    if kinds.is_empty() {
        return;
    }
    let k = r.pick(&kinds);
    let text = String::from_utf8_lossy(&lines[k]).into_owned();
    let name = text.split(' ').nth(1).unwrap_or("1");
    let kind = r.pick(&["in", "out", "wire", "reg", "mem", "inst"]);
    lines.insert(k + 1, format!("(kind {name} {kind})\n").into_bytes());
}

fn new_line(r: &mut Rng) -> Vec<u8> {
    format!("{}\n", r.pick(&LINES)).into_bytes()
}

const WORDS: [&str; 34] = [
    "module", "bound", "unbound", "kind", "val", "port", "wire", "reg", "mem", "const", "drive",
    "on", "inst", "repeat", "constif", "lv", "set", "default", "loop", "when", "then", "else",
    "conn", "bits", "opaque", "bit", "true", "n", "f", "ix", "if", "all", "add", "Add",
];

/// A word becomes another one: a plain operator always a shift or bit operator, any other word in one case of four.
fn a_word(r: &mut Rng, text: Vec<u8>) -> Vec<u8> {
    let letter = |k: usize| text.get(k).is_some_and(u8::is_ascii_alphabetic);
    let starts: Vec<usize> = (0..text.len())
        .filter(|&k| letter(k) && (k == 0 || !letter(k - 1)))
        .collect();
    if starts.is_empty() {
        return text;
    }
    let from = r.pick(&starts);
    let to = (from..text.len())
        .find(|&k| !letter(k))
        .unwrap_or(text.len());
    let operator =
        [&b"add"[..], b"sub", b"mul", b"eq", b"lt", b"and", b"or"].contains(&&text[from..to]);
    let new = if operator || r.chance(25) {
        r.pick(&BIT_OPS)
    } else {
        r.pick(&WORDS)
    };
    put(&text, from, to, new.as_bytes())
}

fn the_end(r: &mut Rng, mut text: Vec<u8>) -> Vec<u8> {
    match r.below(4) {
        0 => drop(text.pop()),
        1 => text.push(b'\n'),
        2 => text.extend_from_slice(b"(reg 1 5)"),
        _ => text.truncate(r.below(text.len() as u64 + 1) as usize),
    }
    text
}

/// A part too many, too few, or of another sort.
fn a_part(r: &mut Rng, text: Vec<u8>) -> Vec<u8> {
    let ends = places(&text, |b| b == b')' || b == b' ');
    if ends.is_empty() {
        return text;
    }
    let k = r.pick(&ends);
    let parts = [
        " 5",
        " (n 1)",
        " -",
        " true",
        " (all)",
        " (bits 8)",
        " (shl 1 1)",
        " (lv 1 5)",
        " bit",
    ];
    let new = r.pick(&parts).as_bytes();
    if r.chance(60) {
        return put(&text, k, k, new);
    }
    let before = (0..k).rev().find(|&j| text[j] == b' ' || text[j] == b'(');
    before.map_or(text.clone(), |j| {
        put(&text, j, k, if r.chance(50) { b"" } else { new })
    })
}
