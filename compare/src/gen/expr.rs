//! Random expressions in their written form.

use super::rng::Rng;

pub const TWO_PART: [&str; 11] = [
    "add", "sub", "mul", "eq", "ne", "lt", "le", "gt", "ge", "and", "or",
];
/// Shifts and bit operators. Constants made here have none; `bits` fills constant places with them.
pub const BIT_OPS: [&str; 5] = ["shl", "shr", "band", "bor", "bxor"];
pub const ONE_PART: [&str; 3] = ["neg", "not", "clog2"];

/// The names that an expression may use.
#[derive(Clone, Default)]
pub struct Pool {
    /// In, out and wire names.
    pub signals: Vec<u32>,
    /// Names that may have a value: val, const, repeat variables.
    pub consts: Vec<u32>,
    pub insts: Vec<u32>,
    /// Output names of other modules.
    pub fields: Vec<u32>,
    /// Any name at all, also missing ones and names of another kind.
    pub any: Vec<u32>,
    /// Literals of constant places are drawn from here.
    pub literals: Vec<u64>,
}

impl Pool {
    fn name(&self, r: &mut Rng, from: &[u32]) -> u32 {
        if from.is_empty() || r.chance(6) {
            return if self.any.is_empty() {
                255
            } else {
                r.pick(&self.any)
            };
        }
        r.pick(from)
    }

    pub fn signal(&self, r: &mut Rng) -> u32 {
        self.name(r, &self.signals)
    }

    pub fn inst(&self, r: &mut Rng) -> u32 {
        self.name(r, &self.insts)
    }

    pub fn field(&self, r: &mut Rng) -> u32 {
        self.name(r, &self.fields)
    }

    pub fn constant(&self, r: &mut Rng) -> u32 {
        self.name(r, &self.consts)
    }

    pub fn literal(&self, r: &mut Rng) -> u64 {
        if self.literals.is_empty() {
            return r.below(10);
        }
        r.pick(&self.literals)
    }
}

/// An expression for a constant place, at most `depth` brackets deep.
pub fn constant(r: &mut Rng, p: &Pool, depth: u32) -> String {
    if depth == 0 || r.chance(40) {
        return constant_leaf(r, p, depth);
    }
    match r.weighted(&[50, 18, 14, 2, 2, 2]) {
        0 => two(r, &TWO_PART, |r| constant(r, p, depth - 1)),
        1 => format!("({} {})", r.pick(&ONE_PART), constant(r, p, depth - 1)),
        2 => three(r, "if", |r| constant(r, p, depth - 1)),
        3 => many(r, 3, |r| constant(r, p, depth - 1)),
        4 => format!("(f {} {})", constant(r, p, depth - 1), p.field(r)),
        _ => format!(
            "(ix {} {})",
            constant(r, p, depth - 1),
            constant(r, p, depth - 1)
        ),
    }
}

fn constant_leaf(r: &mut Rng, p: &Pool, depth: u32) -> String {
    match r.weighted(&[60, 5, 5, 30]) {
        1 => "true".to_string(),
        2 => "false".to_string(),
        3 if depth > 0 && !p.consts.is_empty() => format!("(n {})", p.constant(r)),
        _ => p.literal(r).to_string(),
    }
}

/// An expression that is read, at most `depth` brackets deep (and a little deeper at its leaves).
pub fn read(r: &mut Rng, p: &Pool, depth: u32) -> String {
    if depth == 0 || r.chance(45) {
        return read_leaf(r, p);
    }
    let d = depth - 1;
    match r.weighted(&[24, 10, 10, 10, 14, 10, 6, 4]) {
        0 => two(r, &TWO_PART, |r| read(r, p, d)),
        1 => two(r, &BIT_OPS, |r| read(r, p, d)),
        2 => format!("({} {})", r.pick(&ONE_PART), read(r, p, d)),
        3 => three(r, "if", |r| read(r, p, d)),
        4 => many(r, 4, |r| read(r, p, d)),
        5 => format!("(ix {} {})", read(r, p, d), read(r, p, d)),
        6 => format!("(f {} {})", field_base(r, p, d), p.field(r)),
        _ => format!(
            "(f (ix {} {}) {})",
            twice(r, p),
            constant(r, p, d.min(2)),
            p.field(r)
        ),
    }
}

/// A base for `f` other than `(ix (n NAME) E)`, whose E is evaluated.
fn field_base(r: &mut Rng, p: &Pool, depth: u32) -> String {
    let base = read(r, p, depth);
    if base.starts_with("(ix (n ") {
        return format!("(all {base})");
    }
    base
}

/// A base for `(f (ix BASE E) P)` that is no bare name, so that E is not evaluated.
fn twice(r: &mut Rng, p: &Pool) -> String {
    format!("(ix (n {}) {})", p.inst(r), p.literal(r))
}

fn read_leaf(r: &mut Rng, p: &Pool) -> String {
    match r.weighted(&[50, 10, 3, 3, 6, 12, 16]) {
        0 => format!("(n {})", p.signal(r)),
        2 => "true".to_string(),
        3 => "false".to_string(),
        4 => format!("(n {})", p.constant(r)),
        5 => format!("(f (n {}) {})", p.inst(r), p.field(r)),
        6 => indexed_output(r, p),
        _ => r.below(100).to_string(),
    }
}

/// `(f (ix (n I) E) P)`, E a constant place.
pub fn indexed_output(r: &mut Rng, p: &Pool) -> String {
    let index = constant(r, p, 1);
    format!("(f (ix (n {}) {index}) {})", p.inst(r), p.field(r))
}

fn two(r: &mut Rng, heads: &[&str], mut part: impl FnMut(&mut Rng) -> String) -> String {
    format!("({} {} {})", r.pick(heads), part(r), part(r))
}

fn three(r: &mut Rng, head: &str, mut part: impl FnMut(&mut Rng) -> String) -> String {
    format!("({head} {} {} {})", part(r), part(r), part(r))
}

fn many(r: &mut Rng, most: u64, mut part: impl FnMut(&mut Rng) -> String) -> String {
    let mut out = "(all".to_string();
    for _ in 0..r.below(most + 1) {
        out.push(' ');
        out.push_str(&part(r));
    }
    out + ")"
}
