//! `consteval::eval` of the original, on its own syntax tree.

use super::names::Names;
use super::{inside, Answer};
use mimz::ast::Expr;
use mimz::checker::consteval::{self, ConstVal, Env};
use mimz::width_rules::MAX_WIDTH;

/// The name table of the original.
pub fn env(names: &Names) -> Env {
    let named = |&(name, value): &(u32, i32)| (key(name), ConstVal::from_i128(value.into()));
    names.pairs.iter().map(named).collect()
}

/// A name as the original has it.
pub fn key(name: u32) -> String {
    format!("n{name}")
}

/// The value, outside INT where the last result is; parts on the way are not looked at.
pub fn eval(e: &Expr, env: &Env) -> Answer {
    match consteval::eval(e, env).map(|v| v.to_i128_saturating()) {
        Ok(v) if inside(v) => Answer::Known(v as i64),
        Ok(_) => Answer::Outside,
        Err(_) => Answer::Missing,
    }
}

/// The bits in which the original keeps a value: those of its size, or the fewest in two's
/// complement where it is negative; at least 1.
pub fn width(v: i128) -> u32 {
    match v {
        0.. => (i128::BITS - v.leading_zeros()).max(1),
        _ => i128::BITS - v.leading_ones() + 1,
    }
}

/// Whether `shl` by n >= 0 needs more bits than the original allows, so that it gives no value.
pub fn too_wide(v: i128, n: i128) -> bool {
    i128::from(width(v)) + n + 1 > MAX_WIDTH
}

/// `shr` by 0 in the original: the top bit of a positive number is taken for a sign.
pub fn shr_by_zero(v: i128) -> i128 {
    match v {
        1.. => v - (1 << width(v)),
        _ => v,
    }
}
