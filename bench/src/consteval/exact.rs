//! The value of an expression by the words of the scope, "The value", in 128 bits: operands
//! left to right, a missing one ends it, `if` takes one branch, and a part outside INT that is
//! evaluated makes the whole outside. A shift is rejected after both operands have their values.

use super::names::Names;
use super::tree::{Op, Tree};
use super::{inside, original, Answer, INT_MAX};

/// `shl` of 0 has no value from this amount on.
const ZERO_TOO_FAR: i128 = 999_999;

/// From this amount on a shift of a value of INT gives nothing new: `shl` of one that is not 0 is
/// outside, `shr` leaves 0 or -1.
const FAR: i128 = 32;

/// How a value can fail to be there: `Answer` without its value.
#[derive(Clone, Copy, Debug, PartialEq, Eq)]
enum Gone {
    Missing,
    Outside,
}

/// What can occur in an evaluation; at the first four the original goes on differently.
#[derive(Clone, Copy, Debug, PartialEq, Eq)]
pub enum Met {
    /// `shr` of a positive number by 0.
    ShrByZero,
    /// `shl` of a number other than 0 past the width that the original allows.
    ShlTooWide,
    /// A shift amount outside INT.
    AmountOutside,
    /// The argument of `clog2` outside INT.
    Clog2Outside,
    /// `shl` or `shr` by a negative amount.
    AmountNegative,
    /// `shl` of 0 too far.
    ZeroTooFar,
}

impl Met {
    pub const ALL: [Met; 6] = [
        Met::ShrByZero,
        Met::ShlTooWide,
        Met::AmountOutside,
        Met::Clog2Outside,
        Met::AmountNegative,
        Met::ZeroTooFar,
    ];

    /// In words, for the counts.
    pub fn words(self) -> &'static str {
        match self {
            Met::ShrByZero => "shr of a positive number by 0",
            Met::ShlTooWide => "shl, not of 0, past the original's width limit",
            Met::AmountOutside => "a shift amount outside INT",
            Met::Clog2Outside => "clog2 of a part outside INT",
            Met::AmountNegative => "a negative shift amount",
            Met::ZeroTooFar => "shl of 0 by 999,999 or more",
        }
    }
}

/// An evaluation, how often each operator had all its operands, and what occurred.
#[derive(Default)]
pub struct Exact {
    /// By the places of `Op::ALL`.
    pub done: [u64; Op::ALL.len()],
    /// By `Met` as a number.
    met: [u64; Met::ALL.len()],
    /// Whether `shr` by 0 takes a top bit for a sign, as in the original.
    as_original: bool,
}

impl Exact {
    /// Exact but for `shr` by 0, which is the original's.
    pub fn as_original() -> Exact {
        Exact {
            as_original: true,
            ..Exact::default()
        }
    }

    /// How often this occurred.
    pub fn met(&self, what: Met) -> u64 {
        self.met[what as usize]
    }

    pub fn eval(&mut self, tree: &Tree, names: &Names) -> Answer {
        match self.value(tree, names) {
            Ok(v) => Answer::Known(v as i64),
            Err(Gone::Missing) => Answer::Missing,
            Err(Gone::Outside) => Answer::Outside,
        }
    }

    fn value(&mut self, tree: &Tree, names: &Names) -> Result<i128, Gone> {
        match tree {
            Tree::Literal(n) => within(i128::try_from(*n).unwrap_or(INT_MAX + 1)),
            Tree::Bool(b) => Ok(i128::from(*b)),
            Tree::Name(n) => names.get(*n).map(i128::from).ok_or(Gone::Missing),
            Tree::Apply(op, parts) => self.apply(*op, parts, names),
            Tree::Field(..) => Err(Gone::Missing),
        }
    }

    fn apply(&mut self, op: Op, parts: &[Tree], names: &Names) -> Result<i128, Gone> {
        match (op, parts) {
            (Op::If, [cond, then, els]) => {
                let taken = if self.value(cond, names)? != 0 {
                    then
                } else {
                    els
                };
                self.count(op);
                self.value(taken, names)
            }
            (Op::Neg | Op::Not | Op::Clog2, [part]) => {
                let v = self.value(part, names);
                self.note(
                    op == Op::Clog2 && v == Err(Gone::Outside),
                    Met::Clog2Outside,
                );
                let v = v?;
                self.count(op);
                one(op, v)
            }
            (Op::Ix | Op::All | Op::If, _) => Err(Gone::Missing),
            (_, [left, right]) => {
                let l = self.value(left, names)?;
                let r = self.value(right, names);
                self.note(op.is_shift() && r == Err(Gone::Outside), Met::AmountOutside);
                let r = r?;
                self.count(op);
                self.note_shift(op, l, r);
                match op {
                    Op::Shr if self.as_original && r == 0 => Ok(original::shr_by_zero(l)),
                    _ => two(op, l, r),
                }
            }
            _ => Err(Gone::Missing),
        }
    }

    fn note(&mut self, is_so: bool, what: Met) {
        self.met[what as usize] += u64::from(is_so);
    }

    fn note_shift(&mut self, op: Op, l: i128, r: i128) {
        match op {
            Op::Shl | Op::Shr if r < 0 => self.note(true, Met::AmountNegative),
            Op::Shl if l == 0 => self.note(r >= ZERO_TOO_FAR, Met::ZeroTooFar),
            Op::Shl => self.note(original::too_wide(l, r), Met::ShlTooWide),
            Op::Shr => self.note(l > 0 && r == 0, Met::ShrByZero),
            _ => {}
        }
    }

    fn count(&mut self, op: Op) {
        if let Some(k) = Op::ALL.iter().position(|other| *other == op) {
            self.done[k] += 1;
        }
    }
}

fn one(op: Op, v: i128) -> Result<i128, Gone> {
    match op {
        Op::Neg => within(-v),
        Op::Not => Ok(i128::from(v == 0)),
        Op::Clog2 if v >= 1 => Ok(address_bits(v)),
        _ => Err(Gone::Missing),
    }
}

fn two(op: Op, l: i128, r: i128) -> Result<i128, Gone> {
    let truth = match op {
        Op::Add => return within(l + r),
        Op::Sub => return within(l - r),
        Op::Mul => return within(l * r),
        Op::Shl => return shl(l, r),
        Op::Shr => return shr(l, r),
        Op::Band => return within(l & r),
        Op::Bor => return within(l | r),
        Op::Bxor => return within(l ^ r),
        Op::Eq => l == r,
        Op::Ne => l != r,
        Op::Lt => l < r,
        Op::Le => l <= r,
        Op::Gt => l > r,
        Op::Ge => l >= r,
        Op::And => l != 0 && r != 0,
        Op::Or => l != 0 || r != 0,
        _ => return Err(Gone::Missing),
    };
    Ok(i128::from(truth))
}

/// z * 2^n.
fn shl(z: i128, n: i128) -> Result<i128, Gone> {
    if n < 0 || (z == 0 && n >= ZERO_TOO_FAR) {
        return Err(Gone::Missing);
    }
    within(z * (1 << n.min(FAR)))
}

/// z / 2^n, rounded towards minus infinity.
fn shr(z: i128, n: i128) -> Result<i128, Gone> {
    if n < 0 {
        return Err(Gone::Missing);
    }
    within(z.div_euclid(1 << n.min(FAR)))
}

/// The least number of bits, at least 1, that address n items.
fn address_bits(n: i128) -> i128 {
    let mut bits = 1;
    while (1 << bits) < n {
        bits += 1;
    }
    bits
}

fn within(v: i128) -> Result<i128, Gone> {
    if inside(v) {
        Ok(v)
    } else {
        Err(Gone::Outside)
    }
}

/// The value of an operator on values of INT, if it has one inside INT.
pub fn result(op: Op, values: &[i128]) -> Option<i128> {
    match values {
        [v] => one(op, *v).ok(),
        [l, r] => two(op, *l, *r).ok(),
        [cond, then, els] => Some(if *cond != 0 { *then } else { *els }),
        _ => None,
    }
}
