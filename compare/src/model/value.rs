//! The value of a constant (01, "The value").

use super::full::{Full, Outside};
use super::tree::{BinOp, Expr, Item, Module, Name, UnOp};
use std::cell::Cell;
use std::collections::BTreeMap;

/// The name table of one module, while it is collected.
#[derive(Clone)]
pub struct Table {
    values: BTreeMap<Name, i128>,
    shifted_by_zero: Cell<bool>,
}

impl Table {
    /// A table with these values.
    pub fn new(values: BTreeMap<Name, i128>) -> Table {
        Table {
            values,
            shifted_by_zero: Cell::new(false),
        }
    }

    /// The value of a name, if it has one.
    pub fn get(&self, name: Name) -> Option<i128> {
        self.values.get(&name).copied()
    }

    /// Gives a name this value, or takes its value away.
    pub fn put(&mut self, name: Name, value: Option<i128>) {
        match value {
            Some(v) => self.values.insert(name, v),
            None => self.values.remove(&name),
        };
    }

    /// Whether some `eval` under this table shifted a positive number right by 0. It keeps its
    /// value here and not in the Rust.
    pub fn shifted_by_zero(&self) -> bool {
        self.shifted_by_zero.get()
    }
}

/// The three answers: a value, none, or outside INT.
pub type Value = Result<Option<i128>, Outside>;

const INT_MIN: i128 = -2_147_483_648;
const INT_MAX: i128 = 2_147_483_647;
/// By this amount or more `shl` of 0 leaves no value.
const ZERO_TOO_WIDE: i128 = 999_999;

/// `val`, then top-level `const` lines in order; one without a value is skipped.
pub fn module_table(m: &Module) -> Result<Table, Full> {
    let mut table = Table::new(m.vals.clone());
    for (item, &line) in m.items.iter().zip(&m.lines) {
        if let Item::Const { name, value } = item {
            if let Some(v) = eval(value, &table).map_err(|outside| outside.at(line))? {
                table.put(*name, Some(v));
            }
        }
    }
    Ok(table)
}

/// Operands left to right, both for `and` and `or`; a missing one ends it.
pub fn eval(e: &Expr, table: &Table) -> Value {
    match e {
        Expr::Int(v) => inside(*v),
        Expr::Bool(b) => inside(*b as i128),
        Expr::Ident(name) => Ok(table.get(*name)),
        Expr::Unary(op, x) => match eval(x, table)? {
            Some(v) => unary(*op, v),
            None => Ok(None),
        },
        Expr::Binary(op, x, y) => {
            let Some(l) = eval(x, table)? else {
                return Ok(None);
            };
            let Some(r) = eval(y, table)? else {
                return Ok(None);
            };
            if *op == BinOp::Shr && l > 0 && r == 0 {
                table.shifted_by_zero.set(true);
            }
            binary(*op, l, r)
        }
        Expr::If(cond, then, els) => match eval(cond, table)? {
            Some(0) => eval(els, table),
            Some(_) => eval(then, table),
            None => Ok(None),
        },
        Expr::Field(..) | Expr::Index(..) | Expr::All(_) => Ok(None),
    }
}

fn unary(op: UnOp, v: i128) -> Value {
    match op {
        UnOp::Neg => inside(-v),
        UnOp::Not => inside((v == 0) as i128),
        UnOp::Clog2 if v < 1 => Ok(None),
        UnOp::Clog2 => inside(clog2_bits(v)),
    }
}

fn binary(op: BinOp, l: i128, r: i128) -> Value {
    let v = match op {
        BinOp::Add => l + r,
        BinOp::Sub => l - r,
        BinOp::Mul => l * r,
        BinOp::Eq => (l == r) as i128,
        BinOp::Ne => (l != r) as i128,
        BinOp::Lt => (l < r) as i128,
        BinOp::Le => (l <= r) as i128,
        BinOp::Gt => (l > r) as i128,
        BinOp::Ge => (l >= r) as i128,
        BinOp::And => (l != 0 && r != 0) as i128,
        BinOp::Or => (l != 0 || r != 0) as i128,
        BinOp::Shl => return shl(l, r),
        BinOp::Shr => return shr(l, r),
        // both are in INT, far within the type: its bits beyond theirs repeat the sign
        BinOp::BitAnd => l & r,
        BinOp::BitOr => l | r,
        BinOp::BitXor => l ^ r,
    };
    inside(v)
}

/// z times 2 to the n. A negative amount is rejected; 0 has no value past the Rust's width limit.
fn shl(z: i128, n: i128) -> Value {
    match (z, n) {
        (_, ..=-1) | (0, ZERO_TOO_WIDE..) => Ok(None),
        (0, _) => Ok(Some(0)),
        (_, 32..) => Err(Outside(None)), // even 1 and -1 have left INT
        _ => inside(z * (1 << n)),
    }
}

/// z divided by 2 to the n, rounded towards minus infinity. A negative amount is rejected.
fn shr(z: i128, n: i128) -> Value {
    match n {
        ..=-1 => Ok(None),
        _ => inside(z.div_euclid(1 << n.min(32))), // by 32 all of INT is 0 or -1
    }
}

/// 1 gives 1; else the bits of n - 1.
fn clog2_bits(n: i128) -> i128 {
    if n == 1 {
        1
    } else {
        32 - i128::from(((n - 1) as u32).leading_zeros())
    }
}

fn inside(v: i128) -> Value {
    if (INT_MIN..=INT_MAX).contains(&v) {
        Ok(Some(v))
    } else {
        Err(Outside(Some(v)))
    }
}
