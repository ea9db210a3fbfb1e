//! An expression, and its bytes in the line format.

use super::INT_MIN;

/// The heads of forms, but `n` and `f`, whose parts are not all expressions.
#[derive(Clone, Copy, Debug, PartialEq, Eq)]
pub enum Op {
    Add,
    Sub,
    Mul,
    Eq,
    Ne,
    Lt,
    Le,
    Gt,
    Ge,
    And,
    Or,
    Neg,
    Not,
    Clog2,
    If,
    Shl,
    Shr,
    Band,
    Bor,
    Bxor,
    Ix,
    All,
}

#[derive(Clone, Debug)]
pub enum Tree {
    Literal(u128),
    Bool(bool),
    Name(u32),
    Field(Box<Tree>, u32),
    Apply(Op, Vec<Tree>),
}

impl Op {
    /// Those that can have a value.
    pub const ALL: [Op; 20] = [
        Op::Add,
        Op::Sub,
        Op::Mul,
        Op::Eq,
        Op::Ne,
        Op::Lt,
        Op::Le,
        Op::Gt,
        Op::Ge,
        Op::And,
        Op::Or,
        Op::Neg,
        Op::Not,
        Op::Clog2,
        Op::If,
        Op::Shl,
        Op::Shr,
        Op::Band,
        Op::Bor,
        Op::Bxor,
    ];

    /// Shifts and bit operators: the last of `ALL`.
    pub const BITS: [Op; 5] = [Op::Shl, Op::Shr, Op::Band, Op::Bor, Op::Bxor];

    pub fn word(self) -> &'static str {
        match self {
            Op::Add => "add",
            Op::Sub => "sub",
            Op::Mul => "mul",
            Op::Eq => "eq",
            Op::Ne => "ne",
            Op::Lt => "lt",
            Op::Le => "le",
            Op::Gt => "gt",
            Op::Ge => "ge",
            Op::And => "and",
            Op::Or => "or",
            Op::Neg => "neg",
            Op::Not => "not",
            Op::Clog2 => "clog2",
            Op::If => "if",
            Op::Shl => "shl",
            Op::Shr => "shr",
            Op::Band => "band",
            Op::Bor => "bor",
            Op::Bxor => "bxor",
            Op::Ix => "ix",
            Op::All => "all",
        }
    }

    /// The number of parts; `all` takes any.
    pub fn arity(self) -> Option<usize> {
        match self {
            Op::All => None,
            Op::If => Some(3),
            Op::Neg | Op::Not | Op::Clog2 => Some(1),
            _ => Some(2),
        }
    }

    /// Whether the second operand is an amount.
    pub fn is_shift(self) -> bool {
        matches!(self, Op::Shl | Op::Shr)
    }
}

impl Tree {
    /// A value of INT in the fewest forms: a literal has no sign, and INT's lower end is past the
    /// literals.
    pub fn spelled(v: i128) -> Tree {
        let literal = |n: i128| Tree::Literal(n.unsigned_abs());
        match v {
            0.. => literal(v),
            INT_MIN => Tree::Apply(Op::Sub, vec![Tree::spelled(v + 1), literal(1)]),
            _ => Tree::Apply(Op::Neg, vec![literal(v)]),
        }
    }

    /// The bytes of the expression.
    pub fn bytes(&self) -> Vec<u8> {
        self.shown().into_bytes()
    }

    /// The same as text.
    pub fn shown(&self) -> String {
        match self {
            Tree::Literal(n) => n.to_string(),
            Tree::Bool(b) => b.to_string(),
            Tree::Name(n) => format!("(n {n})"),
            Tree::Field(base, n) => format!("(f {} {n})", base.shown()),
            Tree::Apply(op, parts) => {
                let parts: String = parts.iter().map(|p| format!(" {}", p.shown())).collect();
                format!("({}{parts})", op.word())
            }
        }
    }

    /// How many brackets deep it is.
    pub fn nesting(&self) -> u32 {
        match self {
            Tree::Literal(_) | Tree::Bool(_) => 0,
            Tree::Name(_) => 1,
            Tree::Field(base, _) => 1 + base.nesting(),
            Tree::Apply(_, parts) => 1 + parts.iter().map(Tree::nesting).max().unwrap_or(0),
        }
    }

    /// Whether it or a part of it, evaluated or not, meets the test.
    pub fn any(&self, test: &mut dyn FnMut(&Tree) -> bool) -> bool {
        test(self)
            || match self {
                Tree::Field(base, _) => base.any(test),
                Tree::Apply(_, parts) => parts.iter().any(|part| part.any(test)),
                _ => false,
            }
    }
}
