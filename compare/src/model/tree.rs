//! The design as trees (01, "The line").

use std::collections::BTreeMap;

pub type Name = u32;
pub type Start = u32;

#[derive(Clone, Copy, PartialEq, Eq)]
pub enum Kind {
    In,
    Out,
    Wire,
    Reg,
    Mem,
    Inst,
}

pub struct Module {
    pub bound: bool,
    pub kinds: BTreeMap<Name, Kind>,
    /// The `val` lines; a later one has replaced an earlier one.
    pub vals: BTreeMap<Name, i128>,
    pub items: Vec<Item>,
    /// The text line of each item, from 1.
    pub lines: Vec<u32>,
}

pub enum Item {
    PortIn,
    PortOut {
        name: Name,
        ty: Type,
        start: Start,
    },
    Wire {
        name: Name,
        init: Expr,
        start: Start,
    },
    Reg {
        name: Name,
        start: Start,
    },
    Mem {
        name: Name,
        start: Start,
    },
    Const {
        name: Name,
        value: Expr,
    },
    Drive {
        lhs: LValue,
        rhs: Expr,
    },
    On {
        start: Start,
        body: Vec<Seq>,
    },
    Inst(Inst),
    Repeat {
        var: Name,
        lo: Expr,
        hi: Expr,
        items: Vec<Item>,
    },
    ConstIf {
        cond: Expr,
        then: Vec<Item>,
        els: Vec<Item>,
    },
}

pub enum Type {
    Bit,
    Bits(Expr),
    Signed(Expr),
    Opaque,
}

pub struct Inst {
    pub name: Name,
    pub index: Option<Expr>,
    pub module: usize,
    pub start: Start,
    pub conns: Vec<(Name, Expr)>,
}

pub struct LValue {
    pub name: Name,
    pub start: Start,
    pub index: LvIndex,
}

pub enum LvIndex {
    None,
    Bit(Expr),
    HighLow(Expr, Expr),
}

pub enum Seq {
    Set { name: Name, start: Start },
    Default { name: Name },
    Loop(Vec<Seq>),
    When(Vec<Seq>, Vec<Seq>),
}

pub enum Expr {
    Int(i128),
    Bool(bool),
    Ident(Name),
    Field(Box<Expr>, Name),
    Index(Box<Expr>, Box<Expr>),
    If(Box<Expr>, Box<Expr>, Box<Expr>),
    Unary(UnOp, Box<Expr>),
    Binary(BinOp, Box<Expr>, Box<Expr>),
    All(Vec<Expr>),
}

#[derive(Clone, Copy, PartialEq, Eq)]
pub enum UnOp {
    Neg,
    Not,
    Clog2,
}

#[derive(Clone, Copy, PartialEq, Eq)]
pub enum BinOp {
    Add,
    Sub,
    Mul,
    Eq,
    Ne,
    Lt,
    Le,
    Gt,
    Ge,
    And,
    Or,
    Shl,
    Shr,
    BitAnd,
    BitOr,
    BitXor,
}
