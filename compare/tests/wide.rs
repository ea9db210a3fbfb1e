//! Holds the stand-in `wide`, as `consteval::eval` uses it, against whole numbers that share no
//! code with it: sign and magnitude, base 10^9, schoolbook.
//!
//! Three answers of consteval.rs are not those of exact arithmetic. They are the source's own and
//! are expected here: `shr` of a positive number by 0 takes its top bit for a sign; `clog2` and
//! shift amounts look at the lowest 128 bits only.
//!
//! Then holds the model's constants against consteval.rs: the same, but for the differences that
//! are listed, and those exactly where they are listed.

use std::cmp::Ordering;
use std::collections::BTreeMap;

use compare::model::{self, Constant};

use mimz::ast::{BinOp, Builtin, Expr, ExprKind, Ident, UnOp};
use mimz::bits::Bits;
use mimz::checker::consteval::{self, ConstVal, Env};
use mimz::span::Span;

const EXPRESSIONS: usize = 40_000;

mod big {
    use std::cmp::Ordering;

    const BASE: u64 = 1_000_000_000;

    /// A whole number. `digits` are base 10^9, lowest first, without zeros at the top; zero has
    /// none and is not negative.
    #[derive(Clone, Debug, PartialEq, Eq)]
    pub struct Big {
        negative: bool,
        digits: Vec<u32>,
    }

    impl Big {
        pub fn from_u64(value: u64) -> Big {
            let parts = [value % BASE, value / BASE % BASE, value / BASE / BASE];
            Big::new(false, parts.map(|part| part as u32).to_vec())
        }

        fn new(negative: bool, mut digits: Vec<u32>) -> Big {
            while digits.last() == Some(&0) {
                digits.pop();
            }
            Big {
                negative: negative && !digits.is_empty(),
                digits,
            }
        }

        pub fn is_zero(&self) -> bool {
            self.digits.is_empty()
        }

        pub fn is_negative(&self) -> bool {
            self.negative
        }

        pub fn neg(&self) -> Big {
            Big::new(!self.negative, self.digits.clone())
        }

        pub fn add(&self, other: &Big) -> Big {
            if self.negative == other.negative {
                return Big::new(self.negative, sum(&self.digits, &other.digits));
            }
            match compare(&self.digits, &other.digits) {
                Ordering::Less => Big::new(other.negative, difference(&other.digits, &self.digits)),
                _ => Big::new(self.negative, difference(&self.digits, &other.digits)),
            }
        }

        pub fn sub(&self, other: &Big) -> Big {
            self.add(&other.neg())
        }

        pub fn mul(&self, other: &Big) -> Big {
            let mut digits = vec![0u32; self.digits.len() + other.digits.len() + 1];
            for (i, &x) in self.digits.iter().enumerate() {
                let mut carry = 0;
                for (j, digit) in digits[i..].iter_mut().enumerate() {
                    let y = other.digits.get(j).copied().unwrap_or(0);
                    let part = x as u64 * y as u64 + *digit as u64 + carry;
                    *digit = (part % BASE) as u32;
                    carry = part / BASE;
                }
            }
            Big::new(self.negative != other.negative, digits)
        }

        pub fn power_of_two(exponent: u32) -> Big {
            (0..exponent).fold(Big::from_u64(1), |power, _| power.add(&power))
        }

        /// Half, rounded down, and what is left over.
        pub fn halve(&self) -> (Big, bool) {
            let mut rest = 0;
            let mut digits = self.digits.clone();
            for digit in digits.iter_mut().rev() {
                let part = rest * BASE + *digit as u64;
                *digit = (part / 2) as u32;
                rest = part % 2;
            }
            let half = Big::new(self.negative, digits);
            let odd = rest == 1;
            (
                if odd && self.negative {
                    half.sub(&Big::from_u64(1))
                } else {
                    half
                },
                odd,
            )
        }

        /// Bits of a number that is not negative.
        pub fn bit_length(&self) -> u32 {
            let (mut rest, mut bits) = (self.clone(), 0);
            while !rest.is_zero() {
                rest = rest.halve().0;
                bits += 1;
            }
            bits
        }

        /// The number whose bits come from the bits of both, with signs going on for ever.
        pub fn bitwise(&self, other: &Big, f: fn(bool, bool) -> bool) -> Big {
            let ends = |n: &Big| n.is_zero() || *n == Big::from_u64(1).neg();
            if ends(self) && ends(other) {
                let minus = f(self.negative, other.negative);
                return if minus {
                    Big::from_u64(1).neg()
                } else {
                    Big::from_u64(0)
                };
            }
            let ((a, x), (b, y)) = (self.halve(), other.halve());
            let rest = a.bitwise(&b, f);
            rest.add(&rest).add(&Big::from_u64(f(x, y) as u64))
        }

        pub fn cmp(&self, other: &Big) -> Ordering {
            match (self.negative, other.negative) {
                (true, false) => Ordering::Less,
                (false, true) => Ordering::Greater,
                (false, false) => compare(&self.digits, &other.digits),
                (true, true) => compare(&other.digits, &self.digits),
            }
        }

        pub fn show(&self) -> String {
            let Some((top, rest)) = self.digits.split_last() else {
                return "0".to_string();
            };
            let mut shown = format!("{}{top}", if self.negative { "-" } else { "" });
            for digit in rest.iter().rev() {
                shown.push_str(&format!("{digit:09}"));
            }
            shown
        }
    }

    fn compare(a: &[u32], b: &[u32]) -> Ordering {
        a.len()
            .cmp(&b.len())
            .then_with(|| a.iter().rev().cmp(b.iter().rev()))
    }

    fn sum(a: &[u32], b: &[u32]) -> Vec<u32> {
        let mut carry = 0;
        let mut digits = Vec::new();
        for i in 0..=a.len().max(b.len()) {
            let part = digit(a, i) + digit(b, i) + carry;
            digits.push((part % BASE) as u32);
            carry = part / BASE;
        }
        digits
    }

    /// `a` is not below `b`.
    fn difference(a: &[u32], b: &[u32]) -> Vec<u32> {
        let mut borrow = 0;
        let mut digits = Vec::new();
        for i in 0..a.len() {
            let part = BASE + digit(a, i) - digit(b, i) - borrow;
            digits.push((part % BASE) as u32);
            borrow = 1 - part / BASE;
        }
        digits
    }

    fn digit(digits: &[u32], i: usize) -> u64 {
        digits.get(i).copied().unwrap_or(0) as u64
    }
}

use big::Big;

/// An expression, from which both the syntax tree and the expected value are made.
#[derive(Clone, Debug)]
enum Tree {
    /// 32-bit digits, lowest first; zeros at the top are allowed, as in a hexadecimal literal.
    Literal(Vec<u32>),
    Bool(bool),
    Name(usize),
    Neg(Box<Tree>),
    Not(Box<Tree>),
    Clog2(Box<Tree>),
    Binary(BinOp, Box<Tree>, Box<Tree>),
    If(Box<Tree>, Box<Tree>, Box<Tree>),
    /// Forms without a value.
    All(Vec<Tree>),
    Field(Box<Tree>),
    Index(Box<Tree>, Box<Tree>),
}

/// Values of the names 0, 1, ...; a name past the last is unknown.
const NAMES: [i128; 8] = [0, 1, -1, 7, -8, i128::MAX, i128::MIN, -4_294_967_296];

const OPERATORS: [BinOp; 16] = [
    BinOp::Add,
    BinOp::Sub,
    BinOp::Mul,
    BinOp::Eq,
    BinOp::Ne,
    BinOp::Lt,
    BinOp::Le,
    BinOp::Gt,
    BinOp::Ge,
    BinOp::LogicAnd,
    BinOp::LogicOr,
    BinOp::Shl,
    BinOp::Shr,
    BinOp::BitAnd,
    BinOp::BitOr,
    BinOp::BitXor,
];

/// splitmix64.
struct Random(u64);

impl Random {
    fn next(&mut self) -> u64 {
        self.0 = self.0.wrapping_add(0x9E37_79B9_7F4A_7C15);
        let mut z = self.0;
        z = (z ^ (z >> 30)).wrapping_mul(0xBF58_476D_1CE4_E5B9);
        z = (z ^ (z >> 27)).wrapping_mul(0x94D0_49BB_1331_11EB);
        z ^ (z >> 31)
    }

    fn below(&mut self, bound: usize) -> usize {
        (self.next() % bound as u64) as usize
    }

    fn tree(&mut self, depth: usize) -> Tree {
        if depth == 0 {
            return self.leaf();
        }
        match self.below(64) {
            0..=7 => self.leaf(),
            8..=12 => Tree::Neg(self.boxed(depth)),
            13..=14 => Tree::Not(self.boxed(depth)),
            15..=18 => Tree::Clog2(self.boxed(depth)),
            19..=22 => Tree::If(self.boxed(depth), self.boxed(depth), self.boxed(depth)),
            23 => self.valueless(depth),
            _ => self.binary(depth),
        }
    }

    fn boxed(&mut self, depth: usize) -> Box<Tree> {
        Box::new(self.tree(depth - 1))
    }

    fn binary(&mut self, depth: usize) -> Tree {
        let op = OPERATORS[self.below(OPERATORS.len())];
        let lhs = self.boxed(depth);
        let rhs = match op {
            BinOp::Shl | BinOp::Shr => Box::new(self.amount()),
            // Equal sides would hardly come up by chance.
            _ if self.below(8) == 0 => lhs.clone(),
            _ => self.boxed(depth),
        };
        Tree::Binary(op, lhs, rhs)
    }

    /// Shift amounts are kept small: a value of a million bits would take the test an hour.
    fn amount(&mut self) -> Tree {
        let small = |n: usize| Tree::Literal(vec![n as u32]);
        match self.below(16) {
            0 => small(0),
            1 => Tree::Neg(Box::new(small(self.below(3)))),
            2 => Tree::Literal(vec![self.below(9) as u32, 1]),
            3 => Tree::Literal(vec![self.below(200) as u32, 0, 0, 0, 1]),
            4..=6 => small(64 * self.below(5)),
            _ => small(self.below(260)),
        }
    }

    fn leaf(&mut self) -> Tree {
        match self.below(16) {
            0 => Tree::Bool(self.below(2) == 1),
            1..=4 => Tree::Name(self.below(NAMES.len())),
            5..=6 => Tree::Literal(vec![self.below(6) as u32]),
            7..=8 => self.near_power(),
            _ => self.literal(),
        }
    }

    /// 1 to 320 random bits.
    fn literal(&mut self) -> Tree {
        let bits = 1 + self.below(320);
        let mut digits: Vec<u32> = (0..bits.div_ceil(32)).map(|_| self.next() as u32).collect();
        if let Some(top) = digits.last_mut() {
            *top >>= (32 - bits % 32) % 32;
        }
        digits.resize(digits.len() + self.below(3), 0);
        Tree::Literal(digits)
    }

    /// 2^n or 2^n - 1, where carries run and signs turn over.
    fn near_power(&mut self) -> Tree {
        let bits = self.below(330);
        let mut digits = vec![0; bits / 32 + 1];
        digits[bits / 32] = 1 << (bits % 32);
        let less = Tree::Literal(vec![self.below(2) as u32]);
        Tree::Binary(BinOp::Sub, Box::new(Tree::Literal(digits)), Box::new(less))
    }

    fn valueless(&mut self, depth: usize) -> Tree {
        match self.below(4) {
            0 => Tree::All(vec![self.tree(depth - 1)]),
            1 => Tree::Field(self.boxed(depth)),
            2 => Tree::Index(self.boxed(depth), self.boxed(depth)),
            _ => Tree::Name(NAMES.len()),
        }
    }
}

fn syntax(tree: &Tree) -> Expr {
    let sub = |tree: &Tree| Box::new(syntax(tree));
    let kind = match tree {
        Tree::Literal(digits) => ExprKind::Int {
            value: literal_bits(digits),
            raw: String::new(),
        },
        Tree::Bool(value) => ExprKind::Bool(*value),
        Tree::Name(name) => ExprKind::Ident(name.to_string()),
        Tree::Neg(a) => ExprKind::Unary {
            op: UnOp::Neg,
            expr: sub(a),
        },
        Tree::Not(a) => ExprKind::Unary {
            op: UnOp::LogicNot,
            expr: sub(a),
        },
        Tree::Clog2(a) => ExprKind::Call {
            func: Builtin::Clog2,
            args: vec![syntax(a)],
        },
        Tree::Binary(op, a, b) => ExprKind::Binary {
            op: *op,
            lhs: sub(a),
            rhs: sub(b),
        },
        Tree::If(c, a, b) => ExprKind::IfExpr {
            cond: sub(c),
            then: sub(a),
            els: sub(b),
        },
        Tree::All(parts) => ExprKind::Concat(parts.iter().map(syntax).collect()),
        Tree::Index(a, b) => ExprKind::Index {
            base: sub(a),
            index: sub(b),
        },
        Tree::Field(a) => {
            let field = Ident {
                name: "0".to_string(),
                span: Span::default(),
            };
            ExprKind::Field {
                base: sub(a),
                field,
            }
        }
    };
    Expr {
        kind,
        span: Span::default(),
    }
}

/// As the lexer leaves a literal: wide only where it does not fit in 128 bits.
fn literal_bits(digits: &[u32]) -> Bits {
    let at = |i: usize| digits.get(i).copied().unwrap_or(0);
    if digits.iter().skip(4).all(|&digit| digit == 0) {
        return Bits::Small((0..4).map(|i| (at(i) as u128) << (32 * i)).sum());
    }
    let limbs = digits.len().div_ceil(2);
    Bits::Wide(
        (0..limbs)
            .map(|i| at(2 * i) as u64 | (at(2 * i + 1) as u64) << 32)
            .collect(),
    )
}

fn names() -> Env {
    let named = |(i, value): (usize, i128)| (i.to_string(), ConstVal::from_i128(value));
    NAMES.into_iter().enumerate().map(named).collect()
}

fn expected(tree: &Tree) -> Option<Big> {
    match tree {
        Tree::Literal(digits) => Some(from_digits(digits)),
        Tree::Bool(value) => Some(truth(*value)),
        Tree::Name(name) => NAMES.get(*name).map(|&value| from_i128(value)),
        Tree::Neg(a) => Some(expected(a)?.neg()),
        Tree::Not(a) => Some(truth(expected(a)?.is_zero())),
        Tree::Clog2(a) => clog2(&expected(a)?),
        Tree::Binary(op, a, b) => {
            let (a, b) = (expected(a)?, expected(b)?);
            binary(*op, &a, &b)
        }
        Tree::If(c, a, b) => expected(if expected(c)?.is_zero() { b } else { a }),
        Tree::All(_) | Tree::Field(_) | Tree::Index(..) => None,
    }
}

fn binary(op: BinOp, a: &Big, b: &Big) -> Option<Big> {
    let order = a.cmp(b);
    Some(match op {
        BinOp::Add => a.add(b),
        BinOp::Sub => a.sub(b),
        BinOp::Mul => a.mul(b),
        BinOp::Eq => truth(order == Ordering::Equal),
        BinOp::Ne => truth(order != Ordering::Equal),
        BinOp::Lt => truth(order == Ordering::Less),
        BinOp::Le => truth(order != Ordering::Greater),
        BinOp::Gt => truth(order == Ordering::Greater),
        BinOp::Ge => truth(order != Ordering::Less),
        BinOp::LogicAnd => truth(!a.is_zero() && !b.is_zero()),
        BinOp::LogicOr => truth(!a.is_zero() || !b.is_zero()),
        BinOp::Shl => a.mul(&Big::power_of_two(amount(b)?)),
        BinOp::Shr => shifted_right(a, amount(b)?),
        BinOp::BitAnd => a.bitwise(b, |x, y| x && y),
        BinOp::BitOr => a.bitwise(b, |x, y| x || y),
        BinOp::BitXor => a.bitwise(b, |x, y| x != y),
        _ => return None,
    })
}

/// By 0, the source takes the top bit of a positive number for its sign.
fn shifted_right(a: &Big, by: u32) -> Big {
    if by == 0 && !a.is_negative() && !a.is_zero() {
        return a.sub(&Big::power_of_two(a.bit_length()));
    }
    (0..by).fold(a.clone(), |rest, _| rest.halve().0)
}

/// Of the lowest 128 bits, as the source has it; past 32 bits it gives up.
fn amount(b: &Big) -> Option<u32> {
    if b.is_negative() {
        return None;
    }
    low_128(b).show().parse().ok()
}

/// Counted as the smallest power of two that is not below the number, but 1 for 1; of the lowest
/// 128 bits, as the source has it.
fn clog2(n: &Big) -> Option<Big> {
    if n.is_negative() || n.is_zero() {
        return None;
    }
    let n = low_128(n);
    let (mut power, mut bits) = (Big::from_u64(1), 0);
    while power.cmp(&n) == Ordering::Less {
        power = power.add(&power);
        bits += 1;
    }
    Some(Big::from_u64(bits.max(1)))
}

fn low_128(n: &Big) -> Big {
    n.bitwise(&Big::power_of_two(128).sub(&Big::from_u64(1)), |x, y| {
        x && y
    })
}

fn truth(value: bool) -> Big {
    Big::from_u64(value as u64)
}

fn from_digits(digits: &[u32]) -> Big {
    let base = Big::from_u64(1 << 32);
    let step = |n: Big, &digit: &u32| n.mul(&base).add(&Big::from_u64(digit as u64));
    digits.iter().rev().fold(Big::from_u64(0), step)
}

fn from_i128(value: i128) -> Big {
    let magnitude = value.unsigned_abs();
    let digits: Vec<u32> = (0..4).map(|i| (magnitude >> (32 * i)) as u32).collect();
    if value < 0 {
        from_digits(&digits).neg()
    } else {
        from_digits(&digits)
    }
}

/// The least width of a number: as a magnitude, or in two's complement where it is negative.
fn least_width(n: &Big) -> u32 {
    if n.is_negative() {
        n.neg().sub(&Big::from_u64(1)).bit_length() + 1
    } else {
        n.bit_length().max(1)
    }
}

fn saturated(n: &Big) -> i128 {
    let ends = if n.is_negative() {
        i128::MIN
    } else {
        i128::MAX
    };
    n.show().parse().unwrap_or(ends)
}

fn assert_same(tree: &Tree, value: &ConstVal, wanted: &Big) {
    assert_eq!(value.to_string(), wanted.show(), "{tree:?}");
    assert_eq!(value.signed, wanted.is_negative(), "{tree:?}");
    assert_eq!(value.width, least_width(wanted), "{tree:?}");
    assert_eq!(value.is_zero(), wanted.is_zero(), "{tree:?}");
    assert_eq!(value.to_i128_saturating(), saturated(wanted), "{tree:?}");
    match &value.bits {
        Bits::Small(_) => assert!(value.width <= 128, "{tree:?}"),
        Bits::Wide(limbs) => assert_eq!(limbs.len(), value.width.div_ceil(64) as usize, "{tree:?}"),
    }
}

#[test]
fn random_expressions() {
    let (env, mut random) = (names(), Random(20_261_031));
    let (mut values, mut past_128, mut without) = (0, 0, 0);
    for round in 0..EXPRESSIONS {
        let tree = random.tree(1 + round % 5);
        match (consteval::eval(&syntax(&tree), &env), expected(&tree)) {
            (Ok(value), Some(wanted)) => {
                assert_same(&tree, &value, &wanted);
                values += 1;
                past_128 += (value.width > 128) as usize;
            }
            (Err(_), None) => without += 1,
            (value, wanted) => panic!("{tree:?}: {value:?}, expected {wanted:?}"),
        }
    }
    println!("{values} values, {past_128} of them past 128 bits, {without} without a value");
    assert!(values > 10_000 && past_128 > 5_000 && without > 1_000);
}

/// Each operator on each pair of numbers around the edges of limbs and of 128 bits.
#[test]
fn edges() {
    let mut edges = Vec::new();
    for bits in [0, 1, 31, 32, 63, 64, 65, 127, 128, 129, 192, 256] {
        let mut digits = vec![0; bits / 32 + 1];
        digits[bits / 32] = 1 << (bits % 32);
        let power = Box::new(Tree::Literal(digits));
        let less = Tree::Binary(BinOp::Sub, power.clone(), Box::new(Tree::Bool(true)));
        edges.extend([
            *power.clone(),
            less.clone(),
            Tree::Neg(power),
            Tree::Neg(Box::new(less)),
        ]);
    }
    let env = names();
    let arithmetic = OPERATORS
        .iter()
        .filter(|op| !matches!(op, BinOp::Shl | BinOp::Shr));
    for (op, a, b) in arithmetic.flat_map(|&op| pairs(&edges).map(move |(a, b)| (op, a, b))) {
        let tree = Tree::Binary(op, Box::new(a.clone()), Box::new(b.clone()));
        let value = consteval::eval(&syntax(&tree), &env).unwrap();
        assert_same(&tree, &value, &expected(&tree).unwrap());
    }
}

fn pairs(trees: &[Tree]) -> impl Iterator<Item = (&Tree, &Tree)> {
    trees
        .iter()
        .flat_map(move |a| trees.iter().map(move |b| (a, b)))
}

#[test]
fn the_source_takes_the_top_bit_for_a_sign_where_nothing_is_shifted() {
    let shr = |a: u32, by: u32| {
        let literal = |n: u32| Box::new(Tree::Literal(vec![n]));
        let tree = Tree::Binary(BinOp::Shr, literal(a), literal(by));
        consteval::eval(&syntax(&tree), &Env::new())
            .unwrap()
            .to_string()
    };
    assert_eq!(
        [shr(5, 0), shr(1, 0), shr(0, 0), shr(5, 1)],
        ["-3", "-1", "0", "2"]
    );
}

const INT_MIN: i128 = -2_147_483_648;
const INT_MAX: i128 = 2_147_483_647;
/// The source does not shift left where width, amount and one more are above this.
const WIDTH_LIMIT: i128 = 1_000_000;
/// So many of the names have values in INT.
const INT_NAMES: usize = 5;

/// How many of each class there were.
type Seen = BTreeMap<&'static str, usize>;

fn in_int(value: i128) -> bool {
    (INT_MIN..=INT_MAX).contains(&value)
}

/// A number of INT, from literals that may be written.
fn int(value: i128) -> Tree {
    let literal = |n: i128| Box::new(Tree::Literal(vec![n as u32]));
    match value {
        0.. => *literal(value),
        INT_MIN => Tree::Binary(
            BinOp::Sub,
            Box::new(Tree::Neg(literal(INT_MAX))),
            literal(1),
        ),
        _ => Tree::Neg(literal(-value)),
    }
}

/// The expression in the line format.
fn written(tree: &Tree) -> String {
    match tree {
        Tree::Literal(digits) => digits[0].to_string(),
        Tree::Bool(value) => value.to_string(),
        Tree::Name(name) => format!("(n {name})"),
        Tree::Neg(a) => format!("(neg {})", written(a)),
        Tree::Not(a) => format!("(not {})", written(a)),
        Tree::Clog2(a) => format!("(clog2 {})", written(a)),
        Tree::Binary(op, a, b) => format!("({} {} {})", head(*op), written(a), written(b)),
        Tree::If(c, a, b) => format!("(if {} {} {})", written(c), written(a), written(b)),
        Tree::All(parts) => {
            let parts: Vec<String> = parts.iter().map(|p| format!(" {}", written(p))).collect();
            format!("(all{})", parts.concat())
        }
        Tree::Field(a) => format!("(f {} 0)", written(a)),
        Tree::Index(a, b) => format!("(ix {} {})", written(a), written(b)),
    }
}

fn head(op: BinOp) -> &'static str {
    let heads = "add sub mul eq ne lt le gt ge and or shl shr band bor bxor";
    let at = OPERATORS.iter().position(|&o| o == op).unwrap();
    heads.split(' ').nth(at).unwrap()
}

/// The model's constant, and whether it shifted a positive number right by 0.
fn by_model(tree: &Tree) -> (Constant, bool) {
    let known = NAMES.into_iter().take(INT_NAMES).enumerate();
    let values = known.map(|(name, value)| (name as u32, value)).collect();
    model::constant(&written(tree), &values).expect("a well-written expression")
}

/// The original's value, at the ends of the type where it is past them.
fn by_original(tree: &Tree, env: &Env) -> Option<i128> {
    let value = consteval::eval(&syntax(tree), env).ok()?;
    Some(value.to_i128_saturating())
}

fn power_of_two(n: i128) -> i128 {
    (0..n).fold(1, |power, _| power + power)
}

/// 0, numbers around each power of two, and the ends of INT.
fn operands() -> Vec<i128> {
    let mut found = vec![0, INT_MAX - 1, INT_MAX, INT_MIN, INT_MIN + 1];
    let near = |k: i128| (-1..=1).map(move |step| power_of_two(k) + step);
    for n in (0..=30).flat_map(near) {
        found.extend([n, -n]);
    }
    found.sort();
    found.dedup();
    found
}

/// What a shift is to be: its class, the model's constant, and the original's value, where that is
/// not the same.
fn shift(op: BinOp, z: i128, n: i128) -> (&'static str, Constant, Option<Option<i128>>) {
    let width = i128::from(least_width(&from_i128(z)));
    let outside = z != 0 && (n > 32 || (n >= 0 && !in_int(z * power_of_two(n))));
    match (op, z, n) {
        (_, _, ..=-1) => ("negative amount", Constant::Missing, None),
        (BinOp::Shl, 0, 999_999..) => ("0 past the width limit", Constant::Missing, None),
        (BinOp::Shl, 0, _) => ("0 shifted left", Constant::Value(0), None),
        (BinOp::Shl, ..) if outside && width + n + 1 > WIDTH_LIMIT => {
            ("past the width limit", Constant::Outside, Some(None))
        }
        (BinOp::Shl, ..) if outside => {
            let ends = if z < 0 { i128::MIN } else { i128::MAX };
            let value = if n > 64 { ends } else { z * power_of_two(n) };
            (
                "shifted left out of INT",
                Constant::Outside,
                Some(Some(value)),
            )
        }
        (BinOp::Shl, ..) => ("shifted left", Constant::Value(z * power_of_two(n)), None),
        (_, 1.., 0) => {
            let wrong = z - power_of_two(width);
            ("positive by 0", Constant::Value(z), Some(Some(wrong)))
        }
        _ => {
            let value = z.div_euclid(power_of_two(n.min(33)));
            ("shifted right", Constant::Value(value), None)
        }
    }
}

#[test]
fn shifts_of_the_model_and_of_the_source() {
    let far = 999_967..=1_000_001;
    let amounts = [INT_MIN, -1, 0, 1, 2, 30, 31, 32, 33, INT_MAX];
    let amounts: Vec<i128> = amounts.into_iter().chain(far).collect();
    let (env, mut seen) = (names(), Seen::new());
    for (z, &n) in operands()
        .into_iter()
        .flat_map(|z| amounts.iter().map(move |n| (z, n)))
    {
        for op in [BinOp::Shl, BinOp::Shr] {
            let tree = Tree::Binary(op, Box::new(int(z)), Box::new(int(n)));
            let (class, wanted, unlike) = shift(op, z, n);
            *seen.entry(class).or_default() += 1;
            assert_eq!(
                by_model(&tree),
                (wanted, class == "positive by 0"),
                "{tree:?}"
            );
            let same = match wanted {
                Constant::Value(value) => Some(value),
                _ => None,
            };
            let original = unlike.unwrap_or(same);
            assert_eq!(by_original(&tree, &env), original, "{class}: {tree:?}");
            let differ = wanted == Constant::Outside || original != same;
            assert_eq!(differ, unlike.is_some(), "{class}: {tree:?}");
        }
    }
    println!("{seen:?}");
    assert_eq!(seen.len(), 8, "{seen:?}");
}

#[test]
fn bit_operators_of_the_model_and_of_the_source() {
    let (env, mut seen) = (names(), Seen::new());
    let operands = operands();
    for (a, &b) in operands
        .iter()
        .flat_map(|&a| operands.iter().map(move |b| (a, b)))
    {
        for op in [BinOp::BitAnd, BinOp::BitOr, BinOp::BitXor] {
            let tree = Tree::Binary(op, Box::new(int(a)), Box::new(int(b)));
            let wanted = saturated(&binary(op, &from_i128(a), &from_i128(b)).unwrap());
            assert!(in_int(wanted), "{tree:?}");
            assert_eq!(
                by_model(&tree),
                (Constant::Value(wanted), false),
                "{tree:?}"
            );
            assert_eq!(by_original(&tree, &env), Some(wanted), "{tree:?}");
            let class = match (a < 0, b < 0) {
                (true, true) => "both negative",
                (false, false) => "none negative",
                _ => "one negative",
            };
            *seen.entry(class).or_default() += 1;
        }
    }
    println!("{seen:?}");
    assert_eq!(seen.len(), 3, "{seen:?}");
}

impl Random {
    /// An expression that may stand in a text, with many shifts and bit operators.
    fn constant(&mut self, depth: usize) -> Tree {
        if depth == 0 {
            return self.constant_leaf();
        }
        let mut part = || Box::new(self.constant(depth - 1));
        let (a, b, c) = (part(), part(), part());
        match self.below(32) {
            0 => Tree::Neg(a),
            1 => Tree::Not(a),
            2 => Tree::Clog2(a),
            3 => Tree::If(a, b, c),
            4 => Tree::All(vec![*a]),
            5..=8 => self.constant_leaf(),
            9..=16 => {
                let op = [BinOp::Shl, BinOp::Shr][self.below(2)];
                let by = if self.below(4) == 0 {
                    b
                } else {
                    Box::new(self.int_amount())
                };
                Tree::Binary(op, a, by)
            }
            17..=24 => {
                let op = [BinOp::BitAnd, BinOp::BitOr, BinOp::BitXor][self.below(3)];
                Tree::Binary(op, a, b)
            }
            _ => Tree::Binary(OPERATORS[self.below(OPERATORS.len())], a, b),
        }
    }

    fn constant_leaf(&mut self) -> Tree {
        match self.below(16) {
            0 => Tree::Bool(self.below(2) == 1),
            1..=3 => Tree::Name(self.below(INT_NAMES)),
            4 if self.below(4) == 0 => Tree::Name(NAMES.len()),
            4..=8 => int(self.below(9) as i128),
            _ => {
                let operands = operands();
                int(operands[self.below(operands.len())])
            }
        }
    }

    fn int_amount(&mut self) -> Tree {
        int(match self.below(16) {
            0 => -1 - self.below(3) as i128,
            1..=3 => 0,
            4 => 999_967 + self.below(35) as i128,
            5 => INT_MAX,
            6..=7 => 30 + self.below(4) as i128,
            _ => self.below(9) as i128,
        })
    }
}

/// The value of a part, none, or outside INT.
type Part = Result<Option<i128>, ()>;

/// The original one operator at a time, each on what the parts gave, with the listed differences
/// put in.
fn by_steps(tree: &Tree, env: &Env, seen: &mut Seen) -> Part {
    let step = |tree: &Tree| match by_original(tree, env) {
        Some(value) if !in_int(value) => Err(()),
        value => Ok(value),
    };
    let mut part = |tree: &Tree| by_steps(tree, env, seen);
    let one = |of: fn(Box<Tree>) -> Tree, a: Option<i128>| match a {
        Some(a) => step(&of(Box::new(int(a)))),
        None => Ok(None),
    };
    match tree {
        Tree::Literal(_) | Tree::Bool(_) | Tree::Name(_) => step(tree),
        Tree::Neg(a) => one(Tree::Neg, part(a)?),
        Tree::Not(a) => one(Tree::Not, part(a)?),
        Tree::Clog2(a) => one(Tree::Clog2, part(a)?),
        Tree::If(c, a, b) => match part(c)? {
            Some(0) => part(b),
            Some(_) => part(a),
            None => Ok(None),
        },
        Tree::All(_) | Tree::Field(_) | Tree::Index(..) => Ok(None),
        Tree::Binary(op, a, b) => {
            let Some(a) = part(a)? else {
                return Ok(None);
            };
            let Some(b) = part(b)? else {
                return Ok(None);
            };
            let stepped = step(&Tree::Binary(*op, Box::new(int(a)), Box::new(int(b))));
            let (class, put) = match (op, a, b) {
                (BinOp::Shl | BinOp::Shr, _, ..=-1) => ("negative amount", stepped),
                (BinOp::Shr, 1.., 0) => ("positive by 0", Ok(Some(a))),
                (BinOp::Shl, 0, _) if stepped == Ok(None) => ("0 past the width limit", stepped),
                (BinOp::Shl, _, _) if stepped == Ok(None) => ("past the width limit", Err(())),
                _ => return stepped,
            };
            *seen.entry(class).or_default() += 1;
            put
        }
    }
}

#[test]
fn random_constants_of_the_model_and_of_the_source() {
    let (env, mut random, mut seen) = (names(), Random(31_415_926), Seen::new());
    for round in 0..100_000 {
        let tree = random.constant(1 + round % 4);
        let before = seen.get("positive by 0").copied();
        let stepped = by_steps(&tree, &env, &mut seen);
        let by_zero = seen.get("positive by 0").copied() != before;
        let (class, wanted) = match stepped {
            Ok(Some(value)) => ("value", Constant::Value(value)),
            Ok(None) => ("no value", Constant::Missing),
            Err(()) => ("outside INT", Constant::Outside),
        };
        *seen.entry(class).or_default() += 1;
        assert_eq!(by_model(&tree), (wanted, by_zero), "{}", written(&tree));
        // With none of the differences the original has the same in one go.
        if let (Ok(value), false) = (stepped, by_zero) {
            assert_eq!(by_original(&tree, &env), value, "{}", written(&tree));
            *seen.entry("in one go").or_default() += 1;
        }
    }
    println!("{seen:?}");
    assert_eq!(seen.len(), 8, "{seen:?}");
    assert!(seen.values().all(|&count| count > 300), "{seen:?}");
}
