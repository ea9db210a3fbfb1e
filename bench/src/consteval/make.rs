//! Makes expressions: random ones for comparison, and ones with a value for timing.

use super::exact;
use super::names::Names;
use super::tree::{Op, Tree};
use super::{INT_MAX, INT_MIN};
use compare::gen::rng::Rng;

/// Literals at which something turns over; the last is INT's end, the ones of `PAST` are past it.
const TURNS: [u128; 9] = [
    1,
    2,
    46_340,
    46_341,
    65_535,
    65_536,
    1_073_741_824,
    2_147_483_646,
    2_147_483_647,
];

/// The format has no such literals (refusal 5), but the evaluator has an answer for them.
const PAST: [u128; 7] = [
    2_147_483_648,
    4_294_967_295,
    4_294_967_296,
    4_294_967_297,
    18_446_744_073_709_551_615,
    18_446_744_073_709_551_616,
    1_000_000_000_000_000_000_000_000_000_000,
];

/// Shift amounts around those at which a value of INT leaves it.
const AT_THE_WIDTH: [i128; 4] = [30, 31, 32, 33];

/// Shift amounts around those at which the original's width limit is passed.
const AT_THE_LIMIT: (i64, i64) = (999_967, 1_000_001);

/// How often things are drawn, in percent.
#[derive(Clone, Copy)]
pub struct Mood {
    /// `f`, `ix`, `all`, and names that need not be known.
    pub without: u64,
    /// Literals at INT's end and at other turns.
    pub turns: u64,
    /// Literals past INT.
    pub past: u64,
}

pub const MOODS: [Mood; 3] = [
    Mood {
        without: 0,
        turns: 4,
        past: 0,
    },
    Mood {
        without: 1,
        turns: 40,
        past: 0,
    },
    Mood {
        without: 8,
        turns: 20,
        past: 1,
    },
];

/// Makes random expressions over a name table.
pub struct Maker<'a> {
    pub rng: &'a mut Rng,
    pub names: &'a Names,
    pub mood: Mood,
    /// The operators with a value that are drawn.
    pub ops: &'a [Op],
}

impl Maker<'_> {
    /// Just `depth` brackets deep along one line, and up to three more levels beside it.
    pub fn spine(&mut self, depth: u32) -> Tree {
        if depth == 0 || (depth == 1 && self.rng.chance(50)) {
            return self.leaf(depth);
        }
        if self.rng.chance(self.mood.without / 4) {
            let base = Box::new(self.spine(depth - 1));
            return Tree::Field(base, self.rng.below(256) as u32);
        }
        let (op, arity) = self.op();
        let deep = self.rng.below(arity as u64) as usize;
        let side = self.rng.below(4).min(u64::from(depth - 1)) as u32;
        let part = |k: usize| match k == deep {
            true => self.spine(depth - 1),
            false => self.part(op, k, side),
        };
        Tree::Apply(op, (0..arity).map(part).collect())
    }

    /// At most `depth` brackets deep.
    fn bush(&mut self, depth: u32) -> Tree {
        if depth == 0 || self.rng.chance(40) {
            return self.leaf(depth);
        }
        let (op, arity) = self.op();
        let part = |k: usize| self.part(op, k, depth - 1);
        Tree::Apply(op, (0..arity).map(part).collect())
    }

    /// Part k of an operator, at most `depth` brackets deep. Any amount would mostly be too far, and
    /// any operand is seldom at a power of two.
    fn part(&mut self, op: Op, k: usize, depth: u32) -> Tree {
        let value = match k == 1 && op.is_shift() {
            true if self.rng.chance(85) => self.amount(),
            false if Op::BITS.contains(&op) && self.rng.chance(50) => self.operand(),
            _ => return self.bush(depth),
        };
        let spelled = Tree::spelled(value);
        match spelled.nesting() <= depth {
            true => spelled,
            false => Tree::spelled(value.abs().min(INT_MAX)),
        }
    }

    fn amount(&mut self) -> i128 {
        match self.rng.below(40) {
            0 => -1,
            1 => self.rng.pick(&[INT_MIN, INT_MAX, INT_MAX]),
            2 => self.rng.range(AT_THE_LIMIT.0, AT_THE_LIMIT.1).into(),
            3..=8 => self.rng.pick(&AT_THE_WIDTH),
            9..=15 => 0,
            16..=21 => 1,
            _ => self.rng.range(2, 9).into(),
        }
    }

    /// 0, 1, around a power of two, or INT's end, with either sign.
    fn operand(&mut self) -> i128 {
        let size = match self.rng.below(8) {
            0 => 0,
            1..=2 => 1,
            3 => self.rng.pick(&[INT_MAX, -INT_MIN]),
            _ => (1 << self.rng.range(1, 30)) + i128::from(self.rng.range(-1, 1)),
        };
        match self.rng.chance(50) {
            true => -size,
            false => size.min(INT_MAX),
        }
    }

    /// An operator and its number of parts.
    fn op(&mut self) -> (Op, usize) {
        let op = match self.rng.chance(self.mood.without) {
            true => self.rng.pick(&[Op::Ix, Op::All]),
            false => self.rng.pick(self.ops),
        };
        let any = self.rng.below(4) as usize;
        (op, op.arity().unwrap_or(any))
    }

    fn leaf(&mut self, room: u32) -> Tree {
        match self.rng.below(10) {
            0 => Tree::Bool(self.rng.chance(50)),
            1..=4 if room > 0 => self.name(),
            _ => Tree::Literal(self.literal()),
        }
    }

    /// A name of the table, or any.
    fn name(&mut self) -> Tree {
        let pairs = &self.names.pairs;
        if self.rng.chance(self.mood.without) {
            return Tree::Name(self.rng.below(256) as u32);
        }
        match pairs.get(self.rng.below(pairs.len() as u64) as usize) {
            Some(pair) => Tree::Name(pair.0),
            None => Tree::Literal(self.literal()),
        }
    }

    fn literal(&mut self) -> u128 {
        if self.rng.chance(self.mood.past) {
            return self.rng.pick(&PAST);
        }
        if self.rng.chance(self.mood.turns) {
            return self.rng.pick(&TURNS);
        }
        match self.rng.chance(self.mood.turns) {
            true => u128::from(self.rng.draw() >> 33),
            false => u128::from(self.rng.below(41)),
        }
    }

    /// Has `ops` operators, all with a value inside INT, and the names are known.
    pub fn valued(&mut self, ops: usize) -> (Tree, i128) {
        let Some(rest) = ops.checked_sub(1) else {
            return self.valued_leaf();
        };
        let op = self.rng.pick(self.ops);
        let shares = self.shares(rest, op.arity().unwrap_or(2));
        let made = shares.into_iter().map(|share| self.valued(share)).collect();
        applied(op, made)
    }

    /// Has `depth` operators, each in a part of the one before it.
    pub fn nested(&mut self, depth: usize) -> (Tree, i128) {
        let Some(rest) = depth.checked_sub(1) else {
            return (Tree::Literal(7), 7);
        };
        let op = self.rng.pick(self.ops);
        let arity = op.arity().unwrap_or(2);
        let deep = self.rng.below(arity as u64) as usize;
        let part = |k: usize| match k == deep {
            true => self.nested(rest),
            false if rest > 0 => self.valued_leaf(),
            false => (Tree::Bool(true), 1),
        };
        let made = (0..arity).map(part).collect();
        applied(op, made)
    }

    /// One operator of two operands, with a value inside INT on which the original agrees: `shr` of
    /// a positive number by 0 is left out.
    pub fn alone(&mut self, op: Op) -> Tree {
        loop {
            let (left, l) = self.valued_leaf();
            let (right, r) = self.valued_leaf();
            let by_zero = op == Op::Shr && l > 0 && r == 0;
            if !by_zero && exact::result(op, &[l, r]).is_some() {
                return Tree::Apply(op, vec![left, right]);
            }
        }
    }

    fn valued_leaf(&mut self) -> (Tree, i128) {
        let leaf = self.leaf(1);
        let value = match &leaf {
            Tree::Literal(n) => i128::try_from(*n).ok(),
            Tree::Bool(b) => Some(i128::from(*b)),
            Tree::Name(n) => self.names.get(*n).map(i128::from),
            _ => None,
        };
        match value {
            Some(value) => (leaf, value),
            None => (Tree::Literal(3), 3),
        }
    }

    /// `n` dealt out at random.
    fn shares(&mut self, n: usize, count: usize) -> Vec<usize> {
        let mut shares = vec![0; count];
        let mut left = n;
        for share in shares.iter_mut().skip(1) {
            *share = self.rng.below(left as u64 + 1) as usize;
            left -= *share;
        }
        shares[0] = left;
        self.rng.shuffle(&mut shares);
        shares
    }
}

/// The operator on its parts, or where it has no value inside INT another one that has.
fn applied(op: Op, made: Vec<(Tree, i128)>) -> (Tree, i128) {
    let (parts, values): (Vec<Tree>, Vec<i128>) = made.into_iter().unzip();
    let other = if parts.len() == 1 { Op::Not } else { Op::Lt };
    match exact::result(op, &values) {
        Some(v) => (Tree::Apply(op, parts), v),
        None => (
            Tree::Apply(other, parts),
            exact::result(other, &values).unwrap_or(0),
        ),
    }
}
