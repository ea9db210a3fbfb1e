//! What a design is to have, before its lines are written: modules with kinds and values.

use super::rng::Rng;

#[derive(Clone, Copy, PartialEq, Eq, Debug)]
pub enum Kind {
    In,
    Out,
    Wire,
    Reg,
    Mem,
    Inst,
}

impl Kind {
    pub const ALL: [Kind; 6] = [
        Kind::In,
        Kind::Out,
        Kind::Wire,
        Kind::Reg,
        Kind::Mem,
        Kind::Inst,
    ];

    pub fn word(self) -> &'static str {
        match self {
            Kind::In => "in",
            Kind::Out => "out",
            Kind::Wire => "wire",
            Kind::Reg => "reg",
            Kind::Mem => "mem",
            Kind::Inst => "inst",
        }
    }
}

/// One module to be written.
pub struct Mod {
    pub bound: bool,
    pub kinds: Vec<(u32, Kind)>,
    /// In the order of their lines; a later one for a name wins.
    pub vals: Vec<(u32, i64)>,
}

impl Mod {
    pub fn names(&self, kind: Kind) -> Vec<u32> {
        self.kinds
            .iter()
            .filter(|(_, k)| *k == kind)
            .map(|(n, _)| *n)
            .collect()
    }

    /// The module line, then the kind and val lines mixed in any order.
    pub fn header(&self, number: usize, r: &mut Rng) -> String {
        let bound = if self.bound { "bound" } else { "unbound" };
        let kinds = self
            .kinds
            .iter()
            .map(|(n, k)| format!("(kind {n} {})\n", k.word()));
        let vals = self.vals.iter().map(|(n, v)| format!("(val {n} {v})\n"));
        let mut lines: Vec<String> = kinds.chain(vals).collect();
        r.shuffle(&mut lines);
        format!("(module {number} {bound})\n{}", lines.concat())
    }
}

/// START numbers for one design.
pub enum Starts {
    /// All different, in mixed order, none 0.
    Fresh { step: u64, taken: u64 },
    /// Any of the first few numbers.
    Few(u64),
    /// Any number that a line may have.
    Any,
}

const PRIME: u64 = 1009;

impl Starts {
    pub fn fresh(r: &mut Rng) -> Starts {
        Starts::Fresh {
            step: 1 + r.below(PRIME - 1),
            taken: 0,
        }
    }

    pub fn next(&mut self, r: &mut Rng) -> u64 {
        match self {
            Starts::Fresh { step, taken } => {
                *taken += 1;
                let turn = (*taken - 1) / (PRIME - 1);
                turn * PRIME + (((*taken - 1) % (PRIME - 1) + 1) * *step) % PRIME
            }
            Starts::Few(n) => r.below(*n),
            Starts::Any => {
                let large = r.below(2_147_483_648);
                r.pick(&[0, 1, 9, 10, 2_147_483_647, large])
            }
        }
    }
}
