//! A part of `dense`: repeats with bounds around the rounds that are left, side by side and in
//! each other. What is collected shows whether a repeat took its rounds or ran once.

use super::rng::Rng;

const ALL_ROUNDS: i64 = 4_096;
const VARS: [u32; 3] = [7, 8, 9];
/// Only a repeat with fewer rounds drives a bit in each.
const MANY: i64 = 130;

struct Rounds {
    r: Rng,
    /// What the module has left, as its repeats are written.
    left: i64,
    start: u64,
    /// The next name for an output or reg.
    name: u32,
}

pub fn rounds(r: Rng) -> String {
    let mut w = Rounds {
        r,
        left: 0,
        start: 0,
        name: 0,
    };
    let modules = if w.r.chance(85) { 1 } else { 2 };
    (0..modules).map(|m| w.module(m)).collect()
}

impl Rounds {
    fn module(&mut self, number: u32) -> String {
        let bound = if self.r.chance(80) {
            "bound"
        } else {
            "unbound"
        };
        self.left = ALL_ROUNDS;
        self.name = 10;
        let mut items = String::new();
        for _ in 0..1 + self.r.below(4) {
            let item = self.repeat(2);
            items.push_str(&format!("{item}\n"));
        }
        let mut out = format!("(module {number} {bound})\n");
        for name in 10..self.name {
            out.push_str(&format!("(kind {name} out)\n"));
        }
        for var in VARS {
            if self.r.chance(12) {
                out.push_str(&format!("(val {var} {})\n", self.r.below(3)));
            }
        }
        out + &items
    }

    fn start(&mut self) -> u64 {
        self.start += 1 + self.r.below(9);
        self.start
    }

    /// A repeat, with others inside it at most `nest` deep.
    fn repeat(&mut self, nest: u32) -> String {
        let var = self.r.pick(&VARS);
        if nest == 0 || self.r.chance(35) {
            let count = self.around_left();
            self.spend(count);
            return self.line(var, count, |w, low| w.witness(var, low, count));
        }
        if self.r.chance(30) {
            return self.each_round(var);
        }
        let count = self.most_of_left();
        self.spend(count);
        self.line(var, count, |w, low| w.in_one_round(var, low, count, nest))
    }

    /// `(repeat var low high BODY)`, mostly from 0.
    fn line(
        &mut self,
        var: u32,
        count: i64,
        body: impl FnOnce(&mut Rounds, i64) -> String,
    ) -> String {
        let low = if self.r.chance(85) || count < 0 {
            (-count).max(0)
        } else {
            self.r.range(1, 3)
        };
        let body = body(self, low);
        format!("(repeat {var} {low} {} {body})", low + count)
    }

    fn spend(&mut self, count: i64) {
        if count <= self.left {
            self.left -= count.max(0);
        }
    }

    fn around_left(&mut self) -> i64 {
        match self.r.weighted(&[22, 22, 22, 8, 8, 12, 6]) {
            0 => self.left,
            1 => self.left - 1,
            2 => self.left + 1,
            3 => self.left / 2,
            4 => self.left + self.r.range(2, 100),
            5 => self.r.range(1, 9),
            _ => -self.r.range(0, 3),
        }
    }

    /// Few are left for the body, or a good part.
    fn most_of_left(&mut self) -> i64 {
        match self.r.weighted(&[60, 20, 20]) {
            0 => (self.left - self.r.range(0, 100)).max(1),
            1 => (self.left / 2).max(1),
            _ => self.r.range(1, 5),
        }
    }

    /// Another repeat, in the first round, the last or another.
    fn in_one_round(&mut self, var: u32, low: i64, count: i64, nest: u32) -> String {
        let round = match self.r.weighted(&[70, 15, 15]) {
            0 => low,
            1 => low + count - 1,
            _ => low + self.r.below(count as u64) as i64,
        };
        let inner = self.repeat(nest - 1);
        if round == 0 && self.r.chance(60) {
            return format!("(constif (n {var}) (then) (else {inner}))");
        }
        format!("(constif (eq (n {var}) {round}) (then {inner}) (else))")
    }

    /// A repeat in every round of another: the last may find too few left.
    fn each_round(&mut self, var: u32) -> String {
        let outer = self.r.range(2, 5);
        self.spend(outer);
        let inner = (self.left / outer + self.r.range(-1, 1)).max(1);
        for _ in 0..outer {
            self.spend(inner);
        }
        let inside = self.r.pick(&VARS);
        self.line(var, outer, |w, _| {
            w.line(inside, inner, |w, low| {
                w.last_round(inside, low + inner - 1)
            })
        })
    }

    /// Shows whether the variable is set, and how far it goes.
    fn witness(&mut self, var: u32, low: i64, count: i64) -> String {
        let short = u64::from(count < MANY);
        match self.r.weighted(&[30, 30, 40 * short]) {
            0 => self.last_round(var, low + count - 1),
            1 => {
                let (first, other) = (self.port("bit"), self.port("bit"));
                format!("(constif (eq (n {var}) {low}) (then {first}) (else {other}))")
            }
            _ => {
                let port = self.port(&format!("(bits {})", (low + count).max(0)));
                let (name, start) = (self.name - 1, self.start());
                format!("{port} (drive (lv {name} {start} (n {var})) 0)")
            }
        }
    }

    fn last_round(&mut self, var: u32, last: i64) -> String {
        let port = self.port("bit");
        format!(
            "(constif (eq (n {var}) {}) (then {port}) (else))",
            last.max(0)
        )
    }

    /// A port line of a new output, which is reported where the line is collected.
    fn port(&mut self, t: &str) -> String {
        let (name, start) = (self.name, self.start());
        self.name += 1;
        format!("(port out {name} {t} {start})")
    }
}
