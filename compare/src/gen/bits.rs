//! `bits`: shifts and bit operators. In two texts of three the constant places are full of them,
//! and the reports go by their values. In the third they stand only where no value is taken.

use super::expr::BIT_OPS;
use super::plan::Starts;
use super::rng::Rng;

const INT_MIN: i64 = -2_147_483_648;
const INT_MAX: i64 = 2_147_483_647;
/// Amounts around the ends of INT and around the width at which the Rust gives up.
const AMOUNTS: [i64; 7] = [-1, 0, 1, 30, 31, 32, 33];
const WIDE: (i64, i64) = (999_967, 1_000_001);
/// The last amount by which 0 is still shifted left.
const LAST_OF_ZERO: i64 = 999_998;
const WIDTHS: [i64; 14] = [1, 2, 3, 4, 5, 8, 9, 12, 31, 32, 33, 4095, 4096, 4097];

const NAMES: [u32; 6] = [30, 31, 32, 33, 34, 35];
const VARIABLE: u32 = 36;
const MISSING: u32 = 39;
const INPUT: u32 = 1;
const INSTS: [u32; 2] = [8, 9];
const WIRES: [u32; 3] = [10, 11, 12];
/// The first of the outputs; each line takes the next.
const OUTS: u32 = 40;

struct Bits {
    r: Rng,
    starts: Starts,
    /// Whether constant places have the five operators.
    inside: bool,
    /// Whether some constants are drawn blindly, and may leave INT.
    wild: bool,
    /// Names and the values that they are to have.
    known: Vec<(u32, i64)>,
    /// The module whose output 3 may follow its input 2.
    child: usize,
    outs: u32,
}

/// Text i of the profile.
pub fn bits(mut r: Rng, i: u64) -> String {
    let inside = i % 3 != 0;
    let wild = inside && r.chance(45);
    let child_first = r.chance(50);
    let mut m = Bits {
        starts: Starts::fresh(&mut r),
        r,
        inside,
        wild,
        known: Vec::new(),
        child: usize::from(!child_first),
        outs: 0,
    };
    let child = m.child_module();
    let host = m.host(usize::from(child_first));
    if child_first {
        child + &host
    } else {
        host + &child
    }
}

impl Bits {
    fn child_module(&mut self) -> String {
        let (one, two) = (self.start(), self.start());
        let follows = self.operated("(n 2)");
        let lines = match self.r.weighted(&[40, 40, 20]) {
            0 => format!("(port out 3 bit {one})\n(drive (lv 3 {two}) {follows})\n"),
            1 => {
                let truth = self.truth();
                format!(
                    "(port out 3 bit {one})\n(constif {truth} (then (drive (lv 3 {two}) {follows})) \
                     (else (drive (lv 3 {two}) 0)))\n"
                )
            }
            _ => format!(
                "(port out 3 (bits {}) {one})\n(drive (lv 3 {two} {}) {follows})\n(drive (lv 3 {} {}) 0)\n",
                self.constant(2),
                self.constant(0),
                self.start(),
                self.constant(1)
            ),
        };
        let number = self.child;
        format!("(module {number} bound)\n(kind 2 in)\n(kind 3 out)\n{lines}")
    }

    fn host(&mut self, number: usize) -> String {
        let mut values = String::new();
        for name in NAMES {
            if self.r.chance(40) {
                let v = self.value();
                self.known.push((name, v));
                values.push_str(&format!("(val {name} {v})\n"));
            }
        }
        let mut lines = String::new();
        for name in NAMES {
            if self.r.chance(25) {
                lines.push_str(&self.const_line(name));
            }
        }
        for _ in 0..1 + self.r.below(5) {
            lines.push_str(&self.lines());
        }
        let bound = if self.r.chance(85) {
            "bound"
        } else {
            "unbound"
        };
        let mut kinds = format!("(kind {INPUT} in)\n(kind 20 reg)\n(kind 21 mem)\n");
        for name in INSTS {
            kinds.push_str(&format!("(kind {name} inst)\n"));
        }
        for name in WIRES {
            kinds.push_str(&format!("(kind {name} wire)\n"));
        }
        for name in OUTS..OUTS + self.outs {
            kinds.push_str(&format!("(kind {name} out)\n"));
        }
        format!("(module {number} {bound})\n{kinds}{values}{lines}")
    }

    /// Items whose reports show values.
    fn lines(&mut self) -> String {
        match self.r.weighted(&[26, 28, 16, 10, 14, 6]) {
            0 => self.instance(),
            1 => self.output(),
            2 => self.repeat(),
            3 => self.constif(),
            4 => self.signals(),
            _ => self.blocks(),
        }
    }

    fn const_line(&mut self, name: u32) -> String {
        let v = self.value();
        let e = self.constant(v);
        self.known.retain(|(n, _)| *n != name);
        self.known.push((name, v));
        format!("(const {name} {e})\n")
    }

    /// An instance that reads its own output where both indexes have one value.
    fn instance(&mut self) -> String {
        let v = self.value();
        let other = if self.r.chance(75) { v } else { self.value() };
        let name = self.r.pick(&INSTS);
        let (index, start, child) = (self.constant(v), self.start(), self.child);
        let own = format!("(f (ix (n {name}) {}) 3)", self.constant(other));
        let own = self.operated(&own);
        format!("(inst {name} {index} {child} {start} (conn 2 {own}))\n")
    }

    /// An output in a few parts, now and then with a gap between them or a bit in common.
    fn output(&mut self) -> String {
        let (name, start, width) = (self.next_out(), self.start(), self.r.pick(&WIDTHS));
        let word = self.r.pick(&["bits", "bits", "signed"]);
        let mut out = format!(
            "(port out {name} ({word} {}) {start})\n",
            self.constant(width)
        );
        let (mut low, parts) = (0, 1 + self.r.below(3));
        for part in 1..=parts {
            let high = if part == parts {
                width - 1
            } else {
                low + self.r.below((width - low) as u64) as i64
            };
            let from = low + [0, 1, -1][self.r.weighted(&[80, 12, 8])];
            out.push_str(&self.driven(name, high, from));
            low = high + 1;
            if low >= width {
                break;
            }
        }
        out
    }

    fn driven(&mut self, name: u32, high: i64, low: i64) -> String {
        let (start, high_e) = (self.start(), self.constant(high));
        let index = if high == low {
            high_e
        } else {
            format!("{high_e} {}", self.constant(low))
        };
        format!("(drive (lv {name} {start} {index}) {})\n", self.read(1))
    }

    /// An output of which each round drives a bit.
    fn repeat(&mut self) -> String {
        let name = self.next_out();
        let low = self.r.pick(&[-4, -1, 0, 0, 0, 1, 2]);
        let rounds = self.r.pick(&[0, 1, 2, 3, 4, 7, 8, 16]);
        let width = rounds + self.r.below(3) as i64;
        let width = self.constant(width);
        let (from, to) = (self.constant(low), self.constant(low + rounds));
        let (one, two) = (self.start(), self.start());
        let (index, read) = (self.of_variable(), self.read(1));
        format!(
            "(port out {name} (bits {width}) {one})\n\
             (repeat {VARIABLE} {from} {to} (drive (lv {name} {two} {index}) {read}))\n"
        )
    }

    fn of_variable(&mut self) -> String {
        let v = format!("(n {VARIABLE})");
        let c = self.r.below(9);
        if !self.inside {
            return match self.r.below(3) {
                0 => v,
                1 => format!("(add {v} {c})"),
                _ => format!("(sub {c} {v})"),
            };
        }
        match self.r.below(8) {
            0 => v,
            1 => format!("(bxor {v} {c})"),
            2 => format!("(bxor {v} (shr {v} 1))"),
            3 => format!("(shr {v} {})", 1 + c % 3),
            4 => format!("(shl {v} {})", c % 3),
            5 => format!("(band {v} {c})"),
            6 => format!("(bor {v} {c})"),
            _ => format!("(shl 1 {v})"),
        }
    }

    fn constif(&mut self) -> String {
        let (condition, start, name) = (self.truth(), self.start(), self.next_out());
        format!(
            "(constif {condition} (then (reg 20 {start})) (else (port out {name} bit {start})))\n"
        )
    }

    /// Wires, and an output whose index may be read.
    fn signals(&mut self) -> String {
        let mut out = String::new();
        for name in WIRES {
            if self.r.chance(70) {
                let (read, start) = (self.read(2), self.start());
                out.push_str(&format!("(wire {name} {read} {start})\n"));
            }
        }
        if self.r.chance(50) {
            let (name, signal) = (self.next_out(), self.r.pick(&WIRES));
            let index = match (self.inside, self.r.below(3)) {
                (_, 0) => String::new(),
                (true, _) => format!(" {}", self.operated(&format!("(n {signal})"))),
                (false, _) => format!(" (add (n {signal}) 1)"),
            };
            let (start, read) = (self.start(), self.read(2));
            out.push_str(&format!("(drive (lv {name} {start}{index}) {read})\n"));
        }
        out
    }

    fn blocks(&mut self) -> String {
        let (one, two, three) = (self.start(), self.start(), self.start());
        let mem = self.r.pick(&["", " (set 21 5)"]);
        format!("(reg 20 {one})\n(mem 21 {one})\n(on {two} (set 20 6))\n(on {three}{mem})\n")
    }

    fn start(&mut self) -> u64 {
        self.starts.next(&mut self.r)
    }

    fn next_out(&mut self) -> u32 {
        self.outs += 1;
        OUTS + self.outs - 1
    }

    /// A value to show.
    fn value(&mut self) -> i64 {
        match self.r.weighted(&[45, 15, 40]) {
            0 => self.r.range(0, 9),
            1 => self.r.range(-9, -1),
            _ => self.operand(),
        }
    }

    /// Around 0, powers of two and the ends of INT.
    fn operand(&mut self) -> i64 {
        match self.r.weighted(&[25, 60, 15]) {
            0 => self.r.range(-2, 2),
            1 => {
                let power = 1 << self.r.below(31);
                let sign = self.r.pick(&[1, 1, -1]);
                sign * (power + self.r.range(-1, 1))
            }
            _ => self.r.pick(&[INT_MIN, INT_MIN + 1, INT_MAX - 1, INT_MAX]),
        }
    }

    fn amount(&mut self) -> i64 {
        match self.r.weighted(&[70, 20, 10]) {
            0 => self.r.pick(&AMOUNTS),
            1 => self.r.range(WIDE.0, WIDE.1),
            _ => INT_MAX,
        }
    }

    /// An expression for a constant place, mostly with this value.
    fn constant(&mut self, v: i64) -> String {
        let blind = if self.wild { 16 } else { 0 };
        match self.r.weighted(&[95, 4, blind]) {
            0 => {
                let depth = 1 + self.r.below(3) as u32;
                self.of(v, depth)
            }
            1 => self.missing(),
            _ => self.blind(2),
        }
    }

    /// A condition, as often false as true.
    fn truth(&mut self) -> String {
        let v = if self.r.chance(50) { 0 } else { self.value() };
        self.constant(v)
    }

    /// An expression with this value: the operator's parts are chosen so that they make it.
    fn of(&mut self, v: i64, depth: u32) -> String {
        if depth == 0 {
            return self.leaf(v);
        }
        let d = depth - 1;
        if !self.inside {
            return self.plain(v, d);
        }
        let (a, b) = (self.operand(), self.operand());
        match self.r.weighted(&[16, 14, 14, 24, 18, 8, 6]) {
            0 => self.two("bxor", v ^ a, a, d),
            1 => self.two("band", v | a, v | (b & !a), d),
            2 => self.two("bor", v & a, v & (b | !a), d),
            3 => self.shifted_right(v, d),
            4 => self.shifted_left(v, d),
            5 => self.plain(v, d),
            _ => self.leaf(v),
        }
    }

    fn two(&mut self, op: &str, x: i64, y: i64, depth: u32) -> String {
        let (x, y) = if self.r.chance(50) { (x, y) } else { (y, x) };
        format!("({op} {} {})", self.of(x, depth), self.of(y, depth))
    }

    fn shifted_right(&mut self, v: i64, depth: u32) -> String {
        let fits = |k: i64| INT_MIN <= v << k && (v << k) + (1 << k) - 1 <= INT_MAX;
        let most = (0..=31).filter(|&k| fits(k)).max().unwrap_or(0);
        let (k, from) = match v {
            // all but the sign shifted away
            0 | -1 if self.r.chance(50) => {
                let k = self.amount().max(31);
                let from = self.operand();
                (k, if (from < 0) == (v < 0) { from } else { !from })
            }
            // by 0 a positive number is not comparable
            _ if most > 0 || self.r.chance(5) => {
                let k = self.r.range(most.min(1), most);
                let k = if self.r.chance(2) { 0 } else { k };
                (k, (v << k) + self.r.below(1 << k) as i64)
            }
            _ => return self.leaf(v),
        };
        self.shift("shr", from, k, depth)
    }

    fn shifted_left(&mut self, v: i64, depth: u32) -> String {
        if v == 0 {
            let k = self.amount().clamp(0, LAST_OF_ZERO);
            return self.shift("shl", 0, k, depth);
        }
        let most = i64::from(v.trailing_zeros().min(31));
        if most == 0 {
            // the high bits shifted into place, and the low ones put in
            let k = self.r.range(1, 8);
            let high = self.shift("shl", v >> k, k, depth);
            return format!("(bor {high} {})", number(v & ((1 << k) - 1)));
        }
        let k = if self.r.chance(5) {
            0
        } else {
            self.r.range(1, most)
        };
        self.shift("shl", v >> k, k, depth)
    }

    fn shift(&mut self, op: &str, from: i64, by: i64, depth: u32) -> String {
        let by = self.of(by, depth.min(1));
        format!("({op} {} {by})", self.of(from, depth))
    }

    /// Without any of the five at its top.
    fn plain(&mut self, v: i64, depth: u32) -> String {
        let (other, c) = (self.value(), self.r.range(0, 9));
        match self.r.below(4) {
            0 if v - c >= INT_MIN => self.two("add", v - c, c, depth),
            1 if v + c <= INT_MAX => {
                format!("(sub {} {})", self.of(v + c, depth), self.leaf(c))
            }
            2 => format!("(if {} {} {c})", c + 1, self.of(v, depth)),
            _ => format!("(if 0 {} {})", self.leaf(other), self.of(v, depth)),
        }
    }

    fn leaf(&mut self, v: i64) -> String {
        let known: Vec<u32> = self
            .known
            .iter()
            .filter(|(_, value)| *value == v)
            .map(|(name, _)| *name)
            .collect();
        if !known.is_empty() && self.r.chance(60) {
            return format!("(n {})", self.r.pick(&known));
        }
        if self.inside && !self.known.is_empty() && self.r.chance(15) {
            let (name, value) = self.r.pick(&self.known);
            return format!("(bxor (n {name}) {})", number(v ^ value));
        }
        number(v)
    }

    /// An expression without a value.
    fn missing(&mut self) -> String {
        if !self.inside {
            return self
                .r
                .pick(&["(n 39)", "(add 1 (n 39))", "(clog2 0)"])
                .to_string();
        }
        let (any, below, wide) = (
            self.operand(),
            self.r.range(1, 33),
            self.r.range(LAST_OF_ZERO + 1, WIDE.1),
        );
        let (any, below) = (number(any), number(-below));
        match self.r.below(7) {
            0 => format!("(shl {any} {below})"),
            1 => format!("(shr {any} {below})"),
            2 => format!("(shl 0 {wide})"),
            3 => format!("(shl 0 {INT_MAX})"),
            4 => format!("(band (n {MISSING}) {any})"),
            5 => format!("(bor {any} (n {MISSING}))"),
            _ => format!("(shr (n {MISSING}) {below})"),
        }
    }

    /// Operators and operands as they come.
    fn blind(&mut self, depth: u32) -> String {
        let op = self.r.pick(&BIT_OPS);
        let x = self.blind_part(depth);
        let y = match op {
            "shl" | "shr" => number(self.amount()),
            _ => self.blind_part(depth),
        };
        format!("({op} {x} {y})")
    }

    fn blind_part(&mut self, depth: u32) -> String {
        if depth > 0 && self.r.chance(40) {
            return self.blind(depth - 1);
        }
        let v = self.operand();
        self.leaf(v)
    }

    /// The expression under one or two of the five.
    fn operated(&mut self, e: &str) -> String {
        let mut e = e.to_string();
        for _ in 0..1 + self.r.below(2) {
            let (op, other) = (self.r.pick(&BIT_OPS), number(self.operand()));
            e = match self.r.below(2) {
                0 => format!("({op} {e} {other})"),
                _ => format!("({op} {other} {e})"),
            };
        }
        e
    }

    /// An expression that is read, mostly of the five.
    fn read(&mut self, depth: u32) -> String {
        if depth == 0 || self.r.chance(15) {
            return self.read_leaf();
        }
        let d = depth - 1;
        let (x, y) = (self.read(d), self.read(d));
        match self.r.weighted(&[76, 8, 8, 8]) {
            0 => format!("({} {x} {y})", self.r.pick(&BIT_OPS)),
            1 => format!("(all {x} {y})"),
            2 => format!("(ix {x} {y})"),
            _ => format!("(if {x} {y} 0)"),
        }
    }

    fn read_leaf(&mut self) -> String {
        match self.r.weighted(&[40, 25, 15, 20]) {
            0 => format!("(n {})", self.r.pick(&WIRES)),
            1 => number(self.operand()),
            2 => format!("(n {INPUT})"),
            _ => {
                let (name, v) = (self.r.pick(&INSTS), self.r.range(0, 4));
                format!("(f (ix (n {name}) {}) 3)", self.constant(v))
            }
        }
    }
}

/// A number as it is written: literals have no minus.
fn number(v: i64) -> String {
    match v {
        0.. => v.to_string(),
        INT_MIN => format!("(sub (neg {INT_MAX}) 1)"),
        _ => format!("(neg {})", -v),
    }
}
