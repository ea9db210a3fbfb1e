//! `loops` and `ties`: designs rich in combinational loops, within modules and through instances.

use super::plan::{Kind, Starts};
use super::rng::Rng;

/// The names of one module.
struct Shape {
    ins: Vec<u32>,
    outs: Vec<u32>,
    wires: Vec<u32>,
    /// Instance lines: name, index as written, module.
    insts: Vec<(u32, String, usize)>,
    /// Lines that stand for an array: name, module, rounds.
    arrays: Vec<(u32, usize, u64)>,
}

/// What a line of an ordered design may read: wires from one on, instances before one.
#[derive(Clone, Copy)]
struct Reach {
    wires_from: usize,
    insts_to: usize,
}

const ALL: Reach = Reach {
    wires_from: 0,
    insts_to: usize::MAX,
};

struct Writer<'a> {
    r: Rng,
    starts: Starts,
    shapes: &'a [Shape],
    /// Reads mostly go one way, so that many designs have no loop.
    ordered: bool,
}

const VAR: u32 = 200;
const MISSING: u32 = 201;
const REG: u32 = 199;
const VAL: u32 = 202;

pub fn loops(mut r: Rng) -> String {
    let starts = Starts::fresh(&mut r);
    design(r, starts)
}

pub fn ties(mut r: Rng) -> String {
    let starts = Starts::Few(1 + r.below(4));
    design(r, starts)
}

fn design(mut r: Rng, starts: Starts) -> String {
    let count = 1 + r.weighted(&[18, 34, 24, 14, 10]);
    // One summarised output for each module and no arrays: no two nodes share a line.
    let plain = r.chance(65);
    let order = r.below(4);
    let shapes: Vec<Shape> = (0..count)
        .map(|k| shape(&mut r, k, count, plain, order))
        .collect();
    let ordered = r.chance(35);
    let mut w = Writer {
        r,
        starts,
        shapes: &shapes,
        ordered,
    };
    (0..count).map(|k| w.module(k)).collect()
}

fn shape(r: &mut Rng, me: usize, count: usize, plain: bool, order: u64) -> Shape {
    let base = if r.chance(50) {
        0
    } else {
        40 * me as u32 % 160
    };
    let outs = if plain { 1 } else { 1 + r.below(3) as u32 };
    let ins = 1 + r.below(3) as u32;
    let wires = r.below(6) as u32;
    let mut s = Shape {
        ins: (base..base + ins).collect(),
        outs: (base + 5..base + 5 + outs).collect(),
        wires: (base + 10..base + 10 + wires).collect(),
        insts: Vec::new(),
        arrays: Vec::new(),
    };
    for k in 0..r.weighted(&[12, 38, 30, 20]) as u32 {
        let module = target(r, me, count, order);
        s.insts.push((base + 20 + k % 3, index(r), module));
    }
    if !plain && r.chance(50) {
        s.arrays
            .push((base + 30, target(r, me, count, order), 1 + r.below(4)));
    }
    s
}

/// Which module is instanced: later ones, earlier ones, any, or any and missing ones.
fn target(r: &mut Rng, me: usize, count: usize, order: u64) -> usize {
    match order {
        0 if me + 1 < count => me + 1 + r.below((count - me - 1) as u64) as usize,
        1 if me > 0 => r.below(me as u64) as usize,
        2 => r.below(count as u64) as usize,
        3 if r.chance(85) => r.below(count as u64) as usize,
        _ => r.pick(&[count, 255]),
    }
}

fn index(r: &mut Rng) -> String {
    match r.weighted(&[45, 35, 8, 6, 6]) {
        0 => "-".to_string(),
        1 => r.below(3).to_string(),
        2 => format!("(neg {})", 1 + r.below(2)),
        3 => format!("(n {MISSING})"),
        _ => format!("(n {VAL})"),
    }
}

impl Writer<'_> {
    fn start(&mut self) -> u64 {
        self.starts.next(&mut self.r)
    }

    fn module(&mut self, me: usize) -> String {
        let s = &self.shapes[me];
        let bound = if self.r.chance(80) {
            "bound"
        } else {
            "unbound"
        };
        let mut out = format!("(module {me} {bound})\n{}(val {VAL} 1)\n", kinds(s));
        let mut items = self.items(s);
        if self.r.chance(60) {
            self.r.shuffle(&mut items);
        }
        for item in items {
            out.push_str(&item);
            out.push('\n');
        }
        out
    }

    fn items(&mut self, s: &Shape) -> Vec<String> {
        let mut items = Vec::new();
        for (k, w) in s.wires.iter().enumerate() {
            let reach = Reach {
                wires_from: k + 1,
                ..ALL
            };
            let line = format!("(wire {w} {} {})", self.reads(s, reach), self.start());
            items.push(self.wrap(line));
        }
        for o in &s.outs {
            let start = self.start();
            items.push(format!("(port out {o} bit {start})"));
            let line = format!("(drive (lv {o} {}) {})", self.start(), self.reads(s, ALL));
            items.push(self.wrap(line));
        }
        for (k, (name, index, module)) in s.insts.iter().enumerate() {
            let (start, conns) = (self.start(), self.conns(s, *module, k));
            items.push(format!("(inst {name} {index} {module} {start}{conns})"));
        }
        for (name, module, rounds) in &s.arrays {
            items.push(self.array(s, *name, *module, *rounds));
        }
        items
    }

    /// Sometimes the line stands in a repeat or a constif.
    fn wrap(&mut self, line: String) -> String {
        match self.r.weighted(&[90, 4, 3, 3]) {
            0 => line,
            1 => format!("(repeat {VAR} 0 {} {line})", self.r.below(3)),
            2 => format!("(constif (n {VAL}) (then {line}) (else))"),
            _ => format!("(constif (n {MISSING}) (then) (else {line}))"),
        }
    }

    /// What one line reads, within its reach in an ordered design.
    fn reads(&mut self, s: &Shape, reach: Reach) -> String {
        let mut out = "(all".to_string();
        for _ in 0..self.r.weighted(&[6, 50, 30, 14]) {
            out.push(' ');
            out.push_str(&self.one_read(s, reach));
        }
        out + ")"
    }

    fn one_read(&mut self, s: &Shape, reach: Reach) -> String {
        let free = !self.ordered || self.r.chance(3);
        let reach = if free { ALL } else { reach };
        match self.r.weighted(&[30, 20, 8, 38, 4]) {
            1 => format!("(n {})", self.r.pick(&s.ins)),
            2 if free => format!("(n {})", self.r.pick(&s.outs)),
            3 => self.inst_output(s, reach),
            4 => format!("(n {})", self.r.pick(&[REG, MISSING, VAL])),
            _ => self.wire(s, reach.wires_from),
        }
    }

    fn wire(&mut self, s: &Shape, from: usize) -> String {
        let wires = &s.wires[from.min(s.wires.len())..];
        let name = if wires.is_empty() {
            self.r.pick(&s.ins)
        } else {
            self.r.pick(wires)
        };
        format!("(n {name})")
    }

    fn inst_output(&mut self, s: &Shape, reach: Reach) -> String {
        let insts = s.insts.len().min(reach.insts_to);
        let arrays = if reach.insts_to == usize::MAX {
            s.arrays.len()
        } else {
            0
        };
        let pick = self.r.below((insts + arrays) as u64) as usize;
        if pick < insts {
            let (name, index, module) = &s.insts[pick];
            return self.one_output(*name, index, *module);
        }
        match s.arrays[..arrays].get(pick - insts) {
            Some((name, module, rounds)) => {
                let at = self.array_index(false, *rounds);
                format!("(f (ix (n {name}) {at}) {})", self.field(*module))
            }
            None => self.wire(s, reach.wires_from),
        }
    }

    fn one_output(&mut self, name: u32, index: &str, module: usize) -> String {
        let field = self.field(module);
        if index == "-" || self.r.chance(6) {
            return format!("(f (n {name}) {field})");
        }
        format!("(f (ix (n {name}) {index}) {field})")
    }

    /// An index into an array: by the variable inside its repeat, else a number.
    fn array_index(&mut self, inside: bool, rounds: u64) -> String {
        if inside && self.r.chance(80) {
            return match self.r.weighted(&[60, 25, 15]) {
                0 => format!("(sub (n {VAR}) 1)"),
                1 => format!("(add (n {VAR}) 1)"),
                _ => format!("(n {VAR})"),
            };
        }
        self.r.below(rounds + 1).to_string()
    }

    fn field(&mut self, module: usize) -> u32 {
        match self.shapes.get(module) {
            Some(m) if self.r.chance(94) => self.r.pick(&m.outs),
            _ => 5,
        }
    }

    fn conns(&mut self, s: &Shape, module: usize, place: usize) -> String {
        let reach = Reach {
            wires_from: usize::MAX,
            insts_to: place,
        };
        let ins = self
            .shapes
            .get(module)
            .map(|m| m.ins.clone())
            .unwrap_or(vec![0]);
        let mut out = String::new();
        for name in ins {
            if self.r.chance(92) {
                out.push_str(&format!(" (conn {name} {})", self.reads(s, reach)));
            }
        }
        out
    }

    /// Instances indexed by the variable of a repeat, each fed by a neighbour.
    fn array(&mut self, s: &Shape, name: u32, module: usize, rounds: u64) -> String {
        let start = self.start();
        let ins = self
            .shapes
            .get(module)
            .map(|m| m.ins.clone())
            .unwrap_or_default();
        let mut conns = String::new();
        for port in ins {
            let read = if self.r.chance(70) {
                let at = self.array_index(true, rounds);
                format!("(f (ix (n {name}) {at}) {})", self.field(module))
            } else {
                self.reads(
                    s,
                    Reach {
                        wires_from: usize::MAX,
                        insts_to: 0,
                    },
                )
            };
            conns.push_str(&format!(" (conn {port} {read})"));
        }
        format!("(repeat {VAR} 0 {rounds} (inst {name} (n {VAR}) {module} {start}{conns}))")
    }
}

fn kinds(s: &Shape) -> String {
    let mut out = String::new();
    let mut write = |names: &[u32], kind: Kind| {
        for n in names {
            out.push_str(&format!("(kind {n} {})\n", kind.word()));
        }
    };
    write(&s.ins, Kind::In);
    write(&s.outs, Kind::Out);
    write(&s.wires, Kind::Wire);
    write(&[REG], Kind::Reg);
    let mut insts: Vec<u32> = s.insts.iter().map(|(n, _, _)| *n).collect();
    insts.extend(s.arrays.iter().map(|(n, _, _)| *n));
    insts.sort_unstable();
    insts.dedup();
    write(&insts, Kind::Inst);
    out
}
