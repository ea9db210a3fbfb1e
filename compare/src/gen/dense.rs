//! `dense`: four to eight names that all modules and nearly all lines share, so that lines meet:
//! ports fit connections, values that repeats and nested consts may change are used again, and now
//! and then a line has a name of another kind.

use super::expr::{self, Pool};
use super::plan::{Kind, Mod, Starts};
use super::rng::Rng;
use super::rounds;

/// In a matched design the kinds of the names 0 to 7 in every module, but for a few.
const ROLES: [Kind; 8] = [
    Kind::In,
    Kind::In,
    Kind::Out,
    Kind::Out,
    Kind::Wire,
    Kind::Inst,
    Kind::Inst,
    Kind::Wire,
];
const INS: [u32; 2] = [0, 1];
const OUTS: [u32; 2] = [2, 3];
const WIRES: [u32; 2] = [4, 7];
const INSTS: [u32; 2] = [5, 6];
/// A name without kind or value.
const MISSING: u32 = 9;
/// Regs that only show a value: from this name on.
const SHOWING: u32 = 10;
const LITERALS: [u64; 8] = [0, 0, 1, 1, 2, 3, 4, 5];

struct Dense<'a> {
    r: Rng,
    starts: Starts,
    mods: &'a [Mod],
    me: usize,
    names: Vec<u32>,
    matched: bool,
    pool: Pool,
    /// A name whose value the next item is to show.
    shown: Option<u32>,
    /// The next reg that shows one.
    showing: u32,
    /// How often, in a hundred, a matched module has a line that heads an input, an output line of
    /// an input, an instance line of another kind.
    odd: u64,
}

pub fn dense(mut r: Rng) -> String {
    match r.weighted(&[35, 45, 20]) {
        0 => design(r, false),
        1 => design(r, true),
        _ => rounds::rounds(r),
    }
}

fn design(mut r: Rng, matched: bool) -> String {
    let names = if matched { 8 } else { r.range(4, 8) as u32 };
    let count = 1 + r.weighted(if matched {
        &[5, 60, 25, 10]
    } else {
        &[35, 35, 20, 10]
    });
    let mods: Vec<Mod> = (0..count).map(|_| plan(&mut r, names, matched)).collect();
    let odd = r.pick(&[5, 15, 50]);
    let starts = if r.chance(85) {
        Starts::fresh(&mut r)
    } else {
        Starts::Few(8)
    };
    let mut d = Dense {
        r,
        starts,
        mods: &mods,
        me: 0,
        names: (0..names).collect(),
        matched,
        pool: Pool::default(),
        shown: None,
        showing: SHOWING,
        odd,
    };
    (0..count).map(|k| d.module(k)).collect()
}

fn plan(r: &mut Rng, names: u32, matched: bool) -> Mod {
    let mut kinds = Vec::new();
    let mut vals = Vec::new();
    for name in 0..names {
        if r.chance(92) {
            kinds.push((name, some_kind(r, name, matched)));
        }
        if r.chance(25) {
            vals.push((name, r.range(-2, 5)));
        }
    }
    Mod {
        bound: r.chance(75),
        kinds,
        vals,
    }
}

fn some_kind(r: &mut Rng, name: u32, matched: bool) -> Kind {
    if matched && name == 7 && r.chance(30) {
        return r.pick(&[Kind::Reg, Kind::Mem, Kind::Mem]);
    }
    if matched && r.chance(92) {
        return ROLES[name as usize];
    }
    Kind::ALL[r.weighted(&[18, 26, 18, 10, 10, 18])]
}

impl Dense<'_> {
    fn module(&mut self, me: usize) -> String {
        self.enter(me);
        let mut out = self.mods[me].header(me, &mut self.r);
        let mut items = if self.matched {
            self.frame()
        } else {
            Vec::new()
        };
        for _ in 0..self.r.range(1, 8) {
            items.push(self.item(2));
        }
        if self.r.chance(25) {
            self.r.shuffle(&mut items);
        }
        for item in items {
            out.push_str(&item);
            out.push('\n');
        }
        out
    }

    fn enter(&mut self, me: usize) {
        self.me = me;
        self.shown = None;
        self.showing = SHOWING;
        let m = &self.mods[me];
        let signals = [Kind::In, Kind::Out, Kind::Wire].map(|k| m.names(k));
        let mut fields: Vec<u32> = self.mods.iter().flat_map(|m| m.names(Kind::Out)).collect();
        fields.extend(INS);
        let mut consts: Vec<u32> = m.vals.iter().map(|(n, _)| *n).collect();
        consts.push(MISSING);
        self.pool = Pool {
            signals: signals.concat(),
            consts,
            insts: m.names(Kind::Inst),
            fields,
            any: self.names.clone(),
            literals: LITERALS.to_vec(),
        };
    }

    fn start(&mut self) -> u64 {
        self.starts.next(&mut self.r)
    }

    fn any(&mut self) -> u32 {
        self.r.pick(&self.names)
    }

    /// In a matched design mostly one of these names, else any.
    fn name(&mut self, fit: &[u32]) -> u32 {
        if self.matched && self.r.chance(86) {
            return self.r.pick(fit);
        }
        self.any()
    }

    fn read(&mut self, depth: u32) -> String {
        expr::read(&mut self.r, &self.pool, depth)
    }

    /// Often a bare name, which may have lost its value or have it back.
    fn constant(&mut self, depth: u32) -> String {
        match self.r.weighted(&[32, 12, 10, 46]) {
            0 => format!("(n {})", self.pool.constant(&mut self.r)),
            1 => format!("(n {})", self.any()),
            2 => self.half_missing(),
            _ => expr::constant(&mut self.r, &self.pool, depth),
        }
    }

    /// `and` or `or`, one operand without a value, the other deciding or not.
    fn half_missing(&mut self) -> String {
        let head = self.r.pick(&["and", "or"]);
        let known = self.r.pick(&["0", "1", "2", "true", "false"]);
        let e = if self.r.chance(50) {
            format!("({head} {known} (n {MISSING}))")
        } else {
            format!("({head} (n {MISSING}) {known})")
        };
        if self.r.chance(40) {
            return format!("(not {e})");
        }
        e
    }

    /// The lines that make modules fit: outputs that follow inputs, instances that connect them.
    fn frame(&mut self) -> Vec<String> {
        let mut items = Vec::new();
        for o in OUTS {
            if self.r.chance(80) {
                let line = self.port_line(o);
                items.push(self.wrap(line, self.odd / 2));
            }
            let line = match self.r.weighted(&[10, 40, 30, 20]) {
                0 => continue,
                1 => format!("(drive {} {})", self.lv(o, 75), self.read(1)),
                2 => format!("(drive {} (n {}))", self.lv(o, 90), self.r.pick(&INS)),
                _ => self.wire_line(o),
            };
            items.push(self.wrap(line, 8));
        }
        self.odd_lines(&mut items);
        self.wires(&mut items);
        for i in INSTS {
            if self.r.chance(60) {
                items.push(self.inst_line(i));
            }
        }
        self.blocks(&mut items);
        items
    }

    /// Lines whose names are of another kind: an input that reads the other one, an output line of
    /// an input, an instance line of a wire.
    fn odd_lines(&mut self, items: &mut Vec<String>) {
        for i in INS {
            if self.r.chance(self.odd) {
                let read = if self.r.chance(60) {
                    format!("(n {})", 1 - i)
                } else {
                    self.read(1)
                };
                items.push(format!("(wire {i} {read} {})", self.start()));
            }
            if self.r.chance(self.odd / 2) {
                items.push(self.port_line(i));
            }
        }
        if self.r.chance(self.odd) {
            let (name, module) = (self.r.pick(&WIRES), self.module_number());
            items.push(format!(
                "(inst {name} - {module} {} (conn 0 (n {})) (conn 1 (n {})))",
                self.start(),
                self.r.pick(&WIRES),
                self.pool.signal(&mut self.r)
            ));
        }
    }

    /// The wires, some in a ring.
    fn wires(&mut self, items: &mut Vec<String>) {
        let ring = self.r.chance(35);
        for w in WIRES {
            if ring {
                let other = if w == WIRES[0] { WIRES[1] } else { WIRES[0] };
                items.push(format!("(wire {w} (n {other}) {})", self.start()));
            } else if self.r.chance(70) {
                items.push(self.wire_line(w));
            }
        }
    }

    /// Each mem with two blocks.
    fn blocks(&mut self, items: &mut Vec<String>) {
        for name in self.mods[self.me].names(Kind::Mem) {
            if self.r.chance(70) {
                items.push(format!("(mem {name} {})", self.start()));
                items.push(format!("(on {}{})", self.start(), self.statements(1)));
                items.push(format!("(on {}{})", self.start(), self.statements(1)));
            }
        }
    }

    /// Sometimes the line stands in a repeat or a constif.
    fn wrap(&mut self, line: String, percent: u64) -> String {
        if !self.r.chance(percent) {
            return line;
        }
        if self.r.chance(50) {
            return format!("(repeat {MISSING} 0 1 {line})");
        }
        format!("(constif {} (then {line}) (else))", self.r.pick(&[0, 1, 1]))
    }

    fn items(&mut self, nest: u32, most: u64) -> String {
        let mut out = String::new();
        for _ in 0..self.r.below(most + 1) {
            out.push(' ');
            out.push_str(&self.item(nest));
        }
        out
    }

    /// One item; items inside it are at most `nest` deep.
    fn item(&mut self, nest: u32) -> String {
        if let Some(name) = self.shown.take() {
            if self.r.chance(60) {
                return self.show(name);
            }
        }
        let deep = u64::from(nest > 0);
        match self
            .r
            .weighted(&[14, 14, 3, 5, 6, 18, 8, 12, 14 * deep, 9 * deep])
        {
            0 => {
                let name = self.name(&OUTS);
                self.port_line(name)
            }
            1 => {
                let name = self.name(&WIRES);
                self.wire_line(name)
            }
            2 => format!("(reg {} {})", self.any(), self.start()),
            3 => format!("(mem {} {})", self.any(), self.start()),
            4 => self.const_line(),
            5 => {
                let name = self.name(&[2, 3, 2, 3, 4]);
                format!("(drive {} {})", self.lv(name, 30), self.read(1))
            }
            6 => format!("(on {}{})", self.start(), self.statements(1)),
            7 => {
                let name = self.name(&INSTS);
                self.inst_line(name)
            }
            8 => self.repeat(nest),
            _ => self.constif(nest),
        }
    }

    fn port_line(&mut self, name: u32) -> String {
        let way = if self.r.chance(92) { "out" } else { "in" };
        let t = match self.r.weighted(&[20, 45, 10, 25]) {
            0 => "bit".to_string(),
            1 => format!("(bits {})", self.constant(1)),
            2 => format!("(signed {})", self.constant(1)),
            _ => "opaque".to_string(),
        };
        format!("(port {way} {name} {t} {})", self.start())
    }

    fn wire_line(&mut self, name: u32) -> String {
        format!("(wire {name} {} {})", self.read(1), self.start())
    }

    /// Its name is used again, whether the line stands at the top or not.
    fn const_line(&mut self) -> String {
        let name = self.any();
        let line = format!("(const {name} {})", self.constant(1));
        self.pool.consts.push(name);
        self.shown = Some(name);
        line
    }

    /// An item that comes out otherwise where the name has another value or none.
    fn show(&mut self, name: u32) -> String {
        let reg = self.showing;
        self.showing = (reg + 2).min(250);
        match self.r.weighted(&[40, 30, 15, 15]) {
            0 => format!(
                "(constif (n {name}) (then (reg {reg} {})) (else (reg {} {})))",
                self.start(),
                reg + 1,
                self.start()
            ),
            1 => format!(
                "(constif (eq (n {name}) {}) (then (reg {reg} {})) (else))",
                self.r.below(4),
                self.start()
            ),
            2 => {
                let output = self.name(&OUTS);
                format!("(drive (lv {output} {} (n {name})) 0)", self.start())
            }
            _ => {
                let (inst, field) = (self.name(&INSTS), self.name(&OUTS));
                let module = self.module_number();
                format!(
                    "(inst {inst} (n {name}) {module} {} (conn 0 (f (ix (n {inst}) (n {name})) {field})))",
                    self.start()
                )
            }
        }
    }

    fn lv(&mut self, name: u32, whole: u64) -> String {
        let start = self.start();
        if self.r.chance(whole) {
            return format!("(lv {name} {start})");
        }
        if self.r.chance(50) {
            return format!("(lv {name} {start} {})", self.constant(1));
        }
        format!(
            "(lv {name} {start} {} {})",
            self.constant(1),
            self.constant(1)
        )
    }

    fn statements(&mut self, nest: u32) -> String {
        let mut out = String::new();
        for _ in 0..self.r.below(4) {
            out.push(' ');
            out.push_str(&self.statement(nest));
        }
        out
    }

    fn statement(&mut self, nest: u32) -> String {
        let deep = u64::from(nest);
        match self.r.weighted(&[45, 35, 10 * deep, 10 * deep]) {
            0 => format!("(set {} {})", self.state(), self.start()),
            1 => format!("(default {})", self.state()),
            2 => format!("(loop{})", self.statements(nest - 1)),
            _ => format!(
                "(when (then{}) (else{}))",
                self.statements(nest - 1),
                self.statements(nest - 1)
            ),
        }
    }

    /// A reg or a mem where there is one, sometimes another name.
    fn state(&mut self) -> u32 {
        let m = &self.mods[self.me];
        let names = [m.names(Kind::Reg), m.names(Kind::Mem)].concat();
        if names.is_empty() || self.r.chance(25) {
            return self.any();
        }
        self.r.pick(&names)
    }

    /// Mostly another module, sometimes this one or a missing one.
    fn module_number(&mut self) -> usize {
        let count = self.mods.len();
        match self.r.weighted(&[75, 20, 5]) {
            0 => (self.me + 1 + self.r.below(count as u64 - 1) as usize) % count,
            1 => self.r.below(count as u64) as usize,
            _ => count,
        }
    }

    fn inst_line(&mut self, name: u32) -> String {
        let index = match self.r.weighted(&[50, 12, 38]) {
            0 => "-".to_string(),
            1 => format!("(n {MISSING})"),
            _ => self.constant(1),
        };
        let module = self.module_number();
        let own = match self.r.weighted(&[30, 60, 10]) {
            1 if index != "-" => format!("(ix (n {name}) {index})"),
            2 => format!("(ix (n {name}) (n {MISSING}))"),
            _ => format!("(n {name})"),
        };
        let start = self.start();
        let mut conns = String::new();
        for _ in 0..self.r.weighted(&[5, 45, 40, 10]) {
            let port = self.name(&INS);
            let e = if self.r.chance(35) {
                format!("(f {own} {})", self.name(&[2, 3, 2, 3, 0, 1]))
            } else {
                self.read(1)
            };
            conns.push_str(&format!(" (conn {port} {e})"));
        }
        format!("(inst {name} {index} {module} {start}{conns})")
    }

    /// The variable is used inside, and again afterwards.
    fn repeat(&mut self, nest: u32) -> String {
        let var = match self.pool.consts.last() {
            Some(&last) if self.r.chance(30) => last,
            _ => self.any(),
        };
        let (low, high) = match self.r.weighted(&[60, 15, 25]) {
            0 => ("0".to_string(), self.r.range(1, 3).to_string()),
            1 => (self.constant(1), self.r.range(1, 4).to_string()),
            _ => (self.constant(1), self.constant(1)),
        };
        self.pool.consts.extend([var, var]);
        let body = self.items(nest - 1, 3);
        self.shown = Some(var);
        format!("(repeat {var} {low} {high}{body})")
    }

    fn constif(&mut self, nest: u32) -> String {
        let condition = self.constant(1);
        let then = self.items(nest - 1, 2);
        let other = self.items(nest - 1, 2);
        format!("(constif {condition} (then{then}) (else{other}))")
    }
}
