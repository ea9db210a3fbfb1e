//! Random items and statements in their written form, over a plan of modules.

use super::expr::{self, Pool};
use super::plan::{Kind, Mod, Starts};
use super::rng::Rng;

/// Writes the items of module `me` of a plan.
pub struct Maker<'a> {
    pub r: Rng,
    pub starts: Starts,
    pub mods: &'a [Mod],
    pub me: usize,
    pub pool: Pool,
    /// Names for repeat variables.
    pub vars: Vec<u32>,
}

/// How often each item kind is drawn.
pub type Weights = [u64; 11];

const PORT_OUT: usize = 0;
const PORT_IN: usize = 1;
const WIRE: usize = 2;
const REG: usize = 3;
const MEM: usize = 4;
const CONST: usize = 5;
const DRIVE: usize = 6;
const ON: usize = 7;
const INST: usize = 8;
const REPEAT: usize = 9;

impl<'a> Maker<'a> {
    /// Turns to module `me`, with its names to draw from.
    pub fn enter(&mut self, me: usize, any: &[u32], literals: &[u64]) {
        self.me = me;
        let m = &self.mods[me];
        let mut signals = m.names(Kind::In);
        signals.extend(m.names(Kind::Out));
        signals.extend(m.names(Kind::Wire));
        self.pool = Pool {
            signals,
            consts: m.vals.iter().map(|(n, _)| *n).collect(),
            insts: m.names(Kind::Inst),
            fields: self.mods.iter().flat_map(|m| m.names(Kind::Out)).collect(),
            any: any.to_vec(),
            literals: literals.to_vec(),
        };
    }

    pub fn start(&mut self) -> u64 {
        self.starts.next(&mut self.r)
    }

    pub fn read(&mut self, depth: u32) -> String {
        expr::read(&mut self.r, &self.pool, depth)
    }

    pub fn constant(&mut self, depth: u32) -> String {
        expr::constant(&mut self.r, &self.pool, depth)
    }

    /// A name of the kind where there is one, sometimes another.
    pub fn name(&mut self, kind: Kind) -> u32 {
        let names = self.mods[self.me].names(kind);
        if names.is_empty() || self.r.chance(12) {
            return self.any();
        }
        self.r.pick(&names)
    }

    pub fn any(&mut self) -> u32 {
        if self.pool.any.is_empty() {
            return 255;
        }
        self.r.pick(&self.pool.any)
    }

    /// One item; items inside it are at most `nest` deep.
    pub fn item(&mut self, weights: &Weights, nest: u32) -> String {
        match self.r.weighted(weights) {
            PORT_OUT => self.port_out(),
            PORT_IN => self.port_in(),
            WIRE => self.wire(),
            REG => format!("(reg {} {})", self.name(Kind::Reg), self.start()),
            MEM => format!("(mem {} {})", self.name(Kind::Mem), self.start()),
            CONST => self.const_line(),
            DRIVE => self.drive(),
            ON => self.on(2),
            INST => self.inst(),
            REPEAT if nest > 0 => self.repeat(weights, nest),
            _ if nest > 0 => self.constif(weights, nest),
            _ => self.drive(),
        }
    }

    pub fn items(&mut self, weights: &Weights, nest: u32, most: u64) -> String {
        let mut out = String::new();
        for _ in 0..self.r.below(most + 1) {
            out.push(' ');
            out.push_str(&self.item(weights, nest));
        }
        out
    }

    pub fn type_of(&mut self) -> String {
        match self.r.weighted(&[15, 60, 15, 10]) {
            0 => "bit".to_string(),
            1 => format!("(bits {})", self.constant(2)),
            2 => format!("(signed {})", self.constant(2)),
            _ => "opaque".to_string(),
        }
    }

    fn port_out(&mut self) -> String {
        format!(
            "(port out {} {} {})",
            self.name(Kind::Out),
            self.type_of(),
            self.start()
        )
    }

    fn port_in(&mut self) -> String {
        format!(
            "(port in {} {} {})",
            self.name(Kind::In),
            self.type_of(),
            self.start()
        )
    }

    fn wire(&mut self) -> String {
        format!(
            "(wire {} {} {})",
            self.name(Kind::Wire),
            self.read(2),
            self.start()
        )
    }

    fn const_line(&mut self) -> String {
        let name = if self.r.chance(70) {
            self.pool.constant(&mut self.r)
        } else {
            self.any()
        };
        let line = format!("(const {name} {})", self.constant(2));
        if self.r.chance(60) {
            self.pool.consts.push(name);
        }
        line
    }

    pub fn drive(&mut self) -> String {
        let kind = match self.r.weighted(&[70, 10, 6, 5, 3, 3]) {
            0 => Kind::Out,
            1 => Kind::Wire,
            2 => Kind::Reg,
            3 => Kind::Mem,
            4 => Kind::In,
            _ => Kind::Inst,
        };
        let name = self.name(kind);
        format!("(drive {} {})", self.lv(name), self.read(2))
    }

    fn lv(&mut self, name: u32) -> String {
        let start = self.start();
        match self.r.weighted(&[35, 30, 35]) {
            0 => format!("(lv {name} {start})"),
            1 => format!("(lv {name} {start} {})", self.constant(1)),
            _ => format!(
                "(lv {name} {start} {} {})",
                self.constant(1),
                self.constant(1)
            ),
        }
    }

    pub fn on(&mut self, nest: u32) -> String {
        format!("(on {}{})", self.start(), self.statements(nest, 4))
    }

    fn statements(&mut self, nest: u32, most: u64) -> String {
        let mut out = String::new();
        for _ in 0..self.r.below(most + 1) {
            out.push(' ');
            out.push_str(&self.statement(nest));
        }
        out
    }

    fn statement(&mut self, nest: u32) -> String {
        let depth = if nest == 0 { 0 } else { 1 };
        match self.r.weighted(&[50, 20, 12 * depth, 18 * depth]) {
            0 => self.set(),
            1 => self.default_line(),
            2 => format!("(loop{})", self.statements(nest - 1, 3)),
            _ => format!(
                "(when (then{}) (else{}))",
                self.statements(nest - 1, 2),
                self.statements(nest - 1, 2)
            ),
        }
    }

    fn set(&mut self) -> String {
        let kind = match self.r.weighted(&[55, 25, 8, 8, 2, 2]) {
            0 => Kind::Reg,
            1 => Kind::Mem,
            2 => Kind::Wire,
            3 => Kind::Out,
            4 => Kind::In,
            _ => Kind::Inst,
        };
        format!("(set {} {})", self.name(kind), self.start())
    }

    fn default_line(&mut self) -> String {
        let kind = if self.r.chance(75) {
            Kind::Reg
        } else {
            self.r.pick(&Kind::ALL)
        };
        format!("(default {})", self.name(kind))
    }

    fn inst(&mut self) -> String {
        let module = self.module_number();
        let index = if self.r.chance(50) {
            "-".to_string()
        } else {
            self.constant(1)
        };
        let name = self.name(Kind::Inst);
        let start = self.start();
        let own = match index.as_str() {
            "-" => format!("(n {name})"),
            index => format!("(ix (n {name}) {index})"),
        };
        format!(
            "(inst {name} {index} {module} {start}{})",
            self.conns(module, &own)
        )
    }

    fn module_number(&mut self) -> usize {
        if self.r.chance(8) {
            return self.r.pick(&[self.mods.len(), 255]);
        }
        self.r.below(self.mods.len() as u64) as usize
    }

    /// Connections, mostly to inputs of the module, some from its own outputs.
    fn conns(&mut self, module: usize, own: &str) -> String {
        let of = |m: &Mod| (m.names(Kind::In), m.names(Kind::Out));
        let (ins, outs) = self.mods.get(module).map(of).unwrap_or_default();
        let mut out = String::new();
        for _ in 0..self.r.below(4) {
            let port = if ins.is_empty() || self.r.chance(12) {
                self.any()
            } else {
                self.r.pick(&ins)
            };
            let e = if !outs.is_empty() && self.r.chance(35) {
                format!("(f {own} {})", self.r.pick(&outs))
            } else {
                self.read(2)
            };
            out.push_str(&format!(" (conn {port} {e})"));
        }
        out
    }

    fn repeat(&mut self, weights: &Weights, nest: u32) -> String {
        let var = if self.vars.is_empty() || self.r.chance(15) {
            self.any()
        } else {
            self.r.pick(&self.vars)
        };
        let (low, high) = self.bounds();
        let known = self.pool.consts.len();
        self.pool.consts.extend([var, var]);
        let body = self.items(weights, nest - 1, 3);
        self.pool.consts.truncate(known);
        format!("(repeat {var} {low} {high}{body})")
    }

    fn bounds(&mut self) -> (String, String) {
        let pair = |low: &str, high: &str| (low.to_string(), high.to_string());
        match self.r.weighted(&[55, 8, 6, 8, 8, 2, 2, 11]) {
            0 => ("0".to_string(), self.r.range(1, 4).to_string()),
            1 => pair("3", "1"),
            2 => pair("2", "2"),
            3 => pair("0", "(n 254)"),
            4 => pair("(neg 2)", "1"),
            5 => pair("0", "4096"),
            6 => pair("0", "4097"),
            _ => (self.constant(1), self.constant(1)),
        }
    }

    fn constif(&mut self, weights: &Weights, nest: u32) -> String {
        let condition = self.constant(2);
        let then = self.items(weights, nest - 1, 2);
        let other = self.items(weights, nest - 1, 2);
        format!("(constif {condition} (then{then}) (else{other}))")
    }
}
