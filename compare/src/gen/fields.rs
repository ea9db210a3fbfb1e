//! `fields`: designs whose lines read fields of signals, of instance outputs and of other forms, in
//! every place that is read, so that loops and summaries go through them. Each sixteenth text is at
//! a limit by such reads, or one past it.

use super::expr::{BIT_OPS, ONE_PART, TWO_PART};
use super::limits;
use super::plan::Starts;
use super::rng::Rng;

const INS: [u32; 2] = [0, 1];
const OUTS: [u32; 2] = [2, 3];
const WIRES: [u32; 4] = [4, 5, 6, 7];
const INSTS: [u32; 2] = [8, 9];
/// An array of instances.
const ROW: u32 = 10;
const REG: u32 = 11;
const MEM: u32 = 12;
/// A repeat variable, a name with the value 1, and one with neither value nor kind.
const VAR: u32 = 13;
const VAL: u32 = 14;
const BARE: u32 = 15;
/// Leaves INT where it is evaluated.
const BIG: &str = "(mul 65536 65536)";

/// What a line of an ordered design may read: wires from one on, instances before one.
#[derive(Clone, Copy)]
struct Reach {
    wires_from: usize,
    insts_to: usize,
    outs: bool,
}

const ANY: Reach = Reach {
    wires_from: 0,
    insts_to: usize::MAX,
    outs: true,
};

struct Fields {
    r: Rng,
    starts: Starts,
    /// How many modules there are, and which one is written.
    count: usize,
    me: usize,
    /// Instances are of later modules, or of earlier ones.
    later: bool,
    /// Reads go one way, so that few designs have a loop.
    ordered: bool,
    /// Now and then the index of an instance leaves INT.
    wild: bool,
    /// The indexes of the instance lines.
    indexes: [Option<u64>; 2],
}

/// Text i of the profile.
pub fn fields(mut r: Rng, i: u64) -> String {
    if i % 16 == 15 {
        return at_limit(&mut r);
    }
    let starts = match r.chance(92) {
        true => Starts::fresh(&mut r),
        false => Starts::Few(9),
    };
    let count = 1 + r.weighted(&[20, 50, 30]);
    let (later, ordered, wild) = (r.chance(50), r.chance(45), r.chance(10));
    let mut m = Fields {
        r,
        starts,
        count,
        me: 0,
        later,
        ordered,
        wild,
        indexes: [None; 2],
    };
    (0..count).map(|me| m.module(me)).collect()
}

fn at_limit(r: &mut Rng) -> String {
    let past = r.below(2) as usize;
    let last = r.pick(&limits::BY_A_FIELD);
    match r.below(4) {
        0 => limits::nodes_by_fields(512 + past, last),
        1 => limits::edges_by_fields(4096 + past, last),
        2 => limits::in_fields(&limits::triples(1024 + past, r.below(2) as usize)),
        _ => limits::in_fields(&limits::report(limits::REPORT_BYTES + past)),
    }
}

impl Fields {
    fn start(&mut self) -> u64 {
        self.starts.next(&mut self.r)
    }

    fn module(&mut self, me: usize) -> String {
        self.me = me;
        for k in 0..INSTS.len() {
            self.indexes[k] = self.r.chance(50).then(|| self.r.below(2));
        }
        let mut items = Vec::new();
        self.wires(&mut items);
        self.outputs(&mut items);
        self.instances(&mut items);
        self.others(&mut items);
        self.r.shuffle(&mut items);
        let mut out = self.header();
        for item in items {
            out.push_str(&item);
            out.push('\n');
        }
        out
    }

    fn header(&mut self) -> String {
        let bound = if self.r.chance(80) {
            "bound"
        } else {
            "unbound"
        };
        let mut out = format!("(module {} {bound})\n", self.me);
        for (names, kind) in [
            (&INS[..], "in"),
            (&OUTS, "out"),
            (&WIRES, "wire"),
            (&INSTS, "inst"),
            (&[ROW], "inst"),
            (&[REG], "reg"),
            (&[MEM], "mem"),
        ] {
            for name in names {
                out.push_str(&format!("(kind {name} {kind})\n"));
            }
        }
        out.push_str(&format!("(val {VAL} 1)\n"));
        // A wire with a value is read all the same, but not as the index of an instance.
        if self.r.chance(40) {
            out.push_str(&format!("(val {} 0)\n", WIRES[0]));
        }
        out
    }

    fn wires(&mut self, items: &mut Vec<String>) {
        for (k, name) in WIRES.into_iter().enumerate() {
            if self.r.chance(65) {
                let (read, start) = (self.read(wire_reach(k)), self.start());
                let line = format!("(wire {name} {read} {start})");
                items.push(self.wrap(line));
            }
        }
    }

    fn outputs(&mut self, items: &mut Vec<String>) {
        let count = 1 + self.r.weighted(&[75, 25]);
        for name in &OUTS[..count] {
            let reach = Reach { outs: false, ..ANY };
            let (width, start) = (self.width(), self.start());
            items.push(format!("(port out {name} {width} {start})"));
            let (lv, read) = (self.lv(*name, reach), self.read(reach));
            items.push(self.wrap(format!("(drive {lv} {read})")));
        }
    }

    fn width(&mut self) -> String {
        match self.r.weighted(&[70, 15, 10, 5]) {
            0 => "bit".to_string(),
            1 => "(bits 4)".to_string(),
            2 => format!("(bits {})", self.field(ANY, 0)),
            _ => "opaque".to_string(),
        }
    }

    /// Whole, at a number, or at fields, which are read.
    fn lv(&mut self, name: u32, reach: Reach) -> String {
        let (start, reach) = (self.start(), self.within(reach));
        let index = match self.r.weighted(&[58, 12, 20, 5, 5]) {
            0 => String::new(),
            1 => " 0".to_string(),
            2 => format!(" {}", self.field(reach, 1)),
            3 => format!(" {} 0", self.field(reach, 1)),
            _ => format!(" 3 {}", self.field(reach, 1)),
        };
        format!("(lv {name} {start}{index})")
    }

    fn instances(&mut self, items: &mut Vec<String>) {
        for (k, name) in INSTS.into_iter().enumerate() {
            if self.r.chance(70) {
                let index = self.indexes[k].map_or("-".to_string(), |v| v.to_string());
                let reach = Reach {
                    wires_from: usize::MAX,
                    insts_to: k,
                    outs: false,
                };
                let (module, start) = (self.target(), self.start());
                let mut conns = String::new();
                for port in INS {
                    if self.r.chance(85) {
                        conns.push_str(&format!(" (conn {port} {})", self.read(reach)));
                    }
                }
                items.push(format!("(inst {name} {index} {module} {start}{conns})"));
            }
        }
    }

    /// Mostly a module on one side of this one, else any, or a missing one.
    fn target(&mut self) -> usize {
        let others = if self.later {
            self.me + 1..self.count
        } else {
            0..self.me
        };
        match self.r.weighted(&[88, 8, 4]) {
            0 if !others.is_empty() => others.start + self.r.below(others.len() as u64) as usize,
            2 => self.count,
            _ => self.r.below(self.count as u64) as usize,
        }
    }

    /// Lines that few modules have.
    fn others(&mut self, items: &mut Vec<String>) {
        if self.r.chance(12) {
            items.push(self.row());
        }
        if self.r.chance(8) {
            let k = self.r.below(WIRES.len() as u64) as usize;
            let reach = wire_reach(k);
            let (lv, read) = (self.lv(WIRES[k], reach), self.read(reach));
            items.push(format!("(drive {lv} {read})"));
        }
        if self.r.chance(8) {
            let name = self.r.pick(&[REG, MEM, BARE]);
            let (lv, read) = (self.lv(name, ANY), self.read(ANY));
            items.push(format!("(drive {lv} {read})"));
        }
        if self.r.chance(12) {
            items.push(self.headed());
        }
        if self.r.chance(12) {
            let (one, two) = (self.start(), self.start());
            items.push(format!("(reg {REG} {one})"));
            items.push(format!("(on {two} (set {MEM} {two}))"));
        }
        if self.r.chance(6) {
            items.push(format!("(const {VAL} {})", self.field(ANY, 0)));
        }
    }

    /// A wire line heads its name whatever the kind; only an input among these is read.
    fn headed(&mut self) -> String {
        let name = match self.ordered {
            true => self.r.pick(&[REG, MEM, BARE]),
            false => self.r.pick(&[REG, MEM, BARE, INS[0]]),
        };
        let (field, read) = (self.r.pick(&OUTS), self.read(wire_reach(0)));
        format!(
            "(wire {name} (all (f (n {name}) {field}) {read}) {})",
            self.start()
        )
    }

    /// Instances in a row, each fed by a field of its neighbour's output.
    fn row(&mut self) -> String {
        let (rounds, module, start) = (1 + self.r.below(4), self.target(), self.start());
        let at = match self.ordered || self.r.chance(50) {
            true => format!("(sub (n {VAR}) 1)"),
            false => format!("(sub {} (n {VAR}))", rounds - 1),
        };
        let (port, output) = (self.r.pick(&INS), self.r.pick(&OUTS));
        let read = format!("(f (f (ix (n {ROW}) {at}) {output}) {})", self.r.below(9));
        format!(
            "(repeat {VAR} 0 {rounds} (inst {ROW} (n {VAR}) {module} {start} (conn {port} {read})))"
        )
    }

    /// Sometimes the line stands in a repeat or a constif. A field there has no value.
    fn wrap(&mut self, line: String) -> String {
        match self.r.weighted(&[82, 6, 4, 4, 4]) {
            0 => line,
            1 => format!("(repeat {VAR} 0 {} {line})", self.r.below(4)),
            2 => format!("(constif (n {VAL}) (then {line}) (else))"),
            3 => format!("(constif {} (then) (else {line}))", self.field(ANY, 0)),
            _ => format!("(repeat {VAR} 0 {} {line})", self.field(ANY, 0)),
        }
    }

    /// Only ordered designs keep to a reach, and not always.
    fn within(&mut self, reach: Reach) -> Reach {
        if !self.ordered || self.r.chance(2) {
            return ANY;
        }
        reach
    }

    /// What a line reads, mostly by fields.
    fn read(&mut self, reach: Reach) -> String {
        let reach = self.within(reach);
        let mut parts = Vec::new();
        for _ in 0..1 + self.r.weighted(&[55, 35, 10]) {
            parts.push(match self.r.chance(86) {
                true => self.field(reach, 1),
                false => self.source(reach),
            });
        }
        match parts.len() {
            1 => parts.remove(0),
            _ => format!("(all {})", parts.join(" ")),
        }
    }

    /// A field, with others inside it at most `nest` deep. It is no output of an instance: no source
    /// is the name of one, indexed or not.
    fn field(&mut self, reach: Reach, nest: u32) -> String {
        let e = match nest > 0 && self.r.chance(30) {
            true => self.field(reach, nest - 1),
            false => self.source(reach),
        };
        let inner = match self.r.weighted(&[40, 14, 14, 12, 8, 6, 6]) {
            0 => e,
            1 => format!("(ix {e} {})", self.index(reach)),
            2 => {
                let name = self.r.pick(&[INS[0], REG, MEM, BARE, VAL]);
                format!("(ix (n {name}) {e})")
            }
            3 => format!("(all {} {e})", self.r.below(9)),
            4 => {
                let at = self.r.below(3) as usize;
                let mut parts = ["0", "1", BIG];
                parts[at] = &e;
                format!("(if {})", parts.join(" "))
            }
            5 => format!(
                "({} {BIG} {e})",
                self.r.pick(&[&TWO_PART[..], &BIT_OPS].concat())
            ),
            _ => format!("({} {e})", self.r.pick(&ONE_PART)),
        };
        // Mostly names of outputs: a field taken for an output of an instance would show.
        format!("(f {inner} {})", self.r.pick(&[2, 2, 3, 4, 5]))
    }

    /// An index that is read and not evaluated.
    fn index(&mut self, reach: Reach) -> String {
        match self.r.weighted(&[25, 45, 15, 15]) {
            0 => self.r.pick(&["0", BIG]).to_string(),
            1 => self.source(reach),
            2 => format!("(all {BIG} {})", self.source(reach)),
            _ => format!("(n {VAR})"),
        }
    }

    fn source(&mut self, reach: Reach) -> String {
        let wires = WIRES.get(reach.wires_from..).unwrap_or_default();
        let name = match self.r.weighted(&[38, 14, 8, 28, 6, 4, 2]) {
            0 if !wires.is_empty() => self.r.pick(wires),
            2 if reach.outs => self.r.pick(&OUTS),
            3 => return self.output(reach),
            4 => self.r.pick(&[REG, MEM, VAL, BARE]),
            5 => return self.no_output(reach),
            6 => return self.r.below(9).to_string(),
            _ => self.r.pick(&INS),
        };
        format!("(n {name})")
    }

    /// An instance in a form of which no field is an output; its index there is read.
    fn no_output(&mut self, reach: Reach) -> String {
        let name = self.r.pick(&INSTS);
        match self.r.below(4) {
            0 => format!("(all (n {name}))"),
            1 => format!("(all (ix (n {name}) {}))", self.source(reach)),
            2 => format!("(ix (ix (n {name}) {}) 0)", self.source(reach)),
            _ => format!("(ix (all (n {name})) 0)"),
        }
    }

    /// An output of an instance, whose index is not read; an input where there is no instance.
    fn output(&mut self, reach: Reach) -> String {
        let insts = INSTS.len().min(reach.insts_to);
        let row = reach.insts_to > INSTS.len() && self.r.chance(10);
        let port = OUTS[self.r.weighted(&[80, 20])];
        if row {
            return format!("(f (ix (n {ROW}) {}) {port})", self.r.below(4));
        }
        if insts == 0 {
            return format!("(n {})", self.r.pick(&INS));
        }
        let k = self.r.below(insts as u64) as usize;
        match self.indexes[k] {
            None => format!("(f (n {}) {port})", INSTS[k]),
            Some(v) => format!("(f (ix (n {}) {}) {port})", INSTS[k], self.value(v)),
        }
    }

    /// A constant, mostly with this value.
    fn value(&mut self, v: u64) -> String {
        let outside = if self.wild { 25 } else { 0 };
        let wire = self.r.pick(&WIRES);
        match self.r.weighted(&[60, 14, 10, 6, 10, outside]) {
            0 => v.to_string(),
            1 => format!("(if 1 {v} (f (n {wire}) 1))"),
            2 => format!("(n {})", WIRES[0]),
            3 => format!("(f (n {wire}) 1)"),
            4 => format!("(n {VAR})"),
            _ => BIG.to_string(),
        }
    }
}

/// What wire k of an ordered design may read.
fn wire_reach(k: usize) -> Reach {
    Reach {
        wires_from: k + 1,
        outs: false,
        ..ANY
    }
}
