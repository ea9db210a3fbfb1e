//! `sites`: outputs driven in many parts.

use super::rng::Rng;

/// One output: its name, its width and the items that declare and drive it.
struct Output<'a> {
    r: &'a mut Rng,
    name: u32,
    width: i64,
    start: &'a mut u64,
    items: Vec<String>,
}

const MISSING: u32 = 90;
const DYNAMIC: u32 = 91;
const VAR: u32 = 50;
const EIGHT: u32 = 60;

pub fn sites(mut r: Rng) -> String {
    let mut out = String::new();
    let modules = if r.chance(85) { 1 } else { 2 };
    for m in 0..modules {
        out.push_str(&module(&mut r, m));
    }
    out
}

fn module(r: &mut Rng, number: u32) -> String {
    let bound = if r.chance(75) { "bound" } else { "unbound" };
    let mut out = format!("(module {number} {bound})\n(kind {DYNAMIC} in)\n(val {EIGHT} 8)\n");
    let mut items = Vec::new();
    let mut start = r.below(5) * 10;
    let outputs = 1 + r.below(3) as u32;
    for name in 1..=outputs {
        out.push_str(&format!(
            "(kind {name} {})\n",
            if r.chance(95) { "out" } else { "wire" }
        ));
        let width = some_width(r);
        let mut o = Output {
            r,
            name,
            width,
            start: &mut start,
            items: Vec::new(),
        };
        o.write();
        items.append(&mut o.items);
    }
    if r.chance(30) {
        r.shuffle(&mut items);
    }
    for item in items {
        out.push_str(&item);
        out.push('\n');
    }
    out
}

fn some_width(r: &mut Rng) -> i64 {
    match r.weighted(&[4, 10, 40, 16, 12, 18]) {
        0 => 0,
        1 => 1,
        2 => r.range(2, 9),
        3 => r.range(10, 70),
        4 => r.pick(&[2, 128, 129, 1024]),
        _ => r.pick(&[4095, 4096, 4097, 4098, 5000]),
    }
}

impl Output<'_> {
    fn next(&mut self) -> u64 {
        *self.start += if self.r.chance(90) {
            1 + self.r.below(9)
        } else {
            0
        };
        *self.start
    }

    fn write(&mut self) {
        let ports = self.r.weighted(&[3, 82, 15]);
        for k in 0..ports {
            let t = self.type_of(k == 0);
            let (name, start) = (self.name, self.next());
            self.items.push(format!("(port out {name} {t} {start})"));
        }
        match self.r.weighted(&[8, 62, 16, 14]) {
            0 => {}
            1 => self.parts(),
            2 => self.by_repeat(),
            _ => self.wild(),
        }
        if self.r.chance(12) {
            self.wild();
        }
    }

    /// A type; the first has the width that the parts are cut from.
    fn type_of(&mut self, first: bool) -> String {
        let w = if first {
            self.width
        } else {
            self.r.range(0, 9)
        };
        match self.r.weighted(&[60, 14, 5, 5, 6, 6, 4]) {
            0 => format!("(bits {w})"),
            1 => format!("(signed {w})"),
            2 => "bit".to_string(),
            3 => "opaque".to_string(),
            4 => format!("(bits (n {MISSING}))"),
            5 => format!("(bits (n {EIGHT}))"),
            _ => format!("(signed (neg {w}))"),
        }
    }

    fn drive(&mut self, index: &str) {
        let (name, start) = (self.name, self.next());
        let right = self.r.below(10);
        self.items
            .push(format!("(drive (lv {name} {start}{index}) {right})"));
    }

    /// Cuts the width into touching parts and then disturbs some.
    fn parts(&mut self) {
        let mut low = 0;
        let mut parts = Vec::new();
        while low < self.width && parts.len() < 12 {
            let rest = self.width - low;
            let len = if self.r.chance(20) || parts.len() == 11 {
                rest
            } else {
                self.r.range(1, rest.min(9))
            };
            parts.push((low + len - 1, low));
            low += len;
        }
        if self.r.chance(45) {
            self.r.shuffle(&mut parts);
        }
        for (high, low) in parts {
            self.part(high, low);
        }
    }

    fn part(&mut self, high: i64, low: i64) {
        match self.r.weighted(&[86, 3, 3, 3, 2, 3]) {
            0 => self.range(high, low),
            1 => {}
            2 => self.range(high + 1, low),
            3 => self.range(high, (low - 1).max(0)),
            4 => self.range(low, high),
            _ => {
                self.range(high, low);
                self.range(high, low);
            }
        }
    }

    /// One bit is written in either way.
    fn range(&mut self, high: i64, low: i64) {
        if high == low && self.r.chance(50) {
            return self.drive(&format!(" {low}"));
        }
        self.drive(&format!(" {high} {low}"))
    }

    fn by_repeat(&mut self) {
        let (name, start) = (self.name, self.next());
        let rounds = if self.r.chance(80) {
            self.width.min(40)
        } else {
            self.r.range(0, 12)
        };
        let low = if self.r.chance(85) { 0 } else { 1 };
        let line = match self.r.weighted(&[60, 25, 15]) {
            0 => format!("(repeat {VAR} {low} {rounds} (drive (lv {name} {start} (n {VAR})) 1))"),
            1 => format!(
                "(repeat {VAR} {low} {} (drive (lv {name} {start} (add (mul (n {VAR}) 2) 1) (mul (n {VAR}) 2)) 1))",
                rounds / 2
            ),
            _ => format!(
                "(repeat {VAR} {low} {rounds} (drive (lv {name} {start} (sub {} (n {VAR}))) 1))",
                rounds - 1 + low
            ),
        };
        self.items.push(line.replace("(sub -1", "(sub (neg 1)"));
    }

    /// Indexes that are whole, dynamic, negative, reversed or past the width.
    fn wild(&mut self) {
        for _ in 0..1 + self.r.below(4) {
            let bit = self.r.range(0, 9);
            let index = match self.r.weighted(&[14, 12, 10, 8, 8, 20, 10, 6, 6, 6]) {
                0 => String::new(),
                1 => format!(" (n {DYNAMIC})"),
                2 => format!(" (neg {bit})"),
                3 => format!(" {bit} (n {MISSING})"),
                4 => format!(" (n {MISSING}) {bit}"),
                5 => format!(" {bit}"),
                6 => format!(" {} {bit}", (bit + self.r.range(-2, 5)).max(0)),
                7 => format!(" (n {EIGHT}) 0"),
                8 => " 2147483647 4096".to_string(),
                _ => format!(" {} (neg {bit})", self.r.range(0, 4)),
            };
            self.drive(&index);
        }
    }
}
