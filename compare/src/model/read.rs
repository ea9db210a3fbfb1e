//! The strict reader (01, "The line" and "Refused because of the text").

use super::tree::*;
use std::collections::BTreeMap;

/// A refusal with 1 to 7 and its line, from 1 (0 for refusal 1). 8 is no longer given.
#[derive(Debug)]
pub struct Refusal {
    pub number: u32,
    pub line: u32,
}

const MAX_BYTES: usize = 32_768;
const MAX_DEPTH: usize = 32;
const MAX_MODULES: usize = 32;
const MAX_NAME: i128 = 255;
const MAX_MODULE_NUMBER: i128 = 255;
const MAX_START: i128 = 2_147_483_647;
const MAX_INT: i128 = 2_147_483_647;
const MIN_INT: i128 = -2_147_483_648;

/// 1, then 2 over the whole text, then line by line 3 to 7.
pub fn read(text: &[u8]) -> Result<Vec<Module>, Refusal> {
    if text.len() > MAX_BYTES {
        return Err(Refusal { number: 1, line: 0 });
    }
    check_bytes(text)?;
    let mut design = Vec::new();
    for (i, line) in lines(text).enumerate() {
        let line_number = i as u32 + 1;
        read_line(&mut design, line, line_number).map_err(|number| Refusal {
            number,
            line: line_number,
        })?;
    }
    Ok(design)
}

/// 2: the line of the first byte outside the set, else the unterminated last line.
fn check_bytes(text: &[u8]) -> Result<(), Refusal> {
    let fault = |line| Err(Refusal { number: 2, line });
    let mut line = 1;
    for &b in text {
        match b {
            b'\n' => line += 1,
            0x20..=0x7e => {}
            _ => return fault(line),
        }
    }
    match text.last() {
        None | Some(b'\n') => Ok(()),
        Some(_) => fault(line),
    }
}

/// One expression by itself; none where it is badly written or a number is out of range.
pub fn expression(text: &str) -> Option<Expr> {
    let line = format!("(all {text})");
    let mut faults = Faults::default();
    let Part::Form(_, parts) = whole_form(&line)? else {
        return None;
    };
    let [part] = parts.as_slice() else {
        return None;
    };
    let e = faults.expr(part)?;
    (!faults.range).then_some(e)
}

fn lines(text: &[u8]) -> impl Iterator<Item = &str> {
    let text = std::str::from_utf8(text).expect("only bytes 20 to 7E and line feeds");
    text.split_terminator('\n')
}

/// One line: the lowest number of its faults, or the design with the line added.
fn read_line(design: &mut Vec<Module>, line: &str, number: u32) -> Result<(), u32> {
    if !closed(line) {
        return Err(3);
    }
    let mut faults = Faults::default();
    let form = whole_form(line).ok_or(4u32)?;
    let parsed = faults.top(&form).ok_or(4u32)?;
    if faults.range {
        return Err(5);
    }
    check_place(design, &parsed)?;
    add(design, parsed, number);
    Ok(())
}

/// 3: one closed form from the first byte to the last, at most 32 deep.
fn closed(line: &str) -> bool {
    let mut depth = 0;
    for (i, b) in line.bytes().enumerate() {
        match b {
            b'(' => depth += 1,
            b')' if depth == 0 => return false,
            b')' => depth -= 1,
            _ => {}
        }
        let last = i + 1 == line.len();
        if depth > MAX_DEPTH || (depth == 0) != last {
            return false;
        }
    }
    line.starts_with('(')
}

/// A line of the design.
enum Top<'t> {
    Module { m: &'t str, bound: bool },
    Kind { name: Name, kind: Kind },
    Val { name: Name, value: i128 },
    Item(Item),
}

/// 6, then 7.
fn check_place(design: &[Module], line: &Top) -> Result<(), u32> {
    match (line, design.last()) {
        (Top::Module { m, .. }, _) if *m != design.len().to_string() => Err(6),
        (Top::Module { .. }, _) if design.len() == MAX_MODULES => Err(7),
        (Top::Module { .. }, _) => Ok(()),
        (_, None) => Err(6),
        (Top::Kind { .. } | Top::Val { .. }, Some(m)) if !m.items.is_empty() => Err(6),
        (Top::Kind { name, .. }, Some(m)) if m.kinds.contains_key(name) => Err(7),
        _ => Ok(()),
    }
}

fn add(design: &mut Vec<Module>, line: Top, number: u32) {
    if let Top::Module { bound, .. } = line {
        design.push(Module {
            bound,
            kinds: BTreeMap::new(),
            vals: BTreeMap::new(),
            items: Vec::new(),
            lines: Vec::new(),
        });
        return;
    }
    let module = design.last_mut().expect("a line before any module is 6");
    match line {
        Top::Module { .. } => {}
        Top::Kind { name, kind } => {
            module.kinds.insert(name, kind);
        }
        Top::Val { name, value } => {
            module.vals.insert(name, value);
        }
        Top::Item(item) => {
            module.items.push(item);
            module.lines.push(number);
        }
    }
}

/// A line before it is understood: words, and forms with a head and parts.
enum Part<'t> {
    Word(&'t str),
    Form(&'t str, Vec<Part<'t>>),
}

/// The form that a closed line is; `None` where a space or a word is misplaced (4).
fn whole_form(line: &str) -> Option<Part<'_>> {
    let (form, rest) = form(line)?;
    rest.is_empty().then_some(form)
}

/// `(head part ...)` at the start of `text`, and what follows it.
fn form(text: &str) -> Option<(Part<'_>, &str)> {
    let (head, mut rest) = word(text.strip_prefix('(')?)?;
    let mut parts = Vec::new();
    loop {
        if let Some(after) = rest.strip_prefix(')') {
            return Some((Part::Form(head, parts), after));
        }
        let (next, after) = part(rest.strip_prefix(' ')?)?;
        parts.push(next);
        rest = after;
    }
}

fn part(text: &str) -> Option<(Part<'_>, &str)> {
    if text.starts_with('(') {
        return form(text);
    }
    let (word, rest) = word(text)?;
    Some((Part::Word(word), rest))
}

fn word(text: &str) -> Option<(&str, &str)> {
    let end = text.find([' ', '(', ')'])?;
    (end > 0).then(|| text.split_at(end))
}

/// Understands the parts of one line. `None` is fault 4; 5 is noted, so that a 4 further on is
/// still found.
#[derive(Default)]
struct Faults {
    range: bool,
}

impl Faults {
    fn top<'t>(&mut self, line: &Part<'t>) -> Option<Top<'t>> {
        let Part::Form(head, parts) = line else {
            return None;
        };
        match (*head, parts.as_slice()) {
            ("module", [Part::Word(m), bound]) => Some(Top::Module {
                m: digits(m)?,
                bound: bound_word(bound)?,
            }),
            ("kind", [name, kind]) => Some(Top::Kind {
                name: self.name(name)?,
                kind: kind_word(kind)?,
            }),
            ("val", [name, value]) => Some(Top::Val {
                name: self.name(name)?,
                value: self.int(value)?,
            }),
            _ => Some(Top::Item(self.item(line)?)),
        }
    }

    fn items(&mut self, parts: &[Part]) -> Option<Vec<Item>> {
        parts.iter().map(|p| self.item(p)).collect()
    }

    fn item(&mut self, part: &Part) -> Option<Item> {
        let Part::Form(head, parts) = part else {
            return None;
        };
        match (*head, parts.as_slice()) {
            ("port", [dir, name, ty, start]) => self.port(dir, name, ty, start),
            ("wire", [name, init, start]) => Some(Item::Wire {
                name: self.name(name)?,
                init: self.expr(init)?,
                start: self.start(start)?,
            }),
            ("reg", [name, start]) => Some(Item::Reg {
                name: self.name(name)?,
                start: self.start(start)?,
            }),
            ("mem", [name, start]) => Some(Item::Mem {
                name: self.name(name)?,
                start: self.start(start)?,
            }),
            ("const", [name, value]) => Some(Item::Const {
                name: self.name(name)?,
                value: self.expr(value)?,
            }),
            ("drive", [lhs, rhs]) => Some(Item::Drive {
                lhs: self.lvalue(lhs)?,
                rhs: self.expr(rhs)?,
            }),
            ("on", [start, body @ ..]) => Some(Item::On {
                start: self.start(start)?,
                body: self.seqs(body)?,
            }),
            ("inst", [name, index, module, start, conns @ ..]) => Some(Item::Inst(Inst {
                name: self.name(name)?,
                index: self.inst_index(index)?,
                module: self.number(module, MAX_MODULE_NUMBER)? as usize,
                start: self.start(start)?,
                conns: self.conns(conns)?,
            })),
            ("repeat", [var, lo, hi, items @ ..]) => Some(Item::Repeat {
                var: self.name(var)?,
                lo: self.expr(lo)?,
                hi: self.expr(hi)?,
                items: self.items(items)?,
            }),
            ("constif", [cond, then, els]) => Some(Item::ConstIf {
                cond: self.expr(cond)?,
                then: self.items(listed("then", then)?)?,
                els: self.items(listed("else", els)?)?,
            }),
            _ => None,
        }
    }

    fn port(&mut self, dir: &Part, name: &Part, ty: &Part, start: &Part) -> Option<Item> {
        let Part::Word(dir) = dir else {
            return None;
        };
        let (name, ty, start) = (self.name(name)?, self.ty(ty)?, self.start(start)?);
        match *dir {
            "in" => Some(Item::PortIn),
            "out" => Some(Item::PortOut { name, ty, start }),
            _ => None,
        }
    }

    fn ty(&mut self, part: &Part) -> Option<Type> {
        match part {
            Part::Word("bit") => Some(Type::Bit),
            Part::Word("opaque") => Some(Type::Opaque),
            Part::Form("bits", parts) => Some(Type::Bits(self.only(parts)?)),
            Part::Form("signed", parts) => Some(Type::Signed(self.only(parts)?)),
            _ => None,
        }
    }

    /// The one width of `bits` or `signed`.
    fn only(&mut self, parts: &[Part]) -> Option<Expr> {
        match parts {
            [width] => self.expr(width),
            _ => None,
        }
    }

    fn lvalue(&mut self, part: &Part) -> Option<LValue> {
        let [name, start, index @ ..] = listed("lv", part)? else {
            return None;
        };
        Some(LValue {
            name: self.name(name)?,
            start: self.start(start)?,
            index: match index {
                [] => LvIndex::None,
                [bit] => LvIndex::Bit(self.expr(bit)?),
                [hi, lo] => LvIndex::HighLow(self.expr(hi)?, self.expr(lo)?),
                _ => return None,
            },
        })
    }

    fn inst_index(&mut self, part: &Part) -> Option<Option<Expr>> {
        match part {
            Part::Word("-") => Some(None),
            _ => Some(Some(self.expr(part)?)),
        }
    }

    fn conns(&mut self, parts: &[Part]) -> Option<Vec<(Name, Expr)>> {
        let mut conns = Vec::new();
        for part in parts {
            let [name, signal] = listed("conn", part)? else {
                return None;
            };
            conns.push((self.name(name)?, self.expr(signal)?));
        }
        Some(conns)
    }

    fn seqs(&mut self, parts: &[Part]) -> Option<Vec<Seq>> {
        parts.iter().map(|p| self.seq(p)).collect()
    }

    fn seq(&mut self, part: &Part) -> Option<Seq> {
        let Part::Form(head, parts) = part else {
            return None;
        };
        match (*head, parts.as_slice()) {
            ("set", [name, start]) => Some(Seq::Set {
                name: self.name(name)?,
                start: self.start(start)?,
            }),
            ("default", [name]) => Some(Seq::Default {
                name: self.name(name)?,
            }),
            ("loop", body) => Some(Seq::Loop(self.seqs(body)?)),
            ("when", [then, els]) => Some(Seq::When(
                self.seqs(listed("then", then)?)?,
                self.seqs(listed("else", els)?)?,
            )),
            _ => None,
        }
    }

    fn expr(&mut self, part: &Part) -> Option<Expr> {
        let (head, parts) = match part {
            Part::Word("true") => return Some(Expr::Bool(true)),
            Part::Word("false") => return Some(Expr::Bool(false)),
            Part::Word(_) => return Some(Expr::Int(self.number(part, MAX_INT)?)),
            Part::Form(head, parts) => (*head, parts.as_slice()),
        };
        let mut sub = |p: &Part| self.expr(p).map(Box::new);
        match (head, parts) {
            ("n", [name]) => Some(Expr::Ident(self.name(name)?)),
            ("f", [base, field]) => Some(Expr::Field(sub(base)?, self.name(field)?)),
            ("ix", [base, index]) => Some(Expr::Index(sub(base)?, sub(index)?)),
            ("if", [cond, then, els]) => Some(Expr::If(sub(cond)?, sub(then)?, sub(els)?)),
            ("all", parts) => parts
                .iter()
                .map(|p| self.expr(p))
                .collect::<Option<_>>()
                .map(Expr::All),
            (_, [x]) => Some(Expr::Unary(un_op(head)?, sub(x)?)),
            (_, [x, y]) => Some(Expr::Binary(bin_op(head)?, sub(x)?, sub(y)?)),
            _ => None,
        }
    }

    fn name(&mut self, part: &Part) -> Option<Name> {
        Some(self.number(part, MAX_NAME)? as Name)
    }

    fn start(&mut self, part: &Part) -> Option<Start> {
        Some(self.number(part, MAX_START)? as Start)
    }

    /// A number from 0; above `max` it is 5, however many digits it has.
    fn number(&mut self, part: &Part, max: i128) -> Option<i128> {
        let Part::Word(word) = part else {
            return None;
        };
        Some(self.ranged(digits(word)?.parse().ok(), 0, max))
    }

    /// The INT of `val`: it alone may have a minus, 0 never.
    fn int(&mut self, part: &Part) -> Option<i128> {
        let Part::Word(word) = part else {
            return None;
        };
        let magnitude = digits(word.strip_prefix('-').unwrap_or(word))?;
        if *word == "-0" {
            return None;
        }
        let value = magnitude
            .parse()
            .ok()
            .map(|v: i128| match magnitude == *word {
                true => v,
                false => -v,
            });
        Some(self.ranged(value, MIN_INT, MAX_INT))
    }

    /// `value` is `None` where the digits are too many even for the type here.
    fn ranged(&mut self, value: Option<i128>, min: i128, max: i128) -> i128 {
        match value {
            Some(v) if min <= v && v <= max => v,
            _ => {
                self.range = true;
                0
            }
        }
    }
}

/// A well-written decimal number without sign or leading zero.
fn digits(word: &str) -> Option<&str> {
    let written = !word.is_empty() && word.bytes().all(|b| b.is_ascii_digit());
    let leading_zero = word.len() > 1 && word.starts_with('0');
    (written && !leading_zero).then_some(word)
}

/// The parts of a form with this head.
fn listed<'p, 't>(head: &str, part: &'p Part<'t>) -> Option<&'p [Part<'t>]> {
    match part {
        Part::Form(h, parts) if *h == head => Some(parts),
        _ => None,
    }
}

fn bound_word(part: &Part) -> Option<bool> {
    match part {
        Part::Word("bound") => Some(true),
        Part::Word("unbound") => Some(false),
        _ => None,
    }
}

fn kind_word(part: &Part) -> Option<Kind> {
    let Part::Word(word) = part else {
        return None;
    };
    match *word {
        "in" => Some(Kind::In),
        "out" => Some(Kind::Out),
        "wire" => Some(Kind::Wire),
        "reg" => Some(Kind::Reg),
        "mem" => Some(Kind::Mem),
        "inst" => Some(Kind::Inst),
        _ => None,
    }
}

fn un_op(head: &str) -> Option<UnOp> {
    match head {
        "neg" => Some(UnOp::Neg),
        "not" => Some(UnOp::Not),
        "clog2" => Some(UnOp::Clog2),
        _ => None,
    }
}

fn bin_op(head: &str) -> Option<BinOp> {
    match head {
        "add" => Some(BinOp::Add),
        "sub" => Some(BinOp::Sub),
        "mul" => Some(BinOp::Mul),
        "eq" => Some(BinOp::Eq),
        "ne" => Some(BinOp::Ne),
        "lt" => Some(BinOp::Lt),
        "le" => Some(BinOp::Le),
        "gt" => Some(BinOp::Gt),
        "ge" => Some(BinOp::Ge),
        "and" => Some(BinOp::And),
        "or" => Some(BinOp::Or),
        "shl" => Some(BinOp::Shl),
        "shr" => Some(BinOp::Shr),
        "band" => Some(BinOp::BitAnd),
        "bor" => Some(BinOp::BitOr),
        "bxor" => Some(BinOp::BitXor),
        _ => None,
    }
}
