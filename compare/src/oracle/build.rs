//! Lines of a text as the syntax trees that the check works on.

use std::cell::Cell;
use std::collections::HashMap;

use mimz::ast::{
    BinOp, Builtin, Conn, ConstDecl, Dir, Edge, Expr, ExprKind, File, Ident, Inst, LValue, Module,
    ModuleItem, OnBlock, Param, ParamTy, QualIdent, Repeat, SeqStmt, TopItem, Type, UnOp,
};
use mimz::bits::Bits;
use mimz::checker::consteval::{ConstVal, Env};
use mimz::checker::{Kind, Project};
use mimz::span::Span;

use super::sexp::{self, Sexp};

use Sexp::{List, Word};

type Read<T> = Result<T, String>;

/// One module of the text, with what the passes before the check find out about it.
struct Part {
    module: Module,
    consts: Env,
    kinds: HashMap<String, Kind>,
}

/// Reads a whole text.
pub fn project(text: &[u8]) -> Read<Project> {
    let mut parts = Vec::new();
    for (index, line) in lines(text)?.into_iter().enumerate() {
        add_line(&mut parts, line).map_err(|e| format!("line {}: {e}", index + 1))?;
    }
    let mut project = Project {
        files: Vec::new(),
        consts: Vec::new(),
        kinds: Vec::new(),
        some_inst: inst(String::new(), None, 0, 0, Vec::new()),
    };
    for part in parts {
        let items = vec![TopItem::Module(part.module)];
        project.files.push(File {
            imports: Vec::new(),
            items,
        });
        project.consts.push(part.consts);
        project.kinds.push(part.kinds);
    }
    Ok(project)
}

/// The lines of a text without their line feeds.
fn lines(text: &[u8]) -> Read<Vec<&[u8]>> {
    match text.strip_suffix(b"\n") {
        Some(body) => Ok(body.split(|&b| b == b'\n').collect()),
        None if text.is_empty() => Ok(Vec::new()),
        None => Err("no line feed at the end of the text".to_string()),
    }
}

fn add_line(parts: &mut Vec<Part>, line: &[u8]) -> Read<()> {
    let form = sexp::read_line(line)?;
    if let [Word("module"), number, binding] = &form[..] {
        let part = new_part(parts.len(), number, binding)?;
        parts.push(part);
        return Ok(());
    }
    let part = parts.last_mut().ok_or("no module before this line")?;
    match &form[..] {
        [Word("kind" | "val"), ..] if !part.module.items.is_empty() => {
            Err("`kind` or `val` after an item".to_string())
        }
        [Word("kind"), name, kind] => add_kind(part, read_name(name)?, read_kind(kind)?),
        [Word("val"), name, value] => {
            let value = ConstVal::from_i128(read_integer(value)?.into());
            part.consts.insert(read_name(name)?, value);
            Ok(())
        }
        parts_of_item => {
            part.module.items.push(read_item(parts_of_item)?);
            Ok(())
        }
    }
}

fn new_part(next: usize, number: &Sexp, binding: &Sexp) -> Read<Part> {
    if read_number(number)? != next {
        return Err(format!("module {next} comes next"));
    }
    let params = match binding {
        Word("bound") => Vec::new(),
        Word("unbound") => vec![param_without_default()],
        _ => return Err("a module is `bound` or `unbound`".to_string()),
    };
    let name = ident(module_name(next), 0);
    let module = Module {
        name,
        params,
        items: Vec::new(),
        span: span(0),
    };
    Ok(Part {
        module,
        consts: Env::new(),
        kinds: HashMap::new(),
    })
}

/// Leaves a module without a binding. Its name is none that a text can use.
fn param_without_default() -> Param {
    Param {
        name: ident("p".to_string(), 0),
        ty: ParamTy::Int,
        default: None,
    }
}

fn add_kind(part: &mut Part, name: String, kind: Kind) -> Read<()> {
    match part.kinds.insert(name, kind) {
        None => Ok(()),
        Some(_) => Err("a second kind for a name".to_string()),
    }
}

fn read_kind(part: &Sexp) -> Read<Kind> {
    match part {
        Word("in") => Ok(Kind::In),
        Word("out") => Ok(Kind::Out),
        Word("wire") => Ok(Kind::Wire),
        Word("reg") => Ok(Kind::Reg),
        Word("mem") => Ok(Kind::Mem),
        Word("inst") => Ok(Kind::Inst),
        _ => Err("not a kind".to_string()),
    }
}

fn read_items(parts: &[Sexp]) -> Read<Vec<ModuleItem>> {
    parts.iter().map(|part| read_item(list(part)?)).collect()
}

fn read_item(parts: &[Sexp]) -> Read<ModuleItem> {
    match parts {
        [Word("port"), dir, name, ty, start] => Ok(ModuleItem::Port {
            dir: read_dir(dir)?,
            name: read_ident(name, start)?,
            ty: read_type(ty)?,
        }),
        [Word("wire"), name, init, start] => Ok(ModuleItem::Wire {
            name: read_ident(name, start)?,
            ty: Type::Bit,
            init: read_expr(init)?,
        }),
        [Word("reg"), name, start] => {
            let name = read_ident(name, start)?;
            Ok(ModuleItem::Reg {
                name,
                ty: Type::Bit,
                reset: unread(),
            })
        }
        [Word("mem"), name, start] => {
            let name = read_ident(name, start)?;
            Ok(ModuleItem::Mem {
                name,
                ty: Type::Bit,
                depth: unread(),
                init: unread(),
            })
        }
        [Word("const"), name, value] => {
            let name = ident(read_name(name)?, 0);
            let value = read_expr(value)?;
            Ok(ModuleItem::Const(ConstDecl {
                name,
                ty: ParamTy::Int,
                value,
            }))
        }
        [Word("drive"), target, value] => Ok(ModuleItem::Drive {
            lhs: read_lvalue(target)?,
            rhs: read_expr(value)?,
        }),
        [Word("on"), start, body @ ..] => Ok(ModuleItem::On(OnBlock {
            clock: ident(String::new(), 0),
            edge: Edge::Rise,
            body: read_stmts(body)?,
            span: span(read_number(start)?),
        })),
        [Word("inst"), name, index, module, start, conns @ ..] => Ok(ModuleItem::Inst(inst(
            read_name(name)?,
            read_index(index)?,
            read_number(module)?,
            read_number(start)?,
            conns.iter().map(read_conn).collect::<Read<_>>()?,
        ))),
        [Word("repeat"), var, lo, hi, items @ ..] => Ok(ModuleItem::Repeat(Repeat {
            var: ident(read_name(var)?, 0),
            lo: read_expr(lo)?,
            hi: read_expr(hi)?,
            items: read_items(items)?,
            span: span(0),
        })),
        [Word("constif"), cond, then, els] => Ok(ModuleItem::ConstIf {
            cond: read_expr(cond)?,
            then: read_items(branch(then, "then")?)?,
            els: Some(read_items(branch(els, "else")?)?),
            span: span(0),
        }),
        _ => Err(format!("not an item: {}", head(parts))),
    }
}

fn read_dir(part: &Sexp) -> Read<Dir> {
    match part {
        Word("in") => Ok(Dir::In),
        Word("out") => Ok(Dir::Out),
        _ => Err("a port is `in` or `out`".to_string()),
    }
}

fn read_type(part: &Sexp) -> Read<Type> {
    match part {
        Word("bit") => Ok(Type::Bit),
        Word("opaque") => Ok(Type::Named(qualified(String::new()))),
        List(parts) => match &parts[..] {
            [Word("bits"), width] => Ok(Type::Bits(Box::new(read_expr(width)?))),
            [Word("signed"), width] => Ok(Type::Signed(Box::new(read_expr(width)?))),
            _ => Err(format!("not a type: {}", head(parts))),
        },
        Word(word) => Err(format!("not a type: {word}")),
    }
}

fn read_lvalue(part: &Sexp) -> Read<LValue> {
    let [Word("lv"), name, start, indexes @ ..] = list(part)? else {
        return Err("not a target of a drive".to_string());
    };
    let index = match indexes {
        [] => None,
        [bit] => Some((read_expr(bit)?, None)),
        [high, low] => Some((read_expr(high)?, Some(read_expr(low)?))),
        _ => return Err("more than two indexes".to_string()),
    };
    let start = read_number(start)?;
    Ok(LValue {
        base: ident(read_name(name)?, start),
        index,
        span: span(start),
    })
}

fn read_index(part: &Sexp) -> Read<Option<Expr>> {
    match part {
        Word("-") => Ok(None),
        _ => read_expr(part).map(Some),
    }
}

fn read_conn(part: &Sexp) -> Read<Conn> {
    match list(part)? {
        [Word("conn"), port, signal] => Ok(Conn {
            port: ident(read_name(port)?, 0),
            signal: read_expr(signal)?,
        }),
        other => Err(format!("not a connection: {}", head(other))),
    }
}

fn read_stmts(parts: &[Sexp]) -> Read<Vec<SeqStmt>> {
    parts.iter().map(|part| read_stmt(list(part)?)).collect()
}

fn read_stmt(parts: &[Sexp]) -> Read<SeqStmt> {
    match parts {
        [Word("set"), name, start] => {
            let start = read_number(start)?;
            let lhs = LValue {
                base: ident(read_name(name)?, start),
                index: None,
                span: span(start),
            };
            Ok(SeqStmt::Assign { lhs, rhs: unread() })
        }
        [Word("default"), name] => {
            let name = ident(read_name(name)?, 0);
            Ok(SeqStmt::Default {
                name,
                val: unread(),
                span: span(0),
            })
        }
        [Word("loop"), body @ ..] => Ok(SeqStmt::Loop {
            var: ident(String::new(), 0),
            lo: unread(),
            hi: unread(),
            body: read_stmts(body)?,
            span: span(0),
        }),
        [Word("when"), then, els] => Ok(SeqStmt::If {
            cond: unread(),
            then: read_stmts(branch(then, "then")?)?,
            els: Some(read_stmts(branch(els, "else")?)?),
        }),
        _ => Err(format!("not a statement: {}", head(parts))),
    }
}

fn read_expr(part: &Sexp) -> Read<Expr> {
    let kind = match part {
        Word("true") => ExprKind::Bool(true),
        Word("false") => ExprKind::Bool(false),
        Word(_) => literal(read_number(part)?),
        List(parts) => read_form(parts)?,
    };
    Ok(expr(kind))
}

fn read_form(parts: &[Sexp]) -> Read<ExprKind> {
    match parts {
        [Word("n"), name] => Ok(ExprKind::Ident(read_name(name)?)),
        [Word("f"), base, name] => Ok(ExprKind::Field {
            base: boxed(base)?,
            field: ident(read_name(name)?, 0),
        }),
        [Word("ix"), base, index] => Ok(ExprKind::Index {
            base: boxed(base)?,
            index: boxed(index)?,
        }),
        [Word("if"), cond, then, els] => Ok(ExprKind::IfExpr {
            cond: boxed(cond)?,
            then: boxed(then)?,
            els: boxed(els)?,
        }),
        [Word("neg"), part] => Ok(ExprKind::Unary {
            op: UnOp::Neg,
            expr: boxed(part)?,
        }),
        [Word("not"), part] => Ok(ExprKind::Unary {
            op: UnOp::LogicNot,
            expr: boxed(part)?,
        }),
        [Word("clog2"), part] => Ok(ExprKind::Call {
            func: Builtin::Clog2,
            args: vec![read_expr(part)?],
        }),
        // A concatenation reads all its parts and has no constant value.
        [Word("all"), parts @ ..] => parts
            .iter()
            .map(read_expr)
            .collect::<Read<_>>()
            .map(ExprKind::Concat),
        [Word(op), lhs, rhs] => Ok(ExprKind::Binary {
            op: read_op(op)?,
            lhs: boxed(lhs)?,
            rhs: boxed(rhs)?,
        }),
        _ => Err(format!("not an expression: {}", head(parts))),
    }
}

fn read_op(word: &str) -> Read<BinOp> {
    Ok(match word {
        "add" => BinOp::Add,
        "sub" => BinOp::Sub,
        "mul" => BinOp::Mul,
        "eq" => BinOp::Eq,
        "ne" => BinOp::Ne,
        "lt" => BinOp::Lt,
        "le" => BinOp::Le,
        "gt" => BinOp::Gt,
        "ge" => BinOp::Ge,
        "and" => BinOp::LogicAnd,
        "or" => BinOp::LogicOr,
        "shl" => BinOp::Shl,
        "shr" => BinOp::Shr,
        "band" => BinOp::BitAnd,
        "bor" => BinOp::BitOr,
        "bxor" => BinOp::BitXor,
        _ => return Err(format!("not an expression: {word}")),
    })
}

fn read_ident(name: &Sexp, start: &Sexp) -> Read<Ident> {
    Ok(ident(read_name(name)?, read_number(start)?))
}

fn read_name(part: &Sexp) -> Read<String> {
    read_number(part).map(|number| format!("n{number}"))
}

fn read_number(part: &Sexp) -> Read<usize> {
    match part {
        Word(word) => digits(word),
        List(parts) => Err(format!("not a number: {}", head(parts))),
    }
}

fn read_integer(part: &Sexp) -> Read<i64> {
    match part {
        Word("-0") => Err("badly written number: -0".to_string()),
        Word(word) => {
            let magnitude = digits(word.strip_prefix('-').unwrap_or(word))?;
            let magnitude =
                i64::try_from(magnitude).map_err(|_| format!("number too large: {word}"))?;
            Ok(if word.starts_with('-') {
                -magnitude
            } else {
                magnitude
            })
        }
        List(parts) => Err(format!("not a number: {}", head(parts))),
    }
}

/// A number without sign and without leading zeros.
fn digits(word: &str) -> Read<usize> {
    let well_written = !word.is_empty()
        && word.bytes().all(|b| b.is_ascii_digit())
        && (word.len() == 1 || !word.starts_with('0'));
    if !well_written {
        return Err(format!("badly written number: {word}"));
    }
    word.parse()
        .map_err(|_| format!("number too large: {word}"))
}

/// The parts of a branch after its head.
fn branch<'a, 'b>(part: &'b Sexp<'a>, name: &str) -> Read<&'b [Sexp<'a>]> {
    match list(part)? {
        [Word(word), rest @ ..] if *word == name => Ok(rest),
        _ => Err(format!("no `{name}` where there should be one")),
    }
}

fn list<'a, 'b>(part: &'b Sexp<'a>) -> Read<&'b [Sexp<'a>]> {
    match part {
        List(parts) => Ok(parts),
        Word(word) => Err(format!("a word where a list should be: {word}")),
    }
}

/// What a message calls a list: its first word.
fn head<'a>(parts: &[Sexp<'a>]) -> &'a str {
    match parts.first() {
        Some(Word(word)) => word,
        _ => "a list without a head",
    }
}

fn expr(kind: ExprKind) -> Expr {
    Expr {
        kind,
        span: span(0),
    }
}

fn boxed(part: &Sexp) -> Read<Box<Expr>> {
    read_expr(part).map(Box::new)
}

fn literal(value: usize) -> ExprKind {
    ExprKind::Int {
        value: Bits::Small(value as u128),
        raw: String::new(),
    }
}

/// Fills a place of the syntax tree that the check never looks at.
fn unread() -> Expr {
    expr(ExprKind::Bool(false))
}

fn inst(name: String, index: Option<Expr>, module: usize, start: usize, conns: Vec<Conn>) -> Inst {
    let module_ref = qualified(module_name(module));
    // Name resolution found the file. Where no module has the name, the check asks for no file.
    module_ref.resolved_file.set(Some(module));
    let span = span(start);
    Inst {
        name: ident(name, start),
        index,
        module: module_ref,
        args: Vec::new(),
        conns,
        span,
    }
}

fn module_name(number: usize) -> String {
    format!("m{number}")
}

fn qualified(name: String) -> QualIdent {
    let resolved_file = Cell::new(None);
    QualIdent {
        path: Vec::new(),
        name: ident(name, 0),
        span: span(0),
        resolved_file,
    }
}

fn ident(name: String, start: usize) -> Ident {
    Ident {
        name,
        span: span(start),
    }
}

fn span(start: usize) -> Span {
    Span::new(start, start)
}
