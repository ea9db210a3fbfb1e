//! Bytes of the line format as the syntax tree of the original, in one pass.

use super::original::key;
use mimz::ast::{BinOp, Builtin, Expr, ExprKind, Ident, UnOp};
use mimz::bits::Bits;
use mimz::span::Span;

type Read<T> = Result<T, String>;

/// Far past the 32 of the format, and far below what the stack carries.
const DEEPEST: usize = 256;

/// Reads one expression and nothing behind it.
pub fn expr(bytes: &[u8]) -> Read<Expr> {
    let mut reader = Reader { bytes, at: 0 };
    let e = reader.expr(DEEPEST)?;
    match reader.peek() {
        None => Ok(e),
        Some(_) => Err(reader.unexpected()),
    }
}

struct Reader<'a> {
    bytes: &'a [u8],
    at: usize,
}

impl Reader<'_> {
    fn peek(&self) -> Option<u8> {
        self.bytes.get(self.at).copied()
    }

    fn unexpected(&self) -> String {
        format!("not an expression at byte {}", self.at)
    }

    fn take(&mut self, byte: u8) -> Read<()> {
        if self.peek() != Some(byte) {
            return Err(self.unexpected());
        }
        self.at += 1;
        Ok(())
    }

    fn word(&mut self) -> Read<&str> {
        let rest = &self.bytes[self.at..];
        let ends = rest.iter().position(|b| !b.is_ascii_alphanumeric());
        let word = &rest[..ends.unwrap_or(rest.len())];
        self.at += word.len();
        std::str::from_utf8(word).map_err(|e| e.to_string())
    }

    fn number(&mut self) -> Read<u128> {
        let word = self.word()?;
        word.parse().map_err(|_| format!("not a number: {word}"))
    }

    fn name(&mut self) -> Read<String> {
        let number = self.number()?;
        let name = u32::try_from(number).map_err(|_| format!("not a name: {number}"))?;
        Ok(key(name))
    }

    fn expr(&mut self, room: usize) -> Read<Expr> {
        let kind = match self.peek() {
            Some(b'(') => self.form(room)?,
            Some(b't' | b'f') => self.truth()?,
            _ => ExprKind::Int {
                value: Bits::Small(self.number()?),
                raw: String::new(),
            },
        };
        let span = Span::default();
        Ok(Expr { kind, span })
    }

    fn truth(&mut self) -> Read<ExprKind> {
        match self.word()? {
            "true" => Ok(ExprKind::Bool(true)),
            "false" => Ok(ExprKind::Bool(false)),
            word => Err(format!("not an expression: {word}")),
        }
    }

    fn form(&mut self, room: usize) -> Read<ExprKind> {
        let room = room.checked_sub(1).ok_or("too deep")?;
        self.take(b'(')?;
        let at = self.at;
        self.word()?;
        let bytes = self.bytes;
        let kind = self.parts(&bytes[at..self.at], room)?;
        self.take(b')')?;
        Ok(kind)
    }

    fn parts(&mut self, head: &[u8], room: usize) -> Read<ExprKind> {
        Ok(match head {
            b"n" => {
                self.take(b' ')?;
                ExprKind::Ident(self.name()?)
            }
            b"f" => ExprKind::Field {
                base: self.part(room)?,
                field: self.field()?,
            },
            b"ix" => ExprKind::Index {
                base: self.part(room)?,
                index: self.part(room)?,
            },
            b"if" => ExprKind::IfExpr {
                cond: self.part(room)?,
                then: self.part(room)?,
                els: self.part(room)?,
            },
            b"neg" => self.unary(UnOp::Neg, room)?,
            b"not" => self.unary(UnOp::LogicNot, room)?,
            b"clog2" => ExprKind::Call {
                func: Builtin::Clog2,
                args: vec![*self.part(room)?],
            },
            b"all" => ExprKind::Concat(self.all(room)?),
            _ => ExprKind::Binary {
                op: binary(head)?,
                lhs: self.part(room)?,
                rhs: self.part(room)?,
            },
        })
    }

    fn part(&mut self, room: usize) -> Read<Box<Expr>> {
        self.take(b' ')?;
        self.expr(room).map(Box::new)
    }

    fn unary(&mut self, op: UnOp, room: usize) -> Read<ExprKind> {
        let expr = self.part(room)?;
        Ok(ExprKind::Unary { op, expr })
    }

    fn field(&mut self) -> Read<Ident> {
        self.take(b' ')?;
        let name = self.name()?;
        let span = Span::default();
        Ok(Ident { name, span })
    }

    /// A concatenation takes any number of parts and has no constant value.
    fn all(&mut self, room: usize) -> Read<Vec<Expr>> {
        let mut parts = Vec::new();
        while self.peek() == Some(b' ') {
            parts.push(*self.part(room)?);
        }
        Ok(parts)
    }
}

fn binary(head: &[u8]) -> Read<BinOp> {
    Ok(match head {
        b"add" => BinOp::Add,
        b"sub" => BinOp::Sub,
        b"mul" => BinOp::Mul,
        b"eq" => BinOp::Eq,
        b"ne" => BinOp::Ne,
        b"lt" => BinOp::Lt,
        b"le" => BinOp::Le,
        b"gt" => BinOp::Gt,
        b"ge" => BinOp::Ge,
        b"and" => BinOp::LogicAnd,
        b"or" => BinOp::LogicOr,
        b"shl" => BinOp::Shl,
        b"shr" => BinOp::Shr,
        b"band" => BinOp::BitAnd,
        b"bor" => BinOp::BitOr,
        b"bxor" => BinOp::BitXor,
        _ => return Err(format!("not a head: {}", String::from_utf8_lossy(head))),
    })
}
