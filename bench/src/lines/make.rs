//! Well-formed texts of 32,768 bytes, flat and nested.

use super::{DEPTH, LONGEST};

/// A kind of text.
pub struct Shape {
    pub name: &'static str,
    /// Brackets that its deepest line has open at once.
    pub depth: usize,
    line: fn() -> String,
}

/// Flat ones first.
pub const SHAPES: [Shape; 5] = [
    Shape {
        name: "flat, registers",
        depth: 1,
        line: || "(reg 4 20)".to_string(),
    },
    Shape {
        name: "flat, wires",
        depth: 2,
        line: || "(wire 3 (n 1) 30)".to_string(),
    },
    Shape {
        name: "nested, one in the other",
        depth: DEPTH,
        line: || format!("(wire 3 {}(n 1){} 30)", "(not ".repeat(30), ")".repeat(30)),
    },
    Shape {
        name: "nested, all names deepest",
        depth: DEPTH,
        line: || {
            let names = " (n 1)".repeat(600);
            format!("(wire 3 {}{names}{} 30)", open_all(), ")".repeat(30))
        },
    },
    Shape {
        name: "nested, statements",
        depth: DEPTH,
        line: || {
            let sets = " (set 4 7)".repeat(30);
            format!("(on 5 {}{sets}{})", open_loops(), ")".repeat(30))
        },
    },
];

/// 30 brackets, a space between them.
fn open_all() -> String {
    vec!["(all"; 30].join(" ")
}

fn open_loops() -> String {
    vec!["(loop"; 30].join(" ")
}

impl Shape {
    /// A module's line, this shape's line as often as it fits, and one line that fills the rest.
    pub fn text(&self) -> Vec<u8> {
        let mut text = "(module 0 bound)\n".to_string();
        let line = (self.line)() + "\n";
        while text.len() + line.len() + SHORTEST <= LONGEST {
            text += &line;
        }
        text += &filler(LONGEST - text.len());
        text.into_bytes()
    }
}

/// Bytes of the shortest filling line: what `filler` makes is any length from here on.
const SHORTEST: usize = 64;

/// A well-formed item of `len` bytes with its line feed: `(wire 3 (all 7 7 ..) START)`.
fn filler(len: usize) -> String {
    let (head, tail) = ("(wire 3 (all", ") 1)\n");
    let left = len - head.len() - tail.len();
    // Each ` 7` has two bytes; an odd rest makes one number longer.
    let odd = if left % 2 == 1 { " 77" } else { "" };
    let sevens = " 7".repeat((left - odd.len()) / 2);
    format!("{head}{odd}{sevens}{tail}")
}

/// Brackets that are open at once.
pub fn depth(text: &[u8]) -> usize {
    let (mut open, mut deepest) = (0usize, 0);
    for &b in text {
        match b {
            b'(' => open += 1,
            b')' => open -= 1,
            _ => {}
        }
        deepest = deepest.max(open);
    }
    deepest
}
