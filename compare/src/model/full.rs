//! Why a text is refused with 20 (01, "Refused because of the state").

use std::fmt;

/// A constant, or a part of one, is outside INT, with its value where that was made.
#[derive(Clone, Copy, Debug, PartialEq, Eq)]
pub struct Outside(pub Option<i128>);

/// The limit that is passed, or the constant.
#[derive(Clone, Copy, Debug, PartialEq, Eq)]
pub enum Reason {
    Nodes,
    Edges,
    Sites,
    Pairs,
    Triples,
    Constant(Outside),
}

/// The module that was walked, and whether by its own check or for its summary.
#[derive(Clone, Copy, Debug, PartialEq, Eq)]
pub struct Walked {
    pub module: usize,
    pub own_check: bool,
}

/// A reason with the text line and the walk in which it came up. Both are set on the way out, by
/// the innermost that knows them; a triple is of no one line.
#[derive(Clone, Copy, Debug, PartialEq, Eq)]
pub struct Full {
    pub reason: Reason,
    pub line: Option<u32>,
    pub walked: Option<Walked>,
}

impl From<Reason> for Full {
    fn from(reason: Reason) -> Full {
        Full {
            reason,
            line: None,
            walked: None,
        }
    }
}

impl From<Outside> for Full {
    fn from(outside: Outside) -> Full {
        Reason::Constant(outside).into()
    }
}

impl Outside {
    /// It stands in this line.
    pub fn at(self, line: u32) -> Full {
        Full::from(self).on(line)
    }
}

impl Full {
    /// It came up in this line. Where a walk is known already, the line is one of another module:
    /// the instance that asked for the summary.
    pub fn on(self, line: u32) -> Full {
        match self.walked {
            None => Full {
                line: self.line.or(Some(line)),
                ..self
            },
            Some(_) => self,
        }
    }

    /// It came up when this module was walked.
    pub fn inside(self, module: usize, own_check: bool) -> Full {
        let walked = Walked { module, own_check };
        Full {
            walked: self.walked.or(Some(walked)),
            ..self
        }
    }
}

/// One sentence, which names the line where there is one.
impl fmt::Display for Full {
    fn fmt(&self, f: &mut fmt::Formatter) -> fmt::Result {
        let Walked { module, own_check } = self.walked.expect("each walk says which it is");
        // sites and pairs are the own check's, whichever walk comes to them first
        let own = own_check || matches!(self.reason, Reason::Sites | Reason::Pairs);
        let summarised = ", which is summarised for its instances,";
        let (part, limit) = if own {
            (",", "")
        } else {
            (summarised, summarised)
        };
        match (self.reason, self.line) {
            (Reason::Constant(outside), Some(line)) => {
                write!(f, "In line {line}, of module {module}{part} {outside}.")
            }
            (Reason::Constant(outside), None) => write!(f, "In module {module}{part} {outside}."),
            (Reason::Triples, None) => {
                let past = Reason::Triples.past();
                write!(
                    f,
                    "With the summary of module {module} the text has {past}."
                )
            }
            (reason, Some(line)) => {
                let past = reason.past();
                write!(f, "With line {line} module {module}{limit} has {past}.")
            }
            (reason, None) => write!(f, "Module {module}{limit} has {}.", reason.past()),
        }
    }
}

impl fmt::Display for Outside {
    fn fmt(&self, f: &mut fmt::Formatter) -> fmt::Result {
        f.write_str("a constant, or a part of one, is ")?;
        if let Outside(Some(value)) = self {
            write!(f, "{}, ", grouped(*value))?;
        }
        f.write_str("outside -2,147,483,648 to 2,147,483,647")
    }
}

/// A number with separators, as the limits are written.
fn grouped(value: i128) -> String {
    let digits = value.unsigned_abs().to_string();
    let mut shown = String::from(if value < 0 { "-" } else { "" });
    for (i, digit) in digits.chars().enumerate() {
        if i > 0 && (digits.len() - i) % 3 == 0 {
            shown.push(',');
        }
        shown.push(digit);
    }
    shown
}

impl Reason {
    /// What there is too much of.
    fn past(self) -> &'static str {
        match self {
            Reason::Nodes => {
                "more than 512 nodes (signals and instance outputs that are headed or read)"
            }
            Reason::Edges => "more than 4,096 edges (a node and a node that it reads)",
            Reason::Sites => {
                "more than 1,024 sites (drives of outputs, as often as they are collected)"
            }
            Reason::Pairs => "more than 512 pairs of a register or memory and a block that sets it",
            Reason::Triples => {
                "more than 1,024 triples (a module, an output of it, an input that this reaches)"
            }
            Reason::Constant(_) => "a constant out of range",
        }
    }
}
