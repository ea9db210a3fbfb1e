//! One line of the format as nested lists of words.

/// A word, or a bracketed list of parts.
#[derive(Debug, PartialEq, Eq)]
pub enum Sexp<'a> {
    Word(&'a str),
    List(Vec<Sexp<'a>>),
}

/// Far past the 32 of the format, and far below what the stack carries.
const DEEPEST: usize = 256;

/// Reads a line, without its line feed, that is one list and nothing else.
pub fn read_line(line: &[u8]) -> Result<Vec<Sexp<'_>>, String> {
    let mut reader = Reader { line, at: 0 };
    if reader.peek() != Some(b'(') {
        return Err("the line does not start with a bracket".to_string());
    }
    let parts = reader.list(1)?;
    match reader.peek() {
        None => Ok(parts),
        Some(_) => Err(format!(
            "something follows the last bracket at byte {}",
            reader.at
        )),
    }
}

struct Reader<'a> {
    line: &'a [u8],
    at: usize,
}

impl<'a> Reader<'a> {
    fn peek(&self) -> Option<u8> {
        self.line.get(self.at).copied()
    }

    /// The parts of the list that opens here.
    fn list(&mut self, depth: usize) -> Result<Vec<Sexp<'a>>, String> {
        if depth > DEEPEST {
            return Err(format!("more than {DEEPEST} brackets deep"));
        }
        self.at += 1;
        let mut parts = vec![self.part(depth)?];
        loop {
            match self.peek() {
                Some(b' ') => {
                    self.at += 1;
                    parts.push(self.part(depth)?);
                }
                Some(b')') => {
                    self.at += 1;
                    return Ok(parts);
                }
                Some(_) => return Err(format!("no space between parts at byte {}", self.at)),
                None => return Err("a bracket is not closed".to_string()),
            }
        }
    }

    fn part(&mut self, depth: usize) -> Result<Sexp<'a>, String> {
        match self.peek() {
            Some(b'(') => self.list(depth + 1).map(Sexp::List),
            _ => self.word().map(Sexp::Word),
        }
    }

    fn word(&mut self) -> Result<&'a str, String> {
        let rest = &self.line[self.at..];
        let len = rest
            .iter()
            .take_while(|b| b.is_ascii_alphanumeric() || **b == b'-')
            .count();
        match std::str::from_utf8(&rest[..len]) {
            Ok(word) if len > 0 => {
                self.at += len;
                Ok(word)
            }
            _ => Err(format!("neither a word nor a list at byte {}", self.at)),
        }
    }
}

#[cfg(test)]
mod tests {
    use super::*;

    #[test]
    fn words_and_lists() {
        let parts = read_line(b"(a (b -1) c)").unwrap();
        let inner = Sexp::List(vec![Sexp::Word("b"), Sexp::Word("-1")]);
        assert_eq!(parts, [Sexp::Word("a"), inner, Sexp::Word("c")]);
    }

    #[test]
    fn other_lines_are_errors() {
        for line in [
            "", "a", "()", "( a)", "(a )", "(a  b)", "(a", "(a))", "(a)(b)", "(a(b))", " (a)",
        ] {
            assert!(read_line(line.as_bytes()).is_err(), "{line}");
        }
        assert!(read_line(b"(a \xff)").is_err());
    }

    #[test]
    fn depth_is_bounded() {
        let nested = |n: usize| [b"(a ".repeat(n - 1), b"(a".to_vec(), b")".repeat(n)].concat();
        assert!(read_line(&nested(DEEPEST)).is_ok());
        assert!(read_line(&nested(DEEPEST + 1)).is_err());
        assert!(read_line(&nested(1_000_000)).is_err());
    }
}
