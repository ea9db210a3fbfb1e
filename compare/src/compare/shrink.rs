//! Making a text smaller while a difference remains.

/// A smaller text for which `differs` still holds: first by dropping lines, then by dropping or
/// replacing parts of lines. `differs` is asked at most `tries` times.
pub fn shrink(text: &[u8], tries: usize, differs: impl FnMut(&[u8]) -> bool) -> Vec<u8> {
    let mut shrinking = Shrinking {
        text: text.to_vec(),
        tries,
        differs,
    };
    loop {
        let before = shrinking.text.len();
        shrinking.drop_lines();
        shrinking.drop_parts();
        if shrinking.text.len() == before || shrinking.tries == 0 {
            return shrinking.text;
        }
    }
}

struct Shrinking<F> {
    text: Vec<u8>,
    tries: usize,
    differs: F,
}

impl<F: FnMut(&[u8]) -> bool> Shrinking<F> {
    /// Takes a candidate if the difference remains.
    fn attempt(&mut self, candidate: Vec<u8>) -> bool {
        if self.tries == 0 {
            return false;
        }
        self.tries -= 1;
        let better = (self.differs)(&candidate);
        if better {
            self.text = candidate;
        }
        better
    }

    /// Runs of lines, from half the text down to single lines, last first.
    fn drop_lines(&mut self) {
        let mut size = lines(&self.text).len().div_ceil(2);
        while size > 0 && self.tries > 0 {
            let mut end = lines(&self.text).len();
            while end > 0 {
                let from = end.saturating_sub(size);
                let mut kept = lines(&self.text);
                kept.drain(from..end.min(kept.len()));
                let candidate = kept.concat();
                self.attempt(candidate);
                end = from;
            }
            size /= 2;
        }
    }

    /// Each part: gone, or only one of its own parts, or 0.
    fn drop_parts(&mut self) {
        let mut at = 0;
        while at < self.text.len() && self.tries > 0 {
            if !self.smaller_part(at) {
                at += 1;
            }
        }
    }

    fn smaller_part(&mut self, at: usize) -> bool {
        let Some(end) = part_end(&self.text, at) else {
            return false;
        };
        let mut candidates = vec![self.replaced(at - 1, end, b"")];
        for (from, to) in inner_parts(&self.text, at, end) {
            candidates.push(self.replaced(at, end, &self.text[from..to]));
        }
        if end - at > 1 {
            candidates.push(self.replaced(at, end, b"0"));
        }
        candidates.into_iter().any(|c| self.attempt(c))
    }

    fn replaced(&self, from: usize, to: usize, by: &[u8]) -> Vec<u8> {
        [&self.text[..from], by, &self.text[to..]].concat()
    }
}

fn lines(text: &[u8]) -> Vec<&[u8]> {
    text.split_inclusive(|&b| b == b'\n').collect()
}

/// The end of the part that starts at `at` after a space; `None` where none does.
fn part_end(text: &[u8], at: usize) -> Option<usize> {
    if at == 0 || text[at - 1] != b' ' {
        return None;
    }
    let mut depth = 0;
    for (i, &b) in text.iter().enumerate().skip(at) {
        match b {
            b'\n' => return None,
            b'(' => depth += 1,
            b')' if depth > 0 => depth -= 1,
            _ => {}
        }
        let next = text.get(i + 1)?;
        if depth == 0 && matches!(next, b' ' | b')' | b'\n') {
            return Some(i + 1);
        }
    }
    None
}

/// The direct parts of the form in `from..to`.
fn inner_parts(text: &[u8], from: usize, to: usize) -> Vec<(usize, usize)> {
    let mut parts = Vec::new();
    let mut at = from + 1;
    while at < to {
        match part_end(text, at) {
            Some(end) if end < to => {
                parts.push((at, end));
                at = end;
            }
            _ => at += 1,
        }
    }
    parts
}
