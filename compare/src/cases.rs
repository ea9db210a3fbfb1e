//! Stored cases: texts with the answers of `drivercheck`, many in one file.
//!
//! A file is a run of records. Each is a header line `(case NAME TEXTLEN ANSWERLEN)`, then exactly
//! TEXTLEN bytes of text, then exactly ANSWERLEN bytes of answer. Nothing stands between records.

/// One stored case.
#[derive(Clone, Debug, PartialEq, Eq)]
pub struct Case {
    pub name: String,
    pub text: Vec<u8>,
    /// What `drivercheck` prints for the text.
    pub answer: Vec<u8>,
}

/// The word that opens each record; no text of the line format starts with it.
pub const HEADER: &[u8] = b"(case ";

/// All cases of a file, in order.
pub fn read_cases(bytes: &[u8]) -> Result<Vec<Case>, String> {
    let mut cases = Vec::new();
    let mut rest = bytes;
    while !rest.is_empty() {
        let at = bytes.len() - rest.len();
        let (case, after) = read_case(rest).map_err(|e| format!("case at byte {at}: {e}"))?;
        cases.push(case);
        rest = after;
    }
    Ok(cases)
}

/// The file that `read_cases` reads back. A name must not hold a space, a bracket or a line feed.
pub fn write_cases(cases: &[Case]) -> Vec<u8> {
    let mut out = Vec::new();
    for case in cases {
        let header = format!(
            "(case {} {} {})\n",
            case.name,
            case.text.len(),
            case.answer.len()
        );
        out.extend_from_slice(header.as_bytes());
        out.extend_from_slice(&case.text);
        out.extend_from_slice(&case.answer);
    }
    out
}

fn read_case(bytes: &[u8]) -> Result<(Case, &[u8]), String> {
    let end = bytes
        .iter()
        .position(|&b| b == b'\n')
        .ok_or("header without a line feed")?;
    let (header, body) = (&bytes[..end], &bytes[end + 1..]);
    let (name, text_len, answer_len) =
        read_header(header).ok_or("header is not `(case NAME TEXTLEN ANSWERLEN)`")?;
    let (text, body) = take(body, text_len).ok_or("text is cut short")?;
    let (answer, body) = take(body, answer_len).ok_or("answer is cut short")?;
    let case = Case {
        name: name.to_string(),
        text: text.to_vec(),
        answer: answer.to_vec(),
    };
    Ok((case, body))
}

fn read_header(line: &[u8]) -> Option<(&str, usize, usize)> {
    let inner = line.strip_prefix(HEADER)?.strip_suffix(b")")?;
    let mut words = std::str::from_utf8(inner).ok()?.split(' ');
    let header = (
        words.next()?,
        words.next()?.parse().ok()?,
        words.next()?.parse().ok()?,
    );
    (words.next().is_none() && !header.0.is_empty()).then_some(header)
}

fn take(bytes: &[u8], len: usize) -> Option<(&[u8], &[u8])> {
    (len <= bytes.len()).then(|| bytes.split_at(len))
}

#[cfg(test)]
mod tests {
    use super::*;

    fn case(name: &str, text: &[u8], answer: &[u8]) -> Case {
        Case {
            name: name.to_string(),
            text: text.to_vec(),
            answer: answer.to_vec(),
        }
    }

    #[test]
    fn what_is_written_is_read_back() {
        let cases = [
            case("empty", b"", b""),
            case("no-line-feed", b"(module 0 bound)", b"(refused 2 1)\n"),
            case("looks-like-a-header", b"(case x 1 1)\n", b"\xff\n\n"),
        ];
        assert_eq!(read_cases(&write_cases(&cases)).unwrap(), cases);
        assert_eq!(read_cases(b"").unwrap(), []);
    }

    #[test]
    fn broken_files_are_errors() {
        for bytes in [
            "(case a 1 0)",
            "(case a 1 0)\n",
            "(case a 0)\n",
            "(case a 0 0 0)\n",
            "x\n",
        ] {
            assert!(read_cases(bytes.as_bytes()).is_err(), "{bytes}");
        }
    }
}
