//! Diagnostics of the check as report lines. Names are written `n` and their number in the syntax
//! trees, so a message can be taken apart without doubt.

use mimz::diag::Diag;

/// Code, message before the number of the name, message after it, detail of the report.
const MESSAGES: [(&str, &str, &str, &str); 10] = [
    (
        "E0501",
        "`n",
        "` already has a driver — its declaration",
        "wire",
    ),
    ("E0501", "`n", "` has more than one driver", "many"),
    ("E0502", "output `n", "` is never driven", "never"),
    ("E0503", "reg `n", "` is never assigned", "none"),
    (
        "E0503",
        "reg `n",
        "` is assigned in more than one `on` block",
        "blocks",
    ),
    (
        "E0503",
        "memory `n",
        "` is written in more than one `on` block",
        "memblocks",
    ),
    ("E0505", "cannot drive reg `n", "` with `=`", "reg"),
    ("E0505", "cannot write memory `n", "` with `=`", "mem"),
    (
        "E0505",
        "cannot update `n",
        "` with `<-` — it is a wire",
        "arrow",
    ),
    (
        "E0505",
        "cannot update `n",
        "` with `<-` — it is an output port",
        "arrow",
    ),
];

/// The report line of a diagnostic. One that the driver check cannot give becomes a line that no
/// answer holds, so that it is seen wherever reports are compared.
pub fn line(diag: &Diag) -> String {
    known_line(diag).unwrap_or_else(|| format!("(unknown {diag:?})"))
}

fn known_line(diag: &Diag) -> Option<String> {
    let (code, file, start) = (diag.code?, diag.file?, diag.span.start);
    let what = match code {
        "E0504" => walk(&diag.msg),
        _ => plain(code, &diag.msg).or_else(|| gap(code, &diag.msg)),
    };
    Some(format!("({code} {file} {start} {})", what?))
}

/// `NAME DETAIL` of a message that names nothing else.
fn plain(code: &str, msg: &str) -> Option<String> {
    MESSAGES
        .iter()
        .filter(|message| message.0 == code)
        .find_map(|(_, before, after, detail)| {
            let name = number(msg.strip_prefix(before)?.strip_suffix(after)?)?;
            Some(format!("{name} {detail}"))
        })
}

/// `NAME gap BIT`.
fn gap(code: &str, msg: &str) -> Option<String> {
    let rest = msg.strip_prefix("output `n").filter(|_| code == "E0502")?;
    let (name, rest) = rest.split_once("` is only partially driven — bit ")?;
    let bit = rest.strip_suffix(" has no driver")?;
    Some(format!("{} gap {}", number(name)?, number(bit)?))
}

/// `(walk NODE ...)`.
fn walk(msg: &str) -> Option<String> {
    let nodes = msg.strip_prefix("combinational cycle: ")?.split(" -> ");
    let nodes: Vec<String> = nodes.map(node).collect::<Option<_>>()?;
    Some(format!("(walk {})", nodes.join(" ")))
}

/// `nS` is a signal, `nI.nO` an output of an instance, `nI[INDEX].nO` one with an index.
fn node(shown: &str) -> Option<String> {
    let Some((inst, output)) = shown.split_once('.') else {
        return number(shown.strip_prefix('n')?).map(str::to_string);
    };
    let (inst, index) = match inst.split_once('[') {
        None => (inst, "-"),
        Some((inst, index)) => (inst, integer(index.strip_suffix(']')?)?),
    };
    let (inst, output) = (inst.strip_prefix('n')?, output.strip_prefix('n')?);
    Some(format!("(u {} {index} {})", number(inst)?, number(output)?))
}

/// The word, if it is all digits.
fn number(word: &str) -> Option<&str> {
    (!word.is_empty() && word.bytes().all(|b| b.is_ascii_digit())).then_some(word)
}

/// The word, if it is all digits but for a minus.
fn integer(word: &str) -> Option<&str> {
    number(word.strip_prefix('-').unwrap_or(word)).map(|_| word)
}

#[cfg(test)]
mod tests {
    use super::*;
    use mimz::span::Span;

    fn shown(code: &'static str, msg: &str) -> String {
        line(&Diag::new(Span::new(7, 7), msg).with_code(code).with_file(2))
    }

    #[test]
    fn nodes_of_a_walk() {
        let msg = "combinational cycle: n3 -> n4.n5 -> n4[0].n5 -> n4[-2].n5 -> n3";
        assert_eq!(
            shown("E0504", msg),
            "(E0504 2 7 (walk 3 (u 4 - 5) (u 4 0 5) (u 4 -2 5) 3))"
        );
    }

    #[test]
    fn other_messages_stand_out() {
        for msg in [
            "",
            "reg `x` is never assigned",
            "reg `n` is never assigned",
            "n3",
        ] {
            assert!(shown("E0503", msg).starts_with("(unknown "), "{msg}");
        }
        assert!(shown("E0504", "combinational cycle: n3 -> x").starts_with("(unknown "));
        assert!(shown("E0502", "reg `n3` is never assigned").starts_with("(unknown "));
    }
}
