//! Refusals 1, 2 and 3: the text as a whole, and lines as closed forms.

use super::super::limits;
use super::super::rng::Rng;
use super::{line, no, ok, ok_line, Entry};

fn rng() -> Rng {
    Rng::new("vectors", 0, 0)
}

/// "1 over 32,768 bytes." A refusal's line is "0 for 1, 20, 21".
pub fn one(out: &mut Vec<Entry>) {
    ok(out, "1-bytes-32768", limits::bytes(32_768, &mut rng()));
    no(out, "1-bytes-32769", limits::bytes(32_769, &mut rng()), "(refused 1 0)");
    // "Order: 1, then 2 over the whole text": a byte outside the set does not matter.
    let mut text = limits::bytes(32_769, &mut rng()).into_bytes();
    text[5] = 0xFF;
    no(out, "1-goes-before-2-byte", text, "(refused 1 0)");
    // The same for a missing final line feed.
    no(out, "1-goes-before-2-end", " ".repeat(32_769), "(refused 1 0)");
    // And before 3: 32,769 empty lines.
    no(out, "1-goes-before-3", "\n".repeat(32_769), "(refused 1 0)");
    // At 32,768 bytes the same text is read, and its first line is no form.
    no(out, "1-passed-by-32768-empty-lines", "\n".repeat(32_768), "(refused 3 1)");
}

/// "2 a byte outside the set, or no final line feed." The set: "Bytes 20 to 7E hexadecimal and
/// line feed 0A."
pub fn two(out: &mut Vec<Entry>) {
    for (name, byte) in [
        ("2-byte-00", 0x00),
        ("2-byte-09", 0x09),
        ("2-byte-0b", 0x0B),
        ("2-byte-0d", 0x0D),
        ("2-byte-1f", 0x1F),
        ("2-byte-7f", 0x7F),
        ("2-byte-80", 0x80),
        ("2-byte-ff", 0xFF),
    ] {
        let text = [b"(module 0 bound)\n(reg 1", &[byte][..], b"5)\n(reg 2 6)\n"].concat();
        no(out, name, text, "(refused 2 2)");
    }
    // "line of the first such byte": two of them, the first in line 2.
    no(out, "2-first-of-two-bytes", "(module 0 bound)\n\t\n\t\n", "(refused 2 2)");
    // The byte before the line feed belongs to its line, the byte after it to the next.
    no(out, "2-carriage-returns", "(module 0 bound)\r\n(reg 1 5)\r\n", "(refused 2 1)");
    no(out, "2-byte-after-a-line-feed", "(module 0 bound)\n\r(reg 1 5)\n", "(refused 2 2)");
    // "2 over the whole text" goes before 3 to 7 in earlier lines.
    no(out, "2-goes-before-earlier-lines", "\n(foo)\n(reg 256 \t5)\n", "(refused 2 3)");
    // "no final line feed": "else the last line", the unterminated one.
    no(out, "2-end-of-one-line", "(module 0 bound)", "(refused 2 1)");
    no(out, "2-end-of-two-lines", "(module 0 bound)\n(reg 1 5)", "(refused 2 2)");
    no(out, "2-end-one-byte", "(", "(refused 2 1)");
    no(out, "2-end-after-an-empty-line", "(module 0 bound)\n\n ", "(refused 2 3)");
    // A byte outside the set names its own line though the end is missing too.
    no(out, "2-byte-and-end", "(module 0 bound)\t\n(reg 1 5)\n(reg 2 5)", "(refused 2 1)");
    no(out, "2-byte-is-the-end", "(module 0 bound)\n\0", "(refused 2 2)");
    // 20 and 7E hexadecimal are in the set: these are 3.
    no(out, "2-not-byte-20", " \n", "(refused 3 1)");
    no(out, "2-not-byte-7e", "~\n", "(refused 3 1)");
    // "An empty text is accepted, with no reports."
    ok(out, "2-not-the-empty-text", "");
}

/// "3 not one closed form from first byte to last, or 33 deep."
pub fn three(out: &mut Vec<Entry>) {
    // An empty line is no form.
    no(out, "3-one-line-feed", "\n", "(refused 3 1)");
    no(out, "3-empty-line-between", "(module 0 bound)\n\n(reg 1 5)\n", "(refused 3 2)");
    no(out, "3-empty-line-at-the-end", "(module 0 bound)\n\n", "(refused 3 2)");
    // From the first byte to the last: nothing before the first bracket or after the last.
    line(out, "3-space-before", " (reg 1 5)", "(refused 3 2)");
    line(out, "3-space-after", "(reg 1 5) ", "(refused 3 2)");
    line(out, "3-byte-before", "x(reg 1 5)", "(refused 3 2)");
    line(out, "3-byte-after", "(reg 1 5)5", "(refused 3 2)");
    line(out, "3-no-bracket", "reg 1 5", "(refused 3 2)");
    line(out, "3-a-number", "5", "(refused 3 2)");
    line(out, "3-only-spaces", "   ", "(refused 3 2)");
    // Closed, and closed once.
    line(out, "3-not-closed", "(reg 1 5", "(refused 3 2)");
    line(out, "3-inner-not-closed", "(wire 1 (n 2 5)", "(refused 3 2)");
    line(out, "3-closed-twice", "(reg 1 5))", "(refused 3 2)");
    line(out, "3-only-closed", ")", "(refused 3 2)");
    line(out, "3-only-opened", "(", "(refused 3 2)");
    line(out, "3-closed-then-opened", ")(", "(refused 3 2)");
    line(out, "3-closed-then-opened-inside", "(reg 1 5))(", "(refused 3 2)");
    // One form, not two.
    line(out, "3-two-forms", "(reg 1 5)(reg 2 6)", "(refused 3 2)");
    line(out, "3-two-forms-with-a-space", "(reg 1 5) (reg 2 6)", "(refused 3 2)");
    // Each line is one form: it does not go on in the next.
    line(out, "3-form-over-two-lines", "(reg 1\n5)", "(refused 3 2)");
    three_deep(out);
}

/// "to 32 brackets deep", "or 33 deep".
fn three_deep(out: &mut Vec<Entry>) {
    for (variant, what) in ["wire", "const", "loop", "all", "fields"].iter().enumerate() {
        ok(out, &format!("3-deep-32-{what}"), limits::deep(32, variant));
        no(out, &format!("3-deep-33-{what}"), limits::deep(33, variant), "(refused 3 4)");
    }
    // The head need not be known, nor the form closed.
    line(out, "3-deep-33-bare", &format!("{}{}", "(".repeat(33), ")".repeat(33)), "(refused 3 2)");
    line(out, "3-deep-33-open", &"(x ".repeat(33), "(refused 3 2)");
    // 32 deep is not 3: the innermost form is empty, which is 4.
    line(out, "3-not-deep-32", &format!("{}{}", "(".repeat(32), ")".repeat(32)), "(refused 4 2)");
    ok_line(out, "3-deep-many-brackets-side-by-side", &format!("(wire 1 (all{}) 5)", " (n 1)".repeat(40)));
}
