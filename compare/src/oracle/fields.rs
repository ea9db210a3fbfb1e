//! Fields of signals (U2). The original reads nothing in an `f` other than 01's two on an inst; here
//! all is read that its inner expression reads. `(all E)` reads just that in the original too, and
//! has no value either, so the original is asked about the text with `(all E)` in place of `(f E P)`.

use super::sexp::{self, Sexp};
use std::collections::BTreeSet;

use Sexp::{List, Word};

/// The names of kind inst of one module, as they are written.
type Insts<'a> = BTreeSet<&'a str>;

/// The text with `(all E)` for each `(f E P)` other than `(f (n I) P)` and `(f (ix (n I) E) P)`, I an
/// inst of the module in which it stands. None where there is none, and where a line is no form:
/// such a text is refused.
pub fn rewritten(text: &[u8]) -> Option<Vec<u8>> {
    let mut insts = Insts::new();
    let mut fields = 0;
    let mut out = String::new();
    for line in text.strip_suffix(b"\n")?.split(|&b| b == b'\n') {
        let form = List(sexp::read_line(line).ok()?);
        note_kind(&form, &mut insts);
        write(&form, &insts, &mut fields, &mut out);
        out.push('\n');
    }
    (fields > 0).then(|| out.into_bytes())
}

/// Kinds hold in their own module.
fn note_kind<'a>(form: &Sexp<'a>, insts: &mut Insts<'a>) {
    let List(parts) = form else {
        return;
    };
    match parts[..] {
        [Word("module"), ..] => insts.clear(),
        [Word("kind"), Word(name), Word("inst")] => {
            insts.insert(name);
        }
        _ => {}
    }
}

/// Writes a form and counts the fields that it rewrites.
fn write(form: &Sexp, insts: &Insts, fields: &mut u64, out: &mut String) {
    match form {
        Word(word) => out.push_str(word),
        List(parts) => match &parts[..] {
            [Word("f"), inner, Word(_)] if !is_output(inner, insts) => {
                *fields += 1;
                out.push_str("(all ");
                write(inner, insts, fields, out);
                out.push(')');
            }
            _ => {
                for (i, part) in parts.iter().enumerate() {
                    out.push(if i == 0 { '(' } else { ' ' });
                    write(part, insts, fields, out);
                }
                out.push(')');
            }
        },
    }
}

/// Whether a field of this is the output of an instance, indexed or not.
fn is_output(inner: &Sexp, insts: &Insts) -> bool {
    let List(parts) = inner else {
        return false;
    };
    match &parts[..] {
        [Word("n"), Word(name)] => insts.contains(name),
        [Word("ix"), List(core), _] => {
            matches!(core[..], [Word("n"), Word(name)] if insts.contains(name))
        }
        _ => false,
    }
}

#[cfg(test)]
mod tests {
    use super::*;

    /// Name 6 is an instance; 7 is one in the next module only.
    fn text(e: &str) -> String {
        format!(
            "(module 0 bound)\n(kind 6 inst)\n(kind 3 wire)\n(wire 3 {e} 5)\n\
             (module 1 bound)\n(kind 7 inst)\n"
        )
    }

    #[track_caller]
    fn becomes(e: &str, other: &str) {
        let found = rewritten(text(e).as_bytes()).map(|t| String::from_utf8(t).unwrap());
        assert_eq!(found, Some(text(other)));
    }

    #[test]
    fn fields_of_anything_but_an_instance() {
        becomes("(f (n 3) 1)", "(all (n 3))");
        becomes("(f (n 7) 1)", "(all (n 7))");
        becomes("(f 0 255)", "(all 0)");
        becomes("(f (ix (n 3) (n 4)) 1)", "(all (ix (n 3) (n 4)))");
        becomes("(f (ix (ix (n 6) 0) 1) 2)", "(all (ix (ix (n 6) 0) 1))");
        becomes("(f (all (n 6)) 2)", "(all (all (n 6)))");
        becomes("(f (all (ix (n 6) 0)) 2)", "(all (all (ix (n 6) 0)))");
    }

    #[test]
    fn outputs_of_an_instance_stay() {
        for e in [
            "(f (n 6) 1)",
            "(f (ix (n 6) (n 3)) 1)",
            "(f (ix (n 6) (f (n 6) 1)) 1)",
            "(all (f (n 6) 1) (ix (f (n 6) 2) 0))",
            "(n 3)",
        ] {
            assert_eq!(rewritten(text(e).as_bytes()), None, "{e}");
        }
    }

    #[test]
    fn fields_inside_fields() {
        becomes("(f (f (n 3) 1) 2)", "(all (all (n 3)))");
        becomes("(f (f (n 6) 1) 2)", "(all (f (n 6) 1))");
        becomes("(f (f (ix (n 6) 0) 1) 2)", "(all (f (ix (n 6) 0) 1))");
        becomes("(f (ix (f (n 6) 1) 0) 2)", "(all (ix (f (n 6) 1) 0))");
        becomes(
            "(f (ix (n 6) (f (n 3) 1)) 2)",
            "(f (ix (n 6) (all (n 3))) 2)",
        );
    }

    #[test]
    fn kinds_are_those_of_the_module() {
        let of = |kinds: [&str; 2], reads: [&str; 2]| {
            let module = |m: usize| {
                let (kind, read) = (kinds[m], reads[m]);
                format!("(module {m} bound)\n(kind 6 {kind})\n(repeat 9 0 2 (wire 3 {read} 5))\n")
            };
            module(0) + &module(1)
        };
        let read = "(f (n 6) 1)";
        for (kinds, reads) in [
            (["inst", "wire"], [read, "(all (n 6))"]),
            (["wire", "inst"], ["(all (n 6))", read]),
            (["reg", "mem"], ["(all (n 6))", "(all (n 6))"]),
        ] {
            let found = rewritten(of(kinds, [read, read]).as_bytes());
            assert_eq!(found, Some(of(kinds, reads).into_bytes()));
        }
    }

    #[test]
    fn everywhere_in_a_line() {
        for line in [
            "(drive (lv 2 5 E E) E)",
            "(inst 6 E 1 5 (conn 1 E) (conn 2 (neg E)))",
            "(port out 2 (bits E) 5)",
            "(constif E (then (const 1 E)) (else (repeat 9 E E (wire 3 E 5))))",
        ] {
            let with = |e| format!("(module 0 bound)\n{}\n", line.replace('E', e));
            let found = rewritten(with("(f (n 3) 1)").as_bytes());
            assert_eq!(found, Some(with("(all (n 3))").into_bytes()));
        }
    }

    #[test]
    fn texts_without_lines_or_forms_have_none() {
        for text in [
            "",
            "\n",
            "(f (n 3) 1)",
            "(f (n 3) 1)\nx\n",
            "(f (n 3) 1)\n()\n",
            "(f (n 3))\n",
        ] {
            assert_eq!(rewritten(text.as_bytes()), None, "{text:?}");
        }
    }
}
