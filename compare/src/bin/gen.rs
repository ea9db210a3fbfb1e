//! `gen`: texts from the seeded generator, also with the answers of the Rust, and the stored vectors.
//! Exit status 2 with a line on standard error for bad arguments, for answers that do not agree, or
//! where nothing can be written.

use compare::cases::{write_cases, Case};
use compare::gen;
use std::io::{BufWriter, Write};
use std::path::Path;
use std::process::ExitCode;

const USAGE: &str = "usage: gen PROFILE SEED FROM COUNT | gen --one PROFILE SEED I | gen --list \
                     | gen --vectors DIR | gen --sample PROFILE SEED COUNT";

fn main() -> ExitCode {
    let args: Vec<String> = std::env::args().skip(1).collect();
    let args: Vec<&str> = args.iter().map(String::as_str).collect();
    let mut out = BufWriter::new(std::io::stdout().lock());
    let done = run(&args, &mut out).and_then(|()| out.flush().map_err(unwritten));
    match done {
        Ok(()) => ExitCode::SUCCESS,
        Err(why) => {
            eprintln!("gen: {why}");
            ExitCode::from(2)
        }
    }
}

fn unwritten(e: std::io::Error) -> String {
    format!("cannot write: {e}")
}

fn run(args: &[&str], out: &mut impl Write) -> Result<(), String> {
    match args {
        ["--list"] => list(out),
        ["--one", profile, seed, i] => {
            let text = one(profile, number(seed)?, number(i)?)?;
            out.write_all(&text).map_err(unwritten)
        }
        ["--vectors", dir] => vectors(dir, out),
        ["--sample", profile, seed, count] => sample(profile, number(seed)?, number(count)?, out),
        [profile, seed, from, count] if !profile.starts_with("--") => {
            many(profile, number(seed)?, number(from)?, number(count)?, out)
        }
        _ => Err(USAGE.to_string()),
    }
}

fn number(word: &str) -> Result<u64, String> {
    word.parse()
        .map_err(|_| format!("`{word}` is not a number; {USAGE}"))
}

fn list(out: &mut impl Write) -> Result<(), String> {
    for profile in gen::PROFILES {
        writeln!(out, "{profile}").map_err(unwritten)?;
    }
    Ok(())
}

fn one(profile: &str, seed: u64, i: u64) -> Result<Vec<u8>, String> {
    gen::text(profile, seed, i).ok_or_else(|| format!("no profile `{profile}`; see gen --list"))
}

/// A `.cases` file without answers.
fn many(
    profile: &str,
    seed: u64,
    from: u64,
    count: u64,
    out: &mut impl Write,
) -> Result<(), String> {
    let end = from
        .checked_add(count)
        .ok_or("FROM and COUNT are too large")?;
    one(profile, seed, from)?;
    for i in from..end {
        let case = Case {
            name: format!("{profile}-{seed}-{i}"),
            text: one(profile, seed, i)?,
            answer: Vec::new(),
        };
        out.write_all(&write_cases(&[case])).map_err(unwritten)?;
    }
    Ok(())
}

/// Writes the vector files into a folder, and says what each has.
fn vectors(dir: &str, out: &mut impl Write) -> Result<(), String> {
    for (name, cases) in gen::vectors::files()? {
        let bytes = write_cases(&cases);
        let path = Path::new(dir).join(name);
        std::fs::write(&path, &bytes)
            .map_err(|e| format!("cannot write {}: {e}", path.display()))?;
        writeln!(out, "{name}: {} cases, {} bytes", cases.len(), bytes.len()).map_err(unwritten)?;
    }
    Ok(())
}

/// A `.cases` file of accepted texts to which the Rust always gives one answer, with these answers.
fn sample(profile: &str, seed: u64, count: u64, out: &mut impl Write) -> Result<(), String> {
    let count = usize::try_from(count).map_err(|_| "COUNT is too large")?;
    let cases = gen::vectors::with_answers(profile, seed, count)?;
    out.write_all(&write_cases(&cases)).map_err(unwritten)
}
