//! Runs the Rust driver check on texts of the line format.

use std::fs;
use std::io::{self, Read, Write};
use std::path::Path;
use std::process::ExitCode;
use std::time::{Duration, Instant};

use compare::{cases, oracle};

const USAGE: &str = "usage: oracle | oracle --batch FILE... | oracle --bench FILE... [--runs N]";
const DEFAULT_RUNS: usize = 101;

/// What ends a run early: a wrong call, or something that could not be read or written.
enum Fault {
    Usage(String),
    Failed(String),
}

enum Mode {
    Single,
    Batch(Vec<String>),
    Bench(Vec<String>, usize),
}

struct Text {
    name: String,
    bytes: Vec<u8>,
}

fn main() -> ExitCode {
    let args: Vec<String> = std::env::args_os()
        .skip(1)
        .map(|a| a.to_string_lossy().into())
        .collect();
    let done = mode(&args).and_then(|mode| match mode {
        Mode::Single => single(),
        Mode::Batch(files) => batch(&files),
        Mode::Bench(files, runs) => bench(&files, runs),
    });
    match done {
        Ok(()) => ExitCode::SUCCESS,
        Err(Fault::Failed(message)) => end(&message, 1),
        Err(Fault::Usage(message)) => end(&format!("{message} ({USAGE})"), 2),
    }
}

fn end(message: &str, status: u8) -> ExitCode {
    eprintln!("oracle: {message}");
    ExitCode::from(status)
}

fn mode(args: &[String]) -> Result<Mode, Fault> {
    match args.split_first() {
        None => Ok(Mode::Single),
        Some((first, files)) if first == "--batch" => Ok(Mode::Batch(file_names(files)?)),
        Some((first, rest)) if first == "--bench" => bench_mode(rest),
        Some((first, _)) => Err(Fault::Usage(format!("unknown argument {first:?}"))),
    }
}

fn bench_mode(args: &[String]) -> Result<Mode, Fault> {
    let Some(at) = args.iter().position(|a| a == "--runs") else {
        return Ok(Mode::Bench(file_names(args)?, DEFAULT_RUNS));
    };
    let runs = args
        .get(at + 1)
        .and_then(|n| n.parse().ok())
        .filter(|&n| n > 0);
    let runs = runs.ok_or_else(|| Fault::Usage("--runs needs a number above 0".to_string()))?;
    Ok(Mode::Bench(
        file_names(&[&args[..at], &args[at + 2..]].concat())?,
        runs,
    ))
}

fn file_names(args: &[String]) -> Result<Vec<String>, Fault> {
    match args.iter().find(|a| a.starts_with("--")) {
        Some(flag) => Err(Fault::Usage(format!("unknown argument {flag:?}"))),
        None if args.is_empty() => Err(Fault::Usage("no file is named".to_string())),
        None => Ok(args.to_vec()),
    }
}

fn single() -> Result<(), Fault> {
    let mut text = Vec::new();
    io::stdin()
        .read_to_end(&mut text)
        .map_err(|e| Fault::Failed(format!("standard input: {e}")))?;
    let reports = oracle::check(&text).map_err(Fault::Failed)?;
    print(&reports)
}

/// Goes on after a text that cannot be read, and fails at the end.
fn batch(files: &[String]) -> Result<(), Fault> {
    let mut unread = 0;
    for text in texts(files)? {
        print(&[format!("== {}", text.name)])?;
        match oracle::check(&text.bytes) {
            Ok(reports) => print(&reports)?,
            Err(e) => {
                unread += 1;
                eprintln!("oracle: {}: {e}", text.name);
                print(&["(unreadable)".to_string()])?;
            }
        }
    }
    match unread {
        0 => Ok(()),
        n => Err(Fault::Failed(format!("texts that cannot be read: {n}"))),
    }
}

fn bench(files: &[String], runs: usize) -> Result<(), Fault> {
    print(&[
        "name bytes reports check-median-ns check-min-ns both-median-ns both-min-ns".to_string(),
    ])?;
    for text in texts(files)? {
        let line =
            measure(&text, runs).map_err(|e| Fault::Failed(format!("{}: {e}", text.name)))?;
        print(&[line])?;
    }
    Ok(())
}

/// `check` is `check_drivers` alone, `both` is with the reading of the text. What turns
/// diagnostics into report lines is in neither: it is the oracle's own.
fn measure(text: &Text, runs: usize) -> Result<String, String> {
    let prepared = oracle::prepare(&text.bytes)?;
    let reports = prepared.run().len();
    let check = spread(runs, || prepared.run_timed().1);
    let both = spread(runs, || parse_and_check(&text.bytes));
    let figures = [check.0, check.1, both.0, both.1].map(|time| time.as_nanos().to_string());
    let bytes = text.bytes.len();
    Ok(format!(
        "{} {bytes} {reports} {}",
        text.name,
        figures.join(" ")
    ))
}

/// The text has been read before, so reading it does not fail.
fn parse_and_check(text: &[u8]) -> Duration {
    let start = Instant::now();
    let prepared = oracle::prepare(text);
    let parse = start.elapsed();
    parse + prepared.map_or(Duration::ZERO, |prepared| prepared.run_timed().1)
}

/// Median and minimum.
fn spread(runs: usize, once: impl FnMut() -> Duration) -> (Duration, Duration) {
    let mut times: Vec<Duration> = std::iter::repeat_with(once).take(runs).collect();
    times.sort();
    (times[runs / 2], times[0])
}

/// The texts of all files: a `.cases` file holds many, any other is one.
fn texts(files: &[String]) -> Result<Vec<Text>, Fault> {
    let mut texts = Vec::new();
    for file in files {
        let failed = |e: String| Fault::Failed(format!("{file}: {e}"));
        let bytes = fs::read(file).map_err(|e| failed(e.to_string()))?;
        if Path::new(file).extension().is_some_and(|e| e == "cases") {
            let cases = cases::read_cases(&bytes).map_err(failed)?;
            texts.extend(cases.into_iter().map(|c| Text {
                name: c.name,
                bytes: c.text,
            }));
        } else {
            texts.push(Text {
                name: file.clone(),
                bytes,
            });
        }
    }
    Ok(texts)
}

fn print(lines: &[String]) -> Result<(), Fault> {
    let text: String = lines.iter().flat_map(|line| [line, "\n"]).collect();
    io::stdout()
        .write_all(text.as_bytes())
        .map_err(|e| Fault::Failed(format!("standard output: {e}")))
}
