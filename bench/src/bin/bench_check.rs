//! Times of the whole check: the archive of `drivers_c` from bytes to report, and the original's
//! `check_drivers` on a tree already built, and with reading the text.
//!
//! `bench_check` prints the table; `bench_check --once ROW` runs the archive once on a row's text and
//! `--times N ROW` so often, for a tool that counts instructions; `--text ROW` prints the text.
//! `--stack KB` runs it on the deepest nesting in a thread with so much stack, which is enough or not.

use bench::check::archive::{self, Answer, Working, LENT};
use bench::check::make::{self, Row, ROWS};
use compare::model::{self, PROGRAM_BUFFER};
use compare::oracle::{self, Prepared};
use std::hint::black_box;
use std::io::{self, Write};
use std::process::ExitCode;
use std::time::{Duration, Instant};
use std::{env, fs, thread};

/// Samples of each row: at least so many, and more while they take less than `PATIENCE`.
const FEWEST: usize = 3;
const MOST: usize = 201;
const PATIENCE: Duration = Duration::from_secs(4);

/// A sample takes as many calls as fill this time.
const SAMPLE: Duration = Duration::from_micros(200);

const HEAD: &str = "\
| design | bytes | reports | archive, from bytes | original, tree built | ratio | original, from bytes | ratio |
|---|---|---|---|---|---|---|---|
";

fn main() -> ExitCode {
    let words: Vec<String> = env::args().skip(1).collect();
    let words: Vec<&str> = words.iter().map(String::as_str).collect();
    let done = match words[..] {
        [] => table(),
        ["--once", name] => times(name, "1"),
        ["--times", n, name] => times(name, n),
        ["--text", name] => print_text(name),
        ["--stack", kb] => on_stack(kb),
        _ => Err(
            "usage: bench_check [--once ROW | --times N ROW | --text ROW | --stack KB]".to_string(),
        ),
    };
    match done {
        Ok(()) => ExitCode::SUCCESS,
        Err(message) => {
            eprintln!("{message}");
            ExitCode::FAILURE
        }
    }
}

fn row(name: &str) -> Result<&'static Row, String> {
    let row = ROWS.iter().find(|row| row.name == name);
    row.ok_or_else(|| format!("no row {name}"))
}

fn print_text(name: &str) -> Result<(), String> {
    let text = (row(name)?.text)();
    io::stdout().write_all(&text).map_err(|e| e.to_string())
}

/// What a row is timed on.
struct Prep {
    text: Vec<u8>,
    tree: Prepared,
    report: Vec<u8>,
    lent: Working,
    answer: Answer,
}

/// After the archive gave what the model gives.
fn prepare(row: &Row) -> Result<Prep, String> {
    let text = (row.text)();
    let (mut report, mut lent) = (vec![0; PROGRAM_BUFFER], Working::new(LENT));
    let answer = archive::check(&text, &mut report, &mut lent)?;
    let wanted = model::answer(&text, PROGRAM_BUFFER);
    if answer.number != 0 || wanted.number != 0 || report[..answer.bytes] != wanted.text {
        return Err(format!(
            "{}: {answer:?}, model {} {}",
            row.name, wanted.number, wanted.line
        ));
    }
    let tree = oracle::prepare(&text)?;
    Ok(Prep {
        text,
        tree,
        report,
        lent,
        answer,
    })
}

#[inline(never)]
fn ours(prep: &mut Prep) {
    let answer = archive::check(black_box(&prep.text), &mut prep.report, &mut prep.lent);
    let _ = black_box(answer);
}

fn times(name: &str, n: &str) -> Result<(), String> {
    let n: u64 = n.parse().map_err(|_| format!("no number: {n}"))?;
    let text = (row(name)?.text)();
    let (mut report, mut lent) = (vec![0; PROGRAM_BUFFER], Working::new(LENT));
    for _ in 0..n {
        black_box(archive::check(black_box(&text), &mut report, &mut lent)?);
    }
    Ok(())
}

/// The deepest nesting in a thread with a stack of so many KB.
fn on_stack(kb: &str) -> Result<(), String> {
    let kb: usize = kb.parse().map_err(|_| format!("no number: {kb}"))?;
    let (mut report, mut lent) = (vec![0; PROGRAM_BUFFER], Working::new(LENT));
    let thread = thread::Builder::new().stack_size(kb * 1024);
    let run = move || archive::check(&make::deepest(), &mut report, &mut lent);
    let thread = thread.spawn(run).map_err(|e| e.to_string())?;
    let answer = thread.join().map_err(|_| "the thread failed")??;
    println!("{answer:?}");
    Ok(())
}

/// Microseconds of a call, by samples: the archive, `check_drivers` alone, with reading.
#[derive(Default)]
struct Samples([Vec<f64>; 3]);

fn seconds(prep: &mut Prep, calls: u32, of: fn(&mut Prep) -> Duration) -> f64 {
    let all: Duration = (0..calls).map(|_| of(prep)).sum();
    all.as_secs_f64() * 1e6 / f64::from(calls)
}

fn time_ours(prep: &mut Prep) -> Duration {
    let start = Instant::now();
    ours(prep);
    start.elapsed()
}

fn time_check(prep: &mut Prep) -> Duration {
    prep.tree.run_timed().1
}

fn time_both(prep: &mut Prep) -> Duration {
    let start = Instant::now();
    let tree = oracle::prepare(black_box(&prep.text));
    let read = start.elapsed();
    read + tree.map_or(Duration::ZERO, |tree| tree.run_timed().1)
}

const JOBS: [fn(&mut Prep) -> Duration; 3] = [time_ours, time_check, time_both];

fn calls(prep: &mut Prep, of: fn(&mut Prep) -> Duration) -> u32 {
    let once = of(prep).max(Duration::from_nanos(100));
    (SAMPLE.as_secs_f64() / once.as_secs_f64()).ceil() as u32
}

/// The three in turns, so that what else the machine does falls on all of them.
fn measure(prep: &mut Prep) -> Samples {
    let calls = JOBS.map(|job| calls(prep, job));
    let (mut samples, begun) = (Samples::default(), Instant::now());
    for n in 0..MOST {
        if n >= FEWEST && begun.elapsed() > PATIENCE {
            break;
        }
        for ((job, calls), into) in JOBS.iter().zip(calls).zip(&mut samples.0) {
            into.push(seconds(prep, calls, *job));
        }
    }
    samples.0.iter_mut().for_each(|s| s.sort_by(f64::total_cmp));
    samples
}

/// A ratio above 1 says that the archive is faster.
fn line(row: &Row, prep: &Prep, [ours, check, both]: [f64; 3]) -> String {
    format!(
        "| {} | {} | {} | {ours:.1} | {check:.1} | {:.2} | {both:.1} | {:.2} |\n",
        row.name,
        prep.text.len(),
        prep.answer.reports,
        check / ours,
        both / ours
    )
}

fn table() -> Result<(), String> {
    let (mut median, mut best) = (HEAD.to_string(), HEAD.to_string());
    for row in &ROWS {
        let mut prep = prepare(row)?;
        let samples = measure(&mut prep);
        let at = |place: fn(&Vec<f64>) -> f64| [0, 1, 2].map(|k: usize| place(&samples.0[k]));
        median += &line(row, &prep, at(|s| s[s.len() / 2]));
        best += &line(row, &prep, at(|s| s[0]));
    }
    println!("Microseconds, median:\n\n{median}\nFastest sample:\n\n{best}");
    let load = fs::read_to_string("/proc/loadavg").unwrap_or_default();
    println!("Load: {}", load.split(' ').next().unwrap_or("not known"));
    Ok(())
}
