//! Times of the search for cycles: the archive `bench_c` and the original's `find_cycles`, on the
//! same graphs.
//!
//! `bench_graph` prints the table; `bench_graph ROW` runs each of the four jobs of a row once, for a
//! program that counts instructions by the name of a function.

use bench::graph::archive::{Full, Graph};
use bench::graph::make::{self, Shape};
use bench::graph::original::{self, Line};
use bench::graph::Head;
use bench::timing::{self, Rate};
use mimz_cycles::checker::face;
use std::hint::black_box;
use std::process::ExitCode;
use std::{env, fs};

const SAMPLES: usize = 51;

/// Seconds of a sample: short, so that most are not interrupted.
const SAMPLE: f64 = 0.0002;

/// A row of the table.
struct Row {
    name: &'static str,
    make: fn() -> Vec<Head>,
}

const fn row(name: &'static str, make: fn() -> Vec<Head>) -> Row {
    Row { name, make }
}

const ROWS: [Row; 14] = [
    row("chain, 16", || make::linked(16, Shape::Chain)),
    row("chain, 64", || make::linked(64, Shape::Chain)),
    row("chain, 256", || make::linked(256, Shape::Chain)),
    row("chain, 512", || make::linked(512, Shape::Chain)),
    row("no loop, 16", || make::timed(16, 64, false)),
    row("no loop, 64", || make::timed(64, 1024, false)),
    row("no loop, 128", || make::timed(128, 4096, false)),
    row("no loop, 512", || make::timed(512, 4096, false)),
    row("rings, 16", || make::linked(16, Shape::Rings)),
    row("rings, 64", || make::linked(64, Shape::Rings)),
    row("rings, 512", || make::linked(512, Shape::Rings)),
    row("any reads, 16", || make::timed(16, 64, true)),
    row("any reads, 64", || make::timed(64, 1024, true)),
    row("any reads, 512", || make::timed(512, 4096, true)),
];

fn main() -> ExitCode {
    let rows: Result<(), String> = match env::args().nth(1) {
        None => table(),
        Some(name) => once(&name),
    };
    match rows {
        Ok(()) => ExitCode::SUCCESS,
        Err(message) => {
            eprintln!("{message}");
            ExitCode::FAILURE
        }
    }
}

/// A graph in both forms, and how many reports it has.
struct Prepared {
    heads: Vec<Head>,
    lines: Vec<Line>,
    archive: Graph,
    original: face::Graph,
    reports: usize,
}

/// Both forms, after both gave the same reports.
fn prepare(row: &Row) -> Result<Prepared, String> {
    let heads = (row.make)();
    let lines = original::lines(&heads);
    let mut archive = Graph::new(0);
    let reports = archive
        .reports(&heads)
        .map_err(|Full| format!("{}: Full", row.name))?;
    if reports != original::reports(&heads)? {
        return Err(format!("{}: not the same reports", row.name));
    }
    Ok(Prepared {
        original: original::graph(&lines),
        heads,
        lines,
        archive,
        reports: reports.len(),
    })
}

#[inline(never)]
fn archive_build(graph: &mut Graph, heads: &[Head]) {
    graph.clear();
    let _ = black_box(heads.iter().try_for_each(|head| graph.head(head)));
}

#[inline(never)]
fn archive_search(graph: &mut Graph) {
    graph.begin();
    while let Some(numbers) = graph.next() {
        black_box(numbers);
    }
}

#[inline(never)]
fn original_build(lines: &[Line]) -> face::Graph {
    original::graph(black_box(lines))
}

#[inline(never)]
fn original_search(graph: &mut face::Graph) {
    black_box(graph.find_cycles());
}

fn once(name: &str) -> Result<(), String> {
    let row = ROWS.iter().find(|row| row.name == name);
    let mut p = prepare(row.ok_or_else(|| format!("no row {name}"))?)?;
    archive_build(&mut p.archive, &p.heads);
    archive_search(&mut p.archive);
    original_search(&mut original_build(&p.lines));
    Ok(())
}

fn table() -> Result<(), String> {
    let mut rows = Vec::new();
    for row in &ROWS {
        rows.push((row, measure(row)?));
    }
    println!(
        "Median of {SAMPLES} samples:\n\n{HEAD}{}",
        lines(&rows, |r| r.median)
    );
    println!("Fastest sample:\n\n{HEAD}{}", lines(&rows, |r| r.best));
    let load = fs::read_to_string("/proc/loadavg").unwrap_or_default();
    println!("Load: {}", load.split(' ').next().unwrap_or("not known"));
    Ok(())
}

const HEAD: &str = "\
| graph | edges | reports | archive, search | original, search | ratio | archive, all | original, all | ratio |
|---|---|---|---|---|---|---|---|---|
";

/// What was measured of a row: edges and reports, and the rates of search and of building and search.
struct Measured {
    edges: usize,
    reports: usize,
    rates: Vec<Rate>,
}

fn measure(row: &Row) -> Result<Measured, String> {
    let mut p = prepare(row)?;
    let mut whole = Graph::new(0);
    let mut archive = || archive_search(&mut p.archive);
    let mut original = || original_search(&mut p.original);
    let mut archive_all = || {
        archive_build(&mut whole, &p.heads);
        archive_search(&mut whole);
    };
    let mut original_all = || original_search(&mut original_build(&p.lines));
    let rates = timing::rates(
        &mut [
            &mut archive,
            &mut original,
            &mut archive_all,
            &mut original_all,
        ],
        SAMPLE,
        SAMPLES,
    );
    Ok(Measured {
        edges: p.heads.iter().map(|head| head.reads.len()).sum(),
        reports: p.reports,
        rates,
    })
}

fn lines(rows: &[(&Row, Measured)], of: fn(&Rate) -> f64) -> String {
    rows.iter()
        .map(|(row, measured)| line(row, measured, of))
        .collect()
}

/// Times in microseconds; a ratio above 1 says that the archive is faster.
fn line(row: &Row, measured: &Measured, of: fn(&Rate) -> f64) -> String {
    let times: Vec<f64> = measured.rates.iter().map(|rate| 1e6 / of(rate)).collect();
    let [archive, original, archive_all, original_all] = times[..] else {
        return String::new();
    };
    format!(
        "| {} | {} | {} | {archive:.1} | {original:.1} | {:.1} | {archive_all:.1} | {original_all:.1} | {:.1} |\n",
        row.name,
        measured.edges,
        measured.reports,
        original / archive,
        original_all / archive_all,
    )
}
