//! Nanoseconds a byte of the archive `bench_c` on texts of 32,768 bytes, flat and nested.
//!
//! `bench_lines --once NAME` reads the text of that name once, for a tool that counts instructions.

use bench::lines::make::{Shape, SHAPES};
use bench::lines::{archive, Answer, LONGEST};
use bench::timing::{self, Job, Rate};
use std::hint::black_box;
use std::process::ExitCode;
use std::{env, fs};

const SAMPLES: usize = 1001;

/// Seconds of a sample: short, so that most are not interrupted.
const SAMPLE: f64 = 0.0005;

fn main() -> ExitCode {
    let words: Vec<String> = env::args().skip(1).collect();
    let words: Vec<&str> = words.iter().map(String::as_str).collect();
    let done = match words[..] {
        [] => measure(),
        ["--once", name] => once(name),
        _ => Err("usage: bench_lines [--once NAME]".to_string()),
    };
    match done {
        Ok(()) => ExitCode::SUCCESS,
        Err(message) => {
            eprintln!("{message}");
            ExitCode::FAILURE
        }
    }
}

fn once(name: &str) -> Result<(), String> {
    let shape = SHAPES.iter().find(|shape| shape.name == name);
    let text = text(shape.ok_or_else(|| format!("no text is called {name}"))?)?;
    black_box(archive::code(black_box(&text)));
    Ok(())
}

fn measure() -> Result<(), String> {
    let texts: Vec<Vec<u8>> = SHAPES.iter().map(text).collect::<Result<_, _>>()?;
    let mut jobs: Vec<_> = texts
        .iter()
        .map(|text| {
            move || {
                black_box(archive::code(black_box(text)));
            }
        })
        .collect();
    let mut jobs: Vec<Job> = jobs.iter_mut().map(|job| job as Job).collect();
    let rates = timing::rates(&mut jobs, SAMPLE, SAMPLES);
    println!("| text | depth | ns a byte, median of {SAMPLES} | fastest |\n|---|---|---|---|");
    for (shape, rate) in SHAPES.iter().zip(&rates) {
        let [median, best] = [rate.median, rate.best].map(nanoseconds);
        println!(
            "| {} | {} | {median:.2} | {best:.2} |",
            shape.name, shape.depth
        );
    }
    println!(
        "\nSlowest nested to fastest flat: {:.2}, by the fastest samples {:.2}",
        ratio(&rates, |r| r.median),
        ratio(&rates, |r| r.best)
    );
    println!(
        "Load: {}",
        load().unwrap_or_else(|| "not known".to_string())
    );
    Ok(())
}

/// A text of the full length that the archive takes for well formed.
fn text(shape: &Shape) -> Result<Vec<u8>, String> {
    let text = shape.text();
    match archive::read(&text) {
        Answer::Formed if text.len() == LONGEST => Ok(text),
        answer => Err(format!("{}: {} bytes, {answer:?}", shape.name, text.len())),
    }
}

/// Nanoseconds a byte, from texts a second.
fn nanoseconds(rate: f64) -> f64 {
    1e9 / rate / LONGEST as f64
}

/// The slowest nested text's time as a multiple of the fastest flat one's.
fn ratio(rates: &[Rate], of: fn(&Rate) -> f64) -> f64 {
    let pairs: Vec<(usize, f64)> = SHAPES
        .iter()
        .map(|shape| shape.depth)
        .zip(rates.iter().map(of))
        .collect();
    let flat = pairs
        .iter()
        .filter(|(depth, _)| *depth < 3)
        .map(|(_, rate)| *rate)
        .fold(0.0, f64::max);
    let nested = pairs
        .iter()
        .filter(|(depth, _)| *depth >= 3)
        .map(|(_, rate)| *rate)
        .fold(f64::INFINITY, f64::min);
    flat / nested
}

/// The load of the last minute, with which the figures are to be read.
fn load() -> Option<String> {
    let loads = fs::read_to_string("/proc/loadavg").ok()?;
    loads.split(' ').next().map(str::to_string)
}
