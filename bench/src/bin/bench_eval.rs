//! Evaluations a second of the archive `bench_c` and of the original, on the same
//! expressions.

use bench::consteval::make::{Maker, MOODS};
use bench::consteval::names::Names;
use bench::consteval::tree::{Op, Tree};
use bench::consteval::{archive, original, read, Answer, DEPTH};
use bench::timing::{self, Rate};
use compare::gen::rng::Rng;
use mimz::ast::Expr;
use mimz::checker::consteval;
use std::fs;
use std::hint::black_box;
use std::process::ExitCode;

const EXPRESSIONS: u64 = 64;
const SAMPLES: usize = 1001;
const DEEPEST: u32 = 30;

/// Seconds of a sample: short, so that most are not interrupted.
const SAMPLE: f64 = 0.0002;

/// A row of the table.
struct Shape {
    name: &'static str,
    make: fn(&mut Maker) -> Tree,
}

/// The first four rows draw none of `Op::BITS`, so that their figures can be held against
/// earlier ones.
const SHAPES: [Shape; 9] = [
    Shape {
        name: "1 operator",
        make: |maker| maker.valued(1).0,
    },
    Shape {
        name: "10 operators",
        make: |maker| maker.valued(10).0,
    },
    Shape {
        name: "100 operators",
        make: |maker| maker.valued(100).0,
    },
    Shape {
        name: "nested 30",
        make: |maker| maker.nested(30).0,
    },
    Shape {
        name: "1 shl",
        make: |maker| maker.alone(Op::Shl),
    },
    Shape {
        name: "1 shr",
        make: |maker| maker.alone(Op::Shr),
    },
    Shape {
        name: "1 band",
        make: |maker| maker.alone(Op::Band),
    },
    Shape {
        name: "1 bor",
        make: |maker| maker.alone(Op::Bor),
    },
    Shape {
        name: "1 bxor",
        make: |maker| maker.alone(Op::Bxor),
    },
];

fn main() -> ExitCode {
    match SHAPES.iter().map(measure).collect::<Result<Vec<_>, _>>() {
        Ok(rows) => {
            println!(
                "Median of {SAMPLES} samples:\n{}",
                table(&rows, |r| r.median)
            );
            println!("Fastest sample:\n{}", table(&rows, |r| r.best));
            println!(
                "Load: {}",
                load().unwrap_or_else(|| "not known".to_string())
            );
            ExitCode::SUCCESS
        }
        Err(message) => {
            eprintln!("{message}");
            ExitCode::FAILURE
        }
    }
}

/// The figures of one shape: mean bytes, and the rates of rounds over all expressions.
struct Row {
    name: &'static str,
    bytes: u64,
    rates: Vec<Rate>,
}

fn table(rows: &[Row], of: fn(&Rate) -> f64) -> String {
    let lines: String = rows.iter().map(|row| line(row, of)).collect();
    format!("\n{HEAD}{lines}")
}

/// The load of the last minute, with which the figures are to be read.
fn load() -> Option<String> {
    let loads = fs::read_to_string("/proc/loadavg").ok()?;
    loads.split(' ').next().map(str::to_string)
}

const HEAD: &str = "\
| expression | bytes | archive, from bytes | original, tree built | ratio | original, from bytes | ratio |
|---|---|---|---|---|---|---|
";

fn names() -> Names {
    let values = [8, 32, -1, 0, 255, 1024, -7, 3];
    Names::of(&(0..).zip(values).collect::<Vec<_>>())
}

/// Expressions whose parts all have values inside INT.
fn expressions(shape: &Shape, names: &Names) -> Vec<Vec<u8>> {
    let mut rng = Rng::new(shape.name, 1, 0);
    let ops: Vec<Op> = Op::ALL
        .into_iter()
        .filter(|op| !Op::BITS.contains(op))
        .collect();
    let mut maker = Maker {
        rng: &mut rng,
        names,
        mood: MOODS[0],
        ops: &ops,
    };
    let trees = std::iter::repeat_with(|| (shape.make)(&mut maker));
    let shallow = trees.filter(|tree| tree.nesting() <= DEEPEST);
    shallow
        .take(EXPRESSIONS as usize)
        .map(|tree| tree.bytes())
        .collect()
}

/// Measures one shape, after both gave the same values.
fn measure(shape: &Shape) -> Result<Row, String> {
    let (names, env) = (names(), original::env(&names()));
    let texts = expressions(shape, &names);
    let trees: Vec<Expr> = texts
        .iter()
        .map(|e| read::expr(e))
        .collect::<Result<_, _>>()?;
    for (text, tree) in texts.iter().zip(&trees) {
        same(
            text,
            archive::eval(text, DEPTH, &names.flat, names.used),
            original::eval(tree, &env),
        )?;
    }
    let mut archive = || {
        for e in &texts {
            black_box(archive::code(black_box(e), DEPTH, &names.flat, names.used));
        }
    };
    let mut built = || {
        for e in &trees {
            let _ = black_box(consteval::eval(black_box(e), &env));
        }
    };
    let mut from_bytes = || {
        for e in &texts {
            let _ = black_box(read::expr(black_box(e)).map(|tree| consteval::eval(&tree, &env)));
        }
    };
    let rates = timing::rates(
        &mut [&mut archive, &mut built, &mut from_bytes],
        SAMPLE,
        SAMPLES,
    );
    let bytes = texts.iter().map(Vec::len).sum::<usize>() as u64 / EXPRESSIONS;
    Ok(Row {
        name: shape.name,
        bytes,
        rates,
    })
}

fn same(text: &[u8], archive: Result<Answer, u64>, original: Answer) -> Result<(), String> {
    match (archive, original) {
        (Ok(Answer::Known(a)), Answer::Known(b)) if a == b => Ok(()),
        _ => Err(format!(
            "{}: archive {archive:?}, original {original:?}",
            String::from_utf8_lossy(text)
        )),
    }
}

fn line(row: &Row, of: fn(&Rate) -> f64) -> String {
    let rates: Vec<f64> = row.rates.iter().map(of).collect();
    let [archive, built, from_bytes] = rates[..] else {
        return String::new();
    };
    let shown = |rate: f64| format!("{:.0}", rate * EXPRESSIONS as f64);
    format!(
        "| {} | {} | {} | {} | {:.2} | {} | {:.2} |\n",
        row.name,
        row.bytes,
        shown(archive),
        shown(built),
        archive / built,
        shown(from_bytes),
        archive / from_bytes
    )
}
