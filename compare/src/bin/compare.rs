//! `compare CHECKER [ARG..]`: a checker against the original on the same texts. Exit status 0 only
//! with no difference, 1 with differences, 2 for bad arguments or a checker that cannot be started.

use compare::compare::{options, run};
use compare::gen;
use std::process::ExitCode;

fn main() -> ExitCode {
    let args: Vec<String> = std::env::args().skip(1).collect();
    let done = options::parse(&args, gen::PROFILES)
        .and_then(|options| run::run(&options, &mut std::io::stdout()));
    match done {
        Ok(0) => ExitCode::SUCCESS,
        Ok(_) => ExitCode::from(1),
        Err(why) => {
            eprintln!("compare: {why}");
            ExitCode::from(2)
        }
    }
}
