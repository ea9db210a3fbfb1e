//! The archive of `drivers_c` on many generated texts, against the model and the original.
//!
//! `hold_check SEED FROM COUNT [PROFILE]...`: COUNT texts of each profile, all profiles where none is
//! named. Each difference is shown with a small text. Exit status 1 where there is one.

use bench::check::hold::Holder;
use compare::compare::run::compare_all;
use compare::compare::Against;
use compare::gen;
use std::env;
use std::io;
use std::process::ExitCode;

const USAGE: &str = "usage: hold_check SEED FROM COUNT [PROFILE]...";

struct Options {
    seed: u64,
    from: u64,
    count: u64,
    profiles: Vec<String>,
}

fn main() -> ExitCode {
    match options().and_then(|options| hold(&options)) {
        Ok(0) => ExitCode::SUCCESS,
        Ok(_) => ExitCode::from(1),
        Err(message) => {
            eprintln!("{message}");
            ExitCode::from(2)
        }
    }
}

fn options() -> Result<Options, String> {
    let words: Vec<String> = env::args().skip(1).collect();
    let [seed, from, count, profiles @ ..] = &words[..] else {
        return Err(USAGE.to_string());
    };
    let number = |word: &String| word.parse().map_err(|_| USAGE.to_string());
    let known: Vec<String> = gen::PROFILES.iter().map(|p| p.to_string()).collect();
    if let Some(name) = profiles.iter().find(|p| !known.contains(p)) {
        return Err(format!("no profile {name}; there are {}", known.join(" ")));
    }
    Ok(Options {
        seed: number(seed)?,
        from: number(from)?,
        count: number(count)?,
        profiles: if profiles.is_empty() {
            known
        } else {
            profiles.to_vec()
        },
    })
}

/// The number of differences.
fn hold(options: &Options) -> Result<u64, String> {
    let mut holder = Holder::new(options.seed);
    let (mut texts, mut differences) = (0, 0);
    for profile in &options.profiles {
        let generated = (options.from..options.from + options.count).map_while(|i| {
            let name = format!("{profile} {} {i}", options.seed);
            Some((name, gen::text(profile, options.seed, i)?))
        });
        let mut checker = |text: &[u8]| holder.print(text);
        let counts = compare_all(
            profile,
            generated,
            &mut checker,
            Against::Oracle,
            &mut io::stdout(),
        )?;
        texts += counts.texts;
        differences += counts.differences;
    }
    for (class, count) in &holder.seen {
        println!("{count:>9}  {class}");
    }
    println!(
        "seed {}: texts {texts}, differences {differences}",
        options.seed
    );
    Ok(differences)
}
