//! The arguments of the program `compare`.

use super::command::CheckerCommand;
use super::Against;

pub const USAGE: &str = "usage: compare [--profile NAME]... [--seed S] [--from I] [--count N] \
[--cases FILE] [--refusals | --against-model | --before PROGRAM] (--model | CHECKER [ARG]...)";

#[derive(Clone, Debug, PartialEq, Eq)]
pub struct Options {
    pub profiles: Vec<String>,
    pub seed: u64,
    pub from: u64,
    /// Texts of each profile.
    pub count: u64,
    /// A `.cases` file instead of generated texts.
    pub cases: Option<String>,
    pub against: Against,
    /// The checker is held against this program, and `against` says nothing.
    pub before: Option<CheckerCommand>,
    /// `None`: the model in this process.
    pub checker: Option<CheckerCommand>,
}

/// The options that the arguments give; the error is one line.
pub fn parse(args: &[String], known_profiles: &[&str]) -> Result<Options, String> {
    let mut options = Options {
        profiles: Vec::new(),
        seed: 1,
        from: 0,
        count: 1_000,
        cases: None,
        against: Against::Oracle,
        before: None,
        checker: None,
    };
    let mut model = false;
    let mut args = args.iter();
    while let Some(arg) = args.next() {
        match arg.as_str() {
            "--model" => model = true,
            "--refusals" => options.set_against(Against::Refusals)?,
            "--against-model" => options.set_against(Against::Model)?,
            "--before" => {
                options.before = Some(CheckerCommand {
                    program: value(arg, args.next())?.clone(),
                    args: Vec::new(),
                });
            }
            "--profile" => options.profiles.push(value(arg, args.next())?.clone()),
            "--cases" => options.cases = Some(value(arg, args.next())?.clone()),
            "--seed" => options.seed = number(arg, args.next())?,
            "--from" => options.from = number(arg, args.next())?,
            "--count" => options.count = number(arg, args.next())?,
            _ if arg.starts_with("--") => return Err(format!("unknown option {arg}; {USAGE}")),
            _ => {
                options.checker = Some(CheckerCommand {
                    program: arg.clone(),
                    args: args.by_ref().cloned().collect(),
                });
            }
        }
    }
    if model == options.checker.is_some() {
        return Err(format!("give one checker: a command, or --model; {USAGE}"));
    }
    if options.before.is_some() && options.against != Against::Oracle {
        return Err(format!("--before is a mode of its own; {USAGE}"));
    }
    options.settle_profiles(known_profiles)?;
    Ok(options)
}

impl Options {
    fn set_against(&mut self, against: Against) -> Result<(), String> {
        if self.against != Against::Oracle && self.against != against {
            return Err(format!(
                "--refusals and --against-model are two modes; {USAGE}"
            ));
        }
        self.against = against;
        Ok(())
    }

    /// All profiles where none is named.
    fn settle_profiles(&mut self, known: &[&str]) -> Result<(), String> {
        if let Some(name) = self.profiles.iter().find(|p| !known.contains(&p.as_str())) {
            return Err(format!("no profile {name}; there are {}", known.join(" ")));
        }
        if self.cases.is_some() && !self.profiles.is_empty() {
            return Err(format!("--cases takes no profile; {USAGE}"));
        }
        if self.profiles.is_empty() {
            self.profiles = known.iter().map(|p| p.to_string()).collect();
        }
        Ok(())
    }
}

fn value<'a>(option: &str, value: Option<&'a String>) -> Result<&'a String, String> {
    value.ok_or_else(|| format!("{option} needs a value; {USAGE}"))
}

fn number(option: &str, given: Option<&String>) -> Result<u64, String> {
    let given = value(option, given)?;
    given
        .parse()
        .map_err(|_| format!("{option} needs a number, not {given}"))
}
