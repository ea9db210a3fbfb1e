//! Why the text on standard input is refused with 20, in one sentence; status 1 and nothing where
//! it is not refused with 20.

use std::io::{Read, Write};
use std::process::ExitCode;

fn main() -> std::io::Result<ExitCode> {
    let mut text = Vec::new();
    std::io::stdin().read_to_end(&mut text)?;
    let Some(sentence) = model::why(&text) else {
        return Ok(ExitCode::FAILURE);
    };
    writeln!(std::io::stdout(), "{sentence}")?;
    Ok(ExitCode::SUCCESS)
}
