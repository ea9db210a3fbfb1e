//! The model as a program, as 01's `drivercheck`: text on standard input, reports or
//! `(refused NUMBER LINE)` on standard output.

use std::io::{Read, Write};

fn main() -> std::io::Result<()> {
    let mut text = Vec::new();
    std::io::stdin().read_to_end(&mut text)?;
    std::io::stdout().write_all(&compare::model::printed(&text))
}
