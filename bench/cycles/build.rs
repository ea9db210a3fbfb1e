//! Lays the source files and the stand-ins of `compare` side by side in OUT_DIR, and puts one line
//! behind two of them: `find_cycles` is private, and only a child module of `drivers` can call it.

use std::path::{Path, PathBuf};
use std::{env, fs, process};

include!("../../compare/src/standin/files.rs");

/// The lines that are put behind a file.
const BEHIND: [(&str, &str); 2] = [
    ("checker/drivers.rs", "pub mod face;\n"),
    ("checker/mod.rs", "pub use drivers::face;\n"),
];

fn main() {
    if let Err(message) = lay_out() {
        eprintln!("{message}");
        process::exit(1);
    }
}

fn lay_out() -> Result<(), String> {
    let here = folder("CARGO_MANIFEST_DIR")?;
    let out = folder("OUT_DIR")?.join("mimz");
    let compare = here.join("../../compare");
    let named = env::var_os("MIMZ_SRC").unwrap_or_else(|| DEFAULT_SOURCE.into());
    let source = compare.join(named).join(CRATE_SOURCE);
    for file in SOURCES {
        lay(&source, &out, file)?;
    }
    for file in STAND_INS {
        lay(&compare.join("src/standin"), &out, file)?;
    }
    let face = fs::read(here.join("face.rs")).map_err(|e| format!("face.rs: {e}"))?;
    write(&out.join("checker/drivers/face.rs"), &face)?;
    println!("cargo::rerun-if-changed=face.rs");
    println!("cargo::rerun-if-changed=build.rs");
    println!("cargo::rerun-if-changed=../../compare/src/standin/files.rs");
    println!("cargo::rerun-if-env-changed=MIMZ_SRC");
    Ok(())
}

/// Copies a file, byte for byte, with the line that belongs behind it.
fn lay(from: &Path, out: &Path, file: &str) -> Result<(), String> {
    let path = from.join(file);
    let mut bytes = fs::read(&path).map_err(|e| {
        format!(
            "{}: {e}\nWhere the source is looked for: compare/README.md.",
            path.display()
        )
    })?;
    println!("cargo::rerun-if-changed={}", path.display());
    for (name, line) in BEHIND {
        if name == file {
            bytes.push(b'\n');
            bytes.extend_from_slice(line.as_bytes());
        }
    }
    write(&out.join(file), &bytes)
}

fn write(to: &Path, bytes: &[u8]) -> Result<(), String> {
    let parent = to.parent().ok_or("a copy has no folder")?;
    fs::create_dir_all(parent).map_err(|e| format!("{}: {e}", parent.display()))?;
    fs::write(to, bytes).map_err(|e| format!("{}: {e}", to.display()))
}
