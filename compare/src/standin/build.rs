//! Lays the unchanged source files and the stand-ins for what they miss side by side in OUT_DIR,
//! so that rustc finds every `mod` where the source declares it.

use std::path::{Path, PathBuf};
use std::{env, fs, process};

include!("files.rs");

fn main() {
    if let Err(message) = lay_out() {
        eprintln!("{message}");
        process::exit(1);
    }
}

fn lay_out() -> Result<(), String> {
    let here = folder("CARGO_MANIFEST_DIR")?;
    let out = folder("OUT_DIR")?.join("mimz");
    let source = source_folder(&here)?;
    for file in SOURCES {
        copy(&source.join(file), &out.join(file))?;
    }
    for file in STAND_INS {
        copy(&here.join(file), &out.join(file))?;
    }
    println!("cargo::rerun-if-changed=build.rs");
    println!("cargo::rerun-if-changed=files.rs");
    println!("cargo::rerun-if-env-changed=MIMZ_SRC");
    Ok(())
}

/// The folder with `ast`, `checker` and the rest, or what to do where there is none.
fn source_folder(here: &Path) -> Result<PathBuf, String> {
    let compare = here
        .ancestors()
        .nth(2)
        .ok_or("this package stands two folders below compare/")?;
    let named = env::var_os("MIMZ_SRC").unwrap_or_else(|| DEFAULT_SOURCE.into());
    let folder = compare.join(named).join(CRATE_SOURCE);
    match SOURCES.iter().find(|file| !folder.join(file).is_file()) {
        None => Ok(folder),
        Some(file) => Err(format!(
            "The source of min-mozhi is not here: {} is missing.\n\
             Get the repository Naveen2070/min-mozhi at commit 310908b27b (its path {CRATE_SOURCE}) \
             and set MIMZ_SRC to the folder that holds {CRATE_SOURCE}.\n\
             Without MIMZ_SRC it is looked for in {DEFAULT_SOURCE}, seen from compare/.",
            folder.join(file).display()
        )),
    }
}

/// Copies a file and holds the copy against it byte for byte.
fn copy(from: &Path, to: &Path) -> Result<(), String> {
    let bytes = fs::read(from).map_err(|e| format!("{}: {e}", from.display()))?;
    let parent = to.parent().ok_or("a copy has no folder")?;
    fs::create_dir_all(parent).map_err(|e| format!("{}: {e}", parent.display()))?;
    fs::write(to, &bytes).map_err(|e| format!("{}: {e}", to.display()))?;
    let written = fs::read(to).map_err(|e| format!("{}: {e}", to.display()))?;
    if fs::read(from).ok().as_deref() != Some(&written[..]) {
        return Err(format!(
            "{} is not what {} holds",
            to.display(),
            from.display()
        ));
    }
    println!("cargo::rerun-if-changed={}", from.display());
    Ok(())
}
