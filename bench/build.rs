//! Finds the static archives of the proved crates and has them linked.

use std::path::{Path, PathBuf};
use std::{env, process};

/// Where the crates are whose archives are looked for, seen from this folder, if DRIVERCHECK_ARCHIVES names no folder with the archives.
const CRATES_FOLDER: &str = "../crates";

/// The crates whose archives are linked: the parts that are timed by themselves, and the whole check.
const CRATES: [&str; 2] = ["bench_c", "drivers_c"];

fn main() {
    if let Err(message) = link() {
        eprintln!("{message}");
        process::exit(1);
    }
}

fn link() -> Result<(), String> {
    println!("cargo::rerun-if-changed=build.rs");
    println!("cargo::rerun-if-env-changed=DRIVERCHECK_ARCHIVES");
    let here = env::var_os("CARGO_MANIFEST_DIR").ok_or("CARGO_MANIFEST_DIR is not set")?;
    let here = PathBuf::from(here);
    let named = env::var_os("DRIVERCHECK_ARCHIVES").map(|folder| here.join(folder));
    CRATES.iter().try_for_each(|name| {
        let folder = named.clone().unwrap_or_else(|| here.join(CRATES_FOLDER).join(name).join("out"));
        link_one(&folder, name)
    })
}

fn link_one(folder: &Path, name: &str) -> Result<(), String> {
    println!("cargo::rustc-link-search=native={}", folder.display());
    let archive = folder.join(format!("lib{name}.a"));
    println!("cargo::rerun-if-changed={}", archive.display());
    if !archive.is_file() {
        return Err(missing(&archive, name));
    }
    println!("cargo::rustc-link-lib=static={name}");
    Ok(())
}

fn missing(archive: &Path, name: &str) -> String {
    format!(
        "The archive {} is missing.\n\
         Make it with `rt lib` in crates/{name}, or set \
         DRIVERCHECK_ARCHIVES to the folder that holds it (a relative path starts at bench/).\n\
         Without DRIVERCHECK_ARCHIVES it is looked for in {CRATES_FOLDER}/{name}/out, seen from bench/.",
        archive.display()
    )
}
