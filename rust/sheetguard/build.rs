//! Finds the static library of the proved guard, which `tools/build sheetguard` writes. The environment variable
//! `SHEETGUARD_LIB` names the archive or its folder; without it the project's own target folder is looked into.

use std::path::PathBuf;
use std::process::exit;

const ARCHIVE: &str = "libsheetguard.a";

fn main() {
    println!("cargo::rerun-if-env-changed=SHEETGUARD_LIB");
    let named = std::env::var_os("SHEETGUARD_LIB").map(PathBuf::from);
    let own = PathBuf::from(env!("CARGO_MANIFEST_DIR")).join("../../target/staticlib");
    let place = named.unwrap_or(own);
    let folder = match place.parent() {
        Some(parent) if place.ends_with(ARCHIVE) => parent.to_path_buf(),
        _ => place,
    };
    let archive = folder.join(ARCHIVE);
    println!("cargo::rerun-if-changed={}", archive.display());
    if !archive.is_file() {
        eprintln!("there is no {}: run `tools/build sheetguard`, or set SHEETGUARD_LIB", archive.display());
        exit(1);
    }
    println!("cargo::rustc-link-search=native={}", folder.display());
    println!("cargo::rustc-link-lib=static=sheetguard");
}
