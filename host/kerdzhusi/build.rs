//! Links the static library that `rt lib` writes in crates/kerdzhusi, or the one that KERDZHUSI_LIB
//! names. Both paths start at the repository's root.

use std::path::{Path, PathBuf};
use std::{env, process};

const VARIABLE: &str = "KERDZHUSI_LIB";
const USUAL_PLACE: &str = "crates/kerdzhusi/out/libkerdzhusi.a";

fn main() {
    let archive = archive();
    println!("cargo::rerun-if-env-changed={VARIABLE}");
    println!("cargo::rerun-if-changed={}", archive.display());
    let (true, Some(directory), Some(name)) =
        (archive.is_file(), archive.parent(), archive.file_name())
    else {
        let place = archive.display();
        eprintln!("no {place}: run `rt lib` in crates/kerdzhusi first");
        process::exit(1);
    };
    let (directory, name) = (directory.display(), Path::new(name).display());
    println!("cargo::rustc-link-search=native={directory}");
    println!("cargo::rustc-link-lib=static:+verbatim={name}");
}

fn archive() -> PathBuf {
    let package = PathBuf::from(env::var_os("CARGO_MANIFEST_DIR").unwrap_or_default());
    let root = package.ancestors().nth(2).unwrap_or(&package);
    match env::var_os(VARIABLE) {
        Some(path) => root.join(path),
        None => root.join(USUAL_PLACE),
    }
}
