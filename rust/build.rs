//! Finds the static library and links it.
use std::env;
use std::fs;
use std::path::PathBuf;

/// Overrides the directory that holds the library.
const DIR_VARIABLE: &str = "KUDZUCLAMP_LIB_DIR";

/// The library's names for the linker: as `rt lib` in crates/exports makes it, and as it is installed.
const NAMES: [&str; 2] = ["exports", "kudzuclamp"];

/// The archive member of a library that `bench/unproved` made, which looks at no proof.
const UNPROVED: &[u8] = b"measured.o/";

/// The directory of the library: the variable's, or the repository's `crates/exports/out`. Cargo
/// runs this in the package's directory.
fn directory() -> PathBuf {
    match env::var_os(DIR_VARIABLE) {
        Some(dir) => PathBuf::from(dir),
        None => PathBuf::from("../crates/exports/out"),
    }
}

fn main() {
    println!("cargo:rerun-if-env-changed={DIR_VARIABLE}");
    println!("cargo:rustc-check-cfg=cfg(kudzuclamp_proved)");
    let target = env::var("TARGET").unwrap_or_default();
    if !target.starts_with("x86_64-") || !target.contains("linux") {
        panic!("the library has code for x86-64 Linux only, and this is a build for {target}");
    }
    let dir = directory();
    let library = |name: &str| dir.join(format!("lib{name}.a"));
    let Some(name) = NAMES.into_iter().find(|name| library(name).is_file()) else {
        panic!(
            "{} is missing. Make it with `rt lib` in crates/exports, or set {DIR_VARIABLE} to the \
             directory that holds it, or libkudzuclamp.a where it is installed.",
            library(NAMES[0]).display()
        );
    };
    println!("cargo:rerun-if-changed={}", library(name).display());
    let archive = fs::read(library(name)).expect("the library can be read");
    if !(archive.windows(UNPROVED.len())).any(|bytes| bytes == UNPROVED) {
        println!("cargo:rustc-cfg=kudzuclamp_proved");
    }
    let dir = dir
        .canonicalize()
        .expect("the library's directory has a path");
    println!("cargo:rustc-link-search=native={}", dir.display());
    println!("cargo:rustc-link-lib=static={name}");
}
