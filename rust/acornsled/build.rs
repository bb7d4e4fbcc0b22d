//! Finds libacornsled.a: in the directory that ACORNSLED_LIB names, else where `tools/build` puts it in this repository.
use std::env;
use std::path::{Path, PathBuf};

fn main() {
    println!("cargo:rerun-if-env-changed=ACORNSLED_LIB");
    if env::var_os("CARGO_FEATURE_UNLINKED").is_some() {
        return;
    }
    let named = env::var_os("ACORNSLED_LIB").filter(|named| !named.is_empty());
    let directory = named.map_or_else(built, PathBuf::from);
    // this script and the linker run in different directories
    if directory.is_relative() {
        eprintln!("ACORNSLED_LIB is {}: name the directory by its full path", directory.display());
        std::process::exit(1);
    }
    let archive = directory.join("libacornsled.a");
    println!("cargo:rerun-if-changed={}", archive.display());
    if !archive.is_file() {
        eprintln!(
            "no {}: name the directory of libacornsled.a in ACORNSLED_LIB, or run tools/build",
            archive.display()
        );
        std::process::exit(1);
    }
    println!("cargo:rustc-link-search=native={}", directory.display());
    println!("cargo:rustc-link-lib=static=acornsled");
}

/// The repository's folder `build/lib`.
fn built() -> PathBuf {
    let package = env::var("CARGO_MANIFEST_DIR").expect("cargo names the package's directory");
    Path::new(&package).join("../../build/lib")
}
