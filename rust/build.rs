//! Finds the engine's archive and links it: HARUKDALIS_ARCHIVE, or what `tools/archive` makes in this repository.

use std::env;
use std::fs;
use std::path::PathBuf;

fn main() {
    println!("cargo:rerun-if-env-changed=HARUKDALIS_ARCHIVE");
    let here = PathBuf::from(env::var_os("CARGO_MANIFEST_DIR").expect("cargo names the package's folder"));
    let archive = match env::var_os("HARUKDALIS_ARCHIVE") {
        Some(path) => PathBuf::from(path),
        None => here.join("../target/archive/libharukdalis.a"),
    };
    println!("cargo:rerun-if-changed={}", archive.display());
    // A copy, so that an archive of any name is linked, and by the name of this build alone.
    let out = PathBuf::from(env::var_os("OUT_DIR").expect("cargo names the output folder"));
    if let Err(error) = fs::copy(&archive, out.join("libharukdalis.a")) {
        panic!(
            "no engine to link at {}: {error}. Run `tools/archive` in the engine's repository, which makes \
             target/archive/libharukdalis.a, or set HARUKDALIS_ARCHIVE to the full path of an archive.",
            archive.display()
        );
    }
    println!("cargo:rustc-link-search=native={}", out.display());
    println!("cargo:rustc-link-lib=static=harukdalis");
}
