//! Links the archive of the engine: HARUKDALIS_ARCHIVE, else target/archive/libharukdalis.a of the repository.

use std::path::{Path, PathBuf};

fn main() {
    println!("cargo:rerun-if-env-changed=HARUKDALIS_ARCHIVE");
    let usual = || Path::new(env!("CARGO_MANIFEST_DIR")).join("../../target/archive/libharukdalis.a");
    let archive = std::env::var_os("HARUKDALIS_ARCHIVE").map_or_else(usual, PathBuf::from);
    println!("cargo:rerun-if-changed={}", archive.display());
    let Ok(archive) = archive.canonicalize() else {
        panic!("no archive at {}: make it with tools/archive, or name one in HARUKDALIS_ARCHIVE", archive.display());
    };
    // By its path and not by its name, so that no other archive of the name is taken.
    println!("cargo:rustc-link-arg={}", archive.display());
}
