//! Links the static library that `.ci/library` proves and writes.

use std::env;
use std::path::PathBuf;

fn main() {
    // XCF_STATICLIB_DIR names another folder holding libxcf.a, so that the
    // tests can be tried with a stand-in for the library.
    let folder = match env::var_os("XCF_STATICLIB_DIR") {
        Some(folder) => PathBuf::from(folder),
        None => manifest_folder().join("../target/staticlib"),
    };
    let archive = folder.join("libxcf.a");
    println!("cargo::rerun-if-env-changed=XCF_STATICLIB_DIR");
    println!("cargo::rerun-if-changed={}", archive.display());
    if !archive.exists() {
        println!(
            "cargo::error={} is missing: `.ci/library` proves the library and writes it",
            archive.display()
        );
    }
    println!("cargo::rustc-link-search=native={}", folder.display());
    println!("cargo::rustc-link-lib=static=xcf");
}

fn manifest_folder() -> PathBuf {
    PathBuf::from(env::var_os("CARGO_MANIFEST_DIR").expect("cargo sets this"))
}
