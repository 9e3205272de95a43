//! Links the library under test: WORT_LIB_DIR says where it stands, WORT_LIB_NAME what it is called.

use std::env;
use std::path::PathBuf;

fn main() {
    println!("cargo:rerun-if-env-changed=WORT_LIB_DIR");
    println!("cargo:rerun-if-env-changed=WORT_LIB_NAME");
    let dir = lib_dir();
    let name = env::var("WORT_LIB_NAME").unwrap_or_else(|_| "wort".into());
    let archive = dir.join(format!("lib{name}.a"));
    if !archive.exists() {
        println!("cargo:warning={} is missing: build it, or say where it stands in WORT_LIB_DIR", archive.display());
    }
    println!("cargo:rerun-if-changed={}", archive.display());
    println!("cargo:rustc-link-search=native={}", dir.display());
    println!("cargo:rustc-env=WORT_ARCHIVE={}", archive.display());
    println!("cargo:rustc-link-lib=static={name}");
}

/// A relative WORT_LIB_DIR is read from this crate's directory, where cargo runs this program.
fn lib_dir() -> PathBuf {
    match env::var_os("WORT_LIB_DIR") {
        Some(dir) => PathBuf::from(dir),
        None => PathBuf::from(env::var_os("CARGO_MANIFEST_DIR").expect("cargo sets it")).join("../crates/wort/out"),
    }
}
