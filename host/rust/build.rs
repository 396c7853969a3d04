//! Links the archive that `tools/build karramotx` writes.
//!
//! It is looked for in the folder that KARRAMOTX_LIB_DIR names, or else in this repository's
//! `target/staticlib`.

use std::env;
use std::path::PathBuf;

fn main() {
    println!("cargo:rerun-if-env-changed=KARRAMOTX_LIB_DIR");
    let dir = match env::var_os("KARRAMOTX_LIB_DIR") {
        Some(dir) => PathBuf::from(dir),
        None => PathBuf::from(env::var_os("CARGO_MANIFEST_DIR").expect("cargo names the package's folder"))
            .join("../../target/staticlib"),
    };
    let archive = dir.join("libkarramotx.a");
    println!("cargo:rerun-if-changed={}", archive.display());
    if !archive.exists() {
        panic!(
            "{} is not there: run `tools/build karramotx` first, or set KARRAMOTX_LIB_DIR",
            archive.display()
        );
    }
    println!("cargo:rustc-link-search=native={}", dir.display());
    println!("cargo:rustc-link-lib=static=karramotx");
}
