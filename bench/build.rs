//! With the feature `before`, links the archive of an earlier commit: the file that `QV_BEFORE` names, whose own names
//! start with `before_`. `tools/bench-before` makes it and sets the variable.

use std::path::PathBuf;
use std::{env, fs};

fn main() {
    println!("cargo:rerun-if-env-changed=QV_BEFORE");
    if env::var_os("CARGO_FEATURE_BEFORE").is_none() {
        return;
    }
    let archive = PathBuf::from(env::var_os("QV_BEFORE").expect("QV_BEFORE is set: run tools/bench-before"));
    println!("cargo:rerun-if-changed={}", archive.display());
    // In a folder of our own, so that the linker can take no other.
    let out = PathBuf::from(env::var_os("OUT_DIR").expect("cargo sets it"));
    if let Err(error) = fs::copy(&archive, out.join("libbefore.a")) {
        panic!("no archive at {} ({error})", archive.display());
    }
    println!("cargo:rustc-link-search=native={}", out.display());
    println!("cargo:rustc-link-lib=static=before");
}
