//! Links the archive of the proved library.
//!
//! It is the file that `QV_ARCHIVE` names, or `../target/native/libexports.a`, which `tools/native-staticlib exports`
//! makes in the repository's root.

use std::path::PathBuf;
use std::{env, fs};

fn main() {
    println!("cargo:rerun-if-env-changed=QV_ARCHIVE");
    let here = PathBuf::from(env::var_os("CARGO_MANIFEST_DIR").expect("cargo sets it"));
    let archive = match env::var_os("QV_ARCHIVE") {
        Some(path) => PathBuf::from(path),
        None => here.join("../target/native/libexports.a"),
    };
    println!("cargo:rerun-if-changed={}", archive.display());
    // Under a name of our own in a folder of our own, so that the linker can take no other.
    let out = PathBuf::from(env::var_os("OUT_DIR").expect("cargo sets it"));
    if let Err(error) = fs::copy(&archive, out.join("libquelomavunt_exports.a")) {
        panic!(
            "no archive at {} ({error}): run tools/native-staticlib exports in the repository's root, \
             or set QV_ARCHIVE to the archive's full path",
            archive.display()
        );
    }
    println!("cargo:rustc-link-search=native={}", out.display());
    println!("cargo:rustc-link-lib=static=quelomavunt_exports");
}
