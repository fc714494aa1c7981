//! Links what is timed: the archives in NOUSTREL_LIB, where `make bench` puts them, and the two system libraries.

use std::path::PathBuf;

fn main() {
    println!("cargo:rerun-if-env-changed=NOUSTREL_LIB");
    let folder = std::env::var_os("NOUSTREL_LIB").map(PathBuf::from);
    let folder = folder.expect("NOUSTREL_LIB names the folder of the archives: use `make bench`");
    for archive in ["border", "sm4_timing", "beside"] {
        let file = folder.join(format!("lib{archive}.a"));
        println!("cargo:rerun-if-changed={}", file.display());
        println!("cargo:rustc-link-lib=static={archive}");
    }
    println!("cargo:rustc-link-search=native={}", folder.display());
    println!("cargo:rustc-link-lib=crypto");
    println!("cargo:rustc-link-lib=gcrypt");
}
