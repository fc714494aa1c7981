//! Links libborder.a: from the folder NOUSTREL_LIB, or else from where `make` puts the archive for this machine.

use std::path::{Path, PathBuf};
use std::{env, process};

fn main() {
    println!("cargo:rerun-if-env-changed=NOUSTREL_LIB");
    let folder = match env::var_os("NOUSTREL_LIB") {
        Some(folder) => PathBuf::from(folder),
        None => made_here(),
    };
    let archive = folder.join("libborder.a");
    if !archive.is_file() {
        eprintln!("noustrel: no archive {}", archive.display());
        eprintln!(
            "noustrel: build it by `make wrapper`, or set NOUSTREL_LIB to the folder of libborder.a"
        );
        process::exit(1);
    }
    // a relative path would be taken from another folder when the program is linked
    let folder = folder.canonicalize().unwrap_or(folder);
    println!("cargo:rerun-if-changed={}", archive.display());
    println!("cargo:rustc-link-search=native={}", folder.display());
    println!("cargo:rustc-link-lib=static=border");
}

fn made_here() -> PathBuf {
    let given = |name| env::var(name).unwrap_or_default();
    let build = Path::new(&given("CARGO_MANIFEST_DIR")).join("../build");
    if given("CARGO_CFG_TARGET_ARCH") == "x86_64" {
        build
    } else {
        build.join("native")
    }
}
