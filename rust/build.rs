//! Links the engine's static library, from `$LTA_LIB_DIR` or else from `crates/lta_c/out` beside this directory.
use std::env;
use std::path::{Path, PathBuf};
use std::process::exit;

const ARCHIVE: &str = "liblta_c.a";

fn library_dir() -> PathBuf {
    match env::var_os("LTA_LIB_DIR") {
        Some(dir) => PathBuf::from(dir),
        None => Path::new(env!("CARGO_MANIFEST_DIR")).join("../crates/lta_c/out"),
    }
}

fn main() {
    println!("cargo:rerun-if-env-changed=LTA_LIB_DIR");
    let dir = library_dir();
    let archive = dir.join(ARCHIVE);
    println!("cargo:rerun-if-changed={}", archive.display());
    if !archive.is_file() {
        eprintln!("{} is not there.", archive.display());
        eprintln!("Run `rt lib` in crates/lta_c of the repository, or set LTA_LIB_DIR to where {ARCHIVE} is.");
        exit(1);
    }
    let dir = dir.canonicalize().expect("the directory of the archive");
    println!("cargo:rustc-link-search=native={}", dir.display());
    println!("cargo:rustc-link-lib=static=lta_c");
}
