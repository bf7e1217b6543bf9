//! Links the proved static library, or says in one sentence what is missing.

use std::env;
use std::path::PathBuf;
use std::process::exit;

const ARCHIVE: &str = "libgate.a";

fn main() {
    println!("cargo:rerun-if-env-changed=GATE_LIB_DIR");
    let folder = library_folder();
    let archive = folder.join(ARCHIVE);
    println!("cargo:rerun-if-changed={}", archive.display());
    if !archive.is_file() {
        eprintln!("{} is missing in {}.", ARCHIVE, folder.display());
        eprintln!("`tools/static_library` in the repository proves and writes it, by `rt` of the Rattle kit.");
        eprintln!("If the library lies in another folder, set GATE_LIB_DIR to that folder.");
        exit(1);
    }
    println!("cargo:rustc-link-search=native={}", folder.display());
    println!("cargo:rustc-link-lib=static=gate");
}

/// GATE_LIB_DIR, else the place where `tools/static_library` writes.
fn library_folder() -> PathBuf {
    if let Some(folder) = env::var_os("GATE_LIB_DIR") {
        return PathBuf::from(folder);
    }
    let package = env::var_os("CARGO_MANIFEST_DIR").unwrap_or_default();
    PathBuf::from(package).join("..").join("target").join("staticlib")
}
