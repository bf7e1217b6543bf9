//! Finds the proved static library, and for `bench against` an earlier one.

use std::path::{Path, PathBuf};
use std::process::Command;
use std::{env, process};

const ENTRIES: [&str; 3] = ["propagate_property", "propagate_properties", "reveal_node"];

fn main() {
    println!("cargo:rerun-if-env-changed=GATE_LIB_DIR");
    println!("cargo:rerun-if-env-changed=GATE_LIB_BEFORE");
    println!("cargo:rerun-if-changed=build.rs");
    let now = library("GATE_LIB_DIR").unwrap_or_else(|| in_package("../target/staticlib"));
    found(&now);
    link(now.parent().expect("a folder"), "gate");
    if let Some(before) = library("GATE_LIB_BEFORE") {
        found(&before);
        renamed(&before);
        println!("cargo:rustc-cfg=before");
    }
}

fn in_package(folder: impl AsRef<Path>) -> PathBuf {
    let package = PathBuf::from(env::var_os("CARGO_MANIFEST_DIR").expect("cargo sets it"));
    package.join(folder).join("libgate.a")
}

/// The library in the folder that a variable names.
fn library(variable: &str) -> Option<PathBuf> {
    let given = env::var_os(variable).filter(|value| !value.is_empty());
    given.map(in_package)
}

fn found(library: &Path) {
    if !library.is_file() {
        fail(&format!(
            "the proved library {} is missing: run `tools/static_library`, or set GATE_LIB_DIR to its folder",
            library.display()
        ));
    }
    println!("cargo:rerun-if-changed={}", library.display());
}

fn link(folder: &Path, name: &str) {
    println!("cargo:rustc-link-search=native={}", folder.display());
    println!("cargo:rustc-link-lib=static={name}");
}

/// Both libraries export the same names: the earlier one's get `before_`.
fn renamed(library: &Path) {
    let folder = PathBuf::from(env::var_os("OUT_DIR").expect("cargo sets it"));
    let mut objcopy = Command::new("objcopy");
    for entry in ENTRIES {
        objcopy.arg(format!("--redefine-sym={entry}=before_{entry}"));
    }
    let copy = folder.join("libgate_before.a");
    let status = objcopy.arg(library).arg(&copy).status();
    if !status.as_ref().is_ok_and(|status| status.success()) {
        fail(&format!(
            "objcopy (Debian's binutils) could not rename {}: {status:?}",
            library.display()
        ));
    }
    link(&folder, "gate_before");
}

fn fail(why: &str) -> ! {
    eprintln!("{why}");
    process::exit(1)
}
