//! Reads the original text from the folder ORIGINAL_SRC and lays its parts
//! into the build folder: transforms.rs whole, and items of three other files.
//! Nothing of the text is kept in the repository.

mod cut;

use std::path::{Path, PathBuf};
use std::{env, fs, process};

/// From the repository's root, where the variable is not set.
const DEFAULT_SOURCE: &str = "../shared/docs/src";

const LIB_ITEMS: &[&str] = &[
    "pub mod errors",
    "pub struct Warnable",
    "impl<T: std::fmt::Debug> Warnable<T>",
    "impl<T: std::fmt::Debug> From<T> for Warnable<T>",
    "pub type Float",
    "pub type Integer",
];

const BASE_ITEMS: &[&str] = &[
    "pub enum Value",
    "pub enum Array",
    "pub enum Jagged",
    "impl Jagged",
    "impl From<Vec<Vec<Float>>> for Jagged",
    "impl From<Vec<Vec<Integer>>> for Jagged",
    "impl From<Vec<Vec<bool>>> for Jagged",
    "impl From<Vec<Vec<String>>> for Jagged",
    "pub enum ValueProperties",
    "impl ValueProperties",
    "impl From<ArrayProperties> for ValueProperties",
    "pub struct DataframeProperties",
    "pub struct PartitionsProperties",
    "pub struct ArrayProperties",
    "impl ArrayProperties",
    "pub struct JaggedProperties",
    "pub enum DataType",
    "pub struct AggregatorProperties",
    "pub enum Nature",
    "impl Nature",
    "pub struct NatureCategorical",
    "pub struct NatureContinuous",
    "pub enum Vector1DNull",
    "impl Vector1DNull",
    "pub struct GroupId",
    "pub enum IndexKey",
    "impl From<String> for IndexKey",
    "impl From<&str> for IndexKey",
    "impl From<bool> for IndexKey",
    "impl From<Integer> for IndexKey",
    "pub type NodeProperties",
];

const UTILITIES_ITEMS: &[&str] = &[
    "pub fn standardize_categorical_argument",
    "pub fn prepend",
    "pub fn deduplicate",
];

fn main() {
    println!("cargo:rerun-if-env-changed=ORIGINAL_SRC");
    println!("cargo:rerun-if-changed=build.rs");
    println!("cargo:rerun-if-changed=cut.rs");
    let source = source_folder().join("validator-rust/src");
    let out = PathBuf::from(env::var_os("OUT_DIR").expect("cargo sets OUT_DIR"));
    let transforms = read(&source.join("components/transforms.rs"));
    write(&out.join("transforms.rs"), &transforms);
    cut_items(&source.join("lib.rs"), LIB_ITEMS, &out.join("lib_items.rs"));
    cut_items(
        &source.join("base.rs"),
        BASE_ITEMS,
        &out.join("base_items.rs"),
    );
    let utilities = source.join("utilities/mod.rs");
    cut_items(&utilities, UTILITIES_ITEMS, &out.join("utilities_items.rs"));
}

fn source_folder() -> PathBuf {
    let package = PathBuf::from(env::var_os("CARGO_MANIFEST_DIR").expect("cargo sets it"));
    let root = package.join("../..");
    let given = env::var_os("ORIGINAL_SRC").filter(|value| !value.is_empty());
    root.join(given.map_or_else(|| PathBuf::from(DEFAULT_SOURCE), PathBuf::from))
}

fn cut_items(from: &Path, heads: &[&str], to: &Path) {
    let text = read(from);
    let mut parts = Vec::new();
    for head in heads {
        match cut::item(&text, head) {
            Ok(part) => parts.push(part),
            Err(message) => stop(&format!("{}: {}", from.display(), message)),
        }
    }
    write(to, &parts.join("\n\n"));
}

fn read(path: &Path) -> String {
    println!("cargo:rerun-if-changed={}", path.display());
    fs::read_to_string(path).unwrap_or_else(|error| {
        stop(&format!(
            "cannot read the original text {}: {} (set ORIGINAL_SRC to the folder that holds validator-rust/)",
            path.display(),
            error
        ))
    })
}

fn write(path: &Path, text: &str) {
    if let Err(error) = fs::write(path, text) {
        stop(&format!("cannot write {}: {}", path.display(), error));
    }
}

fn stop(message: &str) -> ! {
    eprintln!("{}", message);
    process::exit(1)
}
