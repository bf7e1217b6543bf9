//! The command `gate`: its examples, its texts, its JSON and pictures, what a reader may see, and any input at all.

mod examples;
mod fuzz;
mod json_reader;
mod owners;
mod pictures;
mod plans;
mod readers;
mod texts;
mod usage;
mod xml_reader;

use std::io::Write;
use std::path::{Path, PathBuf};
use std::process::{Command, Stdio};

/// The repository's root, where the command is run.
pub fn root() -> PathBuf {
    Path::new(env!("CARGO_MANIFEST_DIR")).join("..")
}

/// What a run of the command left.
#[derive(Debug)]
pub struct Run {
    pub out: String,
    pub err: String,
    pub code: Option<i32>,
}

/// Runs the built command with something on its standard input.
pub fn gate_with(arguments: &[&str], input: &[u8]) -> Run {
    let mut child = Command::new(env!("CARGO_BIN_EXE_gate"))
        .args(arguments)
        .current_dir(root())
        .stdin(Stdio::piped())
        .stdout(Stdio::piped())
        .stderr(Stdio::piped())
        .spawn()
        .expect("the command starts");
    // A command that does not read its input closes the pipe.
    let _ = child.stdin.take().expect("the input is a pipe").write_all(input);
    let output = child.wait_with_output().expect("the command ends");
    Run {
        out: String::from_utf8(output.stdout).expect("the output is UTF-8"),
        err: String::from_utf8(output.stderr).expect("the messages are UTF-8"),
        code: output.status.code(),
    }
}

/// Runs the built command.
pub fn gate(arguments: &[&str]) -> Run {
    gate_with(arguments, b"")
}

/// The first character that an output must not hold: a control, a mark of direction, or one that takes no room.
pub fn unseen(output: &str) -> Option<char> {
    const RANGES: [(char, char); 9] = [
        ('\u{ad}', '\u{ad}'),
        ('\u{61c}', '\u{61c}'),
        ('\u{180e}', '\u{180e}'),
        ('\u{200b}', '\u{200f}'),
        ('\u{2028}', '\u{202e}'),
        ('\u{2060}', '\u{206f}'),
        ('\u{feff}', '\u{feff}'),
        ('\u{fff9}', '\u{fffb}'),
        ('\u{e0000}', '\u{e0fff}'),
    ];
    output.chars().find(|c| (c.is_control() && *c != '\n') || RANGES.iter().any(|(first, last)| (first..=last).contains(&c)))
}

/// The names of all examples, in order.
pub fn example_names() -> Vec<String> {
    let folder = std::fs::read_dir(root().join("examples")).expect("the examples are part of the repository");
    let mut names: Vec<String> =
        folder.filter_map(|entry| Some(entry.ok()?.file_name().to_str()?.strip_suffix(".plan")?.to_string())).collect();
    names.sort();
    names
}
