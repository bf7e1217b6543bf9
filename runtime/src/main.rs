//! The command `gate`: see `gate --help`.

#![deny(missing_docs)]
#![deny(unsafe_code)]

use std::ffi::OsString;
use std::io;
use std::process::ExitCode;

fn main() -> ExitCode {
    let arguments: Vec<OsString> = std::env::args_os().skip(1).collect();
    let code = gate_runtime::command::run(&arguments, &mut io::stdout().lock(), &mut io::stderr());
    ExitCode::from(code)
}
