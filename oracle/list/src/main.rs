//! The part of the list's tools that needs no original text.

use oracle_list::{cases, form, show, stats};
use std::process::ExitCode;

const HELP: &str = "\
list: reads the stored list of single calls; needs no original text

  list stats [--check] FILE   what the list holds, by component and code;
                              --check: exit 1 if a threshold is missed
  list shelf FILE             document 01's worked examples as FILE has them,
                              with both signs of every range written
  list --help                 this text
";

/// What to print, and whether all is well with it.
type Outcome = Result<(String, bool), String>;

fn main() -> ExitCode {
    let words: Vec<String> = std::env::args().skip(1).collect();
    let words: Vec<&str> = words.iter().map(String::as_str).collect();
    let outcome = match words[..] {
        ["stats", "--check", file] | ["stats", file, "--check"] => {
            read(file).and_then(|text| stats::run(&text, true))
        }
        ["stats", file] => read(file).and_then(|text| stats::run(&text, false)),
        ["shelf", file] => read(file).and_then(|text| shelf(&text)),
        ["--help" | "-h" | "help"] => Ok((HELP.to_string(), true)),
        _ => {
            eprint!("{HELP}");
            return ExitCode::from(2);
        }
    };
    match outcome {
        Ok((text, passed)) => {
            print!("{text}");
            ExitCode::from(!passed as u8)
        }
        Err(fault) => {
            eprintln!("list: {fault}");
            ExitCode::from(2)
        }
    }
}

fn read(file: &str) -> Result<String, String> {
    std::fs::read_to_string(file).map_err(|error| format!("{file}: {error}"))
}

fn shelf(text: &str) -> Outcome {
    let lines = form::parse_list(text)?;
    let mut shown = show::head() + "\n";
    for case in cases::shelf() {
        let line = lines.iter().find(|line| line.call == case.call);
        let line = line.ok_or_else(|| format!("not in the list: {}", case.label))?;
        shown += &show::line(&line.call, &line.answer);
        shown += "\n";
    }
    Ok((shown, true))
}
