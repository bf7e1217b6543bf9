//! The oracle's program: answers of the original text, by the list's form.

use oracle_list::form::{is_comment, Call, Line};
use oracle_list::{cases, show, stats};
use oracle_original::select::{fresh, write_generated, write_list};
use std::fs::File;
use std::io::{self, stdin, stdout, BufRead, BufReader, BufWriter, Read, Write};
use std::process::ExitCode;

const HELP: &str = "\
oracle: answers single calls with the original text of the nine components

  oracle shelf                       document 01's worked examples, with both
                                     signs of every range written
  oracle list --seed S               the stored list, to standard output
  oracle generate --seed S --count N N seeded calls with answers, as they come
  oracle answer FILE                 the calls of FILE with fresh answers
  oracle compare FILE                recomputes every answer of FILE:
                                     `N agree, M differ`, exit 1 if M > 0
  oracle stats [--check] FILE        what FILE holds, by component and code;
                                     --check: exit 1 if a threshold is missed
  oracle --help                      this text

FILE may be - for standard input. One call a line, fields separated by a blank:
  component node left right out_len code result mark
bytes in lower-case hex, - for none; lines that begin with # are comments.
A call that the oracle cannot answer ends the program with `oracle failure`.
";

/// How many differences `compare` shows.
const SHOWN: usize = 10;

fn main() -> ExitCode {
    let words: Vec<String> = std::env::args().skip(1).collect();
    let words: Vec<&str> = words.iter().map(String::as_str).collect();
    let ended = match words[..] {
        ["shelf"] => shelf(),
        ["list", "--seed", seed] => list(seed),
        ["generate", "--seed", seed, "--count", count] => generate(seed, count),
        ["answer", file] => answer(file),
        ["compare", file] => compare(file),
        ["stats", "--check", file] | ["stats", file, "--check"] => show_stats(file, true),
        ["stats", file] => show_stats(file, false),
        ["--help"] | ["-h"] | ["help"] => {
            print!("{}", HELP);
            Ok(true)
        }
        _ => {
            eprint!("{}", HELP);
            return ExitCode::from(2);
        }
    };
    match ended {
        Ok(true) => ExitCode::SUCCESS,
        Ok(false) => ExitCode::from(1),
        Err(fault) => {
            eprintln!("oracle: {}", fault);
            ExitCode::from(2)
        }
    }
}

fn number(text: &str) -> Result<u64, String> {
    text.parse().map_err(|_| format!("`{}` is no number", text))
}

fn written(result: io::Result<()>) -> Result<bool, String> {
    result.map(|()| true).map_err(|error| error.to_string())
}

/// Each worked example as the original derives it; one that departs from
/// document 01 is a failure.
fn shelf() -> Result<bool, String> {
    let mut kept = true;
    println!("{}", show::head());
    for case in cases::shelf() {
        let answer = fresh(case.call.clone()).answer;
        println!("{}", show::line(&case.call, &answer));
        if let Err(fault) = case.check(&answer) {
            eprintln!("oracle: departs from document 01: {}", fault);
            kept = false;
        }
    }
    Ok(kept)
}

fn list(seed: &str) -> Result<bool, String> {
    let mut out = BufWriter::new(stdout().lock());
    written(write_list(number(seed)?, &mut out).and_then(|()| out.flush()))
}

fn generate(seed: &str, count: &str) -> Result<bool, String> {
    let (seed, count) = (number(seed)?, number(count)?);
    let mut out = BufWriter::new(stdout().lock());
    written(write_generated(seed, count, &mut out).and_then(|()| out.flush()))
}

fn open(file: &str) -> Result<Box<dyn BufRead>, String> {
    if file == "-" {
        return Ok(Box::new(stdin().lock()));
    }
    let opened = File::open(file).map_err(|error| format!("{}: {}", file, error))?;
    Ok(Box::new(BufReader::new(opened)))
}

/// Hands every line of a file to `each`, with its number.
fn for_lines(file: &str, mut each: impl FnMut(&str) -> Result<(), String>) -> Result<(), String> {
    for (at, line) in open(file)?.lines().enumerate() {
        let line = line.map_err(|error| error.to_string())?;
        each(&line).map_err(|fault| format!("line {}: {}", at + 1, fault))?;
    }
    Ok(())
}

fn answer(file: &str) -> Result<bool, String> {
    let mut out = BufWriter::new(stdout().lock());
    for_lines(file, |text| {
        if is_comment(text) {
            return writeln!(out, "{}", text).map_err(|error| error.to_string());
        }
        let line = fresh(Call::parse(text)?);
        writeln!(out, "{}", line).map_err(|error| error.to_string())
    })?;
    written(out.flush())
}

fn compare(file: &str) -> Result<bool, String> {
    let (mut agree, mut differ) = (0u64, 0);
    for_lines(file, |text| {
        if is_comment(text) {
            return Ok(());
        }
        let stored = Line::parse(text)?;
        let found = fresh(stored.call.clone());
        if found == stored {
            agree += 1;
            return Ok(());
        }
        differ += 1;
        if differ <= SHOWN {
            println!("stored: {}\nfound:  {}", stored, found);
        }
        Ok(())
    })?;
    println!("{} agree, {} differ", agree, differ);
    Ok(differ == 0)
}

fn show_stats(file: &str, check: bool) -> Result<bool, String> {
    let mut text = String::new();
    open(file)?
        .read_to_string(&mut text)
        .map_err(|error| error.to_string())?;
    let (table, passed) = stats::run(&text, check)?;
    print!("{}", table);
    Ok(passed)
}
