//! Comparisons at scale; exit 1 on a difference, 2 on a bad command.

use comparison::tally::Tally;
use comparison::{calls, contained, plans, reveals, stored};
use std::process::exit;

const HELP: &str = "\
compare calls --seed S --count N   generated calls: proved library, port and oracle (Pool, texts that are no UTF-8 and range Subtracts: the first two)
compare list FILE                  a stored list of calls: proved library and port
compare bad [--seed S]             any bytes in any argument, overlapping operands
compare plans --seed S --count N   generated plans: plan calls against the oracle, step by step (Pool, texts that are no UTF-8 and range Subtracts: the port)
compare store-plans --seed S       writes the stored list of plans to standard output
compare list-plans FILE            a stored list of plans, replayed by the plan calls
compare reveals --seed S --count N one node's sheet for a reader: generated runs against the oracle walked, each with two
                                   runs over other buffers, and beside the plan call
compare store-reveals --seed S     writes the stored list of these runs to standard output
compare list-reveals FILE          a stored list of these runs, replayed
compare contained --seed S --count N
                                   demand 3 on accepted plans: exact results of rows keep to the sheets,
                                   whichever side each Pool step takes
Exit 1 if there is a difference, 2 if the command or its file cannot be used.";

fn main() {
    let words: Vec<String> = std::env::args().skip(1).collect();
    let words: Vec<&str> = words.iter().map(String::as_str).collect();
    match run(&words) {
        Ok(0) => (),
        Ok(_) => exit(1),
        Err(fault) => {
            eprintln!("compare: {fault} (compare --help shows the commands)");
            exit(2)
        }
    }
}

/// The number of differences, or what is wrong with the command.
fn run(words: &[&str]) -> Result<usize, String> {
    let many = [("--seed", None), ("--count", None)];
    match words {
        ["--help" | "-h" | "help"] => {
            println!("{HELP}");
            Ok(0)
        }
        ["calls", options @ ..] => {
            let [seed, count] = numbers(options, many)?;
            Ok(report(calls::generated(seed, count as usize)))
        }
        ["list", file] => replayed(file, calls::stored).map(report),
        ["bad", options @ ..] => {
            let [seed] = numbers(options, [("--seed", Some(1))])?;
            Ok(report(calls::bad(seed)))
        }
        ["plans", options @ ..] => {
            let [seed, count] = numbers(options, many)?;
            Ok(report(plans::generated(seed, count as usize)))
        }
        ["store-plans", options @ ..] => {
            let [seed] = numbers(options, [("--seed", None)])?;
            print!("{}", stored::made(seed));
            Ok(0)
        }
        ["list-plans", file] => replayed(file, stored::replay).map(report),
        ["reveals" | "store-reveals" | "list-reveals", ..] => run_reveals(words),
        ["contained", options @ ..] => {
            let [seed, count] = numbers(options, many)?;
            let counts = contained::generated(seed, count as usize);
            println!("{counts}");
            Ok(counts.tally.differences)
        }
        _ => Err(unknown(words)),
    }
}

/// The same of the runs that show one node's sheet.
fn run_reveals(words: &[&str]) -> Result<usize, String> {
    let counts = match words {
        ["reveals", options @ ..] => {
            let [seed, count] = numbers(options, [("--seed", None), ("--count", None)])?;
            reveals::generated(seed, count as usize)
        }
        ["store-reveals", options @ ..] => {
            let [seed] = numbers(options, [("--seed", None)])?;
            print!("{}", reveals::stored::made(seed));
            return Ok(0);
        }
        ["list-reveals", file] => replayed(file, reveals::stored::replay)?,
        _ => return Err(unknown(words)),
    };
    println!("{counts}");
    Ok(counts.tally.differences)
}

fn unknown(words: &[&str]) -> String {
    match words.first() {
        None => "no command".to_string(),
        Some(word) => format!("`{word}` is no command, or not with these arguments"),
    }
}

fn replayed<T>(file: &str, replay: fn(&str) -> Result<T, String>) -> Result<T, String> {
    let text = std::fs::read_to_string(file).map_err(|error| format!("{file}: {error}"))?;
    replay(&text).map_err(|fault| format!("{file}: {fault}"))
}

fn report(tally: Tally) -> usize {
    println!("{tally}");
    tally.differences
}

/// Named numbers in any order; without a default each has to be there.
fn numbers<const N: usize>(
    words: &[&str],
    names: [(&str, Option<u64>); N],
) -> Result<[u64; N], String> {
    let mut values = names.map(|(_, default)| default);
    for pair in words.chunks(2) {
        let [name, value] = pair else {
            return Err(format!("no number behind `{}`", pair[0]));
        };
        let place = names.iter().position(|(known, _)| known == name);
        let place = place.ok_or(format!("`{name}` is no option here"))?;
        let number = value
            .parse()
            .map_err(|_| format!("`{value}` is no number"))?;
        values[place] = Some(number);
    }
    for (value, (name, _)) in values.iter().zip(names) {
        value.ok_or(format!("{name} is missing"))?;
    }
    Ok(values.map(|value| value.unwrap_or(0)))
}
