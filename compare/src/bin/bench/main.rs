//! The benchmark: the same calls, the same driver, four ways to answer them;
//! and plans against the same single calls.

#[cfg(before)]
mod against;
mod chains;
mod classes;
mod clock;
mod shown;
mod single;
mod stack;
mod targets;
mod ways;

use classes::classes;
use single::grouped;
use ways::{measure, WAYS};

const HELP: &str = "\
bench             single calls, plans and the targets, as a Markdown report
bench stack       the deepest stack of a call
bench against     this library's time by an earlier one's, row by row; build
                  with GATE_LIB_BEFORE set to the earlier one's folder
bench only WHICH CLASS SECONDS
                  one way on one class, for a profiler; WHICH is proved, port,
                  memory or original, CLASS the number of a row from 0";

fn main() {
    let words: Vec<String> = std::env::args().skip(1).collect();
    let words: Vec<&str> = words.iter().map(String::as_str).collect();
    match words[..] {
        [] => report(),
        ["stack"] => stack::depths(),
        ["against"] => against(),
        ["only", which, class, seconds] => only(which, class, seconds),
        ["--help"] => println!("{HELP}"),
        _ => refuse(),
    }
}

fn refuse() -> ! {
    eprintln!("{HELP}");
    std::process::exit(2)
}

#[cfg(before)]
fn against() {
    against::table()
}

#[cfg(not(before))]
fn against() {
    eprintln!("bench against: no earlier library was linked; set GATE_LIB_BEFORE to the folder of its libgate.a and build again");
    std::process::exit(2)
}

fn report() {
    println!("### Single calls\n");
    let singles = single::table();
    println!("\n### Plans\n");
    println!("Chains: one leaf, then steps that take the step before and the leaf. `its leaf` is a plan of that leaf alone; a step is the rest of the plan, shared out. `leaf, of leaves alone` is a plan without steps, by its leaves.\n");
    let plans = chains::table();
    println!("\n### One node shown\n");
    println!("Over the longest chain of each kind, whose leaf belongs to one rink: the last node stands on all others.\n");
    shown::table();
    println!("\n### Targets in this run\n");
    targets::lines(&singles, &plans);
}

fn only(which: &str, class: &str, seconds: &str) {
    let classes = classes();
    let class = class.parse::<usize>().ok().and_then(|at| classes.get(at));
    let way = WAYS.iter().find(|(name, _)| *name == which);
    let (Some(class), Ok(seconds), Some((_, way))) = (class, seconds.parse::<f64>(), way) else {
        refuse()
    };
    let (mut spent, mut calls) = (0.0, 0);
    while calls == 0 || spent < seconds {
        spent += measure(*way, class);
        calls += class.calls.len() * class.turns;
    }
    println!(
        "{} on `{}`: {} calls/s",
        which,
        class.name,
        grouped(calls as f64 / spent)
    );
}
