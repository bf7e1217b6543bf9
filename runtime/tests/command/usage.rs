//! Options, help, exit codes and several files.

use crate::{example_names, gate, gate_with, root};
use std::collections::HashMap;
use std::fs;

#[test]
fn wrong_use_is_2_and_says_where_help_is() {
    for (arguments, message) in [
        (&[][..], "no command given"),
        (&["frob"], "no command `frob`"),
        (&["cards"], "cards needs a plan's file"),
        (&["cards", "--frob", "x"], "no option `--frob`"),
        (&["cards", "--svg"], "--svg needs a file to write"),
        (&["cards", "--svg", "x.svg", "a", "b"], "--svg draws one plan"),
        (&["show", "x", "y"], "show needs --reader and a set of rinks such as '{3, 17}'"),
        (&["show", "x", "y", "--reader"], "--reader needs a set of rinks such as '{3, 17}'"),
        (&["show", "--reader", "{}"], "show takes a plan's file and one node"),
        (&["show", "--reader", "{}", "x"], "show takes a plan's file and one node"),
        (&["show", "--reader", "{}", "x", "y", "z"], "show takes a plan's file and one node"),
        (&["show", "--reader", "{}", "--frob", "x", "y"], "no option `--frob`"),
        (&["show", "--reader", "{}", "--reader", "{}", "x", "y"], "--reader is given twice"),
        (&["show", "--reader", "{64}", "x", "y"], "--reader: expected a rink: a whole number from 0 to 63, found `64`"),
        (&["show", "--reader", "{3,", "3}", "x", "y"], "--reader: expected a rink that is not given yet, found `3`"),
        (&["show", "--reader", "{3,", "x", "y"], "--reader: expected a rink: a whole number from 0 to 63, found `x`"),
        (&["show", "--reader", "{3}4", "x", "y"], "--reader: expected nothing behind the set, found `4`"),
        // What a shell makes of {3,17} without quotes.
        (
            &["show", "--reader", "3", "17", "x", "y"],
            "--reader: expected a set of rinks in braces, found `3`; in a shell write '{3,17}' with its quotes",
        ),
        (&["explain", "0"], "no refusal `0`"),
        (&["explain", "31"], "no refusal `31`, they are 1 to 30"),
        (&["explain", "x"], "no refusal `x`"),
        (&["explain", "1", "2"], "explain takes one number"),
        (&["help", "frob"], "no help on `frob`"),
    ] {
        let run = gate(arguments);
        assert_eq!((run.code, run.out.as_str()), (Some(2), ""), "{arguments:?}");
        assert!(run.err.starts_with(&format!("gate: {message}")) && run.err.contains("; see `gate "), "{}", run.err);
    }
}

#[test]
fn help_and_version_are_given() {
    for (arguments, begin) in [
        (&["--help"][..], "gate: the ranges of a plan"),
        (&["-h"], "gate: the ranges of a plan"),
        (&["help"], "gate: the ranges of a plan"),
        (&["help", "cards"], "usage: gate cards"),
        (&["cards", "--help"], "usage: gate cards"),
        (&["help", "show"], "usage: gate show"),
        (&["show", "--help"], "usage: gate show"),
        (&["explain", "-h"], "usage: gate explain"),
        (&["help", "format"], "A plan is a text."),
        (&["--version"], concat!("gate ", env!("CARGO_PKG_VERSION"), "\n")),
    ] {
        let run = gate(arguments);
        assert_eq!((run.code, run.err.as_str()), (Some(0), ""), "{arguments:?}");
        assert!(run.out.starts_with(begin), "{}", run.out);
        assert!(run.out.lines().all(|line| line.chars().count() <= 80), "{}", run.out);
    }
}

/// The plan that `gate help format` shows can be used as it stands.
#[test]
fn the_format_help_shows_a_plan_and_every_item() {
    let text = gate(&["help", "format"]).out;
    let plan: Vec<&str> = text.lines().skip_while(|line| !line.contains("# the brine")).take_while(|line| !line.is_empty()).collect();
    let run = gate_with(&["cards", "-"], plan.join("\n").as_bytes());
    assert_eq!(run.code, Some(0), "{run:?}");
    assert!(run.out.starts_with("-: accepted, 4 nodes"), "{}", run.out);
    assert!(run.out.contains("subtract brine_in brine_out  int   [-17, +12]"), "{}", run.out);
    let readme = fs::read_to_string(root().join("runtime/README.md")).unwrap();
    let words = "leaf int float bool str unknown whole text range categories columns rows dataset dimensions sample stability aggregator \
                 node groups owners releasable private nullable nonempty ordered abs add subtract multiply divide modulo log power negative \
                 pool";
    for word in words.split(' ') {
        assert!(word == "private" || text.contains(word), "help: {word}");
        assert!(readme.contains(&format!("`{word}")), "README: {word}");
    }
}

/// What a person has to know before owners are left out, or a reader is shown something.
#[test]
fn the_help_says_who_sees_what() {
    let flat = |topic| gate(&["help", topic]).out.split_whitespace().collect::<Vec<&str>>().join(" ");
    assert!(flat("show").contains("A node without owners is shown to everybody."));
    assert!(flat("show").contains("a refusal other than 30 does not say which values caused it"));
    assert!(flat("format").contains("rinks, 0 to 63, that own it; default: none, and `gate show` then shows it to everybody"));
    assert!(flat("cards").contains("Every node is printed, whoever owns it"));
}

#[test]
fn every_number_is_explained() {
    let all = gate(&["explain"]);
    assert_eq!((all.code, all.out.lines().count()), (Some(0), 30));
    assert!(gate(&["help", "explain"]).out.contains("(1 to 30)"));
    for (number, line) in (1..=30).zip(all.out.lines()) {
        let one = gate(&["explain", &number.to_string()]);
        assert_eq!(one.code, Some(0));
        let sentence = line.trim_start().split_once("  ").expect("a number and a sentence").1;
        assert!(one.out.starts_with(&format!("{number}: {sentence}\n\n")), "{}", one.out);
        assert!(one.out.lines().count() > 2 && one.out.lines().skip(1).all(|line| line.chars().count() <= 78), "{}", one.out);
    }
}

/// Two hundred files in parallel come out in the order given, each as it does alone.
#[test]
fn several_files_keep_their_order() {
    let names: Vec<String> =
        example_names().iter().filter(|name| *name != "misspelt").map(|name| format!("examples/{name}.plan")).collect();
    let files: Vec<&str> = (0..200).map(|k| names[(k + k / names.len()) % names.len()].as_str()).collect();
    let run = gate(&[&["cards"], &files[..]].concat());
    assert_eq!(run.code, Some(1));
    let alone: HashMap<&str, String> = names.iter().map(|name| (name.as_str(), gate(&["cards", name]).out)).collect();
    let wanted: Vec<&str> = files.iter().map(|file| alone[file].as_str()).collect();
    assert_eq!(run.out, wanted.join("\n"));
}

#[test]
fn the_worst_file_decides_the_exit_code() {
    let code = |files: &[&str]| gate(&[&["cards"], files].concat()).code;
    let (good, refused, malformed) = ("examples/brine.plan", "examples/ratio.plan", "examples/misspelt.plan");
    assert_eq!(code(&[good, good]), Some(0));
    assert_eq!(code(&[refused, good]), Some(1));
    assert_eq!(code(&[malformed, refused, good]), Some(2));
    assert_eq!(code(&[good, "examples/no_such.plan"]), Some(2));
    let run = gate(&["cards", "examples/no_such.plan", good]);
    assert!(run.err.starts_with("examples/no_such.plan: ") && run.out.starts_with("examples/brine.plan: accepted"), "{run:?}");
    assert!(gate(&["cards", "examples"]).err.starts_with("examples: "));
}

#[test]
fn a_picture_that_cannot_be_written_is_2() {
    let run = gate(&["cards", "--svg", "no/such/folder/x.svg", "examples/brine.plan"]);
    assert_eq!(run.code, Some(2));
    assert!(run.err.starts_with("gate: no/such/folder/x.svg: ") && run.out.contains("accepted"), "{run:?}");
}

/// A reader that goes away early is no fault of the command.
#[test]
fn a_closed_output_is_no_panic() {
    use std::process::{Command, Stdio};
    let mut child = Command::new(env!("CARGO_BIN_EXE_gate"))
        .args(["cards"].iter().chain(&["examples/hours.plan"; 300]))
        .current_dir(root())
        .stdout(Stdio::piped())
        .stderr(Stdio::piped())
        .spawn()
        .unwrap();
    drop(child.stdout.take());
    let output = child.wait_with_output().unwrap();
    assert_eq!((output.status.code(), output.stderr.len()), (Some(0), 0));
}
