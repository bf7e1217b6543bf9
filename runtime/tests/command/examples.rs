//! The examples and the README show what the command really prints.
//!
//! With GATE_UPDATE=1 in the environment the stored outputs and the README's blocks are written first.

use crate::{example_names, gate, root, Run};
use std::fs;
use std::path::PathBuf;

fn updating() -> bool {
    std::env::var_os("GATE_UPDATE").is_some()
}

/// Holds a file against what it should be.
fn hold(path: PathBuf, real: &str) {
    if updating() {
        fs::write(&path, real).expect("the repository can be written");
    }
    let stored = fs::read_to_string(&path).unwrap_or_default();
    assert!(stored == real, "{} is not the real output, which is:\n{real}", path.display());
}

fn both(run: &Run) -> String {
    format!("{}{}", run.out, run.err)
}

fn plan_of(name: &str) -> String {
    fs::read_to_string(root().join(format!("examples/{name}.plan"))).expect("an example's plan")
}

/// The commands of an example: its cards, and those that stand in comments of its plan.
fn commands(name: &str) -> Vec<String> {
    let plan = plan_of(name);
    let shows = plan.lines().filter_map(|line| line.strip_prefix("# gate ")).filter(|command| command.starts_with("show "));
    [format!("cards examples/{name}.plan")].into_iter().chain(shows.map(str::to_string)).collect()
}

/// A command as a shell would cut it.
fn run(command: &str) -> Run {
    gate(&command.split(' ').collect::<Vec<&str>>())
}

#[test]
fn stored_outputs_are_real() {
    let names = example_names();
    assert!(names.len() >= 6);
    let mut codes = Vec::new();
    for name in &names {
        let mut stored = String::new();
        for command in commands(name) {
            let run = run(&command);
            let code = run.code.expect("the command ended by itself");
            // The cards come first, and what follows them says what was run.
            let begin = if stored.is_empty() { String::new() } else { format!("\n$ gate {command}\n") };
            stored.push_str(&format!("{begin}{}\nexit code {code}\n", both(&run)));
            codes.push((command.split(' ').next().unwrap_or("").to_string(), code));
        }
        hold(root().join("examples").join(format!("{name}.out")), &stored);
    }
    for (command, code) in [("cards", 0), ("cards", 1), ("cards", 2), ("show", 0), ("show", 1)] {
        assert!(codes.contains(&(command.to_string(), code)), "{command} with exit code {code} has an example: {codes:?}");
    }
}

#[test]
fn the_stored_picture_is_real() {
    let file = std::env::temp_dir().join(format!("gate-example-{}.svg", std::process::id()));
    let name = file.to_str().expect("the temporary folder's name is UTF-8");
    let run = gate(&["cards", "--svg", name, "examples/pumps.plan"]);
    assert_eq!(run.code, Some(0), "{run:?}");
    let picture = fs::read_to_string(&file).unwrap();
    fs::remove_file(&file).unwrap();
    hold(root().join("examples").join("pumps.svg"), &picture);
}

/// A README's text between fences, as it should be: the output of a command, or an example's plan if the line before names one.
fn real_block(before: &str, block: &str) -> Option<String> {
    if let Some(command) = block.lines().next().and_then(|line| line.strip_prefix("$ gate ")) {
        return Some(format!("$ gate {command}\n{}", both(&run(command))));
    }
    Some(plan_of(before.strip_prefix("`examples/")?.strip_suffix(".plan`:")?))
}

/// The README with every block as it should be, and what the blocks show.
fn real_readme(readme: &str) -> (String, Vec<String>) {
    let (mut text, mut shown) = (String::new(), Vec::new());
    for (place, part) in readme.split("```").enumerate() {
        if place % 2 == 0 {
            text.push_str(part);
            continue;
        }
        let before = text.trim_end().lines().last().unwrap_or("").to_string();
        let (kind, block) = part.split_once('\n').expect("a fence ends its line");
        let block = real_block(&before, block).unwrap_or_else(|| block.to_string());
        text.push_str(&format!("```{kind}\n{block}```"));
        shown.push(block);
    }
    (text, shown)
}

#[test]
fn the_readme_shows_real_outputs_of_all_examples() {
    let path = root().join("runtime").join("README.md");
    let readme = fs::read_to_string(&path).expect("the package has a README");
    let (text, shown) = real_readme(&readme);
    hold(path, &text);
    for name in example_names() {
        assert!(shown.contains(&plan_of(&name)), "the README shows the plan of {name}");
        for command in commands(&name) {
            let begin = format!("$ gate {command}\n");
            assert!(shown.iter().any(|block| block.starts_with(&begin)), "the README shows the output of {command}");
        }
    }
}
