//! `gate show`: one node for one reader, in words and in JSON, and what it must not tell.

use crate::{gate, gate_with, json_reader, unseen, Run};
use gate_runtime::causes::WITHHELD;
use gate_runtime::view::View;
use gate_runtime::Rinks;

const PLAN: &str = "leaf north : int, whole [-142, -60], rows 96, dataset 1, nonempty, owners {3}
leaf south : int, whole [-118, 6], rows 96, dataset 1, nonempty, owners {17}
leaf hall : int, whole [0, 9], rows 96, dataset 1, owners {8, 40}
leaf annex : int, whole [5, ..], rows 96, dataset 1, owners {63}
leaf factor : int, whole [3, 3], rows 1, releasable
both = add north south
hired = add hall annex
all = add both hired
scaled = multiply annex factor
";

fn show(plan: &str, reader: &str, node: &str) -> Run {
    gate_with(&["show", "--reader", reader, "-", node], plan.as_bytes())
}

#[test]
fn a_node_is_shown_with_the_reason() {
    for (reader, node, begin, row) in [
        ("{3, 17}", "both", "-: shown: node 5 `both`, whose owners {3, 17} all lie in the reader's set {3, 17}\n\n", "[-260, -54]"),
        ("{17,3,9}", "5", "-: shown: node 5 `both`, whose owners {3, 17} all lie in the reader's set {3, 9, 17}\n\n", "add north south"),
        (
            "{}",
            "all",
            "-: shown: node 7 `all`, which has 5 owners {3, 8, 17, 40, 63}: with five or more a node is shown to everybody\n\n",
            "[-255, +inf]",
        ),
        ("{}", "factor", "-: shown: node 4 `factor`, which has no owners and is shown to everybody\n\n", "releasable, owners {}"),
        ("{63}", "annex", "-: shown: node 3 `annex`, whose owners {63} all lie in the reader's set {63}\n\n", "leaf"),
    ] {
        let run = show(PLAN, reader, node);
        assert_eq!((run.code, run.err.as_str()), (Some(0), ""), "{run:?}");
        assert!(run.out.starts_with(begin), "{}", run.out);
        let table: Vec<&str> = run.out.lines().skip(2).take_while(|line| !line.is_empty()).collect();
        assert!(table.len() == 2 && table[0].starts_with("node  name") && table[1].contains(row), "{}", run.out);
        assert_eq!(run.out.contains("\n\nNote: -inf and +inf stand for"), run.out.contains("+inf]"), "{}", run.out);
    }
}

#[test]
fn refusal_30_names_the_owners_outside() {
    let run = show(PLAN, "{3, 8}", "hired");
    let wanted = "-: refused with 30: node 6 `hired` is wanted\n\nRefused: node 6 `hired` = add hall annex\n  \
                  30: The reader may not see the node.\n  owners outside of the reader's set {3, 8}: {40, 63}\n  \
                  it has 3 owners {8, 40, 63}; with five or more it would be shown to everybody\n  More: gate explain 30\n";
    assert_eq!((run.code, run.out.as_str(), run.err.as_str()), (Some(1), wanted, ""));
    let run = show(PLAN, "{}", "north");
    assert!(run.out.contains("Refused: node 0 `north`, a leaf\n") && run.out.contains("it has 1 owner {3}; with five"), "{}", run.out);
    let explained = gate(&["explain", "30"]).out;
    assert!(explained.starts_with("30: The reader may not see the node.\n\n"), "{explained}");
    let flat = explained.replace('\n', " ");
    assert!(flat.contains("if there are five or more; a node without owners is shown to everybody"), "{explained}");
}

/// A shell cuts a set at its spaces, and hands it over whole if it is quoted.
#[test]
fn a_set_may_come_in_several_arguments() {
    let plan = "examples/lent_logs.plan";
    let whole = gate(&["show", "--reader", "{3, 17}", plan, "club"]);
    assert_eq!(whole.code, Some(0), "{whole:?}");
    for arguments in [
        &["show", "--reader", "{3,", "17}", plan, "club"][..],
        &["show", "--reader", "{3", ",", "17", "}", plan, "club"],
        &["show", "--reader={17,3}", plan, "club"],
        &["show", "--reader={17,", "3}", plan, "club"],
        &["show", plan, "--reader", "{3,17}", "--", "club"],
        &["show", plan, "club", "--reader", "{3,17}"],
    ] {
        let run = gate(arguments);
        assert_eq!((run.out, run.code), (whole.out.clone(), Some(0)), "{arguments:?}");
    }
}

/// A number that no node has is the proved call's to judge; a name is looked up before.
#[test]
fn nodes_that_are_not_there() {
    for number in ["9", "70000", "4294967296"] {
        let run = show(PLAN, "{}", number);
        let wanted = format!(
            "-: refused with 1: node {number} is wanted\n\nRefused: the plan\n  1: The plan is malformed.\n  \
             node {number}: the plan has nodes 0 to 8\n  More: gate explain 1\n"
        );
        assert_eq!((run.code, run.out, run.err), (Some(1), wanted, String::new()));
    }
    for (word, message) in [
        ("bth", "-: no node `bth`; did you mean `both`?\n"),
        ("pump", "-: no node `pump`; nodes are north, south, hall, annex, factor, both, hired, all, scaled\n"),
        ("5x", "-: no node `5x`; nodes are north"),
        ("", "-: no node ``; nodes are north"),
        ("99999999999999999999", "-: no node `99999999999999999999`; nodes are north"),
        ("\u{202e}", "-: no node `\u{fffd}`; nodes are north"),
    ] {
        let run = show(PLAN, "{}", word);
        assert!(run.code == Some(2) && run.out.is_empty() && run.err.starts_with(message), "{run:?}");
    }
}

#[test]
fn the_document_says_what_the_words_say() {
    let document = |arguments: &[&str], plan: &str| {
        let run = gate_with(&[&["show", "--json", "--reader"], arguments].concat(), plan.as_bytes());
        assert_eq!((run.err.as_str(), unseen(&run.out)), ("", None));
        (run.code, json_reader::read(&run.out).expect("a document"))
    };
    let numbers = |list: &json_reader::Value| -> Vec<String> { list.list().iter().map(|n| n.number().to_string()).collect() };
    let (code, shown) = document(&["{3, 17, 20}", "-", "both"], PLAN);
    assert_eq!((code, shown.at("outcome").text(), shown.at("file").text()), (Some(0), "shown", "-"));
    assert_eq!((shown.at("node").number(), shown.at("name").text(), shown.at("refusal")), ("5", "both", &json_reader::Value::Null));
    assert_eq!(
        (numbers(shown.at("owners")), numbers(shown.at("reader"))),
        (vec!["3".into(), "17".into()], vec!["3".into(), "17".into(), "20".into()])
    );
    assert_eq!(shown.at("sheet").at("ranges").list()[0].at("text").text(), "[-260, -54]");
    let (code, refused) = document(&["{3}", "-", "both"], PLAN);
    assert_eq!((code, refused.at("outcome").text(), refused.at("sheet")), (Some(1), "refused", &json_reader::Value::Null));
    let refusal = refused.at("refusal");
    assert_eq!((refusal.at("number").number(), refusal.at("node").number(), refusal.at("name").text()), ("30", "5", "both"));
    assert_eq!(refusal.at("causes").list()[0].text(), "owners outside of the reader's set {3}: {17}");
    let (code, none) = document(&["{3}", "-", "70000"], PLAN);
    assert_eq!((code, none.at("name"), none.at("refusal").at("node")), (Some(1), &json_reader::Value::Null, &json_reader::Value::Null));
    let (code, malformed) = document(&["{3}", "-", "both"], "leaf a : int, whole [7, secret]\n");
    assert_eq!((code, malformed.at("outcome").text()), (Some(2), "malformed"));
    assert_eq!(malformed.at("why").text(), "it is no plan; `gate cards` says where and why");
    let (code, unknown) = document(&["{3}", "-", "bth"], PLAN);
    assert_eq!((code, unknown.at("outcome").text()), (Some(2), "unknown node"));
    let (code, unreadable) = document(&["{3}", "examples/no_such.plan", "both"], "");
    assert_eq!((code, unreadable.at("outcome").text()), (Some(2), "unreadable"));
}

/// All that a run prints and returns, in words and in JSON.
fn everything(plan: &str, reader: &[u32], node: &str) -> (String, u8) {
    let view = View::of("f", plan.as_bytes(), Rinks::of(reader).expect("rinks below 64"), node);
    let (out, err) = view.render();
    ([out, err, gate_runtime::json::view(&view).write()].concat(), view.exit_code())
}

/// The plan with other items in some leaves, over more lines and with other comments.
fn changed(leaves: &[&str]) -> String {
    let others = [
        "float, float {0.25, nan}, rows 7777,\n columns 3, # 7777\n nullable",
        "str, text {\"secret\",\n\"7777\"}, sample 0.5",
        "int, whole [7777, 2]",
    ];
    let mut others = others.iter().cycle();
    let line = |line: &str| match leaves.iter().find(|leaf| line.starts_with(&format!("leaf {leaf} "))) {
        None => format!("{line}\n"),
        Some(leaf) => {
            let owners = line.split_once("owners ").map_or(String::new(), |(_, set)| format!(", owners {set}"));
            format!("# 7777\nleaf {leaf} : {}{owners}\n", others.next().expect("a cycle"))
        }
    };
    PLAN.lines().map(line).collect()
}

/// Two plans that differ only in leaves that are not walked print the same, shown or refused.
#[test]
fn unwalked_leaves_do_not_show() {
    let others = changed(&["hall", "annex", "factor"]);
    for (reader, node) in [(&[3, 17][..], "both"), (&[3], "both"), (&[3], "north"), (&[], "south"), (&[3, 17], "5")] {
        let first = everything(PLAN, reader, node);
        assert_eq!(everything(&others, reader, node), first);
        assert!(!first.0.contains("7777") && first.1 < 2, "{}", first.0);
    }
    let with = |leaf: &str| format!("{leaf}\n{}", PLAN.lines().skip(1).map(|line| format!("{line}\n")).collect::<String>());
    let (bad, good) = (with("leaf north : int, whole [7777, 2], rows 96, owners {3}"), with("leaf north : int, owners {3}"));
    assert_eq!(everything(&bad, &[63], "scaled"), everything(&good, &[63], "scaled"));
    assert_eq!(everything(&bad, &[63], "scaled").1, 0);
}

/// A refusal on rights prints the same whatever any leaf states; any other tells number and node alone.
#[test]
fn a_refusal_shows_nothing_of_any_leaf() {
    let all = changed(&["north", "south", "hall", "annex", "factor"]);
    for (reader, node) in [(&[3][..], "both"), (&[], "hired"), (&[8, 40], "hired"), (&[], "annex"), (&[3], "70000")] {
        let first = everything(PLAN, reader, node);
        assert_eq!((everything(&all, reader, node), first.1), (first.clone(), 1));
    }
}

/// A step refused with 24, and a leaf with 5, each by two different values: the number, the node and no value.
#[test]
fn a_refusal_below_shows_no_value() {
    let plan = |number: u32, end: &str| match number {
        24 => format!("leaf a : int, whole [{end}, {end}], rows 1, releasable, owners {{1}}\ns = multiply a a\nt = abs s\n"),
        _ => format!("leaf a : int, whole [{end}, 2], rows 1, owners {{1}}\ns = abs a\nt = abs s\n"),
    };
    for (number, place) in [(24, "node 1 `s` = multiply a a"), (5, "node 0 `a`, a leaf")] {
        let (all, code) = everything(&plan(number, "7777777777777"), &[1], "t");
        assert_eq!(everything(&plan(number, "9223372036854775807"), &[1], "t"), (all.clone(), 1));
        let begin = format!("f: refused with {number}: node 2 `t` is wanted\n\nRefused: {place}\n  {number}: ");
        assert!(code == 1 && all.starts_with(&begin), "{all}");
        assert!(all.contains(&format!("\n  {WITHHELD}\n  More: gate explain {number}\n")) && !all.contains("777"), "{all}");
    }
}

/// A malformed text is quoted nowhere.
#[test]
fn a_malformed_text_is_not_quoted() {
    for plan in ["leaf a : int, whole [7777, secret], owners {3}\n", "leaf a : int, secret\n", "", "leaf a : str, text {\"7777\n"] {
        let (all, code) = everything(plan, &[3], "a");
        assert_eq!(code, 2);
        assert!(
            all.starts_with("f: it is no plan; `gate cards` says where and why\n") && !all.contains("secret") && !all.contains("7777"),
            "{all}"
        );
    }
}

/// Notes that the operands' sheets would tell are left out; those of the sheet itself stay.
#[test]
fn notes_come_from_the_shown_sheet() {
    let plan = "leaf a : int, whole [1, 10], rows 1, releasable\nleaf z : int, whole [0, 5], rows 1, releasable\n\
                leaf f : float, float [1.7e308, 1.7e308], rows 1, releasable\nq = divide a z\nm = pool z z\nw = add f f\n";
    let notes =
        |node| everything(plan, &[], node).0.lines().filter(|line| line.starts_with("Note: ")).map(str::to_string).collect::<Vec<String>>();
    assert_eq!(notes("q"), ["Note: -inf and +inf stand for an end that sets no bound."]);
    assert_eq!(notes("m"), [""; 0]);
    assert!(notes("w")[0].starts_with("Note: node 5 `w`: -overflow and +overflow stand for an end"), "{:?}", notes("w"));
}
