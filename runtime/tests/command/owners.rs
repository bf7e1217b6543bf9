//! Owners of leaves: in a plan's text, on cards, in JSON and in pictures; and plans without owners, of which nothing changed.

use crate::{example_names, json_reader, root, xml_reader};
use gate_runtime::cards::{Card, Outcome};
use gate_runtime::{json, svg, text, Rinks};
use std::fs;

fn rinks(rinks: &[u32]) -> Rinks {
    Rinks::of(rinks).expect("rinks below 64")
}

/// The owners that a leaf's items give.
fn owners(items: &str) -> Option<Rinks> {
    let plan = text::read(&format!("leaf a : int, {items}\n")).unwrap_or_else(|problems| panic!("{items}: {}", problems[0]));
    plan.owners[0]
}

#[test]
fn owners_are_read() {
    assert_eq!(owners("rows 8"), None);
    assert_eq!(owners("owners {}"), Some(Rinks::NONE));
    assert_eq!(owners("owners {17, 3}, rows 8"), Some(rinks(&[3, 17])));
    assert_eq!(owners("rows 8, owners { 0,\n 63 }  # the first and the last"), Some(rinks(&[0, 63])));
    let all: Vec<String> = (0..64).map(|rink| rink.to_string()).collect();
    assert_eq!(owners(&format!("owners {{{}}}", all.join(", "))), Some(Rinks::from_bits(u64::MAX)));
    // A word of the format may be a name.
    let plan = text::read("leaf owners : int, whole [1, 2], owners {5}\nb = abs owners\n").expect("a plan");
    assert_eq!((plan.names[0].as_str(), plan.owners_of(1)), ("owners", rinks(&[5])));
}

#[test]
fn mistakes_in_owners_are_named_with_their_place() {
    let step = "a step has the owners of the leaves that it stands on; `owners {..}` is written on leaves";
    for (source, message, help) in [
        ("leaf a : int, owners {64}", "1:23: expected a rink: a whole number from 0 to 63, found `64`", ""),
        ("leaf a : int, owners {3, -1}", "1:26: expected a rink: a whole number from 0 to 63, found `-1`", ""),
        ("leaf a : int, owners {4294967299}", "1:23: expected a rink: a whole number from 0 to 63, found `4294967299`", ""),
        ("leaf a : int, owners {1.5}", "1:23: expected a rink: a whole number from 0 to 63, found `1.5`", "no point"),
        ("leaf a : int, owners {north}", "1:23: expected a rink: a whole number from 0 to 63, found `north`", ""),
        ("leaf a : int, owners {3,}", "1:25: expected a rink: a whole number from 0 to 63, found `}`", ""),
        ("leaf a : int, owners {3, 17, 3}", "1:30: expected a rink that is not given yet, found `3`", "each rink stands once in a set"),
        ("leaf a : int, owners {3, 03}", "1:26: expected a rink that is not given yet, found `03`", "each rink stands once"),
        ("leaf a : int, owners 3", "1:22: expected a set of rinks in braces, found `3`", "for instance {3, 17}, or {} for none"),
        ("leaf a : int, owners [3]", "1:22: expected a set of rinks in braces, found `[`", "for instance {3, 17}"),
        ("leaf a : int, owners", "1:21: expected a set of rinks in braces, found the end of the line", "for instance {3, 17}"),
        ("leaf a : int, owners {3, 17", "1:28: expected `,` or `}`, found the end of the line", ""),
        ("leaf a : int, owners {3 17}", "1:25: expected `,` or `}`, found `17`", ""),
        ("leaf a : int, owners {3} {17}", "1:26: expected `,` or the end of the line, found `{`", ""),
        ("leaf a : int, owners {3}, owners {4}", "1:27: expected an item that is not given yet, found `owners`", "owners was given before"),
        ("leaf a : int, owner {3}", "1:15: expected an item, found `owner`", "did you mean `owners`?"),
        ("leaf a : int\nb = abs a, owners {3}", "2:10: expected the end of the line, as abs takes one operand, found `,`", step),
        ("leaf a : int\nb = add a a owners {3}", "2:13: expected the end of the line, as add takes two operands, found `owners`", step),
        ("leaf a : int\nb = add a owners {3}", "2:11: expected a name of an earlier line, found `owners`", step),
    ] {
        let problems = text::read(source).expect_err(source);
        assert_eq!((problems.len(), problems[0].to_string()), (1, message.to_string()), "{source}");
        let found = problems[0].help.clone().unwrap_or_default();
        assert!(found.contains(help) && (found == step) == (help == step), "{source}: {found}");
    }
}

/// Two leaves with owners, a public one without, a private one without; a step refused, and one behind it.
const SOURCE: &str = "leaf a : int, whole [1, 2], rows 8, dataset 1, owners {17, 3}
leaf b : int, whole [1, ..], rows 8, dataset 1, nonempty, owners {63}
leaf f : int, whole [9223372036854775807, 9223372036854775807], rows 1, releasable
leaf p : int, whole {1}, rows 8, dataset 1
leaf q : int, whole [1, 2], rows 8, dataset 1, owners {}
s = add a b
t = multiply a f
u = negative t
v = add p q
";

/// Each node's owners.
const UNIONS: [&[u32]; 9] = [&[3, 17], &[63], &[], &[], &[], &[3, 17, 63], &[3, 17], &[3, 17], &[]];

fn without_owners(source: &str) -> String {
    let line = |line: &str| match line.split_once(", owners {") {
        Some((before, set)) => format!("{before}{}\n", set.split_once('}').expect("the set's end").1),
        None => format!("{line}\n"),
    };
    source.lines().map(line).collect()
}

/// From text to plan, and from the card, the document and the picture back to the same sets: of steps, the unions.
#[test]
fn owners_are_on_every_card() {
    let plan = text::read(SOURCE).expect("a plan");
    assert_eq!(plan.owners, [Some(rinks(&[3, 17])), Some(rinks(&[63])), None, None, Some(Rinks::NONE)]);
    let card = Card::of("f", SOURCE.as_bytes());
    let document = json_reader::read(&json::document(std::slice::from_ref(&card)).write()).expect("a document");
    let nodes = document.at("plans").list()[0].at("nodes").list().to_vec();
    let out = card.render().0;
    let rows: Vec<&str> = out.lines().skip(3).take(9).collect();
    let Outcome::Walked(walked) = &card.outcome else { panic!("a plan") };
    let picture = xml_reader::read(&svg::picture("f", walked)).expect("a picture");
    for (node, union) in UNIONS.iter().enumerate() {
        let union = rinks(union);
        assert_eq!((plan.owners_of(node), plan.stated_owners(node)), (union, Some(union)));
        let (_, set) = rows[node].split_once("owners ").expect("owners in the row");
        assert_eq!(text::read_rinks(set).as_ref(), Ok(&union), "{}", rows[node]);
        let listed: Vec<u32> = nodes[node].at("owners").list().iter().map(|rink| rink.number().parse().unwrap()).collect();
        assert_eq!(Rinks::of(&listed), Some(union));
        assert_eq!(
            picture.iter().filter(|text| **text == format!("owners {union}")).count(),
            UNIONS.iter().filter(|u| rinks(u) == union).count()
        );
    }
    assert!(rows[7].contains("not walked"), "{out}");
}

/// What a card says of owners can be written into a plan as it stands.
#[test]
fn owners_come_back_from_a_card() {
    for set in [Rinks::NONE, rinks(&[3]), rinks(&[0, 17, 63]), Rinks::from_bits(u64::MAX)] {
        let source = |set: &str| format!("leaf a : int, whole [1, 2], {set}\n");
        let out = Card::of("f", source(&format!("owners {set}")).as_bytes()).render().0;
        let marks = out.lines().nth(3).expect("the leaf's row").split_once("private, ").expect("the marks").1.to_string();
        assert_eq!(text::read(&source(&marks)).expect("a plan").owners, [Some(set)]);
    }
}

/// A private leaf that was left out is named, and only where others have owners.
#[test]
fn a_leaf_without_owners_has_a_note() {
    let notes = |source: &str| match &Card::of("f", source.as_bytes()).outcome {
        Outcome::Walked(walked) => walked.notes().into_iter().filter(|note| note.contains("owners")).collect::<Vec<String>>(),
        other => panic!("{other:?}"),
    };
    let note = "node 3 `p`: it is private and no owners are given, so that `gate show` shows it to everybody.";
    assert_eq!(notes(SOURCE), [note]);
    assert_eq!(notes(&without_owners(SOURCE)), [""; 0]);
    assert_eq!(notes("leaf a : int, owners {}\n"), [""; 0]);
}

/// Owners add to what a card, a document and a picture say, and change nothing else of it.
#[test]
fn owners_change_nothing_else() {
    let (with, without) = (Card::of("f", SOURCE.as_bytes()), Card::of("f", without_owners(SOURCE).as_bytes()));
    let kept = |out: String| -> Vec<String> {
        let lines = out.lines().filter(|line| !line.contains("no owners are given"));
        lines.map(|line| line.split("owners ").next().unwrap_or("").trim_end().trim_end_matches(',').to_string()).collect()
    };
    assert_eq!(kept(with.render().0), kept(without.render().0));
    assert!(!without.render().0.contains("owners"));
    let document = |card: &Card| json::document(std::slice::from_ref(card)).write();
    let kept: Vec<String> = document(&with).lines().filter(|line| !line.contains("owners")).map(str::to_string).collect();
    let wanted: Vec<String> = document(&without).lines().map(str::to_string).collect();
    // The notes are a list on one line, with one more of them.
    let but_notes = |lines: Vec<String>| lines.into_iter().filter(|line| !line.contains("\"notes\"")).collect::<Vec<String>>();
    assert_eq!(but_notes(kept), but_notes(wanted));
}

/// A plan without owners, as it was printed before there were any.
const BEFORE: &str = r#"{
  "plans": [
    {
      "file": "-",
      "outcome": "accepted",
      "nodes": [
        {
          "node": 0,
          "name": "feed",
          "line": 1,
          "component": null,
          "operands": [],
          "state": "leaf",
          "sheet": {
            "nature": "whole range",
            "type": "int",
            "ranges": [
              {"lower": -142, "upper": -60, "text": "[-142, -60]"}
            ],
            "categories": null,
            "columns": 1,
            "rows": 96,
            "dataset": 1,
            "dimensions": null,
            "sample": null,
            "stability": 1,
            "aggregator": null,
            "node": 0,
            "groups": [],
            "releasable": false,
            "nullable": false,
            "nonempty": false,
            "ordered": false
          }
        }
      ],
      "notes": [],
      "refusal": null
    }
  ]
}
"#;

#[test]
fn plans_without_owners_are_as_before() {
    let card = Card::of("-", b"leaf feed : int, whole [-142, -60], rows 96, dataset 1\n");
    assert_eq!(json::document(std::slice::from_ref(&card)).write(), BEFORE);
    let mut seen = 0;
    for name in example_names() {
        let source = fs::read_to_string(root().join(format!("examples/{name}.plan"))).unwrap();
        let card = Card::of("f", source.as_bytes());
        let (out, err) = card.render();
        let said = [out, err, json::document(std::slice::from_ref(&card)).write()].concat().contains("owners");
        assert_eq!(said, source.contains("owners {"), "{name}");
        seen += usize::from(!said);
    }
    assert!(seen >= 14, "{seen} examples without owners");
}
