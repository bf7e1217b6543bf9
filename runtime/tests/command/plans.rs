//! The text format: every item, its defaults, and what is said of mistakes.

use gate_runtime::cards::Card;
use gate_runtime::{text, Component, DataType, Ends, Group, Key, Nature, Sheet};
use std::num::NonZeroU32;

fn leaf(items: &str) -> Sheet {
    let plan = text::read(&format!("leaf a : {items}\n")).unwrap_or_else(|problems| panic!("{items}: {}", problems[0]));
    plan.leaves[0].clone()
}

/// The first problem and its help, of a text that is malformed.
fn problem(source: &str) -> (String, String) {
    let problems = text::read(source).expect_err(source);
    (problems[0].to_string(), problems[0].help.clone().unwrap_or_default())
}

#[test]
fn defaults_are_those_of_a_private_sheet() {
    assert_eq!(leaf("int"), Sheet::new(DataType::Int, Nature::Absent));
    let two = Sheet::new(DataType::Int, Nature::whole_range(&[[-5, 3], [0, 7]]));
    assert_eq!(two.columns, Some(2));
    assert_eq!(leaf("int, whole [-5, 3] [0, +7]"), two);
    assert_eq!(leaf("int, range [-5, 3] [0, +7], private"), two);
}

#[test]
fn every_item_is_read() {
    let sheet = leaf(
        "str, float [.., 1e3] [-inf, +inf] [-0.0, inf], columns absent, rows -3, dataset 9, dimensions 2,
         sample 0.5, stability 4294967295, aggregator 7, node -1, releasable, nullable, nonempty, ordered,
         groups {7: int -3, 8: bool true,
                 9: str 12}",
    );
    let half = |lower, upper| Ends { lower, upper };
    let mut wanted =
        Sheet::new(DataType::Str, Nature::FloatRange(vec![half(None, Some(1000.0)), half(None, None), half(Some(-0.0), None)]));
    (wanted.columns, wanted.rows, wanted.dataset, wanted.dimensionality) = (None, Some(-3), Some(9), Some(2));
    (wanted.sample, wanted.c_stability, wanted.aggregator, wanted.node) = (Some(0.5), u32::MAX, NonZeroU32::new(7), -1);
    (wanted.releasable, wanted.nullity, wanted.not_empty, wanted.ordered) = (true, true, true, true);
    let group = |partition, key| Group { partition, key };
    wanted.groups = vec![group(7, Key::Int(-3)), group(8, Key::Bool(true)), group(9, Key::Str(12))];
    assert_eq!(sheet, wanted);
}

#[test]
fn categories_of_every_kind_are_read() {
    let nature = |items: &str| format!("{:?}", leaf(items).nature);
    assert_eq!(nature("int, whole {1, -2} {}"), "WholeCategories([[1, -2], []])");
    assert_eq!(nature("int, categories {3}"), "WholeCategories([[3]])");
    assert_eq!(nature("bool, categories {true, false}"), "BoolCategories([[true, false]])");
    assert_eq!(nature("int, bool {true}"), "BoolCategories([[true]])");
    assert_eq!(nature("float, categories {nan, -inf, 0.5}"), "FloatCategories([[NaN, -inf, 0.5]])");
    assert_eq!(nature("float, range [1, 2]"), "FloatRange([Ends { lower: Some(1.0), upper: Some(2.0) }])");
    assert_eq!(nature("int, whole no lists"), "WholeCategories([])");
    assert_eq!(nature("str, text no lists"), "TextCategories([])");
    assert_eq!(nature("str, text {\"a\", \"\"} {}"), "TextCategories([[[97], []], []])");
    assert_eq!(nature("int, text {\"#\"}  # behind it"), "TextCategories([[[35]]])");
    assert_eq!(nature("str, categories {\"é\",\n\"}\"}"), "TextCategories([[[195, 169], [125]]])");
    assert_eq!(nature("int, float no ranges"), "FloatRange([])");
}

#[test]
fn leaves_come_first_and_names_are_kept() {
    let source = "leaf a : int, whole [1, 2] # one\n\n  b = negative a\nleaf c : int, whole [3, 4]\r\nd = divide c b\n冰 = abs d\n";
    let plan = text::read(source).unwrap();
    assert_eq!(plan.names, ["a", "c", "b", "d", "冰"]);
    assert_eq!(plan.lines, [1, 4, 3, 5, 6]);
    assert_eq!(plan.plan.leaves, 2);
    let steps: Vec<_> = plan.plan.steps.iter().map(|s| (s.component, s.left, s.right)).collect();
    assert_eq!(steps, [(Component::Negative, 0, 0), (Component::Divide, 1, 2), (Component::Abs, 3, 3)]);
    assert_eq!(plan.leaves[1].node, 1);
}

/// A text, what is said of it, and part of the help.
type Mistake = (&'static str, &'static str, &'static str);

const LEAF_MISTAKES: &[Mistake] = &[
    ("", "1:1: expected at least one leaf, found none", "for instance"),
    ("leaf", "1:5: expected a name for the leaf, found the end of the line", ""),
    ("leaf 3 : int", "1:6: expected a name for the leaf, found `3`", ""),
    ("leaf a int", "1:8: expected `:` after the leaf's name, found `int`", ""),
    ("leaf a : integer", "1:10: expected a data type: int, float, bool, str or unknown, found `integer`", ""),
    ("leaf a : in", "1:10: expected a data type: int, float, bool, str or unknown, found `in`", "did you mean `int`?"),
    ("leaf a : int, rows", "1:19: expected a whole number or `absent`, found the end of the line", ""),
    ("leaf a : int, rows 1.5", "1:20: expected a whole number or `absent`, found `1.5`", "no point"),
    (
        "leaf a : int, rows 99999999999999999999",
        "1:20: expected a whole number or `absent`, found `99999999999999999999`",
        "64 signed bits",
    ),
    (
        "leaf a : int, whole [\u{2212}5, 3]",
        "1:22: expected a lower end: a whole number, `-inf` or `..`, found `\u{2212}5`",
        "write the sign as `-`",
    ),
    ("leaf a : int, whole [+inf, 3]", "1:22: expected a lower end: a whole number, `-inf` or `..`, found `+inf`", ""),
    ("leaf a : int, float [0, 1e999]", "1:25: expected an upper end: a finite float, `+inf` or `..`, found `1e999`", ""),
    ("leaf a : int, whole [1 2]", "1:24: expected `,` between the ends, found `2`", ""),
    ("leaf a : int, whole [1, 2", "1:26: expected `]` after the upper end, found the end of the line", ""),
    ("leaf a : int, whole", "1:20: expected a range `[..]` or a category list `{..}`, found the end of the line", ""),
    ("leaf a : int, bool [0, 1]", "1:20: expected a category list `{..}`, found `[`", ""),
    ("leaf a : str, range [0, 1]", "1:15: expected the kind: `whole` or `float`, found `range`", "type str"),
    ("leaf a : unknown, categories {1}", "1:19: expected the kind: `whole`, `float`, `bool` or `text`, found `categories`", "type unknown"),
    ("leaf a : int, whole {1; 2}", "1:23: expected `,` or `}`, found `;`", ""),
    ("leaf a : int, whole [1, 2] {3}", "1:28: expected `,` or the end of the line, found `{`", ""),
    ("leaf a : int, relesable", "1:15: expected an item, found `relesable`", "did you mean `releasable`?"),
    ("leaf a : int, colums 3", "1:15: expected an item, found `colums`", "did you mean `columns`?"),
    ("leaf a : int, frobnicate", "1:15: expected an item, found `frobnicate`", "items are whole, float"),
    ("leaf a : int, rows 1, rows 2", "1:23: expected an item that is not given yet, found `rows`", "rows was given before"),
    ("leaf a : int, whole {1}, range [1, 2]", "1:26: expected an item that is not given yet, found `range`", "a range or categories"),
    ("leaf a : int, aggregator 0", "1:26: expected a whole number from 1 to 4294967295, found `0`", ""),
    ("leaf a : int, groups {1: real 3}", "1:26: expected the index's kind: `int`, `bool` or `str`, found `real`", ""),
    ("leaf a : int,", "1:14: expected an item such as `whole [-5, 3]`, `rows 8` or `releasable`, found the end of the line", ""),
];

const TEXT_MISTAKES: &[Mistake] = &[
    (
        "leaf a : str, text {\"north}, rows 1",
        "1:21: expected a text with a quote at both ends, found the end of the line",
        "a text ends in its line",
    ),
    (
        "leaf a : str, text {\"north, \"south\"}",
        "1:35: expected a text with a quote at both ends, found the end of the line",
        "written \\\"",
    ),
    ("leaf a : str, text {\"a\\\"}", "1:21: expected a text with a quote at both ends, found the end of the line", "\\\""),
    ("leaf a : str, text {\"é\\q\"}", "1:23: expected an escape, found `\\q`", "\\xHH for one byte"),
    ("leaf a : str, text {\"a\", \"\\x4g\"}", "1:27: expected two hexadecimal digits after `\\x`, found `\\x4g`", "escapes are"),
    ("leaf a : str, text {\"\\u{d800}\"}", "1:22: expected a character's number in `\\u{..}`, found `\\u{d800}`", "escapes are"),
    ("leaf a : str, text {north}", "1:21: expected a text in quotes, found `north`", "for instance \"north\""),
    ("leaf a : str, text {7}", "1:21: expected a text in quotes, found `7`", "for instance \"north\""),
    ("leaf a : str, text {,}", "1:21: expected a text in quotes, found `,`", ""),
    ("leaf a : str, text {\"a\" \"b\"}", "1:25: expected `,` or `}`, found `\"b\"`", ""),
    ("leaf a : str, text [\"a\", \"b\"]", "1:20: expected a category list `{..}`, found `[`", ""),
    ("leaf a : int, whole {\"1\"}", "1:22: expected a whole number, found `\"1\"`", "there are no quotes here"),
    ("leaf a : int, whole [\"1\", 2]", "1:22: expected a lower end: a whole number, `-inf` or `..`, found `\"1\"`", "no quotes"),
    ("leaf a : int, rows \"8\"", "1:20: expected a whole number or `absent`, found `\"8\"`", "there are no quotes here"),
    ("leaf a : bool, bool {\"true\"}", "1:22: expected `true` or `false`, found `\"true\"`", ""),
    ("leaf a : str, text {\"a\"}, whole {1}", "1:27: expected an item that is not given yet, found `whole`", "a range or categories"),
    ("leaf a : str, texts {\"a\"}", "1:15: expected an item, found `texts`", "did you mean `text`?"),
    ("leaf \"a\" : str", "1:6: expected a name for the leaf, found `\"a\"`", ""),
];

const STEP_MISTAKES: &[Mistake] = &[
    ("leaf a : int\nleaf a : int", "2:6: expected a new name, found `a`, the name of line 1", ""),
    ("leaf a : int\na = abs a", "2:1: expected a new name, found `a`, the name of line 1", ""),
    ("leaf a : int\nb = frob a", "2:5: expected a component, found `frob`", "components are abs, add"),
    ("leaf a : int\nb = Subtract a a\nc = add a", "2:5: expected a component, found `Subtract`", "did you mean `subtract`?"),
    ("leaf a : int\nb = add a", "2:10: expected an operand of add, which takes two, found the end of the line", ""),
    ("leaf a : int\nb = pool a", "2:11: expected an operand of pool, which takes two, found the end of the line", ""),
    ("leaf a : int\nb = pool a a a", "2:14: expected the end of the line, as pool takes two operands, found `a`", ""),
    ("leaf a : int\nb = abs a a", "2:11: expected the end of the line, as abs takes one operand, found `a`", ""),
    ("leaf a : int\nb = add a c", "2:11: expected a name of an earlier line, found `c`", ""),
    ("leaf a : int\nb = abs b", "2:9: expected a name of an earlier line, found `b`", "`b` is given in line 2"),
    ("leaf a : int\nb = add a c\nc = abs a", "2:11: expected a name of an earlier line, found `c`", "`c` is given in line 3"),
    ("leaf reading : int\nb = abs readign", "2:9: expected a name of an earlier line, found `readign`", "did you mean `reading`?"),
    ("leaf a : int\nb", "2:2: expected `=` after the step's name, found the end of the line", ""),
    ("leef a : int", "1:1: expected `leaf NAME : ..` or `NAME = COMPONENT ..`, found `leef`", "did you mean `leaf`?"),
    ("= add a b", "1:1: expected `leaf NAME : ..` or `NAME = COMPONENT ..`, found `=`", ""),
];

#[test]
fn mistakes_are_named_with_their_place() {
    for (source, message, help) in LEAF_MISTAKES.iter().chain(TEXT_MISTAKES).chain(STEP_MISTAKES) {
        let (found, hint) = problem(source);
        assert_eq!(found, *message, "{source}");
        assert!(hint.contains(help), "{source}: {hint}");
    }
}

/// The text that is too much is named by its place; sizes just within the limits reach the proved call.
#[test]
fn texts_over_a_limit_are_named() {
    let many: Vec<String> = (0..129).map(|k| format!("\"{k}\"")).collect();
    let leaf = |lists: &str| format!("leaf a : str, text {lists}\n");
    let (found, help) = problem(&leaf(&format!("{{{}}}", many.join(","))));
    assert_eq!(found, format!("1:{}: expected at most 128 texts in a leaf, found one more", 21 + many[..128].join(",").len() + 1));
    assert_eq!(help, "all lists of the leaf count together");
    let (found, _) = problem(&leaf(&format!("{{{}}}\u{20}{{\"x\"}}", many[..128].join(","))));
    assert!(found.ends_with("expected at most 128 texts in a leaf, found one more"), "{found}");
    let long = |length: usize| format!("\"{}\"", "é".repeat(length / 2));
    let (found, help) = problem(&leaf(&format!("{{{}}} {{\"\\xff\"}}", long(1024))));
    assert_eq!(found, "1:538: expected at most 1024 bytes of text in a leaf, found 1025 with this text");
    assert_eq!(help, "all texts of the leaf count together, repeats too");
    let within = leaf(&format!("{{{}, {}}}", many[..127].join(","), long(720)));
    assert_eq!(text::read(&within).unwrap().leaves[0].nature.categories(), 128);
    assert_eq!(Card::of("f", leaf(&format!("{{{}}}", long(1024))).as_bytes()).exit_code(), 0);
}

#[test]
fn one_mistake_is_one_problem_and_several_are_several() {
    let problems = text::read("leaf a : in\nb = abs a\nc = add b bb\n").unwrap_err();
    let places: Vec<_> = problems.iter().map(|p| (p.line, p.column)).collect();
    assert_eq!(places, [(1, 10), (3, 11)]);
    let unended = text::read("leaf a : int,\nleaf b : int\nc = abs b\n").unwrap_err();
    assert_eq!((unended.len(), unended[0].line), (1, 1));
}

#[test]
fn a_thirty_third_node_is_named() {
    let mut source = "leaf n0 : int, whole [0, 1]\n".to_string();
    for node in 1..40 {
        source.push_str(&format!("n{node} = negative n{}\n", node - 1));
    }
    assert_eq!(problem(&source).0, "33:1: expected at most 32 nodes in a plan, found one more");
    assert_eq!(text::read(&source).unwrap_err().len(), 1);
    let fits: String = source.lines().take(32).map(|line| format!("{line}\n")).collect();
    assert_eq!(Card::of("fits", fits.as_bytes()).exit_code(), 0);
}

/// The notes on steps over a range, one with an end at zero, a private number and the greatest floats.
fn notes(steps: &str) -> Vec<String> {
    let leaves = "leaf a : int, whole [1, 10], rows 1, releasable\nleaf z : int, whole [0, 5], rows 1, releasable\n\
                  leaf one : int, whole [1, 1], rows 1\nleaf f : float, float [1.7e308, 1.7e308], rows 1, releasable\n";
    let card = Card::of("f", format!("{leaves}{steps}").as_bytes());
    assert_eq!(card.exit_code(), 0, "{steps}");
    card.render().0.lines().filter(|line| line.starts_with("Note: ")).map(str::to_string).collect()
}

#[test]
fn notes_name_ranges_that_need_care() {
    for (step, note) in [
        (
            "s = divide a z",
            "node 4 `s`: divide by a range with one end at zero takes its end from the other one; results may lie outside of the range shown.",
        ),
        ("s = modulo a one", "node 4 `s`: it has left's marks and so counts as releasable, while right is private"),
        (
            "s = add f f",
            "node 4 `s`: -overflow and +overflow stand for an end that is too far from zero for a float and so infinite; \
             a step that uses this node is refused with 5.",
        ),
        ("t = negative f\ns = subtract t f", "node 5 `s`: -overflow and +overflow stand for an end"),
        ("s = power a one", "node 4 `s`: it has left's marks"),
        (
            "s = pool one one",
            "node 4 `s`: both operands hold `one`, so that one reading of it counts twice, while the c-stability stays 1.",
        ),
        ("t = abs one\nu = add t a\ns = pool u one", "node 6 `s`: both operands hold `one`, so that"),
    ] {
        assert!(notes(step).first().is_some_and(|first| first.contains(note)), "{step}: {:?}", notes(step));
    }
}

#[test]
fn ranges_that_hold_every_result_have_no_note() {
    for step in [
        "s = subtract a z",
        "t = subtract z a\ns = abs t",
        "s = subtract a one",
        "s = subtract f f",
        "s = divide a a",
        "s = modulo one a",
        "s = add a z",
        "s = multiply a z",
        "s = pool a a",
        "s = pool a one",
    ] {
        assert_eq!(notes(step), [""; 0], "{step}");
    }
}

/// An infinite end is told from an absent one: the card, the cause and the way out of it.
#[test]
fn an_end_that_overflows_is_named() {
    let render = |low: &str, high: &str| {
        let leaves = format!(
            "leaf a : float, float [0, 1] [{low}, 1], rows 1, releasable\nleaf b : float, float [0, {high}] [0, {high}], rows 1, releasable\n"
        );
        let card = Card::of("f", format!("{leaves}gap = subtract a b\nfar = abs gap\n").as_bytes());
        (card.exit_code(), card.render().0)
    };
    let (code, text) = render("-1.7e308", "1.7e308");
    assert_eq!(code, 1, "{text}");
    assert!(text.contains("1: [-1.7e308, +1.0]") && text.contains("2: [-overflow, +1.0]"), "{text}");
    let causes: Vec<&str> = text.lines().filter(|line| line.contains("column")).skip(1).collect();
    assert_eq!(causes, ["  operand `gap`, column 2: [-overflow, +1.0]: the lower end is infinite"], "{text}");
    let (code, text) = render("..", "..");
    assert_eq!((code, text.contains("overflow")), (0, false), "{text}");
    assert!(text.contains("[-inf, +1.0]"), "{text}");
}

/// Leaves of three columns with two lists, with one for all, with one for each, and with a range.
fn counted(steps: &str) -> (u8, String) {
    let rest = "columns 3, rows 1, releasable\n";
    let leaves = format!(
        "leaf two : int, whole {{1}} {{2}}, {rest}leaf one : int, whole {{5}}, {rest}\
         leaf three : int, whole {{1}} {{2}} {{3}}, {rest}leaf range : int, whole [1, 2], {rest}"
    );
    let card = Card::of("f", format!("{leaves}{steps}").as_bytes());
    (card.exit_code(), card.render().0)
}

/// The refusal names the step, its cause the leaf whose lists do not go with the columns.
#[test]
fn lists_that_do_not_go_with_the_columns_are_named() {
    let cause = "2 category lists, while the output has 3 columns: one list is wanted, or one for each column";
    for (step, role) in [
        ("s = abs two", "operand"),
        ("s = negative two", "operand"),
        ("s = add two one", "left"),
        ("s = multiply one two", "right"),
        ("s = pool three two", "right"),
        ("s = divide two two", "left"),
    ] {
        let (code, text) = counted(step);
        assert_eq!(code, 1, "{text}");
        assert!(text.contains("refused with 29") && text.contains(&format!("Refused: node 4 `s` = {} (line 5)", &step[4..])), "{text}");
        assert!(text.contains(&format!("\n  {role} `two`: {cause}\n  More: gate explain 29\n")), "{text}");
    }
}

/// Lists that no step uses are not counted, and nothing is said of them.
#[test]
fn lists_beside_a_range_are_not_counted() {
    for steps in ["", "s = add two range", "s = pool range two", "s = add one three\nt = abs three\nu = divide range two"] {
        let (code, text) = counted(steps);
        assert_eq!(code, 0, "{text}");
        assert!(!text.contains("29") && !text.contains("Note") && text.contains("1: {+1}"), "{text}");
    }
    let (code, text) = counted("s = add two range\nt = negative two");
    assert!(code == 1 && text.contains("not stated") && text.contains("Refused: node 5 `t` = negative two (line 6)"), "{text}");
}

/// A list of 1, -1 up to 64, -64 for every column: abs leaves 64 of them, negative all.
#[test]
fn a_refusal_counts_what_abs_and_negative_leave() {
    let list: Vec<String> = (1..=64).map(|n| format!("{n}, -{n}")).collect();
    let render = |columns: usize, word: &str| {
        let leaf = format!("leaf a : int, whole {{{}}}, columns {columns}, rows 1, releasable\n", list.join(", "));
        let card = Card::of("f", format!("{leaf}s = {word} a\n").as_bytes());
        (card.exit_code(), card.render().0)
    };
    for (columns, word, holds) in [
        (3, "abs", "192 (64 + 64 + 64 by list), at most 128, exceeded from column 3 on"),
        (2, "negative", "256 (128 + 128 by list), at most 128, exceeded from column 2 on"),
    ] {
        let (code, text) = render(columns, word);
        assert!(code == 1 && text.contains("refused with 26"), "{text}");
        let cause = format!("\n  categories: operand `a` 128: the result holds {holds}\n  More: gate explain 26\n");
        assert!(text.contains(&cause), "{text}");
    }
    let (code, text) = render(2, "abs");
    assert!(code == 0 && text.contains("all: {+1, +2, +3, ") && !text.contains("+64, +64"), "{text}");
}

#[test]
fn caret_lines_point_at_the_place() {
    let problems = text::read("leaf 冰場 : int\n\tb = ab 冰場").unwrap_err();
    let text = problems[0].render("x.plan");
    assert_eq!(text, "x.plan:2:6: expected a component, found `ab`\n  |\n2 |  b = ab 冰場\n  |      ^^ did you mean `abs`?\n");
    let far = "leaf a : int,".to_string() + &" ".repeat(300) + "x";
    let shown = text::read(&far).unwrap_err()[0].render("x.plan");
    assert!(shown.lines().all(|line| line.chars().count() < 140), "{shown}");
}

#[test]
fn texts_that_are_no_plans_are_malformed() {
    let message = |bytes: &[u8]| Card::of("f", bytes).render().1;
    assert!(message(b"leaf a : int\nb = \xff").starts_with("f:2:5: expected UTF-8 text, found byte 0xff\n"));
    let long = vec![b'#'; text::LONGEST_TEXT + 1];
    assert!(message(&long).starts_with("f:1:1: expected a text of at most 1048576 bytes, found a longer one\n"));
    assert_eq!(Card::of("f", &long[1..]).exit_code(), 2);
    assert_eq!(Card::of("f", b"\xef\xbb\xbfleaf a : int\r\n").exit_code(), 0);
}

/// Sizes over a limit reach the proved call, also where the sheet would be longer than a slot.
#[test]
fn limits_are_the_proved_calls_to_judge() {
    let refused = |items: &str| {
        let card = Card::of("f", format!("leaf a : int, {items}\n").as_bytes());
        (card.exit_code(), card.render().0)
    };
    let columns = "whole ".to_string() + &"[1, 2] ".repeat(17);
    let many: Vec<String> = (0..70_000).map(|n| n.to_string()).collect();
    for (items, number, cause) in [
        (columns.as_str(), 3, "lists: 17, at most 16"),
        (&format!("whole {{{}}}", many[..129].join(",")), 3, "categories: 129, at most 128"),
        (&format!("whole {{{}}}", many.join(",")), 3, "categories: 65535, at most 128"),
        ("groups {1: int 1, 2: int 1, 3: int 1, 4: int 1, 5: int 1}", 3, "groups: 5, at most 4"),
        ("whole [1, 2], columns 17", 4, "columns: 17, permitted 1 to 16"),
        ("whole [2, 1]", 5, "column 1: [+2, +1]: the lower end exceeds the upper"),
    ] {
        let (code, text) = refused(items);
        assert_eq!(code, 1, "{text}");
        assert!(text.contains(&format!("refused with {number}")) && text.contains(cause), "{text}");
        assert!(text.contains("Refused: node 0 `a`, a leaf (line 1)"), "{text}");
    }
}
