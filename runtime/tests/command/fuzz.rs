//! Any input at all: no panic, an exit code of 0, 1 or 2, JSON that can be read, and a well-formed picture.

use crate::{example_names, json_reader, root, unseen, xml_reader};
use gate_runtime::cards::{Card, Outcome};
use gate_runtime::view::{self, View};
use gate_runtime::{command, json, svg, Rinks};
use std::ffi::OsString;
use std::fs;

/// Texts that the runs change; the bound on the runs is this count.
const RUNS: usize = 12_000;

/// What mutations put in.
const WORDS: [&str; 56] = [
    "leaf",
    "=",
    ":",
    ",",
    "[",
    "]",
    "{",
    "}",
    "..",
    "#",
    "\n",
    " ",
    "-inf",
    "+inf",
    "nan",
    "0",
    "-1",
    "1e308",
    "9223372036854775807",
    "-9223372036854775808",
    "99999999999999999999",
    "int",
    "float",
    "bool",
    "whole",
    "text",
    "text {\"a\", \"b\"}",
    "\"",
    "\"\\xff\"",
    "\\",
    "\\u{202e}",
    "str",
    "categories",
    "range",
    "no lists",
    "columns 16",
    "columns absent",
    "rows 2",
    "dataset 1",
    "releasable",
    "groups {1: int 1}",
    "owners",
    "owners {3, 17}",
    ", owners {0, 63}",
    "aggregator 3",
    "sample 0.5",
    "abs",
    "divide",
    "subtract",
    "modulo",
    "pool",
    "power",
    "log",
    "é冰\u{301}",
    "\u{0}\u{2028}",
    "\u{202e}\u{200b}",
];

/// Every item and component at once.
const EVERYTHING: &str =
    "leaf a : int, whole [1, 5] [-3, ..], rows 1, dataset 3, dimensions 2, sample 1, stability 2, node 7, releasable, owners {3, 17}
leaf b : int, whole [2, 2], rows 1, releasable, nullable, nonempty, ordered, groups {7: int 3, 8: bool true, 9: str 1}
leaf c : int, whole {1, 2, 3} {4}, columns 2, rows 1, releasable
leaf d : float, float {0.5, nan}, rows 1, releasable
leaf e : float, float [1.7e308, 1.7e308], rows 1, releasable
leaf f : bool, bool {true}, rows 1, releasable
leaf t : str, text {\"north \", \"\\xe2\\x82\\u{200f}#\", \"\"}, rows 1, releasable
g = add a b
h = abs g
i = multiply h b
j = modulo i b
k = power j b
l = negative c
m = add l c
n = add e e
o = divide a b
p = pool a a
q = pool f f
r = add t t
s = pool r t
u = subtract a b
v = log e e
";

/// Numbers from a seed (xorshift), so that every run makes the same ones.
struct Draws(u64);

impl Draws {
    fn below(&mut self, limit: usize) -> usize {
        self.0 ^= self.0 << 13;
        self.0 ^= self.0 >> 7;
        self.0 ^= self.0 << 17;
        (self.0 >> 16) as usize % limit.max(1)
    }
}

fn mutate(bytes: &mut Vec<u8>, draws: &mut Draws) {
    let at = draws.below(bytes.len() + 1);
    let end = (at + draws.below(12)).min(bytes.len());
    match draws.below(6) {
        0 => drop(bytes.drain(at..end)),
        1 => {
            let part = bytes[at..end].to_vec();
            let to = draws.below(bytes.len() + 1);
            drop(bytes.splice(to..to, part));
        }
        2 | 3 => {
            let word = WORDS[draws.below(WORDS.len())];
            drop(bytes.splice(at..at, word.bytes()));
        }
        4 => {
            let word = WORDS[draws.below(WORDS.len())];
            drop(bytes.splice(at..end, word.bytes()));
        }
        _ => {
            let byte = draws.below(256) as u8;
            drop(bytes.splice(at..at, [byte]));
        }
    }
}

/// Everything that the command does with a text.
fn check(bytes: &[u8]) -> u8 {
    let card = Card::of("fuzz.plan", bytes);
    let code = card.exit_code();
    assert!(code <= 2);
    let (out, err) = card.render();
    assert_eq!((out.is_empty(), err.is_empty()), (code == 2, code != 2));
    let document = json::document(std::slice::from_ref(&card)).write();
    assert_eq!([&out, &err, &document].map(|text| unseen(text)), [None; 3], "a character that cannot be seen");
    let document = json_reader::read(&document).expect("JSON that can be read");
    assert_eq!(document.at("plans").list().len(), 1);
    if let Outcome::Walked(walked) = &card.outcome {
        let picture = svg::picture("fuzz.plan", walked);
        assert_eq!(unseen(&picture), None, "a character that cannot be seen");
        xml_reader::read(&picture).expect("a well-formed picture");
        let causes = walked.stop().map_or(Vec::new(), |stop| stop.causes);
        assert!(causes.iter().all(|cause| cause != gate_runtime::causes::NO_CAUSE), "{out}");
    }
    ["0", "7", "a", "n3"].iter().for_each(|node| check_view(bytes, node, &card));
    code
}

/// A reader of rink 3 sees what the card shows, or nothing of it.
fn check_view(bytes: &[u8], node: &str, card: &Card) {
    let view = View::of("fuzz.plan", bytes, Rinks::from_bits(1 << 3), node);
    let (out, err) = view.render();
    assert_eq!((out.is_empty(), err.is_empty()), (view.exit_code() == 2, view.exit_code() != 2));
    let document = json::view(&view).write();
    assert_eq!([&out, &err, &document].map(|text| unseen(text)), [None; 3], "a character that cannot be seen");
    json_reader::read(&document).expect("JSON that can be read");
    let (view::Outcome::Asked(asked), Outcome::Walked(walked)) = (&view.outcome, &card.outcome) else {
        assert!(view.exit_code() == 2 && (card.exit_code() == 2 || walked_without(card, node)), "{node}: {err}");
        return;
    };
    assert!(asked.plan.leaves.is_empty(), "a view holds no leaf's sheet");
    if walked.walk.outcome.is_ok() && asked.wanted < walked.nodes() {
        let seen = asked.owners().outside(asked.reader).is_empty() || asked.owners().count() >= 5;
        assert_eq!(asked.reply.as_ref().ok(), walked.sheet(asked.wanted).filter(|_| seen));
    }
}

/// A plan that has no node of this name.
fn walked_without(card: &Card, node: &str) -> bool {
    matches!(&card.outcome, Outcome::Walked(walked) if !walked.plan.names.iter().any(|name| name == node))
}

#[test]
fn changed_plans_never_panic() {
    let mut seeds: Vec<Vec<u8>> =
        example_names().iter().map(|name| fs::read(root().join(format!("examples/{name}.plan"))).unwrap()).collect();
    seeds.push(EVERYTHING.as_bytes().to_vec());
    assert_eq!(check(EVERYTHING.as_bytes()), 0);
    let mut draws = Draws(20_261_115);
    let mut codes = [0; 3];
    for _ in 0..RUNS {
        let mut bytes = seeds[draws.below(seeds.len())].clone();
        (0..1 + draws.below(3)).for_each(|_| mutate(&mut bytes, &mut draws));
        codes[check(&bytes) as usize] += 1;
    }
    assert!(codes.iter().all(|count| *count > RUNS / 50), "{codes:?}");
}

/// Only well-formed lines in random order with random values: most of these reach the proved calls.
#[test]
fn drawn_plans_never_panic() {
    let mut draws = Draws(77);
    let mut codes = [0; 3];
    let natures = [
        "whole [1, 5]",
        "whole [-3, 2] [4, ..]",
        "whole {1, 2, 0}",
        "whole {1} {2, 3}",
        "float [-0.5, 2]",
        "float {0.5}",
        "bool {true}",
        "whole no lists",
        "whole [9223372036854775807, 9223372036854775807]",
        "text {\"a\", \"ab\", \"\\xff\"}",
        "text {\"\"} {\"\\u{202e}\", \"b\"}",
    ];
    let marks = ["", ", releasable", ", releasable", ", dataset 1", ", sample 0.5", ", aggregator 2", ", columns 3", ", columns absent"];
    let words = ["abs", "add", "subtract", "multiply", "divide", "modulo", "log", "power", "negative", "pool"];
    for _ in 0..RUNS / 4 {
        let (leaves, steps) = (1 + draws.below(4), draws.below(12));
        let mut text = String::new();
        for leaf in 0..leaves {
            let kind = ["int", "int", "float"][draws.below(3)];
            let (nature, mark) = (natures[draws.below(natures.len())], marks[draws.below(marks.len())]);
            text += &format!("leaf n{leaf} : {kind}, {nature}, rows 1{mark}\n");
        }
        for node in leaves..leaves + steps {
            let word = words[draws.below(words.len())];
            let (left, right) = (draws.below(node), draws.below(node));
            let second = if matches!(word, "abs" | "negative") { String::new() } else { format!(" n{right}") };
            text += &format!("n{node} = {word} n{left}{second}\n");
        }
        codes[check(text.as_bytes()) as usize] += 1;
    }
    assert!(codes[0] > 50 && codes[1] > 500 && codes[2] == 0, "{codes:?}");
}

#[test]
fn random_bytes_never_panic() {
    let mut draws = Draws(5);
    for _ in 0..RUNS {
        let length = draws.below(200);
        let bytes: Vec<u8> = (0..length)
            .map(|_| match draws.below(3) {
                0 => draws.below(256) as u8,
                _ => b"leaf :=,[]{}.-+0123456789abcin\n #"[draws.below(33)],
            })
            .collect();
        assert_eq!(check(&bytes), 2);
    }
}

#[test]
fn any_arguments_never_panic() {
    let words = [
        "cards",
        "show",
        "explain",
        "help",
        "--reader",
        "--reader={}",
        "{3,",
        "17}",
        "{}",
        "--json",
        "--help",
        "--version",
        "--",
        "-x",
        "",
        "7",
        "-7",
        "99999999999",
        "examples",
        "/",
        "é",
        "--svg",
        "--svg=",
    ];
    let mut draws = Draws(6);
    for _ in 0..4_000 {
        let count = draws.below(7);
        let arguments: Vec<OsString> = (0..count).map(|_| OsString::from(words[draws.below(words.len())])).collect();
        // A picture is written only for a plan, and none of these words names one.
        let (mut out, mut err) = (Vec::new(), Vec::new());
        let code = command::run(&arguments, &mut out, &mut err);
        assert!(code == 2 || code == 0, "{arguments:?}");
        assert!(!out.is_empty() || !err.is_empty(), "{arguments:?}");
        assert!(String::from_utf8(out).is_ok() && String::from_utf8(err).is_ok());
    }
}
