//! The stored list of plans: chosen by a seed, written as text, replayed.

use crate::guard::FILLER;
use crate::plans::{
    self, Components, Draft, Expected, Request, ALL, LEAF_CODES, MOST_NODES, POOL_ALONE,
    POOL_CODES, RANGE_CODES, RANGE_SUBTRACT, SLOT, STEP_CODES,
};
use crate::tally::Tally;
use oracle_list::form::{hex, is_comment, POOL, SUBTRACT};
use oracle_list::random::Random;
use oracle_list::sheet::TEXT;
use oracle_list::text;
use std::fmt::Write;

const ADD: u32 = 2;

/// Plans by name (document 02, S-6): what they show, the leaf, the steps over it as
/// component and node, which it takes on both sides, and the code.
const NAMED: [(&str, &str, &[(u32, usize)], u32); 7] = [
    (
        "Abs {-3,3} is {3}, and its sum with itself {6}",
        "W{-3,3}",
        &[(1, 0), (ADD, 1)],
        0,
    ),
    (
        "Abs of 64 times -7 and 64 times 7 over 16 columns, and its sum with itself",
        "W{-7*64,7*64} columns=16",
        &[(1, 0), (ADD, 1)],
        0,
    ),
    (
        "Abs of 64 pairs over two columns, and its Negative",
        "W{+-1..64} columns=2",
        &[(1, 0), (9, 1)],
        0,
    ),
    (
        "Abs of 64 pairs over three columns",
        "W{+-1..64} columns=3",
        &[(1, 0)],
        26,
    ),
    (
        "Negative of 64 pairs over two columns, behind their Abs",
        "W{+-1..64} columns=2",
        &[(1, 0), (9, 0)],
        26,
    ),
    (
        "24 behind too many",
        "W{1..127,-9223372036854775808} columns=2",
        &[(1, 0)],
        24,
    ),
    (
        "29 before repeats are looked at",
        "W{-3,3}{1} columns=3",
        &[(1, 0)],
        29,
    ),
];

/// A line that is longer is drawn again, so that the file stays small.
const LONGEST_LINE: usize = 9000;

const FORM: &str = "\
# Plan calls with the answers of the original text, walked step by step; a step that the original has not, of component
# 10, Pool, or over a text that is no UTF-8, or that document 02 gives another answer, of Subtract over two ranges of one
# kind, is the plain port's. 29, which the original has not, is tested around it, and what it gives of Abs and Negative
# loses its repeats before 26 is counted and before a next step reads it.
# One a line, six fields separated by a blank: plan work_len leaves code value result
#   plan      the plan's bytes in lower-case hex, - for none
#   work_len  the length of the work buffer, in bytes
#   leaves    the leaf sheets' bytes in node order, hex, joined by commas, - for none. Sheet i stands at byte
#             2308 * i of the work buffer; every byte of the buffer that is in no leaf sheet is a5 before the call.
#             Beside a malformed plan or a short buffer they are the sheets that were laid out all the same.
#   code      0, or the refusal's number
#   value     the node count, or the node refused (65535 with 1 and 27)
#   result    the sheets of the steps that were derived, hex in node order, joined by commas, - for none. Each stands at
#             the start of its node's slot after the call, the first step's node being the leaf count; every other byte
#             of the work buffer is as it was, also after a refusal.
";

/// The whole file. Same seed, same bytes.
pub fn made(seed: u64) -> String {
    let mut random = Random::new(seed);
    let mut out = format!("{FORM}# Made by `compare store-plans --seed {seed}`.\n");
    accepted(&mut random, &mut out);
    refused(&mut random, &mut out, ("refused", &ALL), &STEP_CODES, 4);
    derived(&mut random, &mut out);
    refused(
        &mut random,
        &mut out,
        ("Pool refused", &POOL_ALONE),
        &POOL_CODES,
        2,
    );
    refused(
        &mut random,
        &mut out,
        ("range Subtract refused", &RANGE_SUBTRACT),
        &RANGE_CODES,
        2,
    );
    for code in LEAF_CODES {
        let _ = writeln!(out, "# a leaf refused with {code}");
        for _ in 0..10 {
            push(
                &mut random,
                &mut out,
                |random| plans::refused_leaf(random, code).request(),
                |c| c == code,
            );
        }
    }
    unfit(&mut random, &mut out);
    named(&mut out);
    out
}

fn named(out: &mut String) {
    for (name, leaf, steps, code) in NAMED {
        let mut draft = Draft::new(vec![text::bytes(leaf)]);
        let step = |&(component, node): &(u32, usize)| plans::step(component, node, node);
        draft.steps.extend(steps.iter().map(step));
        let request = draft.request();
        let answer = plans::walk(&request.plan, &plans::lay_out(&request, FILLER));
        assert_eq!(answer.reply.0, code, "{name}");
        let _ = writeln!(out, "# {name}");
        out.push_str(&line(&request, &answer));
    }
}

/// Leaves alone, and every node count with steps.
fn accepted(random: &mut Random, out: &mut String) {
    out.push_str("# accepted, leaves alone\n");
    for leaves in [1, 1, 2, 3, 5, 8, 16, MOST_NODES] {
        let draw = |random: &mut Random| {
            let mut sheets = Vec::new();
            while sheets.len() < leaves {
                sheets.extend(plans::accepted(random, leaves).leaves);
            }
            sheets.truncate(leaves);
            Draft::new(sheets).request()
        };
        push(random, out, draw, |code| code == 0);
    }
    for nodes in 2..=MOST_NODES {
        let _ = writeln!(out, "# accepted, {nodes} nodes");
        for _ in 0..3 {
            let draw = |random: &mut Random| loop {
                let draft = plans::accepted(random, nodes);
                if draft.nodes() == nodes && !draft.steps.is_empty() {
                    return draft.request();
                }
            };
            push(random, out, draw, |code| code == 0);
        }
    }
}

/// Refused at a step of one of the components, so many times with each code: at
/// the first step that can be, and behind accepted steps.
fn refused(
    random: &mut Random,
    out: &mut String,
    (what, among): (&str, &Components),
    codes: &[u32],
    times: usize,
) {
    let places = ["at the first step that can be", "behind accepted steps"];
    for (late, place) in [false, true].into_iter().zip(places) {
        for code in codes.iter().copied() {
            let _ = writeln!(out, "# {what} with {code} {place}");
            for _ in 0..times {
                let draw =
                    |random: &mut Random| plans::refused_step(random, among, code, late).request();
                push(random, out, draw, |c| c == code);
            }
        }
    }
}

/// Accepted with a step of Pool to each nature that it can give, with a step of Add
/// to texts, with a range Subtract, over several lists, and with repeats that go.
fn derived(random: &mut Random, out: &mut String) {
    let natures = [
        (POOL, 0, "Pool to absent"),
        (POOL, 1, "Pool to whole range"),
        (POOL, 2, "Pool to float range"),
        (POOL, 3, "Pool to whole lists"),
        (POOL, 4, "Pool to Bool lists"),
        (POOL, TEXT, "Pool to text lists"),
        (ADD, TEXT, "Add to text lists"),
        (SUBTRACT, 1, "Subtract to whole range"),
        (SUBTRACT, 2, "Subtract to float range"),
    ];
    for (component, nature, name) in natures {
        accepted_with(random, out, name, |draft| draft.derives(component, nature));
    }
    // For columns that are not the operand's own; and such as 29 would refuse, beside a
    // range or an absent nature, where nobody counts them.
    accepted_with(random, out, "lists for the output's columns", |draft| {
        draft.counts().taken[1] > 0
    });
    accepted_with(random, out, "lists that no step counts", |draft| {
        draft.counts().unused > 0
    });
    accepted_with(random, out, "Abs that loses repeats", |draft| {
        draft.repeats().lost > 0
    });
    let spared = "lists that 26 would refuse if it counted repeats";
    accepted_with(random, out, spared, |draft| draft.repeats().spared > 0);
}

/// Accepted, four that suit.
fn accepted_with(
    random: &mut Random,
    out: &mut String,
    name: &str,
    suits: impl Fn(&Draft) -> bool,
) {
    let _ = writeln!(out, "# accepted, {name}");
    for _ in 0..4 {
        let draw = |random: &mut Random| loop {
            let nodes = random.between(3, 9) as usize;
            let draft = plans::accepted(random, nodes);
            if suits(&draft) {
                return draft.request();
            }
        };
        push(random, out, draw, |code| code == 0);
    }
}

/// Malformed plans (also over buffers that are too short: 1 comes first), and short buffers.
fn unfit(random: &mut Random, out: &mut String) {
    out.push_str("# malformed\n");
    for turn in 0..40 {
        let draw = |random: &mut Random| {
            let size = 1 + random.below(6);
            let draft = plans::accepted(random, size);
            let mut request = draft.request();
            request.plan = plans::malform(random, &draft);
            if turn % 5 == 0 {
                shorten(random, &mut request);
            }
            request
        };
        push(random, out, draw, |code| code == 1);
    }
    out.push_str("# a work buffer that is too short\n");
    for _ in 0..12 {
        let draw = |random: &mut Random| {
            let size = 1 + random.below(8);
            let mut request = plans::accepted(random, size).request();
            shorten(random, &mut request);
            request
        };
        push(random, out, draw, |code| code == 27);
    }
}

fn shorten(random: &mut Random, request: &mut Request) {
    request.work_len = plans::short(random, request.work_len);
    fitting(&mut request.leaves, request.work_len);
}

/// Only leaves that fit are laid out.
pub fn fitting(leaves: &mut Vec<Vec<u8>>, length: usize) {
    let places = leaves.iter().enumerate();
    let count = places
        .take_while(|(leaf, sheet)| SLOT * leaf + sheet.len() <= length)
        .count();
    leaves.truncate(count);
}

/// Draws until the answer is as wanted and the line is not too long.
fn push(
    random: &mut Random,
    out: &mut String,
    draw: impl Fn(&mut Random) -> Request,
    wanted: impl Fn(u32) -> bool,
) {
    loop {
        let request = draw(random);
        let answer = plans::walk(&request.plan, &plans::lay_out(&request, FILLER));
        let line = line(&request, &answer);
        if wanted(answer.reply.0) && line.len() <= LONGEST_LINE {
            out.push_str(&line);
            return;
        }
    }
}

fn line(request: &Request, answer: &Expected) -> String {
    format!(
        "{} {} {} {} {} {}\n",
        hex(&request.plan),
        request.work_len,
        joined(&request.leaves),
        answer.reply.0,
        answer.reply.1,
        joined(&answer.derived)
    )
}

pub fn joined(sheets: &[Vec<u8>]) -> String {
    if sheets.is_empty() {
        return "-".to_string();
    }
    sheets
        .iter()
        .map(|sheet| hex(sheet))
        .collect::<Vec<_>>()
        .join(",")
}

/// The stored plans, replayed by the plan calls.
pub fn replay(text: &str) -> Result<Tally, String> {
    let mut tally = Tally::default();
    for (at, line) in text
        .lines()
        .enumerate()
        .filter(|(_, line)| !is_comment(line))
    {
        let (request, wanted) = parse(line).map_err(|fault| format!("line {}: {fault}", at + 1))?;
        plans::hold(&mut tally, &request, FILLER, &wanted);
    }
    Ok(tally)
}

fn parse(line: &str) -> Result<(Request, Expected), String> {
    let fields: Vec<&str> = line.split(' ').collect();
    let [plan, work_len, leaves, code, value, result] = fields[..] else {
        return Err(format!("{} fields where 6 are wanted", fields.len()));
    };
    let number = |text: &str| {
        text.parse::<u32>()
            .map_err(|_| format!("`{text}` is no number"))
    };
    let request = Request {
        plan: bytes(plan)?,
        leaves: sheets(leaves)?,
        work_len: number(work_len)? as usize,
    };
    let wanted = Expected {
        reply: (number(code)?, number(value)?),
        derived: sheets(result)?,
    };
    Ok((request, wanted))
}

pub fn sheets(text: &str) -> Result<Vec<Vec<u8>>, String> {
    if text == "-" {
        return Ok(Vec::new());
    }
    text.split(',').map(bytes).collect()
}

pub fn bytes(text: &str) -> Result<Vec<u8>, String> {
    if text == "-" {
        return Ok(Vec::new());
    }
    let digits: Option<Vec<u8>> = text
        .chars()
        .map(|c| c.to_digit(16).map(|d| d as u8))
        .collect();
    match digits {
        Some(digits) if digits.len() % 2 == 0 => Ok(digits
            .chunks(2)
            .map(|pair| 16 * pair[0] + pair[1])
            .collect()),
        _ => Err(format!("`{text}` is not hex in pairs")),
    }
}

#[cfg(test)]
mod tests {
    use super::{made, replay};

    const STORED: &str = concat!(env!("CARGO_MANIFEST_DIR"), "/../vectors/plans.txt");

    #[test]
    fn the_stored_list_is_made_anew() {
        let stored = std::fs::read_to_string(STORED).expect("vectors/plans.txt");
        let seed = stored
            .split("store-plans --seed ")
            .nth(1)
            .and_then(|rest| rest.split('`').next());
        let seed = seed
            .and_then(|seed| seed.parse().ok())
            .expect("the seed in the file's comments");
        assert!(
            made(seed) == stored,
            "vectors/plans.txt is not what its seed makes"
        );
    }

    #[test]
    fn the_stored_list_is_replayed() {
        let tally = replay(&std::fs::read_to_string(STORED).expect("vectors/plans.txt")).unwrap();
        assert_eq!(tally.differences, 0, "{tally}");
        assert!(tally.total() >= 400, "{tally}");
        for code in [0, 1, 3, 4, 5, 27].iter().chain(&crate::plans::STEP_CODES) {
            assert!(tally.of(*code) > 0, "no {code}: {tally}");
        }
        for code in crate::plans::POOL_CODES {
            assert!(tally.of_pool(code) >= 4, "Pool's {code}: {tally}");
        }
        assert!(tally.pooled().iter().all(|count| *count >= 4), "{tally}");
        let texts = tally.texts();
        assert!(texts.joined >= 4 && texts.long_joins >= 1, "{tally}");
        for code in crate::plans::RANGE_CODES {
            assert!(tally.of_subtract(code) >= 4, "ranges' {code}: {tally}");
        }
        assert!(
            tally.subtracted().iter().all(|count| *count >= 4),
            "{tally}"
        );
        assert!(tally.ranges().infinite >= 8, "{tally}");
        let counts = tally.counts();
        assert!(counts.sides.iter().sum::<usize>() >= 12, "{tally}");
        assert!(counts.taken[1].min(counts.unused) >= 4, "{tally}");
        let repeats = tally.repeats();
        assert!(repeats.lost >= 12 && repeats.spared >= 6, "{tally}");
    }
}
