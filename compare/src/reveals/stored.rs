//! The stored list of runs: those of document 02's S-7 by name, and drawn ones for
//! every outcome and refusal; made by the port, written as text, replayed.

use super::outcomes::{Seen, OUTCOMES};
use super::{check, draw, expected, run, show, Buffers, Counts, Expected, Request, Scene, REVEALS};
use crate::guard::FILLER;
use crate::plans::{self, lay_into, sheet_in, Draft, ALL, SLOT, STEP_CODES};
use crate::stored::{bytes, fitting, joined, sheets};
use crate::Reply;
use oracle_list::form::{hex, is_comment};
use oracle_list::random::Random;
use oracle_list::text;
use std::fmt::Write;

/// Runs for each outcome, and for each refusal of a step at either place.
const TIMES: usize = 6;
const REFUSED: usize = 2;
/// A line that is longer is drawn again, so that the file stays small.
const LONGEST_LINE: usize = 4000;

/// What stands in the output before a call: not the work buffer's filler, so that it
/// shows if more than the sheet is copied.
const PAPER: u8 = 0x5a;

const ABS: u32 = 1;
const ADD: u32 = 2;
const MULTIPLY: u32 = 4;
const NEGATIVE: u32 = 9;
const NO_NODE: u32 = plans::NO_NODE;

const FORM: &str = "\
# Calls that show a reader one node's sheet (document 02, S-7), with the answers of the plain port.
# One a line, ten fields separated by a blank: plan owners reader wanted work_len out_len leaves code value written
#   plan      the plan's bytes in lower-case hex, - for none
#   owners    the bytes of the owner sets, likewise
#   reader    the reader's set as a number in hex
#   wanted    the wanted node
#   work_len  the length of the work buffer, in bytes
#   out_len   the length of the output, in bytes
#   leaves    the leaf sheets' bytes in node order, hex, joined by commas, - for none. Sheet i stands at byte
#             2308 * i of the work buffer; every other byte of the buffer is a5 before the call, and every byte
#             of the output is 5a.
#   code      0, or the refusal's number
#   value     the length of the sheet shown, or the node refused (65535 with 1 and 27)
#   written   the sheets of the steps that were walked, node:hex in node order, joined by commas, - for none. Each
#             stands at the start of its node's slot after the call. With code 0 the first `value` bytes of the
#             output are those of the wanted node's slot. Every other byte of both buffers is as it was.
";

/// A run as it is stored.
#[derive(Clone)]
struct Case {
    request: Request,
    leaves: Vec<Vec<u8>>,
    work_len: usize,
    out_len: usize,
}

impl Case {
    /// Nobody owns a leaf, the reader's set is empty, the last node is wanted.
    fn new(leaves: &[&str], steps: &[(u32, usize, usize)]) -> Case {
        let mut draft = Draft::new(leaves.iter().map(|leaf| text::bytes(leaf)).collect());
        let step =
            |&(component, left, right): &(u32, usize, usize)| plans::step(component, left, right);
        draft.steps.extend(steps.iter().map(step));
        Case {
            request: Request {
                plan: draft.encode(),
                owners: vec![0; 8 * leaves.len()],
                reader: 0,
                wanted: draft.nodes() as u32 - 1,
            },
            work_len: SLOT * draft.nodes(),
            leaves: draft.leaves,
            out_len: 120,
        }
    }

    fn owned(mut self, sets: &[&[u32]]) -> Case {
        let sets = sets.iter().flat_map(|set| rinks(set).to_le_bytes());
        self.request.owners = sets.collect();
        self
    }

    fn owner_bytes(mut self, length: usize) -> Case {
        self.request.owners.resize(length, 0);
        self
    }

    fn read_by(mut self, set: &[u32]) -> Case {
        self.request.reader = rinks(set);
        self
    }

    fn wanting(mut self, node: u32) -> Case {
        self.request.wanted = node;
        self
    }

    fn lacking(mut self, bytes: usize) -> Case {
        self.work_len -= bytes;
        fitting(&mut self.leaves, self.work_len);
        self
    }

    fn writing(mut self, length: usize) -> Case {
        self.out_len = length;
        self
    }

    fn before(&self) -> Buffers {
        let mut work = vec![FILLER; self.work_len];
        lay_into(&mut work, SLOT, &self.leaves);
        Buffers {
            work,
            out: vec![PAPER; self.out_len],
        }
    }

    /// The port's answer, which is the walk's, and the walk.
    fn answered(&self) -> (Expected, Scene) {
        let before = self.before();
        let (_, port) = REVEALS[0];
        let found = run(port, &self.request, &before).expect("margins");
        let slots = found.work.bytes().chunks(SLOT).enumerate();
        let changed =
            slots.filter(|(node, slot)| *slot != &before.work[SLOT * node..][..slot.len()]);
        let sheet = |slot| sheet_in(slot).expect("a derived sheet").to_vec();
        let length = if found.reply.0 == 0 { found.reply.1 } else { 0 };
        let answer = Expected {
            reply: found.reply,
            written: changed.map(|(node, slot)| (node, sheet(slot))).collect(),
            shown: found.out.bytes()[..length as usize].to_vec(),
        };
        let held = check(&found, answer.reply, &answer.after(&before));
        assert_eq!(held, Ok(()), "{}", self.line(&answer));
        let scene = Scene::new(self.request.plan.clone(), before.work);
        let walked = self.walked(&scene);
        assert_eq!(walked, answer, "{}", self.line(&answer));
        (answer, scene)
    }

    fn walked(&self, scene: &Scene) -> Expected {
        let walk = scene.walk.as_ref();
        expected(walk, &self.request, self.work_len, self.out_len)
    }

    fn line(&self, answer: &Expected) -> String {
        let written = answer.written.iter();
        let written: Vec<String> = written
            .map(|(node, sheet)| format!("{node}:{}", hex(sheet)))
            .collect();
        format!(
            "{} {} {:x} {} {} {} {} {} {} {}\n",
            hex(&self.request.plan),
            hex(&self.request.owners),
            self.request.reader,
            self.request.wanted,
            self.work_len,
            self.out_len,
            joined(&self.leaves),
            answer.reply.0,
            answer.reply.1,
            match written.is_empty() {
                true => "-".to_string(),
                false => written.join(","),
            }
        )
    }
}

fn rinks(set: &[u32]) -> u64 {
    set.iter().fold(0, |bits, rink| bits | 1 << rink)
}

/// The sum of two ranges.
fn sum() -> Case {
    Case::new(&["W[1,2]", "W[10,20]"], &[(ADD, 0, 1)])
}

/// S-7's examples: what they show, the run and the reply.
fn named() -> Vec<(&'static str, Case, Reply)> {
    [rights(), arguments(), walks()].concat()
}

fn rights() -> Vec<(&'static str, Case, Reply)> {
    let two = || sum().owned(&[&[0], &[1]]);
    let crossed = || Case::new(&["W[2,1]", "W[10,20]"], &[(ADD, 0, 1)]).owned(&[&[2], &[2]]);
    let last = || Case::new(&["W[1,2]"], &[]).owned(&[&[63]]);
    let four = sum().owned(&[&[0, 1, 2], &[0, 1, 2, 3]]);
    let five = sum().owned(&[&[0, 1, 2], &[2, 3, 4]]);
    vec![
        ("one owner of two", two().read_by(&[0]), (30, 2)),
        ("both owners", two().read_by(&[0, 1]), (0, 98)),
        ("its own leaf", two().read_by(&[0]).wanting(0), (0, 98)),
        ("four owners, seven by leaves", four, (30, 2)),
        ("five owners", five, (0, 98)),
        (
            "a leaf without owners beside one that has some",
            sum().owned(&[&[0, 40], &[]]).wanting(1),
            (0, 98),
        ),
        ("the last rink, and a reader without it", last(), (30, 0)),
        ("the last rink's own", last().read_by(&[63]), (0, 98)),
        ("30 before a leaf's 5", crossed(), (30, 2)),
        ("the leaf's 5", crossed().read_by(&[2]), (5, 0)),
    ]
}

fn arguments() -> Vec<(&'static str, Case, Reply)> {
    let unowned = |length| sum().owner_bytes(length);
    let short = sum().owned(&[&[0], &[1]]).wanting(0).lacking(1);
    vec![
        ("owners of 15 bytes", unowned(15), (1, NO_NODE)),
        ("owners of 24 bytes", unowned(24), (1, NO_NODE)),
        ("no owners' bytes", unowned(0), (1, NO_NODE)),
        ("no such node", sum().wanting(3), (1, NO_NODE)),
        ("70000 is no node", sum().wanting(70_000), (1, NO_NODE)),
        ("a work buffer one byte short", short, (27, NO_NODE)),
        ("an output one byte short", sum().writing(97), (27, NO_NODE)),
        ("an output of its length", sum().writing(98), (0, 98)),
    ]
}

fn walks() -> Vec<(&'static str, Case, Reply)> {
    let (least, large) = (
        "W[-9223372036854775808,0]",
        "W[4611686018427387904,4611686018427387904]",
    );
    let unwalked = Case::new(&["W[1,2]", "W[10,20]", "W[2,1]"], &[(ADD, 0, 1)]);
    let product = || Case::new(&[large, "W[10,20]"], &[(MULTIPLY, 0, 0), (ABS, 1, 1)]);
    let late = || {
        let steps = [(NEGATIVE, 0, 0), (ADD, 3, 2), (ADD, 4, 1)];
        Case::new(&[least, "W[2,1]", "W[1,2]"], &steps)
    };
    let steps = [(NEGATIVE, 1, 1), (NEGATIVE, 0, 0), (ADD, 2, 3)];
    let behind = Case::new(&[least, "W[1,2]"], &steps);
    vec![
        ("an unwalked leaf that 5 refuses", unwalked, (0, 98)),
        ("an unwalked step that 24 refuses", product(), (0, 98)),
        ("that step", product().wanting(2), (24, 2)),
        ("a leaf before a step that is refused", late(), (5, 1)),
        ("that step", late().wanting(3), (24, 3)),
        ("a step refused behind one that is taken", behind, (24, 3)),
    ]
}

/// The whole file. Same seed, same bytes.
///
/// # Panics
/// If the port departs from the walk.
pub fn made(seed: u64) -> String {
    let mut random = Random::new(seed);
    let mut out = format!("{FORM}# Made by `compare store-reveals --seed {seed}`.\n");
    for (name, case, reply) in named() {
        let (answer, _) = case.answered();
        assert_eq!(answer.reply, reply, "{name}");
        let _ = writeln!(out, "# {name}");
        out.push_str(&case.line(&answer));
    }
    for (name, came) in OUTCOMES {
        let _ = writeln!(out, "# {name}");
        for _ in 0..TIMES {
            push(&mut random, &mut out, drawn, came);
        }
    }
    for (late, place) in [
        (false, "the plan's first that can be"),
        (true, "behind accepted ones of the plan"),
    ] {
        for code in STEP_CODES {
            let _ = writeln!(out, "# a step refused with {code}, {place}");
            let draw = |random: &mut Random| {
                let draft = plans::refused_step(random, &ALL, code, late);
                over(random, draft.request())
            };
            for _ in 0..REFUSED {
                push(&mut random, &mut out, draw, |seen| {
                    seen.wanted.reply.0 == code
                });
            }
        }
    }
    out
}

/// A run over any plan.
fn drawn(random: &mut Random) -> Case {
    let request = plans::request(random);
    over(random, request)
}

fn over(random: &mut Random, mut plan: plans::Request) -> Case {
    fitting(&mut plan.leaves, plan.work_len);
    let scene = Scene::new(plan.plan.clone(), plans::lay_out(&plan, FILLER));
    let (request, out) = draw::request(random, &scene);
    Case {
        request,
        leaves: plan.leaves,
        work_len: plan.work_len,
        out_len: out.len(),
    }
}

/// Draws until the answer is as wanted and the line is not too long.
fn push(
    random: &mut Random,
    out: &mut String,
    draw: impl Fn(&mut Random) -> Case,
    suits: impl Fn(&Seen) -> bool,
) {
    loop {
        let case = draw(random);
        let (answer, scene) = case.answered();
        let line = case.line(&answer);
        let seen = scene.seen(&case.request, &answer, case.out_len);
        if suits(&seen) && line.len() <= LONGEST_LINE {
            out.push_str(&line);
            return;
        }
    }
}

/// The stored runs, replayed by the calls; the walk has to agree.
pub fn replay(text: &str) -> Result<Counts, String> {
    let mut counts = Counts::default();
    let lines = text.lines().enumerate();
    for (at, line) in lines.filter(|(_, line)| !is_comment(line)) {
        let parsed = parse(line).map_err(|fault| format!("line {}: {fault}", at + 1))?;
        hold(&mut counts, &parsed.0, &parsed.1);
    }
    Ok(counts)
}

fn hold(counts: &mut Counts, case: &Case, wanted: &Expected) {
    let before = case.before();
    let after = wanted.after(&before);
    let scene = Scene::new(case.request.plan.clone(), before.work.clone());
    counts.count(&scene.seen(&case.request, wanted, case.out_len));
    let walked = case.walked(&scene);
    let mut differ = |name: &str, fault: &str| {
        let tally = &mut counts.tally;
        tally.differ(|| show(name, fault, &case.request, &before, wanted));
    };
    if walked != *wanted {
        differ("walk", &format!("reply {:?}", walked.reply));
    }
    for (name, answer) in REVEALS {
        let held = run(answer, &case.request, &before)
            .and_then(|found| check(&found, wanted.reply, &after));
        if let Err(fault) = held {
            differ(name, &fault);
        }
    }
}

fn parse(line: &str) -> Result<(Case, Expected), String> {
    let fields: Vec<&str> = line.split(' ').collect();
    let [plan, owners, reader, wanted, work_len, out_len, leaves, code, value, written] =
        fields[..]
    else {
        return Err(format!("{} fields where 10 are wanted", fields.len()));
    };
    let case = Case {
        request: Request {
            plan: bytes(plan)?,
            owners: bytes(owners)?,
            reader: u64::from_str_radix(reader, 16).map_err(|_| format!("`{reader}` is no set"))?,
            wanted: number(wanted)?,
        },
        leaves: sheets(leaves)?,
        work_len: number(work_len)? as usize,
        out_len: number(out_len)? as usize,
    };
    let mut answer = Expected {
        reply: (number(code)?, number(value)?),
        written: match written {
            "-" => Vec::new(),
            _ => written.split(',').map(numbered).collect::<Result<_, _>>()?,
        },
        shown: Vec::new(),
    };
    if answer.reply.0 == 0 {
        let after = answer.after(&case.before());
        let start = SLOT * case.request.wanted as usize;
        let sheet = after.work.get(start..start + answer.reply.1 as usize);
        answer.shown = sheet.ok_or("no such slot")?.to_vec();
    }
    Ok((case, answer))
}

fn number(text: &str) -> Result<u32, String> {
    text.parse().map_err(|_| format!("`{text}` is no number"))
}

fn numbered(text: &str) -> Result<(usize, Vec<u8>), String> {
    let (node, sheet) = text
        .split_once(':')
        .ok_or(format!("`{text}` has no node"))?;
    Ok((number(node)? as usize, bytes(sheet)?))
}

#[cfg(test)]
mod tests {
    use super::{made, named, replay};
    use crate::plans::STEP_CODES;

    const STORED: &str = concat!(env!("CARGO_MANIFEST_DIR"), "/../vectors/reveals.txt");

    #[test]
    fn the_stored_list_is_made_anew() {
        let stored = std::fs::read_to_string(STORED).expect("vectors/reveals.txt");
        let seed = stored.split("store-reveals --seed ").nth(1);
        let seed = seed.and_then(|rest| rest.split('`').next());
        let seed = seed.and_then(|seed| seed.parse().ok());
        assert!(
            made(seed.expect("the seed in the file's comments")) == stored,
            "vectors/reveals.txt is not what its seed makes"
        );
    }

    #[test]
    fn the_stored_list_is_replayed() {
        let text = std::fs::read_to_string(STORED).expect("vectors/reveals.txt");
        let counts = replay(&text).unwrap();
        assert_eq!(counts.tally.differences, 0, "{counts}");
        assert!(counts.tally.total() >= 250 + named().len(), "{counts}");
        assert_eq!(counts.outcomes.missing(), [""; 0], "{counts}");
        for code in STEP_CODES {
            assert!(counts.tally.of(code) >= 4, "no {code}: {counts}");
        }
    }

    /// A stored answer that is not the library's is a difference, and so is a wrong sheet.
    #[test]
    fn a_wrong_answer_is_a_difference() {
        let text = std::fs::read_to_string(STORED).expect("vectors/reveals.txt");
        let line = |end: &str| {
            let mut lines = text.lines().filter(|line| !line.starts_with('#'));
            let found = lines.find(|line| line.contains(end));
            found.expect("a line with this reply").to_string()
        };
        let differences = |line: &str| replay(line).map(|counts| counts.tally.differences);
        let (refused, shown) = (line(" 30 2 -"), line(" 0 98 2:"));
        assert_eq!(differences(&refused), Ok(0));
        assert_eq!(differences(&shown), Ok(0));
        assert_eq!(differences(&refused.replace(" 30 2 -", " 30 1 -")), Ok(3));
        let last = shown.len() - 1;
        let other = format!(
            "{}{}",
            &shown[..last],
            if shown.ends_with('1') { 2 } else { 1 }
        );
        assert_eq!(differences(&other), Ok(3));
        assert!(replay("1 2 3").is_err() && replay(&shown.replace(" 2:", " 2;")).is_err());
    }
}
