//! What a list holds, and whether it holds enough.

use crate::counts::Counts;
use crate::form::{is_unary, Call, Line, Mark, MISCOUNTED, POOL, SUBTRACT};
use crate::repeats::Repeats;
use crate::sheet::TEXT;
use std::collections::{BTreeMap, HashMap, HashSet};
use std::fmt::Write;

pub const NAMES: [&str; 10] = [
    "Abs", "Add", "Subtract", "Multiply", "Divide", "Modulo", "Log", "Power", "Negative", "Pool",
];

const LEAST_CALLS: usize = 3000;
const MOST_CALLS: usize = 5200;
const MOST_BYTES: usize = 4_000_000;
const LEAST_ACCEPTED: usize = 100;
const LEAST_REFUSED: usize = 5;
const LEAST_EXACT: usize = 200;
const LEAST_SHORT: usize = 27;
const LEAST_TEXTS: usize = 40;
/// Of Subtract: accepted differences of categories, and ranges of one kind that a
/// check before 17 refuses.
const LEAST_DIFFERENCES: usize = 80;
const LEAST_RANGES: usize = 50;
/// Of 29 on each side and of each kind, and of several lists that are taken or not
/// counted.
const LEAST_COUNTED: usize = 20;
/// Of Abs: accepted lists that lost repeats, and of these such as would be refused
/// with 26 if repeats were counted; and of Abs or Negative by the operand's own.
const LEAST_LOST: usize = 40;
const LEAST_SPARED: usize = 16;
const LEAST_SPARED_OWN: usize = 5;
/// What calls with texts are wanted to be refused with.
const TEXT_CODES: [u32; 10] = [3, 4, 15, 19, 20, 21, 22, 26, 28, MISCOUNTED];

/// Whether a threshold is met, and what to say if not.
type Want = (bool, String);

/// So many of something, and at least how many are wanted.
fn enough((count, least, what): (usize, usize, &str)) -> Want {
    (count >= least, format!("{count} {what}, wanted {least}"))
}

/// The refusals a component can give in an oracle run. 25 is in none of them:
/// categories never get past 15 under Int Power. Subtract's 18 is the range
/// Subtract's alone, and leaves the runs with it.
pub fn reachable(component: u32) -> &'static [u32] {
    match component {
        1 | 9 => &[3, 4, 5, 6, 11, 18, 19, 20, 22, 24, 26, 27, 29],
        2 => &[
            3, 4, 5, 6, 7, 8, 9, 10, 11, 12, 13, 14, 17, 18, 19, 20, 21, 22, 24, 26, 27, 28, 29,
        ],
        SUBTRACT => &[
            3, 4, 5, 6, 7, 8, 9, 10, 11, 12, 13, 14, 17, 19, 20, 21, 22, 24, 26, 27, 29,
        ],
        4 => &[
            3, 4, 5, 6, 7, 8, 9, 10, 11, 12, 13, 14, 17, 18, 19, 20, 21, 22, 24, 26, 27, 29,
        ],
        5 => &[
            3, 4, 5, 6, 7, 8, 9, 10, 11, 12, 13, 14, 17, 18, 19, 20, 21, 22, 23, 24, 26, 27, 29,
        ],
        6 | 7 => &[3, 4, 5, 6, 7, 8, 11, 14, 15, 16, 17, 18, 27],
        8 => &[
            3, 4, 5, 6, 7, 8, 11, 14, 15, 16, 17, 18, 19, 20, 21, 22, 27, 29,
        ],
        POOL => &[
            3, 4, 5, 6, 7, 8, 11, 12, 14, 17, 18, 19, 20, 21, 24, 26, 27, 28, 29,
        ],
        _ => &[2],
    }
}

/// How the outputs' lengths stand to the results'.
#[derive(Default)]
struct Outputs {
    exact: usize,
    longer: usize,
    one_less: usize,
    none: usize,
    /// Between, or the result's length is not in the list.
    otherwise: usize,
}

pub struct Stats {
    calls: usize,
    bytes: usize,
    repeated: usize,
    /// By component (0 for a bad one) and code.
    cells: BTreeMap<(u32, u32), usize>,
    marks: [usize; 3],
    outputs: Outputs,
    /// Lengths of left sheets: none, below 80, to 99, to 199, to 499, longer.
    lengths: [usize; 6],
    /// Accepted calls by the natures of left and right (9 where unread or bad).
    natures: BTreeMap<(u8, u8), usize>,
    /// Calls that read a sheet with texts, by code.
    texts: BTreeMap<u32, usize>,
    subtracts: Subtracts,
    counts: Counts,
    repeats: Repeats,
}

/// Calls of Subtract.
#[derive(Default)]
struct Subtracts {
    /// That document 02 holds against its own rule: there must be none.
    ranges: usize,
    /// Of two ranges of one kind, refused with 6 to 14.
    refused: usize,
    /// Accepted, of whole categories.
    lists: usize,
}

/// The row of the table a component stands in.
fn row(component: u32) -> u32 {
    if (1..=POOL).contains(&component) {
        component
    } else {
        0
    }
}

impl Stats {
    /// `bytes` is the length of the list's file.
    pub fn of(lines: &[Line], bytes: usize) -> Stats {
        let distinct: HashSet<&Call> = lines.iter().map(|line| &line.call).collect();
        let mut stats = Stats {
            calls: lines.len(),
            bytes,
            repeated: lines.len() - distinct.len(),
            cells: BTreeMap::new(),
            marks: [0; 3],
            outputs: outputs(lines),
            lengths: [0; 6],
            natures: BTreeMap::new(),
            texts: BTreeMap::new(),
            subtracts: Subtracts::default(),
            counts: Counts::default(),
            repeats: Repeats::default(),
        };
        for line in lines {
            stats.count(line);
        }
        stats
    }

    fn count(&mut self, line: &Line) {
        let Line { call, answer } = line;
        *self
            .cells
            .entry((row(call.component), answer.code))
            .or_default() += 1;
        self.marks[match answer.mark {
            Mark::Rust => 0,
            Mark::Added => 1,
            Mark::Decided => 2,
        }] += 1;
        self.lengths[match call.left.len() {
            0 => 0,
            1..=79 => 1,
            80..=99 => 2,
            100..=199 => 3,
            200..=499 => 4,
            _ => 5,
        }] += 1;
        let right = match is_unary(call.component) {
            true => 9,
            false => nature(&call.right),
        };
        let natures = (nature(&call.left), right);
        if natures.0 == TEXT || natures.1 == TEXT {
            *self.texts.entry(answer.code).or_default() += 1;
        }
        if answer.code == 0 {
            *self.natures.entry(natures).or_default() += 1;
        }
        let read = (call.component, &call.left[..], &call.right[..]);
        self.counts.count(read, answer.code, &answer.bytes);
        self.repeats
            .count(call.component, &call.left, &answer.bytes);
        self.subtracts.ranges += usize::from(line.is_range_subtract());
        match (call.component, natures, answer.code) {
            (SUBTRACT, (1, 1) | (2, 2), 6..=14) => self.subtracts.refused += 1,
            (SUBTRACT, (3, 3), 0) => self.subtracts.lists += 1,
            _ => (),
        }
    }

    fn cell(&self, component: u32, code: u32) -> usize {
        self.cells.get(&(component, code)).copied().unwrap_or(0)
    }

    /// Every threshold that the list misses, in words.
    pub fn misses(&self) -> Vec<String> {
        let mut wants = self.size_wants();
        wants.extend(self.cell_wants());
        wants.extend(self.output_wants());
        wants.extend(self.text_wants());
        wants.extend(self.subtract_wants());
        wants.extend(self.count_wants());
        wants.extend(self.repeat_wants());
        let missed = wants.into_iter().filter(|(holds, _)| !holds);
        missed.map(|(_, text)| text).collect()
    }

    fn size_wants(&self) -> Vec<Want> {
        let (calls, bytes, repeated) = (self.calls, self.bytes, self.repeated);
        vec![
            (
                (LEAST_CALLS..=MOST_CALLS).contains(&calls),
                format!("{calls} calls, wanted {LEAST_CALLS} to {MOST_CALLS}"),
            ),
            (
                bytes < MOST_BYTES,
                format!("{bytes} bytes, wanted below {MOST_BYTES}"),
            ),
            (repeated == 0, format!("{repeated} calls stand twice")),
        ]
    }

    /// Enough of every answer that the original's components can give, and no
    /// answer that a component cannot.
    fn cell_wants(&self) -> Vec<Want> {
        let mut wants = Vec::new();
        for component in 0..=9 {
            let accepted = (component != 0).then_some((0, LEAST_ACCEPTED));
            let refused = reachable(component)
                .iter()
                .map(|code| (*code, LEAST_REFUSED));
            for (code, least) in accepted.into_iter().chain(refused) {
                let count = self.cell(component, code);
                let text =
                    format!("component {component} gives {code} {count} times, wanted {least}");
                wants.push((count >= least, text));
            }
        }
        for (component, code) in self.cells.keys() {
            let known = *code == 0 && *component != 0 || reachable(*component).contains(code);
            let text = format!("component {component} gives {code}, which it cannot");
            wants.push((known, text));
        }
        wants
    }

    fn output_wants(&self) -> Vec<Want> {
        let wants = [
            (self.outputs.exact, LEAST_EXACT, "exact outputs"),
            (self.outputs.one_less, LEAST_SHORT, "outputs one byte short"),
            (self.outputs.none, LEAST_SHORT, "outputs of no bytes"),
            (self.marks[2], LEAST_REFUSED, "decided answers"),
        ];
        wants.map(enough).to_vec()
    }

    /// Enough joined texts, and enough of what texts are refused with.
    fn text_wants(&self) -> Vec<Want> {
        let joined = self.natures.get(&(TEXT, TEXT)).copied().unwrap_or(0);
        let text = format!("{joined} joins of texts, wanted {LEAST_TEXTS}");
        let mut wants = vec![(joined >= LEAST_TEXTS, text)];
        for code in TEXT_CODES {
            let count = self.texts.get(&code).copied().unwrap_or(0);
            let text = format!("texts give {code} {count} times, wanted {LEAST_REFUSED}");
            wants.push((count >= LEAST_REFUSED, text));
        }
        wants
    }

    /// No range Subtract, and enough of what is left of Subtract.
    fn subtract_wants(&self) -> Vec<Want> {
        let Subtracts {
            ranges,
            refused,
            lists,
        } = self.subtracts;
        vec![
            (ranges == 0, format!("{ranges} range Subtracts, wanted none")),
            (
                refused >= LEAST_RANGES,
                format!("ranges under Subtract are refused before 17 {refused} times, wanted {LEAST_RANGES}"),
            ),
            (
                lists >= LEAST_DIFFERENCES,
                format!("{lists} differences of categories, wanted {LEAST_DIFFERENCES}"),
            ),
        ]
    }

    /// Enough of 29 and of what is not counted, and no 29 that is out of place.
    fn count_wants(&self) -> Vec<Want> {
        let Counts {
            sides: [left, right],
            kinds: [whole, bools, texts],
            taken: [own, others],
            unused,
            wrong,
        } = self.counts;
        let wants = [
            (left, "left operands refused with 29"),
            (right, "right operands refused with 29"),
            (whole, "operands of whole lists refused with 29"),
            (bools, "operands of Bool lists refused with 29"),
            (texts, "operands of text lists refused with 29"),
            (own, "operands with a list for each of their columns"),
            (
                others,
                "operands with a list for each of the output's columns",
            ),
            (unused, "operands whose lists are not counted"),
        ];
        let counted = |(count, what)| enough((count, LEAST_COUNTED, what));
        let none = format!("29 is out of place {wrong} times, wanted none");
        let mut wants = wants.map(counted).to_vec();
        wants.push((wrong == 0, none));
        wants
    }

    /// Enough lists that lost repeats, and enough whose 26 would turn on them.
    fn repeat_wants(&self) -> Vec<Want> {
        let Repeats {
            lost,
            spared,
            spared_own,
            ..
        } = self.repeats;
        let wants = [
            (lost, LEAST_LOST, "lists that lost repeats by the mapping"),
            (
                spared,
                LEAST_SPARED,
                "lists that their repeats would refuse",
            ),
            (
                spared_own,
                LEAST_SPARED_OWN,
                "lists that their operand's repeats would refuse",
            ),
        ];
        wants.map(enough).to_vec()
    }

    /// The table of components and codes, and what stands beside it.
    pub fn table(&self) -> String {
        let codes = [0].into_iter().chain(2..=29).filter(|code| *code != 25);
        let codes: Vec<u32> = codes.collect();
        let mut text = format!("{:10}", "");
        for code in &codes {
            let _ = write!(text, "{code:>5}");
        }
        text.push_str("   all\n");
        for component in (1..=POOL).chain([0]) {
            let name = match component {
                0 => "(bad)",
                _ => NAMES[component as usize - 1],
            };
            let _ = write!(text, "{name:10}");
            for code in &codes {
                let count = self.cell(component, *code);
                let shown = if count == 0 {
                    "".to_string()
                } else {
                    count.to_string()
                };
                let _ = write!(text, "{shown:>5}");
            }
            let all: usize = self
                .cells
                .iter()
                .filter(|(cell, _)| cell.0 == component)
                .map(|(_, n)| n)
                .sum();
            let _ = writeln!(text, "{all:>6}");
        }
        text + &self.notes()
    }

    fn notes(&self) -> String {
        let [rust, added, decided] = self.marks;
        let accepted: usize = (1..=9).map(|component| self.cell(component, 0)).sum();
        let Outputs {
            exact,
            longer,
            one_less,
            none,
            otherwise,
        } = self.outputs;
        let [empty, short, to_99, to_199, to_499, long] = self.lengths;
        let mut text = format!(
            "{} calls, {} bytes; {accepted} accepted, {} refused; marks: {rust} rust, {added} added, {decided} decided\n\
             outputs of accepted calls: {exact} exact, {longer} longer; refused with 27: {one_less} one byte short, {none} without a byte, {otherwise} otherwise\n\
             left sheets by length: {empty} empty, {short} below 80, {to_99} to 99, {to_199} to 199, {to_499} to 499, {long} longer\n\
             accepted by natures (left-right, 9 unread):",
            self.calls,
            self.bytes,
            self.calls - accepted
        );
        for ((left, right), count) in &self.natures {
            let _ = write!(text, " {left}-{right}:{count}");
        }
        text.push_str("\ncalls with texts by code:");
        for (code, count) in &self.texts {
            let _ = write!(text, " {code}:{count}");
        }
        let _ = writeln!(
            text,
            "\nSubtract: {} differences of categories, {} pairs of ranges refused before 17, {} range Subtracts",
            self.subtracts.lists, self.subtracts.refused, self.subtracts.ranges
        );
        let _ = writeln!(text, "{}\n{}", self.counts, self.repeats);
        text
    }
}

fn nature(sheet: &[u8]) -> u8 {
    sheet.get(6).copied().unwrap_or(9)
}

/// A refused output is measured against an accepted call with the same operands.
fn outputs(lines: &[Line]) -> Outputs {
    let key = |call: &Call| {
        (
            call.component,
            call.node,
            call.left.clone(),
            call.right.clone(),
        )
    };
    let accepted = lines.iter().filter(|line| line.answer.code == 0);
    let known: HashMap<_, usize> = accepted
        .map(|line| (key(&line.call), line.answer.bytes.len()))
        .collect();
    let mut outputs = Outputs::default();
    for Line { call, answer } in lines {
        match answer.code {
            0 if call.out_len == answer.bytes.len() => outputs.exact += 1,
            0 => outputs.longer += 1,
            27 if call.out_len == 0 => outputs.none += 1,
            27 if known.get(&key(call)) == Some(&(call.out_len + 1)) => outputs.one_less += 1,
            27 => outputs.otherwise += 1,
            _ => (),
        }
    }
    outputs
}

/// The subcommand `stats`, for both programs: the text to print and whether
/// the check passed.
pub fn run(list: &str, check: bool) -> Result<(String, bool), String> {
    let lines = crate::form::parse_list(list)?;
    let stats = Stats::of(&lines, list.len());
    let mut text = stats.table();
    if !check {
        return Ok((text, true));
    }
    let misses = stats.misses();
    for miss in &misses {
        let _ = writeln!(text, "missed: {miss}");
    }
    let _ = writeln!(text, "check: {} thresholds missed", misses.len());
    Ok((text, misses.is_empty()))
}

#[cfg(test)]
mod tests {
    use super::Stats;
    use crate::form::{Answer, Call, Line, Mark};

    fn line(component: u32, left: &str, right: &str, code: u32) -> Line {
        let call = Call::of(component, left, right);
        let answer = Answer {
            code,
            bytes: Vec::new(),
            mark: Mark::Rust,
        };
        Line { call, answer }
    }

    /// 29 that is due and not said, and 29 that is said of lists that pass.
    #[test]
    fn a_wrong_count_is_a_miss() {
        let misses = |component, left, right, code| {
            let stats = Stats::of(&[line(component, left, right, code)], 0);
            let named = |miss: &String| miss.starts_with("29 is out of place");
            stats.misses().iter().any(named)
        };
        let two = "W{1}{2} columns=3";
        for code in [0, 19, 20, 21, 22, 24, 26, 27, 28] {
            assert!(misses(2, two, "W{1} columns=3", code));
            assert!(misses(9, two, "empty", code));
        }
        for code in (3..=16).chain([29]) {
            assert!(!misses(2, two, "W{1} columns=3", code));
        }
        assert!(misses(2, "W{1}{2}", "W{1} columns=2", 29));
        assert!(misses(2, two, "W[1,2] columns=3", 29));
        assert!(misses(2, "F{1.0}", "W{1}{2}", 29));
        assert!(misses(6, two, two, 29));
    }

    #[test]
    fn a_range_subtract_is_a_miss() {
        let named = |miss: &String| miss.ends_with("range Subtracts, wanted none");
        let misses = |line: Line| Stats::of(&[line], 0).misses().iter().any(named);
        for code in [0, 18, 24, 27] {
            assert!(misses(line(3, "W[1,2]", "W[1,2]", code)));
            assert!(misses(line(3, "F[1.0,2.0]", "F[1.0,2.0]", code)));
            assert!(!misses(line(2, "W[1,2]", "W[1,2]", code)));
            assert!(!misses(line(3, "W{1}", "W[1,2]", code)));
        }
        for code in 2..=17 {
            assert!(!misses(line(3, "W[1,2]", "W[1,2]", code)));
        }
        assert!(!misses(line(3, "W[1,2]", "F[1.0,2.0]", 0)));
        assert!(!misses(line(3, "empty", "W[1,2]", 24)));
    }
}
