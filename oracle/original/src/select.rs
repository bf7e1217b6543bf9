//! Makes the stored list: the named cases, then seeded calls until every
//! component has enough of every answer it can give.

use crate::{answer, asked};
use oracle_list::cases;
use oracle_list::counts::Counts;
use oracle_list::form::{is_unary, Answer, Call, Line, Mark, SUBTRACT};
use oracle_list::generate::{bad_component, call, call_for, call_towards, AIMS};
use oracle_list::random::Random;
use oracle_list::repeats::Repeats;
use oracle_list::sheet::LONGEST;
use oracle_list::stats::reachable;
use std::collections::{HashMap, HashSet};
use std::io::{self, Write};

const ACCEPTED: usize = 160;
const REFUSED: usize = 16;
const DECIDED: usize = 24;
const OUTPUT_LISTS: usize = 16;
const LOST_REPEATS: usize = 24;
const SPARED: usize = 20;
const SPARED_OWN: usize = 8;
const TWOFOLD: usize = 50;
/// An output longer than any sheet.
const LONGER: usize = 3000;
const BAD_COMPONENTS: usize = 12;
const SHORT_OUTPUTS: usize = 12;
/// So many draws without a gain loosen the spread over natures.
const PATIENCE: usize = 400;
/// So many draws without a gain end the search: the statistics then say what is missing.
const GIVE_UP: usize = 40_000;

/// The answer to a call as it stands.
pub fn fresh(call: Call) -> Line {
    let answer = answer(
        call.component,
        call.node,
        &call.left,
        &call.right,
        call.out_len,
    );
    Line { call, answer }
}

/// A drawn call with its answer; nothing for a range Subtract, which is to be
/// drawn again.
pub fn perhaps_fresh(call: Call) -> Option<Line> {
    let answer = asked(
        call.component,
        call.node,
        &call.left,
        &call.right,
        call.out_len,
    )?;
    Some(Line { call, answer })
}

/// The next of the generator's calls that the original is asked about.
pub fn drawn(random: &mut Random) -> Line {
    loop {
        if let Some(line) = perhaps_fresh(call(random)) {
            return line;
        }
    }
}

/// Writes the list that a seed makes.
pub fn write_list(seed: u64, out: &mut impl Write) -> io::Result<()> {
    write_head(seed, out)?;
    let mut selection = Selection::new(seed);
    writeln!(out, "# Named cases")?;
    for case in cases::all() {
        writeln!(out, "# {}", case.label)?;
        writeln!(out, "{}", selection.keep(fresh(case.call)))?;
    }
    writeln!(out, "# Seeded calls")?;
    for line in selection.fill() {
        writeln!(out, "{}", line)?;
    }
    Ok(())
}

fn write_head(seed: u64, out: &mut impl Write) -> io::Result<()> {
    writeln!(out, "# Single calls and their answers, one a line:")?;
    writeln!(out, "# component node left right out_len code result mark")?;
    writeln!(
        out,
        "# Bytes are lower-case hex, - for none; the result is what was written."
    )?;
    writeln!(
        out,
        "# Marks: rust, the original text's answer; added, what the documents add to"
    )?;
    writeln!(
        out,
        "# it (2 to 5, 26 to 29, 24 by unchecked arithmetic, and lists of Abs that lost"
    )?;
    writeln!(
        out,
        "# repeats); decided, Log over two whole ranges, where the project answers 15."
    )?;
    writeln!(out, "# Made by: oracle list --seed {}", seed)
}

/// `count` calls drawn without regard to thresholds, one line each.
pub fn write_generated(seed: u64, count: u64, out: &mut impl Write) -> io::Result<()> {
    let mut random = Random::new(seed);
    for _ in 0..count {
        let mut line = drawn(&mut random);
        line.call.out_len = out_len(&mut random, &line.answer);
        if line.answer.code == 0 && random.percent(5) {
            line.call.out_len = short(&mut random, line.answer.bytes.len());
            line = fresh(line.call);
        }
        writeln!(out, "{}", line)?;
    }
    Ok(())
}

/// An output long enough for the result; any at all for a refusal.
fn out_len(random: &mut Random, answer: &Answer) -> usize {
    let length = answer.bytes.len();
    if answer.code != 0 {
        return random.pick(&[0, 1, 79, 80, 98, LONGEST, LONGEST, LONGER]);
    }
    match random.below(10) {
        0..=3 => length,
        4 => length + 1,
        5 => length + random.below(100),
        6 => LONGER,
        _ => LONGEST,
    }
}

fn short(random: &mut Random, length: usize) -> usize {
    match random.below(4) {
        0 => 0,
        1 => random.below(length),
        _ => length - 1,
    }
}

/// What has been taken so far.
struct Selection {
    random: Random,
    seen: HashSet<Call>,
    /// By component, code and the natures of both sheets.
    spread: HashMap<(u32, u32, u8, u8), usize>,
}

impl Selection {
    fn new(seed: u64) -> Selection {
        Selection {
            random: Random::new(seed),
            seen: HashSet::new(),
            spread: HashMap::new(),
        }
    }

    fn keep(&mut self, line: Line) -> Line {
        self.seen.insert(line.call.clone());
        line
    }

    fn fill(&mut self) -> Vec<Line> {
        let mut lines = self.fill_with(BAD_COMPONENTS, bad_component, |line| line.answer.code == 2);
        for component in 1..=9 {
            let accepted = self.fill_cell(component, 0, ACCEPTED);
            let short_outputs = self.short_outputs(&accepted);
            lines.extend(accepted);
            for code in reachable(component) {
                if *code != 27 {
                    lines.extend(self.fill_cell(component, *code, REFUSED));
                }
            }
            lines.extend(short_outputs);
        }
        let log = |random: &mut Random| {
            let aim = random.pick(&[0, 8, 11, 16, 18]);
            call_for(random, 7, aim)
        };
        let decided = self.fill_with(DECIDED, log, |line| line.answer.mark == Mark::Decided);
        lines.extend(decided);
        let pair = |random: &mut Random| {
            let component = random.between(2, 5) as u32;
            call_for(random, component, 0)
        };
        lines.extend(self.fill_with(OUTPUT_LISTS, pair, has_output_lists));
        self.spread.clear();
        lines.extend(self.fill_repeats());
        for component in 1..=9 {
            lines.extend(self.fill_twofold(component));
        }
        lines
    }

    /// Lists of Abs that lost repeats; and lists that would be refused with 26 if
    /// those were counted, or the operand's own.
    fn fill_repeats(&mut self) -> Vec<Line> {
        let short = |random: &mut Random| call_for(random, 1, 0);
        let long = |random: &mut Random| {
            let component = random.pick(&[1, 9]);
            call_for(random, component, 26)
        };
        let mut lines = self.fill_with(LOST_REPEATS, short, |line| repeats(line).lost > 0);
        lines.extend(self.fill_with(SPARED, long, |line| repeats(line).spared > 0));
        lines.extend(self.fill_with(SPARED_OWN, long, |line| repeats(line).spared_own > 0));
        lines
    }

    /// Refused calls with two faults: the order of the checks decides.
    fn fill_twofold(&mut self, component: u32) -> Vec<Line> {
        let codes = reachable(component).iter().copied();
        let aims: Vec<u32> = codes.filter(|code| *code > 5 && *code != 27).collect();
        let draw = |random: &mut Random| {
            let both = [random.pick(&aims), random.pick(&aims)];
            call_towards(random, component, both)
        };
        self.fill_with(TWOFOLD, draw, |line| line.answer.code > 5)
    }

    /// Calls of a component that end with `code`.
    fn fill_cell(&mut self, component: u32, code: u32, wanted: usize) -> Vec<Line> {
        // Mostly straight at the code; a disturbed pair that is accepted after
        // all, or refused for another reason, is worth having too.
        let straight = if code == 0 { 55 } else { 85 };
        let draw = |random: &mut Random| {
            let aim = match random.percent(straight) {
                true => code,
                false => random.pick(AIMS),
            };
            call_for(random, component, aim)
        };
        self.fill_with(wanted, draw, |line| line.answer.code == code)
    }

    /// Draws calls until `wanted` of them answer as `suits` asks.
    fn fill_with(
        &mut self,
        wanted: usize,
        draw: impl Fn(&mut Random) -> Call,
        suits: impl Fn(&Line) -> bool,
    ) -> Vec<Line> {
        let mut lines = Vec::new();
        let (mut slack, mut idle) = (0, 0);
        while lines.len() < wanted && idle < GIVE_UP {
            idle += 1;
            if idle % PATIENCE == 0 {
                slack += 1;
            }
            let Some(mut line) = perhaps_fresh(draw(&mut self.random)) else {
                continue;
            };
            if !suits(&line) || !self.has_room(&line, slack) {
                continue;
            }
            line.call.out_len = out_len(&mut self.random, &line.answer);
            if self.seen.contains(&line.call) {
                continue;
            }
            *self.spread.entry(spread_key(&line)).or_default() += 1;
            lines.push(self.keep(line));
            idle = 0;
        }
        lines
    }

    /// Keeps one pair of natures from taking a whole cell.
    fn has_room(&self, line: &Line, slack: usize) -> bool {
        let key = spread_key(line);
        let taken = self.spread.get(&key).copied().unwrap_or(0);
        let room = match (key.1, key.2, key.3) {
            (0, 1, 1) | (0, 2, 2) | (0, 1, 9) | (0, 2, 9) => 40,
            // What is left of Subtract, its ranges gone.
            (0, 3, 3) if key.0 == SUBTRACT => 90,
            (0, 3, 3) | (0, 3, 9) => 35,
            (0, 6, 6) => 40,
            (28, ..) => REFUSED,
            (0, _, 2 | 5) if key.0 == 5 => 10,
            _ => 4,
        };
        taken < room + 3 * slack
    }

    /// The same calls into outputs that are too short.
    fn short_outputs(&mut self, accepted: &[Line]) -> Vec<Line> {
        let mut lines = Vec::new();
        for index in 0..SHORT_OUTPUTS.min(accepted.len()) {
            let step = accepted.len() / SHORT_OUTPUTS.min(accepted.len());
            let whole = &accepted[index * step];
            let length = whole.answer.bytes.len();
            let mut call = whole.call.clone();
            call.out_len = match index % 4 {
                0 | 1 => length - 1,
                2 => 0,
                _ => short(&mut self.random, length),
            };
            if !self.seen.contains(&call) {
                lines.push(self.keep(fresh(call)));
            }
        }
        lines
    }
}

/// What a mapped list of a call lost.
fn repeats(line: &Line) -> Repeats {
    let mut repeats = Repeats::default();
    let Line { call, answer } = line;
    repeats.count(call.component, &call.left, &answer.bytes);
    repeats
}

/// Whether an operand has a list for each of the output's columns, and not for each of
/// its own.
fn has_output_lists(line: &Line) -> bool {
    let Line { call, answer } = line;
    let mut counts = Counts::default();
    let read = (call.component, &call.left[..], &call.right[..]);
    counts.count(read, answer.code, &answer.bytes);
    counts.taken[1] > 0
}

/// Sheets too short to have a nature count as 9, and so does an unread one.
fn spread_key(line: &Line) -> (u32, u32, u8, u8) {
    let nature = |sheet: &[u8]| sheet.get(6).map_or(9, |nature| (*nature).min(9));
    let call = &line.call;
    let right = match is_unary(call.component) {
        true => 9,
        false => nature(&call.right),
    };
    (call.component, line.answer.code, nature(&call.left), right)
}
