//! Demand 3 tried on accepted plans: every row's exact results keep to what the
//! sheets state. A row has a number for each leaf column and a side for each Pool
//! step. Sheets are read by the oracle's reader, after the call.

mod leaves;

use crate::exact::{Exact, TooLong};
use crate::plans::{self, Draft, Step, MOST_NODES, PLANS, SLOT};
use crate::tally::Tally;
use crate::Reply;
use oracle_list::form::{hex, is_unary, MISCOUNTED, POOL, SUBTRACT};
use oracle_list::random::Random;
use oracle_list::repeats::Repeats;
use oracle_list::sheet::{Nature, Sheet};
use oracle_list::stats::NAMES;
use std::fmt;

/// Rows with a longer result are given up, and counted.
const MOST_BITS: u64 = 4096;
const ROWS: usize = 8;
const INT: u8 = 4;
const LOG: u32 = 7;

/// The operand that a Pool step takes in a row, in all its columns.
#[derive(Clone, Copy, Debug, PartialEq, Eq)]
pub enum Side {
    Left,
    Right,
}

/// A row: the leaves' numbers by column, and a side for each step, which Pool
/// alone reads.
pub struct Row {
    pub numbers: Vec<Vec<Exact>>,
    pub sides: Vec<Side>,
}

/// What was tried.
#[derive(Default)]
pub struct Counts {
    pub tally: Tally,
    pub steps: [usize; NAMES.len()],
    pub rows: usize,
    pub given_up: usize,
    pub results: usize,
    pub ends: usize,
    pub lists: usize,
    /// Nodes of steps by what they state: absent, range, categories.
    pub natures: [usize; 3],
    pub beyond: usize,
    /// Pool steps in rows, by side; and how many of them had another result on
    /// the other side.
    pub sides: [usize; 2],
    pub apart: usize,
    /// Steps of Subtract over two ranges, and their results: in all, at the lower
    /// end, at the upper end.
    pub subtracts: usize,
    pub subtracted: usize,
    pub reached: [usize; 2],
    /// Log on operands that meet the premises, refused as it has to be.
    pub log_refused: usize,
    pub counting: Counting,
    pub repeats: Repeats,
}

/// Who counts the category lists of a plan's leaves.
#[derive(Default)]
pub struct Counting {
    /// Plans with a leaf whose lists a step counts and the premise does not: in all,
    /// and with several lists.
    pub by_step: [usize; 2],
    /// Plans with a leaf whose lists the premise counts, since no step does: in all,
    /// and with several lists.
    pub by_premise: [usize; 2],
    /// Accepted plans that do not meet the premises, for such a leaf; and those of
    /// them in which a step counts its lists, at another column count than its own.
    pub outside: usize,
    pub elsewhere: usize,
    /// Plans that 29 refuses at their last step.
    pub refused: usize,
}

impl fmt::Display for Counting {
    fn fmt(&self, f: &mut fmt::Formatter) -> fmt::Result {
        let ([step, steps], [premise, premises]) = (self.by_step, self.by_premise);
        write!(
            f,
            "category leaves: {step} plans with one whose lists a step counts and the premise does not ({steps} with several lists), {premise} with one whose lists the premise counts ({premises} with several); \
             outside the premises {} accepted plans with a leaf of another count ({} of them with a step that counts it at other columns than its own); {} plans refused with 29",
            self.outside, self.elsewhere, self.refused
        )
    }
}

impl fmt::Display for Counts {
    fn fmt(&self, f: &mut fmt::Formatter) -> fmt::Result {
        writeln!(f, "plans that meet the premises, {}", self.tally)?;
        for (name, count) in NAMES.iter().zip(self.steps) {
            write!(f, "{name} {count}, ")?;
        }
        let all = self.steps.iter().sum::<usize>();
        writeln!(
            f,
            "{all} steps in all; Log refused {} times",
            self.log_refused
        )?;
        let [absent, ranges, lists] = self.natures;
        writeln!(
            f,
            "steps' sheets: {ranges} ranges, {lists} categories, {absent} absent"
        )?;
        let [left, right] = self.sides;
        writeln!(
            f,
            "Pool steps in rows: {left} took left, {right} right; {} had another result on the other side",
            self.apart
        )?;
        let [lowers, uppers] = self.reached;
        writeln!(
            f,
            "range Subtract: {} steps; of {} results {lowers} are the lower end, {uppers} the upper",
            self.subtracts, self.subtracted
        )?;
        writeln!(f, "{}\n{}", self.counting, self.repeats)?;
        write!(
            f,
            "{} rows ({} with a number beyond 64 bits) and {} given up as too long; {} results held against {} present ends and {} lists",
            self.rows, self.beyond, self.given_up, self.results, self.ends, self.lists
        )
    }
}

/// Accepted plans, each with rows.
pub fn generated(seed: u64, count: usize) -> Counts {
    let mut random = Random::new(seed);
    let mut counts = Counts::default();
    while counts.tally.total() < count {
        let (draft, wanted) = draw(&mut random, &mut counts);
        let sheets = run(&draft, wanted, &mut counts);
        let Some(sheets) = sheets.filter(|_| !draft.steps.is_empty()) else {
            continue;
        };
        counts.tally.count(0);
        count_leaves(&draft, &sheets, &mut counts.counting);
        count_steps(&draft, &sheets, &mut counts);
        for turn in 0..ROWS {
            let leaves = sheets[..draft.leaves.len()].iter();
            let numbers = leaves.map(|leaf| leaves::numbers(&mut random, leaf, turn));
            let row = Row {
                numbers: numbers.collect(),
                sides: sides(&mut random, draft.steps.len(), turn),
            };
            try_row(&draft, &sheets, row, &mut counts);
        }
    }
    counts
}

/// Counts the steps of a plan that meets the premises. A derived list that repeats a
/// value is a difference.
fn count_steps(draft: &Draft, sheets: &[Sheet], counts: &mut Counts) {
    for (step, sheet) in draft.steps.iter().zip(&sheets[draft.leaves.len()..]) {
        counts.steps[step.component as usize - 1] += 1;
        counts.subtracts += usize::from(is_difference(step, sheet));
        counts.natures[match sheet.nature {
            Nature::Absent => 0,
            Nature::WholeRange(_) | Nature::FloatRange(_) => 1,
            _ => 2,
        }] += 1;
        if is_unary(step.component) && has_lists(sheet) {
            let left = sheets[step.left].encode();
            let derived = sheet.encode();
            counts.repeats.count(step.component, &left, &derived);
        }
        if sheet.nature.has_repeats() {
            counts
                .tally
                .differ(|| show(draft, "a derived list repeats a value"));
        }
    }
}

/// Counts a plan that meets the premises by who counts its leaves' lists.
fn count_leaves(draft: &Draft, sheets: &[Sheet], counting: &mut Counting) {
    let leaves = 0..draft.leaves.len();
    let listed = leaves.filter(|leaf| has_lists(&sheets[*leaf]));
    let (by_step, by_premise): (Vec<usize>, Vec<usize>) =
        listed.partition(|leaf| is_counted(*leaf, &draft.steps, sheets));
    for (counts, of_plan) in [
        (&mut counting.by_step, by_step),
        (&mut counting.by_premise, by_premise),
    ] {
        let several = |leaf: &usize| sheets[*leaf].nature.lists() > 1;
        counts[0] += usize::from(!of_plan.is_empty());
        counts[1] += usize::from(of_plan.iter().any(several));
    }
}

/// Turn 0 takes left everywhere, turn 1 right; the others choose step by step.
fn sides(random: &mut Random, steps: usize, turn: usize) -> Vec<Side> {
    let side = |random: &mut Random| match turn {
        0 => Side::Left,
        1 => Side::Right,
        _ => random.pick(&[Side::Left, Side::Right]),
    };
    (0..steps).map(|_| side(random)).collect()
}

fn try_row(draft: &Draft, sheets: &[Sheet], row: Row, counts: &mut Counts) {
    let far = row.numbers.iter().flatten().any(|n| n.bits() > 64);
    match violation(&draft.steps, sheets, row, counts) {
        Err(TooLong) => counts.given_up += 1,
        Ok(fault) => {
            counts.rows += 1;
            counts.beyond += usize::from(far);
            if let Some(fault) = fault {
                counts.tally.differ(|| show(draft, &fault));
            }
        }
    }
}

fn show(draft: &Draft, fault: &str) -> String {
    let leaves: Vec<String> = draft.leaves.iter().map(|sheet| hex(sheet)).collect();
    format!(
        "{fault}; plan {} leaves {}",
        hex(&draft.encode()),
        leaves.join(",")
    )
}

/// The work buffer after the plan calls, if the plan is accepted. A plan call that
/// differs from the others, or replies otherwise than its steps did one by one, is a
/// difference.
fn walk(draft: &Draft, wanted: Reply, counts: &mut Counts) -> Option<Vec<u8>> {
    let work = plans::lay_out(&draft.request(), 0);
    let plan = draft.encode();
    let mut first: Option<(Reply, Vec<u8>)> = None;
    for (name, answer) in PLANS {
        let mut lent = work.clone();
        let reply = answer(&plan, &mut lent);
        match &first {
            None => first = Some((reply, lent)),
            Some((wanted, bytes)) if *wanted == reply && *bytes == lent => (),
            Some(_) => counts
                .tally
                .differ(|| show(draft, &format!("{name} differs"))),
        }
    }
    let (reply, work) = first?;
    if reply != wanted {
        let fault = format!("reply {reply:?}, wanted {wanted:?}");
        counts.tally.differ(|| show(draft, &fault));
        return None;
    }
    counts.counting.refused += usize::from(reply.0 == MISCOUNTED);
    (reply.0 == 0).then_some(work)
}

/// The nodes' sheets after the plan calls, if the plan is accepted and meets the
/// premises.
fn run(draft: &Draft, wanted: Reply, counts: &mut Counts) -> Option<Vec<Sheet>> {
    let work = walk(draft, wanted, counts)?;
    let sheets: Option<Vec<Sheet>> = (0..draft.nodes())
        .map(|node| sheet_at(&work[SLOT * node..SLOT * (node + 1)]))
        .collect();
    let Some(sheets) = sheets else {
        counts.tally.differ(|| show(draft, "a slot holds no sheet"));
        return None;
    };
    let leaves = 0..draft.leaves.len();
    let odd: Vec<usize> = leaves
        .filter(|leaf| has_lists(&sheets[*leaf]) && !one_or_each(&sheets[*leaf]))
        .collect();
    let met = premises(draft.leaves.len(), &draft.steps, &sheets);
    if !odd.is_empty() {
        count_outside(draft, &sheets, &odd, met, counts);
        return None;
    }
    met.then_some(sheets)
}

/// An accepted plan with leaves of another count of lists. The premises ask for as much
/// as if they counted every leaf's lists themselves, since 29 has counted the others:
/// one that meets them is a difference.
fn count_outside(draft: &Draft, sheets: &[Sheet], odd: &[usize], met: bool, counts: &mut Counts) {
    if met {
        let fault = "the premises are met with a leaf of another count";
        return counts.tally.differ(|| show(draft, fault));
    }
    let combined = |step: &Step| {
        let both = has_lists(&sheets[step.left]) && has_lists(&sheets[step.right]);
        both && (odd.contains(&step.left) || odd.contains(&step.right))
    };
    counts.counting.outside += 1;
    counts.counting.elsewhere += usize::from(draft.steps.iter().any(combined));
}

fn sheet_at(slot: &[u8]) -> Option<Sheet> {
    let size = |at: usize| slot[at] as usize;
    let tail = match slot[6] {
        1 | 2 => 18 * size(2),
        _ => 9 * size(4),
    };
    let area = size(26) + 256 * size(27);
    Sheet::decode_unordered(slot.get(..80 + 13 * size(0) + tail + area)?).ok()
}

/// Whether a step is a range Subtract: nothing else under Subtract gives a range.
fn is_difference(step: &Step, sheet: &Sheet) -> bool {
    step.component == SUBTRACT && matches!(sheet.nature, Nature::WholeRange(_))
}

/// The premises of demand 3, over the sheets of an accepted plan. None is on
/// Subtract (document 02, S-4), and none on the count of a leaf's category lists
/// where a step counts them (S-5).
pub fn premises(leaves: usize, steps: &[Step], sheets: &[Sheet]) -> bool {
    let leaf_fits = |leaf: usize| match sheets[leaf].nature {
        Nature::WholeRange(_) => one_or_each(&sheets[leaf]),
        Nature::WholeLists(_) => {
            let counted = is_counted(leaf, steps, sheets);
            sheets[leaf].columns.is_some() && (counted || one_or_each(&sheets[leaf]))
        }
        _ => false,
    };
    (0..leaves).all(leaf_fits)
        && steps
            .iter()
            .all(|step| step_fits(step.component, &sheets[step.left], &sheets[step.right]))
}

/// Whether a sheet has one entry or list, or one for each of its own columns.
fn one_or_each(sheet: &Sheet) -> bool {
    let lists = sheet.nature.lists();
    sheet
        .columns
        .is_some_and(|columns| lists == 1 || lists as i64 == columns)
}

fn has_lists(sheet: &Sheet) -> bool {
    !matches!(
        sheet.nature,
        Nature::Absent | Nature::WholeRange(_) | Nature::FloatRange(_)
    )
}

/// Whether 29 has counted a leaf's lists by its own columns: some step reads it and
/// is Abs or Negative, or one of 2 to 5 or Pool with categories on both sides and a
/// sheet that states the leaf's own column count.
fn is_counted(leaf: usize, steps: &[Step], sheets: &[Sheet]) -> bool {
    let leaves = sheets.len() - steps.len();
    let counting = |(step, derived): (&Step, &Sheet)| {
        let both = has_lists(&sheets[step.left]) && has_lists(&sheets[step.right]);
        let own = derived.columns == sheets[leaf].columns;
        match step.component {
            _ if step.left != leaf && step.right != leaf => false,
            1 | 9 => true,
            2..=5 | POOL => both && own,
            _ => false,
        }
    };
    steps.iter().zip(&sheets[leaves..]).any(counting)
}

fn step_fits(component: u32, left: &Sheet, right: &Sheet) -> bool {
    let (Some(l), Some(r)) = (left.columns, right.columns) else {
        return false;
    };
    (l == r || l == 1 || r == 1)
        && match component {
            5 => (0..r as usize).all(|column| without_zero(right, column)),
            8 => left.data_type == INT && right.data_type == INT,
            _ => true,
        }
}

/// What a sheet states of a column: its own entry, or the only one.
fn stated<T>(lists: &[T], column: usize) -> Option<&T> {
    if lists.len() == 1 {
        return lists.first();
    }
    lists.get(column)
}

fn without_zero(divisor: &Sheet, column: usize) -> bool {
    match &divisor.nature {
        Nature::WholeRange(entries) => stated(entries, column).is_some_and(|(lower, upper)| {
            lower.is_some_and(|end| end > 0) || upper.is_some_and(|end| end < 0)
        }),
        Nature::WholeLists(lists) => stated(lists, column).is_some_and(|list| !list.contains(&0)),
        _ => false,
    }
}

/// What is false for this row, if anything.
pub fn violation(
    steps: &[Step],
    sheets: &[Sheet],
    row: Row,
    counts: &mut Counts,
) -> Result<Option<String>, TooLong> {
    let mut results = row.numbers;
    for (step, side) in steps.iter().zip(row.sides) {
        let node = results.len();
        let columns = sheets[node].columns.unwrap_or(0) as usize;
        let mut of_node = Vec::with_capacity(columns);
        for column in 0..columns {
            match result(step, side, &results, column)? {
                Some(value) => of_node.push(value),
                None => {
                    return Ok(Some(format!(
                        "node {node} column {column}: no exact result"
                    )))
                }
            }
        }
        if step.component == POOL {
            counts.sides[side as usize] += 1;
            counts.apart += usize::from(results[step.left] != results[step.right]);
        }
        results.push(of_node);
    }
    Ok(departure(steps, sheets, &results, counts))
}

/// The first result that leaves what its node's sheet states.
fn departure(
    steps: &[Step],
    sheets: &[Sheet],
    results: &[Vec<Exact>],
    counts: &mut Counts,
) -> Option<String> {
    let leaves = sheets.len() - steps.len();
    for (node, (sheet, columns)) in sheets.iter().zip(results).enumerate() {
        let step = node.checked_sub(leaves).map(|index| &steps[index]);
        if step.is_some_and(|step| is_difference(step, sheet)) {
            count_ends(sheet, columns, counts);
        }
        for (column, value) in columns.iter().enumerate() {
            counts.results += 1;
            if !keeps(sheet, column, value, counts) {
                let nature = &sheet.nature;
                return Some(format!(
                    "node {node} column {column}: {value:?} leaves {nature:?}"
                ));
            }
        }
    }
    None
}

/// Counts a step's results, and those that are an end of its sheet's.
fn count_ends(sheet: &Sheet, columns: &[Exact], counts: &mut Counts) {
    let Nature::WholeRange(entries) = &sheet.nature else {
        return;
    };
    for (column, value) in columns.iter().enumerate() {
        let (lower, upper) = stated(entries, column).copied().unwrap_or_default();
        counts.subtracted += 1;
        for (count, end) in counts.reached.iter_mut().zip([lower, upper]) {
            let end = end.map(|end| Exact::Small(i128::from(end)));
            *count += usize::from(end.as_ref() == Some(value));
        }
    }
}

/// A step's result in a column; an operand without that column leaves none.
fn result(
    step: &Step,
    side: Side,
    results: &[Vec<Exact>],
    column: usize,
) -> Result<Option<Exact>, TooLong> {
    let left = stated(&results[step.left], column);
    let right = stated(&results[step.right], column);
    match left.zip(right) {
        Some((left, _)) if step.component == POOL && side == Side::Left => Ok(Some(left.clone())),
        Some((_, right)) if step.component == POOL => Ok(Some(right.clone())),
        Some((left, right)) => exact(step.component, left, right),
        None => Ok(None),
    }
}

/// The exact result of a column; nothing where there is none.
fn exact(component: u32, left: &Exact, right: &Exact) -> Result<Option<Exact>, TooLong> {
    let value = match component {
        1 => Some(left.magnitude()),
        2 => Some(left.plus(right)),
        SUBTRACT => Some(left.minus(right)),
        4 => Some(left.times(right)),
        5 => left.quotient(right),
        6 => left.remainder(right),
        8 => left.power(right, MOST_BITS)?,
        9 => Some(left.negated()),
        _ => None,
    };
    match value {
        Some(value) if value.bits() > 2 * MOST_BITS => Err(TooLong),
        value => Ok(value),
    }
}

fn keeps(sheet: &Sheet, column: usize, value: &Exact, counts: &mut Counts) -> bool {
    let whole = |end: i64| Exact::Small(i128::from(end));
    match &sheet.nature {
        Nature::Absent => true,
        Nature::WholeRange(entries) => stated(entries, column).is_some_and(|(lower, upper)| {
            counts.ends += usize::from(lower.is_some()) + usize::from(upper.is_some());
            lower.map_or(true, |end| whole(end) <= *value)
                && upper.map_or(true, |end| *value <= whole(end))
        }),
        Nature::WholeLists(lists) => stated(lists, column).is_some_and(|list| {
            counts.lists += 1;
            list.iter().any(|category| whole(*category) == *value)
        }),
        _ => false,
    }
}

/// Tries at a step: operands that suit Modulo and Power are rare.
const TRIES: usize = 6;

/// Tries in a hundred that 29 refuses and that end the plan so.
const ENDED: usize = 30;

/// A plan whose steps meet the premises and are accepted one by one, but for a last
/// one that 29 may refuse; and the reply that it is to have.
fn draw(random: &mut Random, counts: &mut Counts) -> (Draft, Reply) {
    let nodes = match random.below(10) {
        0..=4 => random.between(2, 6),
        5..=8 => random.between(4, 12),
        _ => random.between(8, MOST_NODES as i64),
    } as usize;
    let kin = leaves::Kin::new(random);
    let leaves = 1 + random.below((nodes - 1).min(5));
    let sheets: Vec<Sheet> = (0..leaves).map(|_| kin.leaf(random)).collect();
    let mut draft = Draft::new(sheets.iter().map(Sheet::encode).collect());
    let mut nodes_so_far = Nodes {
        bytes: draft.leaves.clone(),
        sheets,
    };
    let mut misses = 0;
    while draft.nodes() < nodes && misses < 12 {
        let component = plans::component(random, &plans::ALL);
        let found = (0..TRIES).find_map(|_| nodes_so_far.try_step(random, component, counts));
        match found {
            Some(Tried::Accepted(step)) => draft.steps.push(step),
            Some(Tried::Miscounted(step)) => {
                let refused = draft.nodes() as u32;
                draft.steps.push(step);
                return (draft, (MISCOUNTED, refused));
            }
            None => misses += 1,
        }
    }
    let accepted = (0, draft.nodes() as u32);
    (draft, accepted)
}

/// A step that was tried: accepted, or refused with 29 and to be the plan's last.
enum Tried {
    Accepted(Step),
    Miscounted(Step),
}

/// The nodes of a plan that is being drawn.
struct Nodes {
    bytes: Vec<Vec<u8>>,
    sheets: Vec<Sheet>,
}

impl Nodes {
    /// Adds a step of the component on any operands, if it may stand and is accepted.
    fn try_step(
        &mut self,
        random: &mut Random,
        component: u32,
        counts: &mut Counts,
    ) -> Option<Tried> {
        let left = random.below(self.bytes.len());
        let right = if is_unary(component) {
            left
        } else {
            random.below(self.bytes.len())
        };
        if !step_fits(component, &self.sheets[left], &self.sheets[right]) {
            return None;
        }
        let step = Step {
            component,
            left,
            right,
        };
        let mut out = [0; SLOT];
        let node = self.bytes.len() as u32;
        let operands = (&self.bytes[left], &self.bytes[right]);
        let reply =
            plain_port::propagate_property(component, node, operands.0, operands.1, &mut out);
        if reply.0 != 0 {
            counts.log_refused += usize::from(component == LOG);
            let ends = reply.0 == MISCOUNTED && random.percent(ENDED);
            return ends.then_some(Tried::Miscounted(step));
        }
        let derived = &out[..reply.1 as usize];
        self.sheets
            .push(Sheet::decode_unordered(derived).expect("the port writes sheets"));
        self.bytes.push(derived.to_vec());
        Some(Tried::Accepted(step))
    }
}

#[cfg(test)]
mod tests {
    use super::*;
    use oracle_list::text;

    #[test]
    fn results_are_contained() {
        let counts = generated(1, 800);
        assert_eq!(counts.tally.differences, 0, "{counts}");
        for (name, steps) in NAMES.iter().zip(counts.steps) {
            assert_eq!(steps == 0, *name == "Log", "{counts}");
        }
        assert!(
            counts.ends > 5000 && counts.lists > 1000 && counts.beyond > 500,
            "{counts}"
        );
        let [left, right] = counts.sides;
        assert!(left.min(right).min(counts.apart) > 1000, "{counts}");
        let [lower, upper] = counts.reached;
        assert!(counts.subtracts > 150 && lower.min(upper) > 200, "{counts}");
        let counting = &counts.counting;
        assert!(
            counting.by_step[1].min(counting.by_premise[1]) > 40,
            "{counts}"
        );
        assert!(counting.outside.min(counting.refused) > 40, "{counts}");
        assert!(counting.elsewhere > 4, "{counts}");
        let repeats = &counts.repeats;
        assert!(repeats.lost > 50 && repeats.spared > 1, "{counts}");
    }

    /// The sheets of an accepted plan of two leaves and one step, and the step.
    fn walked(component: u32, left: &str, right: &str) -> (Vec<Sheet>, [Step; 1]) {
        let leaves = [text::sheet(left), text::sheet(right)];
        let step = Step {
            component,
            left: 0,
            right: 1,
        };
        let mut draft = Draft::new(leaves.iter().map(Sheet::encode).collect());
        draft.steps.push(step);
        let mut work = plans::lay_out(&draft.request(), 0);
        assert_eq!(
            plain_port::propagate_properties(&draft.encode(), &mut work),
            (0, 3)
        );
        let sheets = work.chunks(SLOT).map(|slot| sheet_at(slot).unwrap());
        (sheets.collect(), [step])
    }

    /// Whether such a plan meets the premises, and whether it holds for a row.
    fn holds(component: u32, left: &str, right: &str, row: [i128; 2]) -> (bool, bool) {
        let (sheets, steps) = walked(component, left, right);
        let fault = violation(&steps, &sheets, one_column(&row), &mut Counts::default());
        (premises(2, &steps, &sheets), fault == Ok(None))
    }

    /// A row of leaves of one column, for one step.
    fn one_column(numbers: &[i128]) -> Row {
        let number = |number: &i128| vec![Exact::Small(*number)];
        Row {
            numbers: numbers.iter().map(number).collect(),
            sides: vec![Side::Left],
        }
    }

    /// A row of two columns: whether it keeps to the sheets as they are, and to
    /// the pooled sheet narrowed to left's.
    fn pooled(side: Side) -> (bool, bool) {
        let columns = "W[0,3] columns=2";
        let (mut sheets, steps) = walked(POOL, columns, "W[10,12] columns=2");
        let keeps = |sheets: &[Sheet]| {
            let small = |numbers: [i128; 2]| numbers.map(Exact::Small).to_vec();
            let row = Row {
                numbers: vec![small([1, 2]), small([10, 12])],
                sides: vec![side],
            };
            let counts = &mut Counts::default();
            violation(&steps, sheets, row, counts) == Ok(None)
        };
        let wide = keeps(&sheets);
        sheets[2].nature = text::sheet(columns).nature;
        (wide, keeps(&sheets))
    }

    /// The side is read, and it holds for every column.
    #[test]
    fn a_pool_step_takes_its_side() {
        assert_eq!(pooled(Side::Left), (true, true));
        assert_eq!(pooled(Side::Right), (true, false));
        let small = |number| vec![Exact::Small(number), Exact::Small(-number)];
        let step = Step {
            component: POOL,
            left: 0,
            right: 1,
        };
        let results = [small(1), small(7)];
        let row = |side| [0, 1].map(|column| result(&step, side, &results, column).unwrap());
        assert_eq!(row(Side::Left).map(Option::unwrap).to_vec(), small(1));
        assert_eq!(row(Side::Right).map(Option::unwrap).to_vec(), small(7));
    }

    /// A text leaf takes a plan out of the claim, used or not.
    #[test]
    fn texts_are_outside_the_premises() {
        let (mut sheets, steps) = walked(2, "T{a}", "T{b}");
        assert!(!premises(2, &steps, &sheets));
        let (absent, modulo) = walked(6, "T{a}", "W[3,8]");
        assert!(!premises(2, &modulo, &absent));
        sheets.splice(1.., [text::sheet("W[1,2]"), text::sheet("W[2,4]")]);
        let used = [Step {
            component: 2,
            left: 1,
            right: 1,
        }];
        assert!(!premises(2, &used, &sheets));
        sheets[0] = text::sheet("W[1,2]");
        assert!(premises(2, &used, &sheets));
    }

    /// Subtract joins ranges; a row that leaves the ends that the original would
    /// state is seen, at each end.
    #[test]
    fn differences_of_ranges_are_contained() {
        assert_eq!(holds(SUBTRACT, "W[_,0]", "W[_,0]", [0, -1]), (true, true));
        let (mut sheets, steps) = walked(SUBTRACT, "W[3,8]", "W[1,2]");
        assert!(premises(2, &steps, &sheets));
        let keeps = |sheets: &[Sheet], row: [i128; 2], counts: &mut Counts| {
            violation(&steps, sheets, one_column(&row), counts) == Ok(None)
        };
        let mut counts = Counts::default();
        for row in [[3, 2], [8, 1], [8, 2]] {
            assert!(keeps(&sheets, row, &mut counts));
        }
        assert_eq!((counts.subtracted, counts.reached), (3, [1, 1]));
        sheets[2].nature = text::sheet("W[2,6]").nature;
        assert!(!keeps(&sheets, [3, 2], &mut counts));
        assert!(!keeps(&sheets, [8, 1], &mut counts));
        assert!(keeps(&sheets, [8, 2], &mut counts));
    }

    /// One leaf less itself: the sheet reads two numbers where the row has one.
    #[test]
    fn a_leaf_less_itself_is_contained() {
        let mut draft = Draft::new(vec![text::bytes("W[0,1]")]);
        draft.steps.push(Step {
            component: SUBTRACT,
            left: 0,
            right: 0,
        });
        let mut counts = Counts::default();
        let sheets = run(&draft, (0, 2), &mut counts).expect("an accepted plan");
        assert_eq!(sheets[1].nature, text::sheet("W[-1,1]").nature);
        for number in [0, 1] {
            try_row(&draft, &sheets, one_column(&[number]), &mut counts);
        }
        assert_eq!((counts.tally.differences, counts.rows), (0, 2));
        assert_eq!((counts.subtracted, counts.reached), (2, [0, 0]));
    }

    /// Values that Abs makes alike are one result: rows of both signs keep to what is
    /// left, there and in the step that reads it.
    #[test]
    fn values_that_become_one_are_contained() {
        let mut draft = Draft::new(vec![text::bytes("W{-3,3,5}")]);
        draft.steps = vec![plans::step(1, 0, 0), plans::step(2, 1, 1)];
        let mut counts = Counts::default();
        let sheets = run(&draft, (0, 3), &mut counts).expect("an accepted plan");
        assert_eq!(sheets[1].nature, text::sheet("W{3,5}").nature);
        assert_eq!(sheets[2].nature, text::sheet("W{6,8,10}").nature);
        count_steps(&draft, &sheets, &mut counts);
        assert_eq!((counts.repeats.lost, counts.tally.differences), (1, 0));
        for number in [-3, 3, 5] {
            let mut row = one_column(&[number]);
            row.sides.push(Side::Left);
            let fault = violation(&draft.steps, &sheets, row, &mut counts);
            assert_eq!(fault, Ok(None), "{number}");
        }
    }

    /// A plan of these leaves and steps: the reply, and whether it meets the premises
    /// if it is accepted.
    fn counted(leaves: &[&str], steps: &[(u32, usize, usize)]) -> ((u32, u32), Option<bool>) {
        let mut draft = Draft::new(leaves.iter().map(|leaf| text::bytes(leaf)).collect());
        let step = |&(component, left, right): &(u32, usize, usize)| Step {
            component,
            left,
            right,
        };
        draft.steps.extend(steps.iter().map(step));
        let mut work = plans::lay_out(&draft.request(), 0);
        let reply = plain_port::propagate_properties(&draft.encode(), &mut work);
        let sheets = || work.chunks(SLOT).map(|slot| sheet_at(slot).unwrap());
        let met = || premises(leaves.len(), &draft.steps, &sheets().collect::<Vec<_>>());
        (reply, (reply.0 == 0).then(met))
    }

    /// A leaf whose lists a step counts: the plan is refused, or the count was right. One
    /// that nobody counts has to have one list or one for each column by the premise.
    #[test]
    fn lists_are_counted_by_a_step_or_by_the_premise() {
        let (two, range) = ("W{1}{2} columns=3", "W[1,2] columns=3");
        let (met, unmet) = (Some(true), Some(false));
        assert_eq!(counted(&[two, range], &[(2, 0, 1)]), ((0, 3), unmet));
        let both = [(2, 0, 1), (9, 0, 0)];
        assert_eq!(counted(&[two, range], &both), ((29, 3), None));
        assert_eq!(counted(&[two], &[]), ((0, 1), unmet));
        for fitting in ["W{1} columns=3", "W{1}{2}{3} columns=3"] {
            assert_eq!(counted(&[fitting, range], &[(2, 0, 1)]), ((0, 3), met));
            assert_eq!(counted(&[fitting, range], &both), ((0, 4), met));
            assert_eq!(counted(&[fitting], &[]), ((0, 1), met));
        }
        // A range's entries are the premise's, whatever a step reads.
        let three = "W[1,2]*3 columns=2";
        let lists = "W{1} columns=2";
        assert_eq!(counted(&[three, lists], &[(2, 0, 1)]), ((0, 3), unmet));
    }

    /// Which steps count a leaf's lists: those that map them, and those that combine them
    /// with categories at the leaf's own column count.
    #[test]
    fn steps_that_count() {
        let counts = |component, left, right| {
            let (sheets, steps) = walked(component, left, right);
            [0, 1].map(|leaf| is_counted(leaf, &steps, &sheets))
        };
        let (one, two) = ("W{3}", "W{1}{2} columns=2");
        for component in [2, SUBTRACT, 4, 5] {
            assert_eq!(counts(component, two, two), [true, true]);
            // Two columns come out, and left has one.
            assert_eq!(counts(component, one, two), [false, true]);
            assert_eq!(counts(component, two, "W[3,4] columns=2"), [false, false]);
        }
        assert_eq!(counts(POOL, two, two), [true, true]);
        assert_eq!(counts(POOL, two, "W[3,4] columns=2"), [false, false]);
        assert_eq!(counts(6, two, "W[3,4] columns=2"), [false, false]);
        assert_eq!(counts(8, two, "W[3,4] columns=2"), [false, false]);
        let steps = [(1, 0, 0), (9, 1, 1)].map(|(component, left, right)| Step {
            component,
            left,
            right,
        });
        let sheets = [two, two, two].map(text::sheet);
        assert!(is_counted(0, &steps[..1], &sheets[..2]));
        assert!(is_counted(1, &steps[1..], &sheets));
        assert!(!is_counted(0, &steps[1..], &sheets));
    }

    /// Without "at that leaf's own column count" the claim is false: 29 has counted the
    /// lists of a leaf of one column by the two of the sum.
    #[test]
    fn lists_counted_at_other_columns_are_no_premise() {
        let (sheets, steps) = walked(2, "W{0}{0} columns=2", "W{1}{}");
        assert_eq!(sheets[2].nature, text::sheet("W{1}{}").nature);
        assert!(!premises(2, &steps, &sheets));
        let small = |numbers: &[i128]| numbers.iter().copied().map(Exact::Small).collect();
        let row = Row {
            numbers: vec![small(&[0, 0]), small(&[1])],
            sides: vec![Side::Left],
        };
        let fault = violation(&steps, &sheets, row, &mut Counts::default());
        let fault = fault.unwrap().expect("0 + 1 is in no list of column 1");
        assert!(
            fault.starts_with("node 2 column 1: Small(1) leaves"),
            "{fault}"
        );
    }

    /// Outside the premises there are counterexamples, and they are seen.
    #[test]
    fn counterexamples_are_seen() {
        assert_eq!(holds(5, "W[1,10]", "W[0,5]", [10, 1]), (false, false));
        assert_eq!(holds(5, "W[_,_]", "W[_,_]", [1, 0]), (false, false));
        assert_eq!(
            holds(8, "W[_,_] type=Float", "W[_,_] type=Float", [2, -1]),
            (false, false)
        );
        assert_eq!(holds(2, "W[1,2]", "W[1,2]", [2, 2]), (true, true));
        assert_eq!(holds(2, "W[1,2]", "W[1,2]", [2, 3]), (true, false));
    }
}
