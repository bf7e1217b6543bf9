//! What of the operands caused a refusal, in words.
//!
//! The number always comes from the proved call. The functions here look at the same operands afterwards and name the fields, columns or pairs that the refusal speaks of.

mod arithmetic;
mod bounds;
mod counts;
mod rights;

pub use rights::{of_reveal, WITHHELD};

use crate::calls::{propagate_property, Stopped, Walk};
use crate::component::Component;
use crate::fault::Fault;
use crate::form::plan::SLOT;
use crate::form::NARROW;
use crate::nature::{Bound, Nature};
use crate::plan::Plan;
use crate::refusal::Refusal;
use crate::sheet::{DataType, Sheet};
use crate::show;

/// A single call, as it was made.
#[derive(Clone, Copy, Debug)]
pub struct Call<'a> {
    /// The component's number.
    pub component: u32,
    /// The left sheet.
    pub left: &'a [u8],
    /// The right sheet.
    pub right: &'a [u8],
    /// Bytes of the output.
    pub out_len: usize,
    /// Names of left and right; empty if they have none.
    pub names: [&'a str; 2],
}

/// Why a single call was refused.
///
/// ```
/// use gate_runtime::form::plan::SLOT;
/// use gate_runtime::{causes, propagate_property, DataType, Ends, Nature, Sheet};
/// let sheet = |nature| Sheet::new(DataType::Int, nature).with_rows(1).released().encode();
/// let left = sheet(Nature::whole_range(&[[1, 10]]));
/// let right = sheet(Nature::WholeRange(vec![Ends { lower: None, upper: Some(5) }]));
/// let refusal = propagate_property(5, 0, &left, &right, &mut [0; SLOT]).unwrap_err();
/// let call = causes::Call { component: 5, left: &left, right: &right, out_len: SLOT, names: ["", ""] };
/// assert_eq!(
///     causes::of_single(refusal, &call)[0],
///     "column 1: left [+1, +10], right [-inf, +5]: right has no lower end, and its upper end is 0 or above"
/// );
/// ```
pub fn of_single(refusal: Refusal, call: &Call) -> Vec<String> {
    let Some(component) = Component::from_number(call.component) else {
        return vec![format!("component: {}, {}", call.component, Component::PERMITTED)];
    };
    let role = if component.is_unary() { "operand" } else { "left" };
    let mut sides = vec![Side::read(role, call.names[0], call.left)];
    if !component.is_unary() {
        sides.push(Side::read("right", call.names[1], call.right));
    }
    if let Some(cause) = sides.iter().find_map(|side| side.sheet_cause(refusal)) {
        return cause;
    }
    if refusal == Refusal::OutputTooShort {
        return vec![output_cause(call)];
    }
    let sheets: Vec<Named> = sides.iter().filter_map(Side::named).collect();
    let pair = match &sheets[..] {
        [left] => Pair { component, left, right: left },
        [left, right] => Pair { component, left, right },
        _ => return no_cause(),
    };
    let found = pair.causes(refusal);
    if found.is_empty() {
        return no_cause();
    }
    found
}

/// Why a leaf was refused: 3, 4 or 5.
pub fn of_leaf(refusal: Refusal, bytes: &[u8]) -> Vec<String> {
    Side::read("", "", bytes).sheet_cause(refusal).unwrap_or_else(no_cause)
}

/// Why a plan call was refused without a node: 1 or 27.
pub fn of_plan(refusal: Refusal, plan: &[u8], work_len: usize) -> Vec<String> {
    match (refusal, Plan::decode(plan)) {
        (Refusal::MalformedPlan, Err(fault)) => vec![fault.what],
        (Refusal::OutputTooShort, Ok(plan)) => {
            let (nodes, wanted) = (plan.nodes(), plan.nodes() * SLOT);
            vec![format!("work buffer: {work_len} bytes, {nodes} nodes need {wanted}")]
        }
        _ => no_cause(),
    }
}

/// Why a walk stopped; `names` are the nodes' names.
pub fn of_walk(plan: &Plan, walk: &Walk, stopped: Stopped, names: &[String]) -> Vec<String> {
    let Some(node) = stopped.node else {
        return of_plan(stopped.refusal, &plan.encode(), walk.work.len());
    };
    let sheet = |node: usize| {
        let slot = walk.work.chunks_exact(SLOT).nth(node);
        slot.map_or(&[][..], |slot| NARROW.sheet_in(slot))
    };
    let Some(step) = plan.step_of(node) else {
        return of_leaf(stopped.refusal, sheet(node));
    };
    let name = |node: usize| names.get(node).map_or("", String::as_str);
    let call = Call {
        component: step.component.number(),
        left: sheet(step.left),
        right: sheet(step.right),
        out_len: SLOT,
        names: [name(step.left), name(step.right)],
    };
    of_single(stopped.refusal, &call)
}

/// Given only if the number and the operands do not belong together.
fn no_cause() -> Vec<String> {
    vec![NO_CAUSE.to_string()]
}

/// The text where no cause is found: it never goes with a refusal that a proved call gave for these operands.
pub const NO_CAUSE: &str = "these operands do not show the cause";

/// The proved call, given enough room, tells the length.
fn output_cause(call: &Call) -> String {
    let mut out = [0; SLOT];
    let needed = propagate_property(call.component, 0, call.left, call.right, &mut out);
    format!("output: {} bytes, the derived sheet has {}", call.out_len, needed.unwrap_or(0))
}

/// An operand as it was handed in.
struct Side {
    label: String,
    sheet: Result<Sheet, Fault>,
}

/// An operand that could be read.
struct Named<'a> {
    label: &'a str,
    sheet: &'a Sheet,
}

impl Side {
    fn read(role: &str, name: &str, bytes: &[u8]) -> Side {
        let label = if name.is_empty() { role.to_string() } else { format!("{role} `{name}`") };
        let sheet = Sheet::decode(bytes);
        Side { label, sheet }
    }

    fn named(&self) -> Option<Named<'_>> {
        let sheet = self.sheet.as_ref().ok()?;
        Some(Named { label: &self.label, sheet })
    }

    /// 3, 4 and 5 are about one sheet; left's come before right's.
    fn sheet_cause(&self, refusal: Refusal) -> Option<Vec<String>> {
        let prefix = if self.label.is_empty() { String::new() } else { format!("{}, ", self.label) };
        match &self.sheet {
            Err(fault) if fault.refusal == refusal => Some(vec![format!("{prefix}{}", fault.what)]),
            Ok(sheet) if refusal == Refusal::BadBound => {
                let texts: Vec<String> = bad_entries(sheet).map(|text| format!("{prefix}{text}")).collect();
                (!texts.is_empty()).then_some(texts)
            }
            _ => None,
        }
    }
}

/// "column 2", or "every column" where one entry stands for several.
fn column_name(sheet: &Sheet, place: usize) -> String {
    if sheet.nature.lists() == 1 && sheet.columns != Some(1) {
        return "every column".to_string();
    }
    format!("column {}", place + 1)
}

fn bad_entries(sheet: &Sheet) -> impl Iterator<Item = String> + '_ {
    (0..sheet.nature.lists()).filter_map(|place| {
        let entry = sheet.nature.entry(place)?;
        let fault = bad_entry(entry)?;
        Some(format!("{}: {}: {fault}", column_name(sheet, place), show::entry(entry)))
    })
}

fn bad_entry((lower, upper): (Bound, Bound)) -> Option<String> {
    let fault = |(end, bound)| match bound {
        Bound::Float(number) if number.is_nan() => Some(format!("the {end} end is not a number")),
        Bound::Float(number) if number.is_infinite() => Some(format!("the {end} end is infinite")),
        _ => None,
    };
    let faults: Vec<String> = [("lower", lower), ("upper", upper)].into_iter().filter_map(fault).collect();
    if !faults.is_empty() {
        return Some(faults.join(", "));
    }
    let exceeds = match (lower, upper) {
        (Bound::Whole(lower), Bound::Whole(upper)) => lower > upper,
        (Bound::Float(lower), Bound::Float(upper)) => lower > upper,
        _ => false,
    };
    exceeds.then(|| "the lower end exceeds the upper".to_string())
}

/// A component and its operands, both well formed. For abs and negative right is left.
struct Pair<'a> {
    component: Component,
    left: &'a Named<'a>,
    right: &'a Named<'a>,
}

impl Pair<'_> {
    fn causes(&self, refusal: Refusal) -> Vec<String> {
        match refusal {
            Refusal::Aggregated | Refusal::Sampled => self.private_side(refusal),
            Refusal::GroupsDiffer => vec![self.both("groups", |s| show::groups(&s.groups))],
            Refusal::DatasetsDiffer => {
                vec![self.both("dataset ids", |s| show::optional(s.dataset))]
            }
            Refusal::StabilitiesDiffer => {
                vec![self.both("c-stabilities", |s| s.c_stability.to_string())]
            }
            Refusal::NoColumnCount => self.absent_columns(),
            Refusal::ColumnsDiffer => vec![self.column_counts()],
            Refusal::RowsClash => self.rows(),
            Refusal::DataTypes => vec![self.data_types()],
            Refusal::BoundsUnsuited => self.unsuited(),
            Refusal::BoundsCondition => self.conditions(),
            Refusal::MixedRanges => vec![self.both("ranges", described)],
            Refusal::BoundListCount => self.range_counts(),
            Refusal::FloatCategories => self.side_where(|s| matches!(s.nature, Nature::FloatCategories(_))),
            Refusal::NoCategoryLists => self.side_where(|s| s.nature.lists() == 0),
            Refusal::CategoryListCount => self.list_counts(),
            Refusal::CategoryKindsDiffer => {
                vec![self.both("natures", |s| s.nature.name().to_string())]
            }
            Refusal::NoCategoryRule => vec![self.no_rule()],
            Refusal::DivideMayMeetZero => self.meets_zero(),
            Refusal::WholeOverflow => self.overflow(),
            Refusal::TooManyCategories => self.too_many(),
            Refusal::TooMuchText => self.too_much_text(),
            // 1 to 5 and 27 are explained before; 25 is never given, and 30 by no step.
            _ => Vec::new(),
        }
    }

    fn sides(&self) -> Vec<&Named<'_>> {
        if self.component.is_unary() {
            return vec![self.left];
        }
        vec![self.left, self.right]
    }

    fn both(&self, field: &str, value: impl Fn(&Sheet) -> String) -> String {
        let words: Vec<String> = self.sides().iter().map(|side| format!("{} {}", side.label, value(side.sheet))).collect();
        format!("{field}: {}", words.join(", "))
    }

    /// 6 and 7, of the first operand that meets it.
    fn private_side(&self, refusal: Refusal) -> Vec<String> {
        let cause = |side: &&Named| {
            let sheet = side.sheet;
            let stated = match refusal {
                Refusal::Aggregated => sheet.aggregator.map(|n| format!("aggregator {n}")),
                _ => sheet.sample.filter(|p| *p != 1.0).map(|p| format!("sample proportion {p}")),
            };
            let stated = stated.filter(|_| !sheet.releasable)?;
            Some(format!("{}: {stated}, and it is not releasable", side.label))
        };
        self.sides().iter().find_map(cause).into_iter().collect()
    }

    fn absent_columns(&self) -> Vec<String> {
        let read = if self.component.copies_left() { vec![self.left] } else { self.sides() };
        read.iter().filter(|side| side.sheet.columns.is_none()).map(|side| format!("{}: columns absent", side.label)).collect()
    }

    fn column_counts(&self) -> String {
        let counts = self.both("columns", |s| show::optional(s.columns));
        match self.component {
            Component::Pool => format!("{counts}: pool needs equal counts"),
            _ => counts,
        }
    }

    fn rows(&self) -> Vec<String> {
        vec![
            self.both("rows", |s| show::optional(s.rows)),
            self.both("dataset ids", |s| show::optional(s.dataset)),
            "and neither operand is releasable with 1 row".to_string(),
        ]
    }

    fn data_types(&self) -> String {
        let wanted = match self.component {
            Component::Log => "log needs a left operand of type float",
            Component::Modulo => "modulo needs both int or both float",
            Component::Power => "power needs both int or both float",
            _ => "they must be equal",
        };
        let types = self.both("data types", |s| s.data_type.word().to_string());
        format!("{types}: {wanted}")
    }

    /// Columns of the derived sheet.
    fn columns(&self) -> usize {
        let own = |side: &Named| side.sheet.columns.unwrap_or(0).clamp(0, NARROW.columns) as usize;
        if self.component.is_unary() || self.component.copies_left() {
            return own(self.left);
        }
        own(self.left).max(own(self.right))
    }

    /// 19 and 20, of the first operand that meets it.
    fn side_where(&self, test: fn(&Sheet) -> bool) -> Vec<String> {
        let met = self.sides().into_iter().find(|side| test(side.sheet));
        met.map(|side| format!("{}: {}", side.label, described(side.sheet))).into_iter().collect()
    }

    fn no_rule(&self) -> String {
        let kind = self.left.sheet.nature.name();
        let of_float = self.component == Component::Power && self.left.sheet.data_type == DataType::Float;
        let of = if of_float { " of type float" } else { "" };
        format!("{}: {}: {}{of} has no rule for {kind}", self.left.label, described(self.left.sheet), self.component)
    }
}

/// The kind of nature, and what it says.
fn described(sheet: &Sheet) -> String {
    match &sheet.nature {
        Nature::Absent => "absent nature".to_string(),
        nature if nature.lists() == 0 => show::nature(nature),
        nature => format!("{} {}", nature.name(), show::nature(nature)),
    }
}
