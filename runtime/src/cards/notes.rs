//! What a reader should know of the ranges that a card shows.
//!
//! The rules behind the notes on divide and left's marks are the original's, ported as they are, and pool's fields are as document 02 gives them; docs/DIFFERENCES.md has all of it in full.

use super::{State, Walked};
use crate::component::Component;
use crate::nature::{Bound, Nature};
use crate::quotes::has_numbers;
use crate::sheet::Sheet;
use crate::text::NamedPlan;

pub(super) fn of(walked: &Walked) -> Vec<String> {
    let derived = |node: &usize| walked.state(*node) == State::Derived;
    let mut notes: Vec<String> = (0..walked.nodes()).filter(derived).flat_map(|node| of_step(walked, node)).collect();
    notes.extend((0..walked.plan.plan.leaves).filter_map(|leaf| of_owners(walked, leaf)));
    let sheets: Vec<&Sheet> = (0..walked.nodes()).filter_map(|node| walked.sheet(node)).collect();
    notes.extend(of_signs(&sheets));
    notes
}

/// The notes on a sheet that is shown alone: what is said by its operands' sheets is left out.
pub(crate) fn of_one(plan: &NamedPlan, node: usize, sheet: &Sheet) -> Vec<String> {
    let mut notes: Vec<String> = of_overflow(&named(plan, node), sheet).into_iter().collect();
    notes.extend(of_signs(&[sheet]));
    notes
}

/// The notes as a card ends with them.
pub(crate) fn render(notes: &[String]) -> String {
    let lines: Vec<String> = notes.iter().map(|note| format!("Note: {note}\n")).collect();
    if lines.is_empty() {
        return String::new();
    }
    format!("\n{}", lines.concat())
}

fn named(plan: &NamedPlan, node: usize) -> String {
    format!("node {node} `{}`", plan.name(node))
}

/// What signs on the card stand for.
fn of_signs(sheets: &[&Sheet]) -> Vec<String> {
    let mut notes = Vec::new();
    if sheets.iter().any(|sheet| any_entry(sheet, |(l, u)| l == Bound::Absent || u == Bound::Absent)) {
        notes.push("-inf and +inf stand for an end that sets no bound.".to_string());
    }
    if sheets.iter().any(|sheet| has_escape(sheet)) {
        notes.push(r"in a text \xHH stands for one byte, and \u{..} for a character that is not shown.".to_string());
    }
    notes
}

fn of_overflow(name: &str, sheet: &Sheet) -> Option<String> {
    let meaning = "-overflow and +overflow stand for an end that is too far from zero for a float and so infinite";
    any_entry(sheet, infinite).then(|| format!("{name}: {meaning}; a step that uses this node is refused with 5."))
}

/// A leaf that was left out where others have owners: whoever left it out should know what it means.
fn of_owners(walked: &Walked, leaf: usize) -> Option<String> {
    let plan = &walked.plan;
    let given = plan.owners.get(leaf).is_some_and(Option::is_some);
    let private = walked.sheet(leaf).is_some_and(|sheet| !sheet.releasable);
    if given || !private || plan.stated_owners(leaf).is_none() {
        return None;
    }
    Some(format!("{}: it is private and no owners are given, so that `gate show` shows it to everybody.", named(plan, leaf)))
}

fn has_escape(sheet: &Sheet) -> bool {
    match &sheet.nature {
        Nature::TextCategories(lists) => lists.iter().flatten().any(|text| has_numbers(text)),
        _ => false,
    }
}

fn any_entry(sheet: &Sheet, test: impl Fn((Bound, Bound)) -> bool) -> bool {
    (0..sheet.nature.lists()).filter_map(|place| sheet.nature.entry(place)).any(test)
}

fn of_step(walked: &Walked, node: usize) -> Vec<String> {
    let mut notes = Vec::new();
    let name = named(&walked.plan, node);
    if too_narrow(walked, node) {
        let reason = "divide by a range with one end at zero takes its end from the other one";
        notes.push(format!("{name}: {reason}; results may lie outside of the range shown."));
    }
    if marked_by_left(walked, node) {
        notes.push(format!("{name}: it has left's marks and so counts as releasable, while right is private."));
    }
    notes.extend(of_pool(walked, node).into_iter().map(|text| format!("{name}: {text}.")));
    notes.extend(walked.sheet(node).and_then(|sheet| of_overflow(&name, sheet)));
    notes
}

/// The rule whose range need not hold every result.
fn too_narrow(walked: &Walked, node: usize) -> bool {
    let step = walked.plan.plan.step_of(node).filter(|step| step.component == Component::Divide);
    let Some((left, right)) = step.and_then(|step| Some((walked.sheet(step.left)?, walked.sheet(step.right)?))) else {
        return false;
    };
    left.nature.is_range() && right.nature.is_range() && one_zero_end(&left.nature, &right.nature)
}

/// Modulo, log and power copy left's marks, whatever right's are.
fn marked_by_left(walked: &Walked, node: usize) -> bool {
    let Some(step) = walked.plan.plan.step_of(node) else {
        return false;
    };
    let releasable = |node| walked.sheet(node).is_some_and(|sheet| sheet.releasable);
    step.component.copies_left() && releasable(step.left) && !releasable(step.right)
}

/// What pool does not keep account of: a log that stands in both operands, and the dataset that a row comes from.
fn of_pool(walked: &Walked, node: usize) -> Vec<String> {
    let step = walked.plan.plan.step_of(node).filter(|step| step.component == Component::Pool);
    let (Some(step), Some(sheet)) = (step, walked.sheet(node)) else {
        return Vec::new();
    };
    let mut notes = Vec::new();
    let (left, right) = (walked.plan.plan.leaves_below(step.left), walked.plan.plan.leaves_below(step.right));
    let private = |leaf: &usize| walked.sheet(*leaf).is_some_and(|sheet| !sheet.releasable);
    for leaf in left.intersection(&right).copied().filter(private) {
        let stability = sheet.c_stability;
        notes.push(format!(
            "both operands hold `{}`, so that one reading of it counts twice, while the c-stability stays {stability}",
            walked.name(leaf)
        ));
    }
    let stated = |node| walked.sheet(node).is_some_and(|sheet| sheet.dataset.is_some());
    if !sheet.releasable && (stated(step.left) || stated(step.right)) {
        notes.push(
            "its dataset id is absent; a sum with another pooled log is not refused with 9 or 13, whatever their datasets were".to_string(),
        );
    }
    notes
}

fn one_zero_end(left: &Nature, right: &Nature) -> bool {
    let zero = |bound| matches!(bound, Bound::Whole(0)) || matches!(bound, Bound::Float(end) if end == 0.0);
    let present = |(lower, upper)| lower != Bound::Absent && upper != Bound::Absent;
    let columns = left.lists().max(right.lists());
    (0..columns).any(|column| match (left.entry_for(column), right.entry_for(column)) {
        (Some(left), Some(right)) => present(left) && present(right) && zero(right.0) != zero(right.1),
        _ => false,
    })
}

/// Of a derived range the only fault under 5: no rule puts a lower end above its upper.
fn infinite((lower, upper): (Bound, Bound)) -> bool {
    let infinite = |bound| matches!(bound, Bound::Float(end) if end.is_infinite());
    infinite(lower) || infinite(upper)
}
