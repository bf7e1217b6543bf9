//! Causes of a refusal to show one node, by plan, owners and reader alone.

use super::no_cause;
use crate::plan::Plan;
use crate::refusal::Refusal;
use crate::rinks::Rinks;

/// What is said in place of a cause that sheets would tell: they may be others than the reader's.
pub const WITHHELD: &str = "what of the sheets caused it is not said: the reader need not be allowed to see them";

/// Why a node was not shown. Of 1, 27 and 30, which read no sheet, it is said in full; every other refusal is caused by sheets, of which nothing is said.
///
/// ```
/// use gate_runtime::{causes, Plan, Refusal, Rinks};
/// let owners = [Rinks::of(&[3, 17, 40]).unwrap()];
/// let texts = causes::of_reveal(Refusal::NotForReader, &Plan::new(1), &owners, Rinks::of(&[3]).unwrap(), 0);
/// assert_eq!(texts[0], "owners outside of the reader's set {3}: {17, 40}");
/// assert_eq!(texts[1], "it has 3 owners {3, 17, 40}; with five or more it would be shown to everybody");
/// ```
pub fn of_reveal(refusal: Refusal, plan: &Plan, owners: &[Rinks], reader: Rinks, wanted: usize) -> Vec<String> {
    match refusal {
        Refusal::MalformedPlan => vec![of_request(plan, owners, wanted)],
        Refusal::NotForReader => of_rights(plan.owners_of(owners, wanted), reader),
        Refusal::OutputTooShort => vec!["the work buffer or the output is too short".to_string()],
        _ => vec![WITHHELD.to_string()],
    }
}

/// 30. Where it is given, someone is outside and there are fewer than five.
fn of_rights(owners: Rinks, reader: Rinks) -> Vec<String> {
    let outside = owners.outside(reader);
    if outside.is_empty() {
        return no_cause();
    }
    let count = if owners.count() == 1 { "1 owner".to_string() } else { format!("{} owners", owners.count()) };
    vec![
        format!("owners outside of the reader's set {reader}: {outside}"),
        format!("it has {count} {owners}; with five or more it would be shown to everybody"),
    ]
}

/// 1: the plan itself, the node, and the owner sets, as they are tested.
fn of_request(plan: &Plan, owners: &[Rinks], wanted: usize) -> String {
    let nodes = plan.nodes();
    match Plan::decode(&plan.encode()) {
        Err(fault) => fault.what,
        Ok(_) if wanted >= nodes => format!("node {wanted}: the plan has nodes 0 to {}", nodes - 1),
        Ok(_) if plan.leaves == 1 => format!("owner sets: {}, the plan has 1 leaf", owners.len()),
        Ok(_) => format!("owner sets: {}, the plan has {} leaves", owners.len(), plan.leaves),
    }
}
