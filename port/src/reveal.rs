//! One node's sheet, for a reader who may see it.

use crate::form::*;
use crate::plan::{check, slot, step, Plan};
use crate::sheet::{in_slot, Refusal};

/// The length of the sheet that is shown, or the refusal and its node.
pub fn reveal(
    plan: &[u8],
    owners: &[u8],
    reader: u64,
    wanted: u32,
    work: &mut [u8],
    out: &mut [u8],
) -> Result<u32, (Refusal, u32)> {
    let plan = Plan::read(plan).ok_or((1, NO_NODE))?;
    let node = wanted as usize;
    if node >= plan.nodes || owners.len() != WORD * plan.leaves {
        return Err((1, NO_NODE));
    }
    // Whichever node is wanted: its rights are not known yet.
    if work.len() < SLOT * plan.nodes {
        return Err((27, NO_NODE));
    }
    let walked = stands_on(&plan, node);
    if !is_shown(owners_of(&plan, walked, owners), reader) {
        return Err((30, wanted));
    }
    for leaf in members(walked, 0, plan.leaves) {
        check(leaf, work)?;
    }
    for node in members(walked, plan.leaves, plan.nodes) {
        step(&plan, node, work)?;
    }
    let sheet = in_slot(slot(work, node)).map_err(|code| (code, wanted))?;
    let out = out.get_mut(..sheet.len()).ok_or((27, NO_NODE))?;
    out.copy_from_slice(sheet);
    Ok(sheet.len() as u32)
}

/// A set of nodes, a bit for each: a plan has no more than 32.
type Nodes = u32;

/// The nodes of a set from `first` up to `end`, ascending.
fn members(set: Nodes, first: usize, end: usize) -> impl Iterator<Item = usize> {
    (first..end).filter(move |node| set >> node & 1 == 1)
}

/// A node and all that it stands on.
fn stands_on(plan: &Plan, node: usize) -> Nodes {
    let mut set = 1 << node;
    // Operands are earlier nodes, so that one way down finds them all.
    for node in (plan.leaves..=node).rev() {
        if set >> node & 1 == 1 {
            let step = plan.step(node);
            set |= 1 << step.left | 1 << step.right;
        }
    }
    set
}

/// The union of the owner sets of the leaves walked.
fn owners_of(plan: &Plan, walked: Nodes, owners: &[u8]) -> u64 {
    members(walked, 0, plan.leaves).fold(0, |all, leaf| all | word64(owners, WORD * leaf))
}

/// Whether all owners are in the reader's set, or there are enough of them.
fn is_shown(owners: u64, reader: u64) -> bool {
    owners & !reader == 0 || owners.count_ones() >= ENOUGH_OWNERS
}
