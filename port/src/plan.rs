//! The plan call.

use crate::form::*;
use crate::sheet::{in_slot, Refusal, Sheet};
use crate::single::derive;

/// A well-formed plan.
#[derive(Clone, Copy)]
pub struct Plan<'a> {
    pub nodes: usize,
    pub leaves: usize,
    components: &'a [u8],
    operands: &'a [u8],
}

pub struct Step {
    component: u32,
    pub left: usize,
    pub right: usize,
}

impl<'a> Plan<'a> {
    pub fn read(bytes: &'a [u8]) -> Option<Plan<'a>> {
        if bytes.len() < 4 {
            return None;
        }
        let (nodes, leaves) = (word16(bytes, 0), word16(bytes, 2));
        if !(1..=MOST_NODES).contains(&nodes) || !(1..=nodes).contains(&leaves) {
            return None;
        }
        let steps = nodes - leaves;
        if bytes.len() != 4 + 8 * steps {
            return None;
        }
        let (components, operands) = bytes[4..].split_at(4 * steps);
        let plan = Plan {
            nodes,
            leaves,
            components,
            operands,
        };
        let permitted = |node: usize| {
            let step = plan.step(node);
            (ABS..=POOL).contains(&step.component)
                && step.left < node
                && step.right < node
                && (!is_unary(step.component) || step.left == step.right)
        };
        (leaves..nodes).all(permitted).then_some(plan)
    }

    pub fn step(&self, node: usize) -> Step {
        let at = 4 * (node - self.leaves);
        let operands = word32(self.operands, at);
        Step {
            component: word32(self.components, at),
            left: (operands & 0xffff) as usize,
            right: (operands >> 16) as usize,
        }
    }
}

pub fn slot(work: &[u8], node: usize) -> &[u8] {
    &work[SLOT * node..SLOT * (node + 1)]
}

/// The node count, or the refusal and its node.
pub fn walk(plan: &[u8], work: &mut [u8]) -> Result<u32, (Refusal, u32)> {
    let plan = Plan::read(plan).ok_or((1, NO_NODE))?;
    if work.len() < SLOT * plan.nodes {
        return Err((27, NO_NODE));
    }
    for leaf in 0..plan.leaves {
        check(leaf, work)?;
    }
    for node in plan.leaves..plan.nodes {
        step(&plan, node, work)?;
    }
    Ok(plan.nodes as u32)
}

/// Checks 3 to 5 of a leaf.
pub fn check(leaf: usize, work: &[u8]) -> Result<(), (Refusal, u32)> {
    let checked = in_slot(slot(work, leaf)).and_then(Sheet::read);
    checked.map(drop).map_err(|code| (code, leaf as u32))
}

/// Reads earlier slots and writes its own alone.
pub fn step(plan: &Plan, node: usize, work: &mut [u8]) -> Result<(), (Refusal, u32)> {
    let derived = derive_in(plan, node, work);
    derived.map(drop).map_err(|code| (code, node as u32))
}

fn derive_in(plan: &Plan, node: usize, work: &mut [u8]) -> Result<usize, Refusal> {
    let Step {
        component,
        left,
        right,
    } = plan.step(node);
    let (earlier, rest) = work.split_at_mut(SLOT * node);
    let left = in_slot(slot(earlier, left))?;
    let right = in_slot(slot(earlier, right))?;
    derive(component, node as u32, left, right, &mut rest[..SLOT])
}
