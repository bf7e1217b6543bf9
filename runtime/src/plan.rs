//! Plans as values, and in bytes.

use crate::component::Component;
use crate::fault::Fault;
use crate::form::plan::{ARRAYS_AT, NODES, RIGHT_UNIT, SIZE, SLOT};
use crate::form::NUMBER;
use crate::le::{append, capped, number_at};
use crate::refusal::Refusal;
use crate::rinks::Rinks;
use crate::sheet::Sheet;
use std::collections::BTreeSet;

/// One step of a plan. For abs and negative both operands are the same node.
#[derive(Clone, Copy, Debug, PartialEq, Eq)]
pub struct Step {
    /// The component.
    pub component: Component,
    /// Left operand, an earlier node.
    pub left: usize,
    /// Right operand, an earlier node.
    pub right: usize,
}

/// A plan: nodes 0 to `leaves` − 1 are leaves, whose sheets are handed in; each step is one node more.
///
/// ```
/// use gate_runtime::{Component, DataType, Nature, Plan, Sheet};
/// let sheet = |low, high| {
///     Sheet::new(DataType::Int, Nature::whole_range(&[[low, high]])).with_rows(1).released()
/// };
/// let mut plan = Plan::new(2);
/// let sum = plan.step(Component::Add, 0, 1);
/// plan.unary(Component::Negative, sum);
/// let walk = plan.walk(&[sheet(1, 2), sheet(10, 20)]);
/// assert_eq!(walk.outcome, Ok(4));
/// let last = walk.sheets[3].as_ref().unwrap();
/// assert_eq!(gate_runtime::show::nature(&last.nature), "[-22, -11]");
/// ```
#[derive(Clone, Debug, PartialEq, Eq)]
pub struct Plan {
    /// Number of leaves.
    pub leaves: usize,
    /// Steps in order.
    pub steps: Vec<Step>,
}

impl Plan {
    /// A plan of leaves, without steps.
    pub fn new(leaves: usize) -> Plan {
        Plan { leaves, steps: Vec::new() }
    }

    /// Adds a step and gives its node.
    pub fn step(&mut self, component: Component, left: usize, right: usize) -> usize {
        self.steps.push(Step { component, left, right });
        self.nodes() - 1
    }

    /// Adds a step of abs or negative and gives its node.
    pub fn unary(&mut self, component: Component, operand: usize) -> usize {
        self.step(component, operand, operand)
    }

    /// Number of nodes.
    pub fn nodes(&self) -> usize {
        self.leaves + self.steps.len()
    }

    /// The step of a node that is no leaf.
    pub fn step_of(&self, node: usize) -> Option<&Step> {
        self.steps.get(node.checked_sub(self.leaves)?)
    }

    /// The leaves that a node stands on, itself if it is one; none of a node that the plan does not have.
    pub fn leaves_below(&self, node: usize) -> BTreeSet<usize> {
        if node >= self.nodes() {
            return BTreeSet::new();
        }
        let mut below = BTreeSet::from([node]);
        // Operands are earlier nodes, so that one way down finds all.
        for node in (0..=node).rev() {
            if let Some(step) = self.step_of(node).filter(|_| below.remove(&node)) {
                below.extend([step.left, step.right]);
            }
        }
        below
    }

    /// The owners of a node, for a set of each leaf: those of all leaves that it stands on. The proved call finds them by itself; these are shown.
    ///
    /// ```
    /// use gate_runtime::{Component, Plan, Rinks};
    /// let mut plan = Plan::new(3);
    /// let sum = plan.step(Component::Add, 0, 2);
    /// let owners = [&[3][..], &[40], &[3, 17]].map(|rinks| Rinks::of(rinks).unwrap());
    /// assert_eq!(plan.owners_of(&owners, sum).to_string(), "{3, 17}");
    /// ```
    pub fn owners_of(&self, owners: &[Rinks], node: usize) -> Rinks {
        let sets = self.leaves_below(node).into_iter().filter_map(|leaf| owners.get(leaf));
        sets.fold(Rinks::NONE, |all, set| all.union(*set))
    }

    /// The plan's bytes. Numbers that their field cannot hold are written as the greatest that it can: either makes the plan malformed (1).
    pub fn encode(&self) -> Vec<u8> {
        let mut bytes = Vec::with_capacity(ARRAYS_AT + self.steps.len() * 2 * NUMBER);
        append(&mut bytes, capped(self.nodes(), SIZE), SIZE);
        append(&mut bytes, capped(self.leaves, SIZE), SIZE);
        for step in &self.steps {
            append(&mut bytes, step.component.number().into(), NUMBER);
        }
        for step in &self.steps {
            let (left, right) = (capped(step.left, SIZE), capped(step.right, SIZE));
            append(&mut bytes, left + RIGHT_UNIT * right, NUMBER);
        }
        bytes
    }

    /// Reads a plan, or says why it is malformed. The proved plan call judges a plan; this reader shows it.
    ///
    /// ```
    /// use gate_runtime::Plan;
    /// let fault = Plan::decode(&[0, 0, 0, 0]).unwrap_err();
    /// assert_eq!(fault.what, "nodes: 0, permitted 1 to 32");
    /// ```
    pub fn decode(bytes: &[u8]) -> Result<Plan, Fault> {
        if bytes.len() < ARRAYS_AT {
            return malformed(format!("length: {} bytes, at least {ARRAYS_AT}", bytes.len()));
        }
        let nodes = number_at(bytes, 0, SIZE) as usize;
        let leaves = number_at(bytes, SIZE, SIZE) as usize;
        if !(1..=NODES).contains(&nodes) {
            return malformed(format!("nodes: {nodes}, permitted 1 to {NODES}"));
        }
        if !(1..=nodes).contains(&leaves) {
            return malformed(format!("leaves: {leaves}, permitted 1 to {nodes}"));
        }
        let wanted = ARRAYS_AT + (nodes - leaves) * 2 * NUMBER;
        if bytes.len() != wanted {
            let found = bytes.len();
            return malformed(format!("length: {found} bytes, the sizes call for {wanted}"));
        }
        let steps: Result<Vec<Step>, Fault> = (leaves..nodes).map(|node| step_at(bytes, nodes - leaves, node - leaves, node)).collect();
        Ok(Plan { leaves, steps: steps? })
    }

    /// A work buffer with the leaves' sheets in their slots and zeros elsewhere. A sheet longer than a slot is cut: one of its sizes is over its limit, and the sizes alone make it 3.
    pub fn work(&self, leaves: &[Sheet]) -> Vec<u8> {
        let mut work = vec![0; self.nodes() * SLOT];
        for (slot, sheet) in work.chunks_exact_mut(SLOT).zip(leaves).take(self.leaves) {
            let bytes = sheet.encode();
            let length = bytes.len().min(SLOT);
            slot[..length].copy_from_slice(&bytes[..length]);
        }
        work
    }
}

fn malformed<T>(what: String) -> Result<T, Fault> {
    Err(Fault::new(Refusal::MalformedPlan, what))
}

fn step_at(bytes: &[u8], count: usize, place: usize, node: usize) -> Result<Step, Fault> {
    let number = number_at(bytes, ARRAYS_AT + place * NUMBER, NUMBER) as u32;
    let operands = number_at(bytes, ARRAYS_AT + (count + place) * NUMBER, NUMBER);
    let (left, right) = ((operands % RIGHT_UNIT) as usize, (operands / RIGHT_UNIT) as usize);
    let Some(component) = Component::from_number(number) else {
        return malformed(format!("node {node}: component {number}, {}", Component::PERMITTED));
    };
    for operand in [left, right] {
        if operand >= node {
            return malformed(format!("node {node}: operand {operand} is no earlier node"));
        }
    }
    if component.is_unary() && left != right {
        return malformed(format!("node {node}: {component} has two operands, {left} and {right}"));
    }
    Ok(Step { component, left, right })
}
