//! Safe functions over the three proved calls, on bytes and on values.

use crate::component::Component;
use crate::entries;
use crate::form::plan::{NO_NODE, SLOT};
use crate::form::NUMBER;
use crate::le::capped;
use crate::plan::Plan;
use crate::refusal::Refusal;
use crate::rinks::Rinks;
use crate::sheet::Sheet;
use std::error::Error;
use std::fmt;

/// Where a plan call, or the call that shows one node, stopped, and why.
#[derive(Clone, Copy, Debug, PartialEq, Eq)]
pub struct Stopped {
    /// Why.
    pub refusal: Refusal,
    /// The node; refusals 1 and 27 belong to none.
    pub node: Option<usize>,
}

impl fmt::Display for Stopped {
    fn fmt(&self, f: &mut fmt::Formatter<'_>) -> fmt::Result {
        match self.node {
            Some(node) => write!(f, "node {node} refused with {}", self.refusal),
            None => write!(f, "refused with {}", self.refusal),
        }
    }
}

impl Error for Stopped {}

/// Takes a reply apart: the value if the code is 0, else the refusal and the value.
fn outcome(reply: u64) -> Result<usize, (Refusal, u32)> {
    let (code, value) = (reply as u32, (reply >> 32) as u32);
    if code == 0 {
        return Ok(value as usize);
    }
    match Refusal::from_code(code) {
        Some(refusal) => Err((refusal, value)),
        // The proof gives codes 0 to 30: any other comes from a library made for another contract.
        None => unreachable!("the static library answered with code {code}, which this runtime does not know"),
    }
}

/// The proved single call: derives the sheet of `component` over two sheets into `out` and gives its length.
/// Later bytes of `out` stay as they are, and after a refusal all of them do. Abs and negative do not read `right`.
///
/// ```
/// use gate_runtime::form::plan::SLOT;
/// use gate_runtime::{propagate_property, DataType, Nature, Refusal, Sheet};
/// let left = Sheet::new(DataType::Int, Nature::whole_range(&[[-5, 3]])).encode();
/// let mut out = [0; SLOT];
/// let length = propagate_property(9, 0, &left, &[], &mut out).unwrap();
/// assert_eq!(length, left.len());
/// assert_eq!(propagate_property(0, 0, &left, &[], &mut out), Err(Refusal::NoSuchComponent));
/// ```
pub fn propagate_property(component: u32, node: u32, left: &[u8], right: &[u8], out: &mut [u8]) -> Result<usize, Refusal> {
    outcome(entries::single_call(component, node, left, right, out)).map_err(|(refusal, _)| refusal)
}

/// The plan call: walks `plan` over the sheets in the leaves' slots of `work`, writes each step's sheet into its slot and gives the node count.
/// After a refusal the sheets of earlier steps stand and no other byte has changed.
///
/// ```
/// use gate_runtime::{propagate_properties, Component, DataType, Nature, Plan, Sheet};
/// let mut plan = Plan::new(1);
/// plan.unary(Component::Abs, 0);
/// let mut work = plan.work(&[Sheet::new(DataType::Int, Nature::whole_range(&[[-7, -2]]))]);
/// assert_eq!(propagate_properties(&plan.encode(), &mut work), Ok(2));
/// ```
pub fn propagate_properties(plan: &[u8], work: &mut [u8]) -> Result<usize, Stopped> {
    outcome(entries::plan_call(plan, work)).map_err(stopped)
}

/// A refusal and its node.
fn stopped((refusal, node): (Refusal, u32)) -> Stopped {
    Stopped { refusal, node: (node != NO_NODE).then_some(node as usize) }
}

/// The call that shows one node: writes the sheet of node `wanted` into `out` and gives its length, if the reader may see it. `owners` are 8 bytes for each leaf ([`Rinks::encode`]), `reader` has a bit for each of the reader's rinks, and `slots` is a work buffer as the plan call takes it, with the sheets of the leaves.
/// Later bytes of `out` stay as they are, and after a refusal all of them do.
///
/// The call derives sheets that the reader may not see. They are written into a copy of `slots`, which ends with the call: `out` and the reply are all that leaves it.
///
/// ```
/// use gate_runtime::form::plan::SLOT;
/// use gate_runtime::{reveal_node, Component, DataType, Nature, Plan, Refusal, Rinks, Sheet};
/// let sheet = |low, high| Sheet::new(DataType::Int, Nature::whole_range(&[[low, high]])).with_rows(1).released();
/// let mut plan = Plan::new(2);
/// plan.step(Component::Add, 0, 1);
/// let slots = plan.work(&[sheet(1, 2), sheet(10, 20)]);
/// let owners = Rinks::encode(&[Rinks::of(&[3]).unwrap(), Rinks::of(&[17]).unwrap()]);
/// let mut out = [0; SLOT];
/// let mut show = |reader: &[u32]| {
///     reveal_node(&plan.encode(), &owners, Rinks::of(reader).unwrap().bits(), 2, &slots, &mut out)
/// };
/// assert_eq!(show(&[3]).unwrap_err().refusal, Refusal::NotForReader);
/// assert_eq!(show(&[3, 17]), Ok(98));
/// let sum = Sheet::decode(&out[..98]).unwrap();
/// assert_eq!(gate_runtime::show::nature(&sum.nature), "[+11, +22]");
/// ```
pub fn reveal_node(plan: &[u8], owners: &[u8], reader: u64, wanted: u32, slots: &[u8], out: &mut [u8]) -> Result<usize, Stopped> {
    let mut work = slots.to_vec();
    outcome(entries::reveal_call(plan, owners, reader, wanted, &mut work, out)).map_err(stopped)
}

/// The single call on values.
pub fn derive(component: Component, node: u32, left: &Sheet, right: &Sheet) -> Result<Sheet, Refusal> {
    let mut out = [0; SLOT];
    let (left, right) = (left.encode(), right.encode());
    let length = propagate_property(component.number(), node, &left, &right, &mut out)?;
    Sheet::decode(&out[..length]).map_err(|fault| fault.refusal)
}

/// What a plan call left behind.
#[derive(Clone, Debug)]
pub struct Walk {
    /// The node count, or where the call stopped.
    pub outcome: Result<usize, Stopped>,
    /// Each node's sheet, `None` from the refused node on; a leaf's also if its bytes cannot be read.
    pub sheets: Vec<Option<Sheet>>,
    /// The work buffer.
    pub work: Vec<u8>,
}

impl Plan {
    /// The plan call on values.
    pub fn walk(&self, leaves: &[Sheet]) -> Walk {
        let mut work = self.work(leaves);
        let outcome = propagate_properties(&self.encode(), &mut work);
        let standing = match outcome {
            Ok(nodes) => nodes,
            Err(Stopped { node: Some(node), .. }) => node.max(self.leaves),
            Err(_) => self.leaves,
        };
        let read = |(node, slot)| (node < standing).then(|| Sheet::decode_slot(slot).ok())?;
        let sheets = work.chunks_exact(SLOT).enumerate().map(read).collect();
        Walk { outcome, sheets, work }
    }

    /// The call that shows one node, on values: the sheet of node `wanted` if a reader with this set may see it, else the refusal. `owners` has a set for each leaf; another number of them is 1, as is a node that the plan does not have.
    ///
    /// ```
    /// use gate_runtime::{Component, DataType, Nature, Plan, Refusal, Rinks, Sheet, Stopped};
    /// let sheet = |low, high| Sheet::new(DataType::Int, Nature::whole_range(&[[low, high]])).with_rows(1).released();
    /// let mut plan = Plan::new(2);
    /// let sum = plan.step(Component::Add, 0, 1);
    /// let (leaves, owners) = ([sheet(1, 2), sheet(10, 20)], [[3], [17]].map(|rinks| Rinks::of(&rinks).unwrap()));
    /// let show = |reader: &[u32], node| plan.reveal(&leaves, &owners, Rinks::of(reader).unwrap(), node);
    /// assert_eq!(show(&[3], sum), Err(Stopped { refusal: Refusal::NotForReader, node: Some(sum) }));
    /// let shown = show(&[3, 17, 40], sum).unwrap();
    /// assert_eq!(gate_runtime::show::nature(&shown.nature), "[+11, +22]");
    /// assert_eq!(show(&[3], 0), Ok(leaves[0].clone()));
    /// ```
    pub fn reveal(&self, leaves: &[Sheet], owners: &[Rinks], reader: Rinks, wanted: usize) -> Result<Sheet, Stopped> {
        let mut out = [0; SLOT];
        // A node that 32 bits cannot hold is none of the plan's, and no more is the greatest that they can.
        let node = capped(wanted, NUMBER) as u32;
        let length = reveal_node(&self.encode(), &Rinks::encode(owners), reader.bits(), node, &self.work(leaves), &mut out)?;
        Sheet::decode(&out[..length]).map_err(|fault| Stopped { refusal: fault.refusal, node: Some(wanted) })
    }
}

#[cfg(test)]
mod tests {
    use super::*;
    use crate::nature::Nature;
    use crate::plan::Step;
    use crate::sheet::DataType;

    /// Steps over leaves without owners, of whole ranges; the work buffer has other bytes behind every sheet.
    struct Made {
        plan: Plan,
        work: Vec<u8>,
    }

    fn made(leaves: &[[i64; 2]], steps: &[(Component, usize, usize)]) -> Made {
        let steps = steps.iter().map(|&(component, left, right)| Step { component, left, right }).collect();
        let plan = Plan { leaves: leaves.len(), steps };
        let mut work = vec![0x5A; plan.nodes() * SLOT];
        for (slot, ends) in work.chunks_exact_mut(SLOT).zip(leaves) {
            let sheet = Sheet::new(DataType::Int, Nature::whole_range(&[*ends])).with_rows(1).released().encode();
            slot[..sheet.len()].copy_from_slice(&sheet);
        }
        Made { plan, work }
    }

    impl Made {
        /// The reply, and the nodes whose slots the call wrote; each of them holds 98 bytes of a sheet and no other change.
        fn asked(&self, owners: &[Rinks], wanted: u32, out: &mut [u8]) -> ((u32, u32), Vec<usize>) {
            let mut work = self.work.clone();
            let reply = entries::reveal_call(&self.plan.encode(), &Rinks::encode(owners), 0, wanted, &mut work, out);
            let pairs = work.chunks_exact(SLOT).zip(self.work.chunks_exact(SLOT));
            let written: Vec<usize> = pairs.clone().enumerate().filter(|(_, (new, old))| new != old).map(|(node, _)| node).collect();
            assert!(pairs.into_iter().all(|(new, old)| new[98..] == old[98..]));
            assert!(written.iter().all(|node| Sheet::decode_slot(&work[node * SLOT..]).is_ok()));
            ((reply as u32, (reply >> 32) as u32), written)
        }
    }

    const OPEN: [Rinks; 2] = [Rinks::NONE; 2];
    const NONE: u32 = NO_NODE;

    #[test]
    fn only_walked_steps_are_written() {
        let sum = made(&[[1, 2], [10, 20]], &[(Component::Add, 0, 1)]);
        let mut out = [0xA5; SLOT];
        assert_eq!(sum.asked(&OPEN, 2, &mut out), ((0, 98), vec![2]));
        assert!(out[98..].iter().all(|byte| *byte == 0xA5));
        assert_eq!(sum.asked(&OPEN, 0, &mut out), ((0, 98), vec![]));
        assert_eq!(out[..98], sum.work[..98]);
        let steps = [(Component::Multiply, 0, 0), (Component::Abs, 1, 1)];
        let apart = made(&[[1 << 62, 1 << 62], [10, 20]], &steps);
        assert_eq!(apart.asked(&OPEN, 3, &mut out), ((0, 98), vec![3]));
        assert_eq!(apart.asked(&OPEN, 2, &mut out), ((24, 2), vec![]));
    }

    #[test]
    fn a_refusal_leaves_the_output_and_what_was_walked_before_it() {
        let sum = made(&[[1, 2], [10, 20]], &[(Component::Add, 0, 1)]);
        let owned = [Rinks::from_bits(1), Rinks::NONE];
        let steps = [(Component::Negative, 1, 1), (Component::Negative, 0, 0), (Component::Add, 2, 3)];
        let deep = made(&[[i64::MIN, 0], [1, 2]], &steps);
        let mut out = [0xA5; SLOT];
        assert_eq!(sum.asked(&owned, 2, &mut out), ((30, 2), vec![]));
        assert_eq!(sum.asked(&owned[..1], 2, &mut out), ((1, NONE), vec![]));
        assert_eq!(sum.asked(&OPEN, 2, &mut out[..97]), ((27, NONE), vec![2]));
        assert_eq!(deep.asked(&OPEN, 4, &mut out), ((24, 3), vec![2]));
        assert!(out.iter().all(|byte| *byte == 0xA5));
    }
}
