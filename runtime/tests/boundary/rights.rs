//! One node for one reader: S-7's examples with their exact replies, and generated runs held against the two other calls.

use crate::canaries::{drawn_plan, Guarded};
use crate::made::{whole, Draws};
use gate_runtime::causes::{self, NO_CAUSE, WITHHELD};
use gate_runtime::form::plan::SLOT;
use gate_runtime::form::NARROW;
use gate_runtime::{propagate_properties, propagate_property, reveal_node, show, Component, Plan, Refusal, Rinks, Sheet, Step, Stopped};
use std::collections::BTreeMap;

/// The value of a reply that belongs to no node.
const NONE: u32 = 65_535;
const UNTOUCHED: u8 = 0xA5;

/// A plan of whole ranges, with its leaves' owners.
pub struct Made {
    plan: Plan,
    leaves: Vec<Sheet>,
    owners: Vec<Rinks>,
}

type Steps<'a> = &'a [(Component, usize, usize)];

fn rinks(rinks: &[u32]) -> Rinks {
    Rinks::of(rinks).expect("rinks below 64")
}

/// Leaves `W[a,b]`; those that the owners do not reach have none.
fn made(leaves: &[[i64; 2]], steps: Steps, owners: &[&[u32]]) -> Made {
    let steps = steps.iter().map(|&(component, left, right)| Step { component, left, right }).collect();
    let owner = |leaf: usize| owners.get(leaf).map_or(Rinks::NONE, |set| rinks(set));
    Made {
        plan: Plan { leaves: leaves.len(), steps },
        leaves: leaves.iter().map(|ends| whole(&[*ends])).collect(),
        owners: (0..leaves.len()).map(owner).collect(),
    }
}

/// `W[1,2]`, `W[10,20]` and their sum.
fn sum(owners: &[&[u32]]) -> Made {
    made(&[[1, 2], [10, 20]], &[(Component::Add, 0, 1)], owners)
}

/// Code and value, as the reply has them.
fn parts(reply: &Result<usize, Stopped>) -> (u32, u32) {
    match reply {
        Ok(length) => (0, *length as u32),
        Err(stopped) => (stopped.refusal.code(), stopped.node.map_or(NONE, |node| node as u32)),
    }
}

/// The call on bytes between canaries: gives code and value, and the sheet that was written.
fn guarded(plan: &[u8], owners: &[u8], reader: u64, wanted: u32, slots: &[u8], out_len: usize) -> ((u32, u32), Vec<u8>) {
    let lent = [plan, owners, slots].map(Guarded::new);
    let mut out = Guarded::new(&vec![UNTOUCHED; out_len]);
    let reply = reveal_node(lent[0].lent(), lent[1].lent(), reader, wanted, lent[2].lent(), out.lent_mut());
    lent.iter().chain([&out]).for_each(Guarded::check_sides);
    assert_eq!([0, 1, 2].map(|place| lent[place].lent()), [plan, owners, slots]);
    let written = reply.unwrap_or(0);
    assert!(out.lent()[written..].iter().all(|byte| *byte == UNTOUCHED), "a byte behind the sheet changed");
    (parts(&reply), out.lent()[..written].to_vec())
}

impl Made {
    fn slots(&self) -> Vec<u8> {
        self.plan.work(&self.leaves)
    }

    /// On bytes and on values: the same reply and the same sheet.
    fn asked(&self, reader: &[u32], wanted: usize) -> ((u32, u32), Option<Sheet>) {
        let (reader, owners) = (rinks(reader), Rinks::encode(&self.owners));
        let (reply, bytes) = guarded(&self.plan.encode(), &owners, reader.bits(), wanted as u32, &self.slots(), SLOT);
        let sheet = self.plan.reveal(&self.leaves, &self.owners, reader, wanted);
        assert_eq!(parts(&sheet.as_ref().map(|sheet| sheet.encode().len()).map_err(|stopped| *stopped)), reply);
        let sheet = sheet.ok();
        assert_eq!(sheet.as_ref().map_or(Vec::new(), Sheet::encode), bytes);
        (reply, sheet)
    }

    /// The reply alone.
    fn reply(&self, reader: &[u32], wanted: usize) -> (u32, u32) {
        self.asked(reader, wanted).0
    }
}

#[test]
fn a_node_is_shown_by_the_readers_set() {
    let made = sum(&[&[0], &[1]]);
    assert_eq!(made.reply(&[0], 2), (30, 2));
    assert_eq!(made.reply(&[], 2), (30, 2));
    let (reply, sheet) = made.asked(&[0, 1], 2);
    let sheet = sheet.expect("a sheet");
    assert_eq!((reply, show::nature(&sheet.nature), sheet.node), ((0, 98), "[+11, +22]".to_string(), 2));
    assert_eq!(made.asked(&[0, 1, 63], 2).1, Some(sheet));
    assert_eq!(made.asked(&[0], 0), ((0, 98), Some(made.leaves[0].clone())));
    assert_eq!(made.reply(&[0], 1), (30, 1));
}

/// Five rinks are counted once each over all leaves below; one leaf may have them all.
#[test]
fn a_node_is_shown_by_five_owners() {
    assert_eq!(sum(&[&[0, 1, 2], &[0, 1, 2, 3]]).reply(&[], 2), (30, 2));
    assert_eq!(sum(&[&[0, 1, 2], &[2, 3, 4]]).reply(&[], 2), (0, 98));
    assert_eq!(sum(&[&[0, 1, 2], &[2, 3, 4]]).reply(&[], 1), (30, 1));
    assert_eq!(sum(&[&[0, 1, 2, 3]]).reply(&[0, 1, 2], 2), (30, 2));
    assert_eq!(sum(&[&[0, 1, 2, 3, 4]]).reply(&[0, 1, 2], 0), (0, 98));
    assert_eq!(sum(&[&[0]]).reply(&[], 1), (0, 98));
    assert_eq!(sum(&[]).reply(&[], 2), (0, 98));
    let last = made(&[[1, 2]], &[], &[&[63]]);
    assert_eq!((last.reply(&[62], 0), last.reply(&[63], 0)), ((30, 0), (0, 98)));
    // The owners lie in the reader's set, and not the other way round.
    assert_eq!(sum(&[&[7, 8], &[8, 9]]).reply(&[8], 2), (30, 2));
}

/// 30 comes before any sheet is read, and a leaf's own refusal before any step.
#[test]
fn refusals_come_in_their_order() {
    let wrong = made(&[[2, 1], [10, 20]], &[(Component::Add, 0, 1)], &[&[2], &[2]]);
    assert_eq!((wrong.reply(&[], 2), wrong.reply(&[2], 2)), ((30, 2), (5, 0)));
    let steps = [(Component::Negative, 0, 0), (Component::Add, 3, 2), (Component::Add, 4, 1)];
    let leaf_first = made(&[[i64::MIN, 0], [2, 1], [1, 2]], &steps, &[]);
    assert_eq!((leaf_first.reply(&[], 5), leaf_first.reply(&[], 3)), ((5, 1), (24, 3)));
    let steps = [(Component::Negative, 1, 1), (Component::Negative, 0, 0), (Component::Add, 2, 3)];
    assert_eq!(made(&[[i64::MIN, 0], [1, 2]], &steps, &[]).reply(&[], 4), (24, 3));
}

/// What the node does not stand on is not looked at, though the plan call refuses it.
#[test]
fn only_what_the_node_stands_on_counts() {
    let beside = made(&[[1, 2], [10, 20], [2, 1]], &[(Component::Add, 0, 1)], &[&[], &[], &[5]]);
    assert_eq!(beside.reply(&[], 3), (0, 98));
    let stopped = beside.plan.walk(&beside.leaves).outcome.unwrap_err();
    assert_eq!((stopped.refusal.code(), stopped.node), (5, Some(2)));
    let apart = made(&[[1 << 62, 1 << 62], [10, 20]], &[(Component::Multiply, 0, 0), (Component::Abs, 1, 1)], &[]);
    assert_eq!((apart.reply(&[], 3), apart.reply(&[], 2)), ((0, 98), (24, 2)));
}

#[test]
fn lengths_and_numbers_are_1_and_27() {
    let made = sum(&[&[0], &[1]]);
    let (plan, owners, slots) = (made.plan.encode(), Rinks::encode(&made.owners), made.slots());
    let reply = |owners: &[u8], wanted, slots: &[u8], out_len| guarded(&plan, owners, 3, wanted, slots, out_len).0;
    for bytes in [&owners[..15], &[owners.clone(), vec![0; 8]].concat(), &[], &[0; 17]] {
        assert_eq!(reply(bytes, 2, &slots, SLOT), (1, NONE), "{} bytes of owners", bytes.len());
    }
    for wanted in [3, 65_535, 65_536, 70_000, u32::MAX] {
        assert_eq!(reply(&owners, wanted, &slots, SLOT), (1, NONE), "node {wanted}");
        let answer = made.plan.reveal(&made.leaves, &made.owners, rinks(&[0, 1]), wanted as usize);
        assert_eq!(answer, Err(Stopped { refusal: Refusal::MalformedPlan, node: None }));
    }
    // A node whose low 32 bits are one of the plan's.
    assert!(made.plan.reveal(&made.leaves, &made.owners, rinks(&[0, 1]), 1 << 32).is_err());
    assert_eq!(guarded(&plan[..3], &owners, 3, 2, &slots, SLOT).0, (1, NONE));
    // A short work buffer comes before the rights, whichever node is wanted; a short output comes last.
    let short = &slots[..slots.len() - 1];
    assert_eq!(guarded(&plan, &owners, 0, 0, short, SLOT).0, (27, NONE));
    assert_eq!(guarded(&plan, &owners, 0, 0, &slots, 0).0, (30, 0));
    assert_eq!((reply(&owners, 2, &slots, 97), reply(&owners, 2, &slots, 98)), ((27, NONE), (0, 98)));
    assert_eq!((reply(&owners, 0, &slots, 97), reply(&owners, 0, &slots, 98)), ((27, NONE), (0, 98)));
}

/// A last step's infinite end is shown as it is, though a next step is refused with 5 for it.
#[test]
fn a_shown_sheet_may_fail_5() {
    let leaves = vec![crate::made::float(&[[1.7e308, 1.7e308]])];
    let mut plan = Plan::new(1);
    let twice = plan.step(Component::Add, 0, 0);
    let next = plan.unary(Component::Abs, twice);
    let ask = |node| plan.reveal(&leaves, &[Rinks::NONE], Rinks::NONE, node);
    assert_eq!(show::nature(&ask(twice).expect("a sheet").nature), "[+overflow, +overflow]");
    assert_eq!(ask(next), Err(Stopped { refusal: Refusal::BadBound, node: Some(next) }));
}

/// Causes tell of plan, owners and reader; whatever sheets caused is told in one sentence, and by number.
#[test]
fn causes_name_owners_and_no_values() {
    let made = sum(&[&[0], &[1, 40]]);
    let of = |refusal, reader: &[u32], wanted| causes::of_reveal(refusal, &made.plan, &made.owners, rinks(reader), wanted);
    let words = "it has 3 owners {0, 1, 40}; with five or more it would be shown to everybody";
    assert_eq!(of(Refusal::NotForReader, &[1, 2], 2), ["owners outside of the reader's set {1, 2}: {0, 40}", words]);
    let words = "it has 1 owner {0}; with five or more it would be shown to everybody";
    assert_eq!(of(Refusal::NotForReader, &[], 0), ["owners outside of the reader's set {}: {0}", words]);
    assert_eq!(of(Refusal::NotForReader, &[0], 0), [NO_CAUSE]);
    assert_eq!(of(Refusal::MalformedPlan, &[], 70_000), ["node 70000: the plan has nodes 0 to 2"]);
    let sets = causes::of_reveal(Refusal::MalformedPlan, &made.plan, &made.owners[..1], Rinks::NONE, 2);
    assert_eq!(sets, ["owner sets: 1, the plan has 2 leaves"]);
    let none = causes::of_reveal(Refusal::MalformedPlan, &Plan::new(1), &[], Rinks::NONE, 0);
    assert_eq!(none, ["owner sets: 0, the plan has 1 leaf"]);
    assert_eq!(of(Refusal::OutputTooShort, &[], 2), ["the work buffer or the output is too short"]);
    for refusal in Refusal::all().filter(|refusal| !matches!(refusal.code(), 1 | 27 | 30)) {
        assert_eq!(of(refusal, &[], 2), [WITHHELD], "{refusal}");
    }
}

/// The nodes that a node stands on, in ascending order.
fn below(plan: &Plan, node: usize) -> Vec<usize> {
    let mut nodes = vec![node];
    if let Some(step) = plan.step_of(node) {
        nodes.extend(below(plan, step.left));
        nodes.extend(below(plan, step.right));
    }
    nodes.sort();
    nodes.dedup();
    nodes
}

/// What should come of a run, by the two other calls: a leaf is judged as a plan of its own, a step by the single call.
fn wanted_reply(plan: &Plan, owners: &[Rinks], reader: Rinks, wanted: usize, slots: &[u8]) -> ((u32, u32), Vec<u8>) {
    let (nodes, mut sheets) = (below(plan, wanted), BTreeMap::new());
    let all = nodes.iter().filter_map(|node| owners.get(*node)).fold(0, |all, set| all | set.bits());
    if all & !reader.bits() != 0 && all.count_ones() < 5 {
        return ((30, wanted as u32), Vec::new());
    }
    for &leaf in nodes.iter().filter(|node| **node < plan.leaves) {
        let mut slot = slots[leaf * SLOT..][..SLOT].to_vec();
        if let Err(stopped) = propagate_properties(&Plan::new(1).encode(), &mut slot) {
            return ((stopped.refusal.code(), leaf as u32), Vec::new());
        }
        sheets.insert(leaf, NARROW.sheet_in(&slot).to_vec());
    }
    for &node in &nodes {
        let Some(step) = plan.step_of(node) else { continue };
        let mut out = vec![0; SLOT];
        match propagate_property(step.component.number(), node as u32, &sheets[&step.left], &sheets[&step.right], &mut out) {
            Err(refusal) => return ((refusal.code(), node as u32), Vec::new()),
            Ok(length) => drop(sheets.insert(node, out[..length].to_vec())),
        }
    }
    ((0, sheets[&wanted].len() as u32), sheets[&wanted].clone())
}

/// Few rinks, so that sets meet; now and then many.
fn drawn_rinks(draws: &mut Draws) -> Rinks {
    match draws.below(8) {
        0 => Rinks::NONE,
        1 => Rinks::from_bits(draws.next()),
        _ => Rinks::from_bits(draws.next() & draws.next() & 0x8000_0000_0000_00FF),
    }
}

/// The same slots with any bytes in what the node does not stand on, and behind every sheet.
fn elsewhere(draws: &mut Draws, plan: &Plan, wanted: usize, slots: &[u8]) -> Vec<u8> {
    let mut other = slots.to_vec();
    let nodes = below(plan, wanted);
    for (node, slot) in other.chunks_mut(SLOT).enumerate() {
        let kept = if node < plan.leaves && nodes.contains(&node) { NARROW.sheet_in(slot).len() } else { 0 };
        slot[kept..].iter_mut().for_each(|byte| *byte = draws.next() as u8);
    }
    other
}

#[test]
fn generated_runs_agree_with_the_other_calls() {
    let mut draws = Draws::new(21);
    let mut counts: BTreeMap<&str, usize> = BTreeMap::new();
    for _ in 0..6_000 {
        let (plan, mut slots) = drawn_plan(&mut draws);
        if draws.one_in(8) {
            // A nullity that is neither 0 nor 1.
            slots[draws.below(plan.leaves) * SLOT + 8] = 2;
        }
        let owners: Vec<Rinks> = (0..plan.leaves).map(|_| drawn_rinks(&mut draws)).collect();
        let reader = if draws.one_in(3) { Rinks::from_bits(u64::MAX) } else { drawn_rinks(&mut draws) };
        let wanted = if draws.one_in(2) { plan.nodes() - 1 } else { draws.below(plan.nodes()) };
        let ask = |slots: &[u8]| guarded(&plan.encode(), &Rinks::encode(&owners), reader.bits(), wanted as u32, slots, SLOT);
        let (reply, sheet) = ask(&slots);
        assert_eq!((reply, sheet.clone()), wanted_reply(&plan, &owners, reader, wanted, &slots));
        assert_eq!(ask(&elsewhere(&mut draws, &plan, wanted, &slots)), (reply, sheet));
        let all = plan.owners_of(&owners, wanted);
        let kind = match reply {
            (0, _) if all.outside(reader).is_empty() => "by the set",
            (0, _) => "by five",
            (30, _) => "30",
            (_, node) if (node as usize) < plan.leaves => "a leaf's",
            _ => "a step's",
        };
        *counts.entry(kind).or_default() += 1;
        let refused_as_a_whole = propagate_properties(&plan.encode(), &mut slots.clone()).is_err();
        *counts.entry("shown of a refused plan").or_default() += usize::from(reply.0 == 0 && refused_as_a_whole);
    }
    assert!(counts.len() == 6 && counts.values().all(|count| *count > 100), "{counts:?}");
}
