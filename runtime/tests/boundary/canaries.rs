//! Bytes around every lent buffer, and every byte that a call must leave as it was.

use crate::made::{component, sheet, whole, Draws};
use crate::refusals::{cases, malformed_plans};
use gate_runtime::form::plan::SLOT;
use gate_runtime::form::NARROW;
use gate_runtime::{propagate_properties, propagate_property, Component, Plan, Refusal};

const CANARY: u8 = 0xC5;
const AROUND: usize = 96;

/// A buffer with canary bytes on both sides.
pub struct Guarded {
    bytes: Vec<u8>,
}

impl Guarded {
    pub fn new(inside: &[u8]) -> Guarded {
        let side = [CANARY; AROUND];
        Guarded { bytes: [&side[..], inside, &side[..]].concat() }
    }

    pub fn lent(&self) -> &[u8] {
        &self.bytes[AROUND..self.bytes.len() - AROUND]
    }

    pub fn lent_mut(&mut self) -> &mut [u8] {
        let end = self.bytes.len() - AROUND;
        &mut self.bytes[AROUND..end]
    }

    pub fn check_sides(&self) {
        let end = self.bytes.len() - AROUND;
        assert!(self.bytes[..AROUND].iter().all(|byte| *byte == CANARY), "a byte before the buffer changed");
        assert!(self.bytes[end..].iter().all(|byte| *byte == CANARY), "a byte after the buffer changed");
    }
}

/// A single call between canaries: operands and later output bytes stay as they are, and after a refusal all output bytes do.
fn guarded_call(component: u32, left: &[u8], right: &[u8], out_len: usize) -> Result<Vec<u8>, Refusal> {
    let (first, second) = (Guarded::new(left), Guarded::new(right));
    let mut out = Guarded::new(&vec![0x5A; out_len]);
    let reply = propagate_property(component, 3, first.lent(), second.lent(), out.lent_mut());
    [&first, &second, &out].iter().for_each(|buffer| buffer.check_sides());
    assert_eq!((first.lent(), second.lent()), (left, right));
    let length = reply.unwrap_or(0);
    assert!(length <= out_len);
    assert!(out.lent()[length..].iter().all(|byte| *byte == 0x5A), "a later byte of the output changed");
    reply.map(|length| out.lent()[..length].to_vec())
}

#[test]
fn single_calls_write_nothing_but_the_sheet() {
    for case in cases() {
        let reply = guarded_call(case.component, &case.left, &case.right, case.out_len);
        assert_eq!(reply.unwrap_err().code(), case.number);
    }
    let mut draws = Draws::new(11);
    let mut accepted = 0;
    for _ in 0..10_000 {
        let (left, right) = (sheet(&mut draws).encode(), sheet(&mut draws).encode());
        let reply = guarded_call(component(&mut draws).number(), &left, &right, SLOT);
        accepted += usize::from(reply.is_ok());
    }
    assert!(accepted > 1_000, "{accepted} calls were accepted");
}

#[test]
fn an_output_is_long_enough_exactly_from_the_sheets_length_on() {
    let sheet = whole(&[[-5, 3], [0, 7]]).encode();
    for out_len in 0..sheet.len() + 4 {
        let reply = guarded_call(Component::Negative.number(), &sheet, &[], out_len);
        match out_len < sheet.len() {
            true => assert_eq!(reply, Err(Refusal::OutputTooShort)),
            false => assert_eq!(reply.map(|bytes| bytes.len()), Ok(sheet.len())),
        }
    }
}

/// A random plan, its leaves in a work buffer with bytes behind every sheet and behind the last slot.
pub fn drawn_plan(draws: &mut Draws) -> (Plan, Vec<u8>) {
    let mut plan = Plan::new(1 + draws.below(4));
    for _ in 0..draws.below(8) {
        let (left, right) = (draws.below(plan.nodes()), draws.below(plan.nodes()));
        let component = component(draws);
        plan.step(component, left, if component.is_unary() { left } else { right });
    }
    let mut work = vec![0xB7; plan.nodes() * SLOT + 40];
    let alike = sheet(draws);
    for leaf in 0..plan.leaves {
        let bytes = if draws.one_in(4) { sheet(draws).encode() } else { alike.encode() };
        work[leaf * SLOT..][..bytes.len()].copy_from_slice(&bytes);
    }
    (plan, work)
}

/// Each slot by itself: leaves and unwalked steps as before, a derived sheet as the single call gives it, later bytes as before.
fn check_slots(plan: &Plan, before: &[u8], after: &[u8], walked: usize) {
    assert_eq!(before[plan.nodes() * SLOT..], after[plan.nodes() * SLOT..]);
    for node in 0..plan.nodes() {
        let (old, new) = (&before[node * SLOT..][..SLOT], &after[node * SLOT..][..SLOT]);
        let Some(step) = plan.step_of(node).filter(|_| node < walked) else {
            assert_eq!(old, new, "slot {node}");
            continue;
        };
        let operand = |node: usize| NARROW.sheet_in(&after[node * SLOT..][..SLOT]);
        let mut wanted = old.to_vec();
        let (left, right) = (operand(step.left), operand(step.right));
        propagate_property(step.component.number(), node as u32, left, right, &mut wanted).unwrap();
        assert_eq!(wanted, new, "slot {node}");
    }
}

#[test]
fn a_plan_call_writes_nothing_but_the_steps_sheets() {
    let mut draws = Draws::new(12);
    let (mut accepted, mut later) = (0, 0);
    for _ in 0..4_000 {
        let (plan, before) = drawn_plan(&mut draws);
        let (bytes, mut work) = (Guarded::new(&plan.encode()), Guarded::new(&before));
        let reply = propagate_properties(bytes.lent(), work.lent_mut());
        [&bytes, &work].iter().for_each(|buffer| buffer.check_sides());
        assert_eq!(bytes.lent(), plan.encode());
        let walked = match reply {
            Ok(nodes) => {
                assert_eq!(nodes, plan.nodes());
                nodes
            }
            Err(stopped) => stopped.node.expect("the plan is well formed and the buffer long enough"),
        };
        accepted += usize::from(reply.is_ok() && !plan.steps.is_empty());
        later += usize::from(reply.is_err() && walked > plan.leaves);
        check_slots(&plan, &before, work.lent(), walked);
    }
    assert!(accepted > 300 && later > 100, "{accepted} accepted, {later} refused after a step");
}

#[test]
fn malformed_plans_write_nothing() {
    for (plan, cause) in malformed_plans() {
        let (bytes, mut work) = (Guarded::new(&plan), Guarded::new(&vec![0xB7; 33 * SLOT]));
        let stopped = propagate_properties(bytes.lent(), work.lent_mut()).unwrap_err();
        assert_eq!((stopped.refusal, stopped.node), (Refusal::MalformedPlan, None), "{cause}");
        [&bytes, &work].iter().for_each(|buffer| buffer.check_sides());
        assert!(work.lent().iter().all(|byte| *byte == 0xB7));
    }
}
