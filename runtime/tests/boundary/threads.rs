//! Many threads at once on distinct buffers.

use crate::made::{component, sheet, Draws};
use gate_runtime::form::plan::SLOT;
use gate_runtime::{propagate_property, Component, Plan, Refusal, Rinks, Sheet, Stopped};
use std::sync::Barrier;
use std::thread;

const THREADS: usize = 32;

/// A single call's inputs and its reply when nobody else calls.
struct Single {
    component: u32,
    left: Vec<u8>,
    right: Vec<u8>,
    reply: Result<Vec<u8>, Refusal>,
}

fn call(component: u32, left: &[u8], right: &[u8]) -> Result<Vec<u8>, Refusal> {
    let mut out = [0; SLOT];
    let length = propagate_property(component, 5, left, right, &mut out)?;
    Ok(out[..length].to_vec())
}

fn singles() -> Vec<Single> {
    let mut draws = Draws::new(13);
    (0..1_500)
        .map(|_| {
            let component = component(&mut draws).number();
            let (left, right) = (sheet(&mut draws).encode(), sheet(&mut draws).encode());
            let reply = call(component, &left, &right);
            Single { component, left, right, reply }
        })
        .collect()
}

/// A plan's leaves and what comes of them when nobody else calls: the walk, and each node for a reader who may see some.
type Walked = (Plan, Vec<Sheet>, Result<usize, Stopped>, Vec<u8>, Vec<Result<Sheet, Stopped>>);

fn shown(plan: &Plan, leaves: &[Sheet]) -> Vec<Result<Sheet, Stopped>> {
    let owners = [Rinks::from_bits(1), Rinks::from_bits(2)];
    (0..plan.nodes()).map(|node| plan.reveal(leaves, &owners, owners[0], node)).collect()
}

fn plans() -> Vec<Walked> {
    let mut draws = Draws::new(14);
    (0..150)
        .map(|_| {
            let leaves = vec![sheet(&mut draws), sheet(&mut draws)];
            let mut plan = Plan::new(2);
            for _ in 0..20 {
                let left = draws.below(plan.nodes());
                plan.step(Component::Add, left, left);
            }
            let (walk, shown) = (plan.walk(&leaves), shown(&plan, &leaves));
            (plan, leaves, walk.outcome, walk.work, shown)
        })
        .collect()
}

#[test]
fn threads_get_the_answers_of_a_single_one() {
    let (singles, plans) = (singles(), plans());
    assert!(singles.iter().filter(|single| single.reply.is_ok()).count() > 100);
    assert!(plans.iter().filter(|plan| plan.4.iter().any(Result::is_ok) && plan.4.iter().any(Result::is_err)).count() > 100);
    let start = Barrier::new(THREADS);
    thread::scope(|scope| {
        for turn in 0..THREADS {
            let (singles, plans, start) = (&singles, &plans, &start);
            scope.spawn(move || {
                start.wait();
                // Each thread begins elsewhere, so that different calls meet.
                for place in 0..singles.len() {
                    let single = &singles[(place + turn * 47) % singles.len()];
                    assert_eq!(call(single.component, &single.left, &single.right), single.reply);
                }
                for place in 0..plans.len() {
                    let (plan, leaves, outcome, work, sheets) = &plans[(place + turn * 5) % plans.len()];
                    let walk = plan.walk(leaves);
                    assert_eq!((&walk.outcome, &walk.work), (outcome, work));
                    assert_eq!(&shown(plan, leaves), sheets);
                }
            });
        }
    });
}
