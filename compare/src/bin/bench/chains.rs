//! The table of plans: chains whose steps are all the same call.

use crate::classes::{Class, Role};
use crate::clock::{medians, spent};
use crate::ways::{agree, measure, Way};
use comparison::plans::{hold, lay_out, lay_out_by, parse, walk};
use comparison::plans::{Draft, Plan, Request, Step, SLOT};
use comparison::proved;
use comparison::tally::Tally;
use oracle_list::form::Call;
use oracle_list::text;
use std::hint::black_box;

const NODES: [usize; 4] = [2, 8, 16, 32];
/// Many and short, since a step is a difference of two measurements.
const ROUNDS: usize = 31;

/// Chains of one component over one leaf: each step takes the step before it
/// and the leaf. Its result has the leaf's shape, so all steps cost the same.
struct Kind {
    name: &'static str,
    component: u32,
    leaf: &'static str,
    /// Steps or leaves in one measurement.
    load: usize,
}

const KINDS: [Kind; 3] = [
    Kind {
        name: "Add, whole ranges, 1 column",
        component: 2,
        leaf: "W[1,2]",
        load: 32_000,
    },
    Kind {
        name: "Multiply, float ranges, 16 columns",
        component: 4,
        leaf: "F[-1.5,2.5]*16 columns=16",
        load: 8_000,
    },
    Kind {
        name: "Multiply, 3 by 3 categories, 16 columns",
        component: 4,
        leaf: "W{-1,0,1}*16 columns=16",
        load: 2_000,
    },
];

/// Nanoseconds of a chain and of what it is held against.
pub struct Row {
    pub name: &'static str,
    pub nodes: usize,
    /// The chain: one leaf, and a step for each other node.
    plan: f64,
    /// The chain's steps, by single calls.
    singles: f64,
    /// Its leaf, as a plan of its own.
    leaf: f64,
    /// As many leaves as the chain has nodes, and no step.
    leaves: f64,
    /// The chain, by the port.
    port: f64,
}

impl Row {
    fn steps(&self) -> f64 {
        (self.nodes - 1) as f64
    }

    fn step(&self) -> f64 {
        (self.plan - self.leaf) / self.steps()
    }

    fn single(&self) -> f64 {
        self.singles / self.steps()
    }

    /// A step in the plan / the same single call.
    pub fn to_single(&self) -> f64 {
        self.step() / self.single()
    }

    fn port_time(&self) -> f64 {
        self.plan / self.port
    }

    /// A step / a step of the shortest plan.
    pub fn growth(&self, shortest: &Row) -> f64 {
        self.step() / shortest.step()
    }
}

/// Rows of one kind, the shortest plan first.
pub type Rows = Vec<Row>;

/// Prints the table, a kind as soon as it is measured.
pub fn table() -> Vec<Rows> {
    println!("| ns (median of {ROUNDS} rounds) | nodes | plan | its leaf | step in the plan | same single call | step / single call | step / step of {} nodes | leaf, of leaves alone | time proved / time port |", NODES[0]);
    println!("|---|---|---|---|---|---|---|---|---|---|");
    let mut kinds = Vec::new();
    for kind in &KINDS {
        let rows = rows(kind);
        for row in &rows {
            show(row, &rows[0]);
        }
        kinds.push(rows);
    }
    kinds
}

fn show(row: &Row, shortest: &Row) {
    println!(
        "| {} | {} | {:.0} | {:.0} | {:.1} | {:.1} | {:.2} | {:.2} | {:.1} | {:.2} |",
        row.name,
        row.nodes,
        row.plan,
        row.leaf,
        row.step(),
        row.single(),
        row.to_single(),
        row.growth(shortest),
        row.leaves / row.nodes as f64,
        row.port_time(),
    );
}

/// What is timed for one length of chain.
struct Trial {
    nodes: usize,
    turns: usize,
    /// More, since a leaf alone is short.
    leaf_turns: usize,
    chain: Request,
    leaf: Request,
    leaves: Request,
    singles: Class,
}

/// The measurements of a trial.
const MEASURES: usize = 5;

impl Trial {
    fn new(kind: &Kind, nodes: usize) -> Trial {
        let turns = (kind.load / (nodes - 1)).max(1);
        let chain = chain(kind, nodes);
        let singles = single_calls(&chain, turns);
        agree(&singles);
        Trial {
            nodes,
            turns,
            leaf_turns: kind.load,
            chain,
            leaf: leaves(kind, 1),
            leaves: leaves(kind, nodes),
            singles,
        }
    }

    /// Nanoseconds of one turn.
    fn measure(&self, which: usize) -> f64 {
        let proved = proved::propagate_properties;
        let port = plain_port::propagate_properties;
        let seconds = match which {
            0 => walked(proved, SLOT, &self.chain, self.turns),
            1 => measure(Way::Proved, &self.singles) / self.turns as f64,
            2 => walked(proved, SLOT, &self.leaf, self.leaf_turns),
            3 => walked(proved, SLOT, &self.leaves, self.turns),
            _ => walked(port, SLOT, &self.chain, self.turns),
        };
        seconds * 1e9
    }
}

/// All lengths take turns too, since they are held against each other.
fn rows(kind: &Kind) -> Rows {
    let trials = NODES.map(|nodes| Trial::new(kind, nodes));
    let ns = medians(ROUNDS, NODES.len() * MEASURES, |way| {
        trials[way / MEASURES].measure(way % MEASURES)
    });
    let rows = trials.iter().zip(ns.chunks(MEASURES));
    rows.map(|(trial, ns)| Row {
        name: kind.name,
        nodes: trial.nodes,
        plan: ns[0],
        singles: ns[1],
        leaf: ns[2],
        leaves: ns[3],
        port: ns[4],
    })
    .collect()
}

/// Seconds of a call, from so many over one work buffer: a call leaves the
/// leaves as they are, so that the next does the same. The buffer is laid out by
/// the slot of the library that is asked.
fn walked(answer: Plan, slot: usize, request: &Request, turns: usize) -> f64 {
    let mut work = lay_out_by(slot, request, 0);
    spent(turns, || {
        black_box(answer(black_box(&request.plan), black_box(&mut work)));
    }) / turns as f64
}

fn chain(kind: &Kind, nodes: usize) -> Request {
    let mut draft = Draft::new(vec![text::bytes(kind.leaf)]);
    draft.steps = (1..nodes)
        .map(|node| Step {
            component: kind.component,
            left: node - 1,
            right: 0,
        })
        .collect();
    accepted(draft.request())
}

fn leaves(kind: &Kind, nodes: usize) -> Request {
    accepted(Draft::new(vec![text::bytes(kind.leaf); nodes]).request())
}

/// The request, once the plan calls have given the oracle's bytes for it.
fn accepted(request: Request) -> Request {
    let wanted = walk(&request.plan, &lay_out(&request, 0));
    let mut tally = Tally::default();
    hold(&mut tally, &request, 0, &wanted);
    assert_eq!((wanted.reply.0, tally.differences), (0, 0), "{tally}");
    request
}

/// The chain's steps as single calls on the same operands, an output of one
/// slot each.
fn single_calls(chain: &Request, turns: usize) -> Class {
    let wanted = walk(&chain.plan, &lay_out(chain, 0));
    let sheets = [&chain.leaves[..], &wanted.derived[..]].concat();
    let alike = |sheet: &Vec<u8>| sheet.len() == sheets[0].len();
    assert!(sheets.iter().all(alike), "a step changes the shape");
    let (_, steps) = parse(&chain.plan).expect("an accepted plan");
    let calls = steps.iter().zip(1..).map(|(step, node)| Call {
        component: step.component,
        node,
        left: sheets[step.left].clone(),
        right: sheets[step.right].clone(),
        out_len: SLOT,
    });
    Class {
        name: "steps of a chain",
        role: Role::Other,
        calls: calls.collect(),
        turns,
    }
}

/// Nanoseconds of each chain, and of its leaf as a plan of its own, by each of
/// two plan calls, which take turns.
#[cfg(before)]
pub fn by_two(plans: [Plan; 2], mut show: impl FnMut(String, [f64; 2])) {
    let slots = plans.map(slot_of);
    for kind in &KINDS {
        for nodes in NODES {
            let trial = Trial::new(kind, nodes);
            for request in [&trial.chain, &trial.leaf] {
                let [old, new] = [0, 1].map(|of| sheets(plans[of], slots[of], request));
                assert!(old == new, "plans of {nodes} nodes differ: {}", kind.name);
            }
            let ns = medians(ROUNDS, 4, |way| {
                let (request, turns) = match way / 2 {
                    0 => (&trial.chain, trial.turns),
                    _ => (&trial.leaf, trial.leaf_turns),
                };
                walked(plans[way % 2], slots[way % 2], request, turns) * 1e9
            });
            show(format!("{}, plan of {nodes}", kind.name), [ns[0], ns[1]]);
            if nodes == NODES[0] {
                show(format!("{}, its leaf alone", kind.name), [ns[2], ns[3]]);
            }
        }
    }
}

/// The slot of a library: the least work buffer that it takes for one leaf.
#[cfg(any(before, test))]
fn slot_of(answer: Plan) -> usize {
    let leaf = leaves(&KINDS[0], 1);
    let taken = |length: &usize| {
        let mut work = lay_out(&leaf, 0);
        work.truncate(*length);
        answer(&leaf.plan, &mut work).0 == 0
    };
    (0..=SLOT).find(taken).expect("a slot of some length")
}

/// The reply to a request and the front of every slot behind it, as long as a
/// leaf: a chain's sheets are all of one length.
#[cfg(before)]
fn sheets(answer: Plan, slot: usize, request: &Request) -> (comparison::Reply, Vec<Vec<u8>>) {
    let mut work = lay_out_by(slot, request, 0);
    let reply = answer(&request.plan, &mut work);
    let length = request.leaves[0].len();
    let fronts = work.chunks(slot).map(|slot| slot[..length].to_vec());
    (reply, fronts.collect())
}

/// The longest chain of each kind, for the stack.
pub fn longest() -> impl Iterator<Item = (&'static str, Request)> {
    let nodes = NODES[NODES.len() - 1];
    KINDS
        .iter()
        .map(move |kind| (kind.name, chain(kind, nodes)))
}

#[cfg(test)]
mod tests {
    use super::*;

    #[test]
    fn a_chain_is_so_many_single_calls() {
        for kind in &KINDS {
            for nodes in NODES {
                let trial = Trial::new(kind, nodes);
                assert_eq!(trial.singles.calls.len(), nodes - 1);
                assert_eq!(trial.leaves.leaves.len(), nodes);
            }
        }
    }

    #[test]
    fn a_library_s_slot_is_found() {
        assert_eq!(slot_of(plain_port::propagate_properties), SLOT);
        let shorter: Plan = |plan, work| {
            let mut whole = lay_out(&leaves(&KINDS[0], 1), 0);
            match work.len() < 1284 {
                true => (27, 65_535),
                false => plain_port::propagate_properties(plan, &mut whole),
            }
        };
        assert_eq!(slot_of(shorter), 1284);
    }

    #[test]
    fn the_leaf_is_taken_off_before_steps_are_shared_out() {
        let row = |nodes, plan| Row {
            name: "",
            nodes,
            plan,
            singles: 80.0,
            leaf: 20.0,
            leaves: 40.0,
            port: 60.0,
        };
        let (shortest, longer) = (row(2, 120.0), row(5, 420.0));
        assert_eq!(shortest.to_single(), 1.25);
        assert_eq!(longer.to_single(), 5.0);
        assert_eq!(longer.growth(&shortest), 1.0);
    }
}
