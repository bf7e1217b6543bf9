//! Programs that S-7 shuts out: each departs from the right one in one place, and the examples tell it apart.

use crate::made::{call_as, w, SLOT};
use crate::reveal::*;
use plain_port::check_sheet;

/// Which nodes a program goes through.
#[derive(Clone, Copy, PartialEq)]
enum Which {
    Walked,
    All,
}

/// When leaves pass 3 to 5.
#[derive(Clone, Copy, PartialEq)]
enum Checks {
    BeforeSteps,
    /// At the first step that reads them.
    AtSteps,
}

/// When a program asks for the rights.
#[derive(Clone, Copy, PartialEq)]
enum Rights {
    BeforeWork,
    BeforeSheets,
    AfterSteps,
}

/// How the output is written.
#[derive(Clone, Copy, PartialEq)]
enum Delivery {
    Tested,
    /// As much as fits, before the test.
    Untested,
    /// The slot with what stands behind the sheet.
    Slot,
}

/// A program by its choices.
#[derive(Clone, Copy)]
struct Model {
    owning: Which,
    seen: fn(&[u64], u64) -> bool,
    rights: Rights,
    /// Whether the work buffer has room, of this length, for a node among so many.
    room: fn(usize, usize, usize) -> bool,
    checked: Which,
    checks: Checks,
    taken: Which,
    /// Whether a step goes to the first slot that is free behind the leaves.
    packed: bool,
    /// Whether walked nodes are numbered anew.
    renumbered: bool,
    delivery: Delivery,
    /// The value of the last 27, by the wanted node.
    value: fn(u32) -> u32,
}

fn union(sets: &[u64]) -> u64 {
    sets.iter().fold(0, |all, set| all | set)
}

/// As the documents say.
const RIGHT: Model = Model {
    owning: Which::Walked,
    seen: |sets, reader| union(sets) & !reader == 0 || union(sets).count_ones() >= 5,
    rights: Rights::BeforeSheets,
    room: |length, _, nodes| length >= SLOT * nodes,
    checked: Which::Walked,
    checks: Checks::BeforeSteps,
    taken: Which::Walked,
    packed: false,
    renumbered: false,
    delivery: Delivery::Tested,
    value: |_| NO_NODE,
};

type Refusal = (u32, u32);

impl Run {
    /// The wanted node and all below it, ascending.
    fn stands_on(&self) -> Vec<usize> {
        let mut nodes = vec![self.wanted as usize];
        let mut next = 0;
        while next < nodes.len() {
            if let Some(step) = nodes[next].checked_sub(self.leaves.len()) {
                let (_, left, right) = self.steps[step];
                nodes.extend([left as usize, right as usize]);
            }
            next += 1;
        }
        nodes.sort_unstable();
        nodes.dedup();
        nodes
    }

    /// The owner sets, of a wanted node and owners as 1 asks for them.
    fn sets(&self) -> Option<Vec<u64>> {
        let bytes = self.owners.chunks_exact(8);
        let sets = bytes.map(|set| u64::from_le_bytes(set.try_into().unwrap()));
        let fits = self.owners.len() == 8 * self.leaves.len();
        (fits && (self.wanted as usize) < self.nodes()).then(|| sets.collect())
    }
}

impl Model {
    fn answer(&self, run: &Run) -> After {
        let mut after = run.before();
        let reply = self.go(run, &mut after);
        after.reply = reply.unwrap_or_else(|refusal| refusal);
        after
    }

    fn go(&self, run: &Run, after: &mut After) -> Result<Refusal, Refusal> {
        let sets = run.sets().ok_or((1, NO_NODE))?;
        let rights = |when: Rights| match self.rights == when && !self.sees(run, &sets) {
            true => Err((30, run.wanted)),
            false => Ok(()),
        };
        rights(Rights::BeforeWork)?;
        if !(self.room)(after.work.len(), run.wanted as usize, run.nodes()) {
            return Err((27, NO_NODE));
        }
        rights(Rights::BeforeSheets)?;
        let sheets = self.walk(run, &mut after.work)?;
        rights(Rights::AfterSteps)?;
        self.deliver(run, &sheets[run.wanted as usize], after)
    }

    fn sees(&self, run: &Run, sets: &[u64]) -> bool {
        let walked = run.stands_on();
        let owning = |leaf: &usize| self.owning == Which::All || walked.contains(leaf);
        let sets: Vec<u64> = (0..sets.len()).filter(owning).map(|l| sets[l]).collect();
        (self.seen)(&sets, run.reader)
    }

    /// The sheets by node, those not walked empty; steps are written into the work buffer.
    fn walk(&self, run: &Run, work: &mut [u8]) -> Result<Vec<Vec<u8>>, Refusal> {
        let (walked, leaves) = (run.stands_on(), run.leaves.len());
        let among = |which: Which, node: &usize| which == Which::All || walked.contains(node);
        let mut sheets = run.leaves.clone();
        sheets.resize(run.nodes(), Vec::new());
        let early = self.checks == Checks::BeforeSteps;
        let alone = |leaf: &usize| early || *leaf == run.wanted as usize;
        for leaf in (0..leaves).filter(|leaf| among(self.checked, leaf) && alone(leaf)) {
            passes(leaf, &sheets[leaf])?;
        }
        let taken = (leaves..run.nodes()).filter(|node| among(self.taken, node));
        for (free, node) in (leaves..).zip(taken) {
            sheets[node] = self.step(run, node, &sheets)?;
            let at = SLOT * if self.packed { free } else { node };
            work[at..at + sheets[node].len()].copy_from_slice(&sheets[node]);
        }
        Ok(sheets)
    }

    fn step(&self, run: &Run, node: usize, sheets: &[Vec<u8>]) -> Result<Vec<u8>, Refusal> {
        let (component, left, right) = run.steps[node - run.leaves.len()];
        let (left, right) = (left as usize, right as usize);
        if self.checks == Checks::AtSteps {
            for leaf in [left, right].into_iter().filter(|n| *n < run.leaves.len()) {
                passes(leaf, &sheets[leaf])?;
            }
        }
        let number = match self.renumbered {
            true => run.stands_on().iter().filter(|n| **n < node).count(),
            false => node,
        };
        let derived = call_as(number as u32, component, &sheets[left], &sheets[right]);
        derived.map_err(|code| (code, node as u32))
    }

    fn deliver(&self, run: &Run, sheet: &[u8], after: &mut After) -> Result<Refusal, Refusal> {
        let shown = match self.delivery {
            Delivery::Slot => {
                let at = SLOT * run.wanted as usize;
                &after.work[at..at + SLOT.min(after.out.len())]
            }
            _ => sheet,
        };
        let fits = sheet.len() <= after.out.len();
        if fits || self.delivery == Delivery::Untested {
            let length = shown.len().min(after.out.len());
            after.out[..length].copy_from_slice(&shown[..length]);
        }
        match fits {
            true => Ok((0, sheet.len() as u32)),
            false => Err((27, (self.value)(run.wanted))),
        }
    }
}

fn passes(leaf: usize, sheet: &[u8]) -> Result<(), Refusal> {
    match check_sheet(sheet) {
        0 => Ok(()),
        code => Err((code, leaf as u32)),
    }
}

/// Holds rows that a wrong program fails, each of them.
fn shuts_out(wrong: Model, rows: &[Row]) {
    for row in rows {
        row.holds();
        assert!(RIGHT.answer(&row.run) == row.wanted, "{}", row.name());
        assert!(wrong.answer(&row.run) != row.wanted, "{}", row.name());
    }
}

#[test]
fn every_leaf_checked() {
    let wrong = Model {
        checked: Which::All,
        ..RIGHT
    };
    shuts_out(wrong, &[unwalked_leaf()]);
}

#[test]
fn every_step_walked() {
    let wrong = Model {
        taken: Which::All,
        ..RIGHT
    };
    // The second is accepted by both: the wrong one writes more slots.
    shuts_out(wrong, &[unwalked_product(), numbers_kept()]);
}

#[test]
fn an_unwalked_slot_written() {
    let wrong = Model {
        packed: true,
        ..RIGHT
    };
    shuts_out(wrong, &[unwalked_product(), numbers_kept()]);
}

#[test]
fn walked_nodes_numbered_anew() {
    let wrong = Model {
        renumbered: true,
        ..RIGHT
    };
    shuts_out(wrong, &[unwalked_leaf(), numbers_kept()]);
}

#[test]
fn rights_after_the_walk() {
    let wrong = Model {
        rights: Rights::AfterSteps,
        ..RIGHT
    };
    // The second has the right reply, and a slot too many.
    shuts_out(wrong, &[crossed_leaf().refused(30, 2), four_owners()]);
}

#[test]
fn rights_before_the_work_buffer() {
    let wrong = Model {
        rights: Rights::BeforeWork,
        ..RIGHT
    };
    shuts_out(wrong, &[short_work()]);
}

/// Then 27 would depend on the node wanted.
#[test]
fn a_work_buffer_for_the_nodes_up_to_the_wanted_one() {
    let wrong = Model {
        room: |length, wanted, _| length >= SLOT * (wanted + 1),
        ..RIGHT
    };
    let unowned = sum_run().wanting(0).working(3 * SLOT - 1);
    shuts_out(wrong, &[short_work(), unowned.refused(27, NO_NODE)]);
}

#[test]
fn six_in_place_of_five() {
    let wrong = Model {
        seen: |sets, reader| union(sets) & !reader == 0 || union(sets).count_ones() >= 6,
        ..RIGHT
    };
    shuts_out(wrong, &[five_owners()]);
}

#[test]
fn four_in_place_of_five() {
    let wrong = Model {
        seen: |sets, reader| union(sets) & !reader == 0 || union(sets).count_ones() >= 4,
        ..RIGHT
    };
    shuts_out(wrong, &[four_owners()]);
}

#[test]
fn five_as_a_sum_over_leaves() {
    let wrong = Model {
        seen: |sets, reader| {
            let sum: u32 = sets.iter().map(|set| set.count_ones()).sum();
            union(sets) & !reader == 0 || sum >= 5
        },
        ..RIGHT
    };
    shuts_out(wrong, &[four_owners()]);
}

#[test]
fn the_readers_set_inside_the_owners() {
    let wrong = Model {
        seen: |sets, reader| reader & !union(sets) == 0 || union(sets).count_ones() >= 5,
        ..RIGHT
    };
    let owned = || sum_run().owned_by(&[&[0], &[1]]);
    shuts_out(
        wrong,
        &[
            owned().read_by(&[0]).refused(30, 2),
            sum_shown(owned().read_by(&[0, 1, 63])),
            sum_shown(sum_run().read_by(&[7])),
        ],
    );
}

#[test]
fn one_owner_in_the_readers_set_is_enough() {
    let wrong = Model {
        seen: |sets, reader| union(sets) & reader != 0 || union(sets) == 0,
        ..RIGHT
    };
    let owned = sum_run().owned_by(&[&[0], &[1]]);
    shuts_out(wrong, &[owned.read_by(&[0]).refused(30, 2)]);
}

#[test]
fn no_owners_are_shown_to_nobody() {
    let wrong = Model {
        seen: |sets, reader| union(sets) & reader != 0 && union(sets) & !reader == 0,
        ..RIGHT
    };
    shuts_out(wrong, &[unowned_leaf(), sum_shown(sum_run().read_by(&[7]))]);
}

#[test]
fn the_owners_of_every_leaf() {
    let wrong = Model {
        owning: Which::All,
        ..RIGHT
    };
    shuts_out(wrong, &[unowned_leaf()]);
}

#[test]
fn the_last_rink_lost() {
    let wrong = Model {
        seen: |sets, reader| union(sets) << 1 & !(reader << 1) == 0,
        ..RIGHT
    };
    shuts_out(wrong, &[last_rink()]);
}

#[test]
fn leaves_checked_as_steps_read_them() {
    let wrong = Model {
        checks: Checks::AtSteps,
        ..RIGHT
    };
    shuts_out(wrong, &[late_leaf().refused(5, 1)]);
}

#[test]
fn the_whole_slot_in_the_output() {
    let wrong = Model {
        delivery: Delivery::Slot,
        ..RIGHT
    };
    shuts_out(wrong, &[five_owners(), unowned_leaf()]);
}

#[test]
fn the_output_written_before_its_length_is_tested() {
    let wrong = Model {
        delivery: Delivery::Untested,
        ..RIGHT
    };
    shuts_out(wrong, &[short_output()]);
}

#[test]
fn the_wanted_node_with_the_last_27() {
    let wrong = Model {
        value: |wanted| wanted,
        ..RIGHT
    };
    shuts_out(wrong, &[short_output()]);
}

#[test]
fn nothing_with_the_last_27() {
    let wrong = Model {
        value: |_| 0,
        ..RIGHT
    };
    shuts_out(wrong, &[short_output()]);
}

/// The right program is right of refusals that no wrong one misses, too.
#[test]
fn the_right_program() {
    let owned = || sum_run().owned_by(&[&[0], &[1]]);
    for row in [
        late_step(),
        late_leaf().wanting(3).refused(24, 3),
        crossed_leaf().read_by(&[2]).refused(5, 0),
        owned().owner_bytes(15).refused(1, NO_NODE),
        owned().wanting(3).refused(1, NO_NODE),
        owned().read_by(&[0]).wanting(0).shows(&w(1, 2), &[]),
    ] {
        row.holds();
        assert!(RIGHT.answer(&row.run) == row.wanted, "{}", row.name());
    }
}
