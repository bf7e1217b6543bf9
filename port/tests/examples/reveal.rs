//! Which rink may see which node (document 02, S-7): the reply, every byte of the work buffer and every byte of the output.

use crate::answering::{propagate_properties, reveal_node};
use crate::made::*;
use crate::walked::{slot, FILLER};

pub const NO_NODE: u32 = 65_535;

/// What stands in the output before the call.
const PAPER: u8 = 0x77;

/// Room behind the longest sheet.
const AMPLE: usize = SLOT + 10;

/// A run over a well-formed plan.
#[derive(Clone)]
pub struct Run {
    pub leaves: Vec<Vec<u8>>,
    pub steps: Vec<(u32, u32, u32)>,
    pub owners: Vec<u8>,
    pub reader: u64,
    pub wanted: u32,
    /// The lengths of the two buffers.
    pub work: usize,
    pub out: usize,
}

/// The reply, and both buffers.
#[derive(Clone, PartialEq)]
pub struct After {
    pub reply: (u32, u32),
    pub work: Vec<u8>,
    pub out: Vec<u8>,
}

/// A run and what it gives.
pub struct Row {
    pub run: Run,
    pub wanted: After,
}

/// The rinks of a set as its bits.
pub fn rinks(set: &[u32]) -> u64 {
    set.iter().fold(0, |bits, rink| bits | 1 << rink)
}

/// Nobody owns a leaf, the reader's set is empty, the last node is wanted, and there is room.
fn run(leaves: &[Vec<u8>], steps: &[(u32, u32, u32)]) -> Run {
    let nodes = leaves.len() + steps.len();
    Run {
        leaves: leaves.to_vec(),
        steps: steps.to_vec(),
        owners: vec![0; 8 * leaves.len()],
        reader: 0,
        wanted: nodes as u32 - 1,
        work: SLOT * nodes,
        out: AMPLE,
    }
}

/// The sum of two ranges, and its sheet.
pub fn sum_run() -> Run {
    run(&[w(1, 2), w(10, 20)], &[(ADD, 0, 1)])
}

pub fn sum() -> Vec<u8> {
    numbered(w(11, 22), 2)
}

fn numbered(sheet: Vec<u8>, node: u8) -> Vec<u8> {
    with(sheet, &[(NODE, node)])
}

impl Run {
    pub fn nodes(&self) -> usize {
        self.leaves.len() + self.steps.len()
    }

    pub fn owned_by(mut self, sets: &[&[u32]]) -> Run {
        self.owners = sets
            .iter()
            .flat_map(|set| rinks(set).to_le_bytes())
            .collect();
        self
    }

    pub fn read_by(mut self, set: &[u32]) -> Run {
        self.reader = rinks(set);
        self
    }

    pub fn wanting(mut self, node: u32) -> Run {
        self.wanted = node;
        self
    }

    /// With so many bytes of owners, work buffer or output.
    pub fn owner_bytes(mut self, length: usize) -> Run {
        self.owners.resize(length, 0);
        self
    }

    pub fn working(mut self, length: usize) -> Run {
        self.work = length;
        self
    }

    pub fn writing(mut self, length: usize) -> Run {
        self.out = length;
        self
    }

    /// Both buffers before the call; the reply is none.
    pub fn before(&self) -> After {
        let mut work: Vec<u8> = self.leaves.iter().flat_map(|leaf| slot(leaf)).collect();
        work.resize(self.work, FILLER);
        After {
            reply: (u32::MAX, u32::MAX),
            work,
            out: vec![PAPER; self.out],
        }
    }

    fn answered(&self) -> After {
        let plan = plan(self.leaves.len() as u16, &self.steps);
        let mut after = self.before();
        let (work, out) = (&mut after.work, &mut after.out);
        after.reply = reveal_node(&plan, &self.owners, self.reader, self.wanted, work, out);
        after
    }

    /// What the plan call says of the same buffer.
    fn plan_reply(&self) -> (u32, u32) {
        let plan = plan(self.leaves.len() as u16, &self.steps);
        propagate_properties(&plan, &mut self.before().work)
    }

    /// A reply that changes no byte but those of the slots written.
    pub fn refuses(self, reply: (u32, u32), written: &[(usize, Vec<u8>)]) -> Row {
        let mut wanted = self.before();
        wanted.reply = reply;
        for (node, sheet) in written {
            let at = SLOT * node;
            wanted.work[at..at + sheet.len()].copy_from_slice(sheet);
        }
        Row { run: self, wanted }
    }

    /// The sheet at the start of the output, and its length.
    pub fn shows(self, sheet: &[u8], written: &[(usize, Vec<u8>)]) -> Row {
        let mut row = self.refuses((0, sheet.len() as u32), written);
        row.wanted.out[..sheet.len()].copy_from_slice(sheet);
        row
    }

    /// Neither a sheet nor a slot.
    pub fn refused(self, code: u32, node: u32) -> Row {
        self.refuses((code, node), &[])
    }
}

impl Row {
    pub fn holds(&self) {
        let found = self.run.answered();
        assert_eq!(found.reply, self.wanted.reply, "{}", self.name());
        assert!(found == self.wanted, "other bytes: {}", self.name());
    }

    pub fn name(&self) -> String {
        let Run {
            steps,
            owners,
            reader,
            wanted,
            work,
            out,
            ..
        } = &self.run;
        format!("{wanted} of {steps:?} for {reader:x}, owners {owners:?}, work {work}, out {out}")
    }
}

fn hold(rows: impl IntoIterator<Item = Row>) {
    rows.into_iter().for_each(|row| row.holds());
}

/// Shown with its sum in its slot.
pub fn sum_shown(run: Run) -> Row {
    run.shows(&sum(), &[(2, sum())])
}

#[test]
fn the_owners_are_in_the_readers_set() {
    let owned = || sum_run().owned_by(&[&[0], &[1]]);
    hold([
        owned().read_by(&[0]).refused(30, 2),
        owned().read_by(&[1]).refused(30, 2),
        owned().refused(30, 2),
        sum_shown(owned().read_by(&[0, 1])),
        sum_shown(owned().read_by(&[0, 1, 63])),
        owned().read_by(&[0]).wanting(0).shows(&w(1, 2), &[]),
        owned().read_by(&[0]).wanting(1).refused(30, 1),
    ]);
}

/// Four of the union, though seven by leaves.
pub fn four_owners() -> Row {
    let run = sum_run().owned_by(&[&[0, 1, 2], &[0, 1, 2, 3]]);
    run.refused(30, 2)
}

pub fn five_owners() -> Row {
    sum_shown(sum_run().owned_by(&[&[0, 1, 2], &[2, 3, 4]]))
}

/// A leaf that nobody owns, beside one that somebody does.
pub fn unowned_leaf() -> Row {
    let run = sum_run().owned_by(&[&[0, 40], &[]]).wanting(1);
    run.shows(&w(10, 20), &[])
}

/// A plan of one leaf, owned by the last rink.
pub fn last_rink() -> Row {
    let run = run(&[w(1, 2)], &[]).owned_by(&[&[63]]);
    run.read_by(&[0, 31, 62]).refused(30, 0)
}

#[test]
fn owners_are_counted_once() {
    let five = || sum_run().owned_by(&[&[10, 20, 30, 40, 50], &[]]);
    hold([
        four_owners(),
        five_owners(),
        unowned_leaf(),
        last_rink(),
        last_rink().run.read_by(&[63]).shows(&w(1, 2), &[]),
        sum_shown(sum_run()),
        sum_shown(sum_run().read_by(&[7])),
        five().wanting(0).shows(&w(1, 2), &[]),
        sum_shown(five()),
        sum_shown(sum_run().owned_by(&[&[9], &[10, 11, 12, 13]])),
        sum_run()
            .owned_by(&[&[9], &[10, 11, 12, 13]])
            .wanting(1)
            .refused(30, 1),
    ]);
}

/// A walked leaf that 5 refuses, with owners.
pub fn crossed_leaf() -> Run {
    let leaves = [w(2, 1), w(10, 20)];
    run(&leaves, &[(ADD, 0, 1)]).owned_by(&[&[2], &[2]])
}

#[test]
fn rights_come_before_sheets() {
    hold([
        crossed_leaf().refused(30, 2),
        crossed_leaf().read_by(&[2]).refused(5, 0),
        crossed_leaf().writing(0).refused(30, 2),
        crossed_leaf().read_by(&[2]).writing(0).refused(5, 0),
    ]);
}

/// One byte short, the owners not the reader's, a leaf wanted.
pub fn short_work() -> Row {
    let run = sum_run().owned_by(&[&[0], &[1]]).wanting(0);
    let short = run.work - 1;
    run.working(short).refused(27, NO_NODE)
}

#[test]
fn arguments_come_before_rights() {
    let owned = || sum_run().owned_by(&[&[0], &[1]]);
    for length in [0, 1, 8, 15, 17, 23, 24, 128] {
        hold([
            owned().owner_bytes(length).refused(1, NO_NODE),
            owned().owner_bytes(length).working(0).refused(1, NO_NODE),
        ]);
    }
    for wanted in [3, 4, 32, 65_535, 65_536, 65_538, 70_000, u32::MAX] {
        hold([
            owned().wanting(wanted).refused(1, NO_NODE),
            owned().wanting(wanted).working(0).refused(1, NO_NODE),
        ]);
    }
    hold([
        short_work(),
        owned().working(0).refused(27, NO_NODE),
        crossed_leaf().working(2 * SLOT).refused(27, NO_NODE),
        sum_shown(sum_run().working(3 * SLOT + 500)),
    ]);
}

#[test]
fn a_malformed_plan() {
    let run = sum_run();
    let well = plan(2, &run.steps);
    let cut = &well[..well.len() - 1];
    let longer = [&well[..], &[0; 8]].concat();
    for malformed in [
        cut,
        &longer,
        &[],
        &plan(2, &[(ADD, 0, 2)]),
        &plan(2, &[(0, 0, 1)]),
        &plan(2, &[(ABS, 0, 1)]),
        &plan(33, &[]),
    ] {
        for length in [0, 16, 33 * 8] {
            let owners = vec![0; length];
            let mut after = run.before();
            let (work, out) = (&mut after.work, &mut after.out);
            let reply = reveal_node(malformed, &owners, u64::MAX, 0, work, out);
            assert_eq!(reply, (1, NO_NODE), "{malformed:?}");
            assert!(after == run.before(), "{malformed:?}");
        }
    }
}

/// The third leaf is crossed, and the sum of the others wanted.
pub fn unwalked_leaf() -> Row {
    let run = run(&[w(1, 2), w(10, 20), w(2, 1)], &[(ADD, 0, 1)]);
    let sum = numbered(w(11, 22), 3);
    run.shows(&sum, &[(3, sum.clone())])
}

/// A product that leaves 64 bits, and a step beside it.
fn product_run() -> Run {
    let leaves = [w(1 << 62, 1 << 62), w(10, 20)];
    run(&leaves, &[(MULTIPLY, 0, 0), (ABS, 1, 1)])
}

pub fn unwalked_product() -> Row {
    product_run().shows(&w(10, 20), &[(3, w(10, 20))])
}

#[test]
fn nothing_else_is_walked() {
    hold([
        unwalked_leaf(),
        unwalked_leaf().run.wanting(2).refused(5, 2),
        unwalked_product(),
        product_run().wanting(2).refused(24, 2),
    ]);
    assert_eq!(unwalked_leaf().run.plan_reply(), (5, 2));
    assert_eq!(product_run().plan_reply(), (24, 2));
}

/// A crossed leaf behind a step that is refused.
pub fn late_leaf() -> Run {
    let leaves = [w(LEAST, 0), w(2, 1), w(1, 2)];
    run(&leaves, &[(NEGATIVE, 0, 0), (ADD, 3, 2), (ADD, 4, 1)])
}

/// A step that is refused behind one that is taken.
pub fn late_step() -> Row {
    let leaves = [w(LEAST, 0), w(1, 2)];
    let steps = [(NEGATIVE, 1, 1), (NEGATIVE, 0, 0), (ADD, 2, 3)];
    run(&leaves, &steps).refuses((24, 3), &[(2, w(-2, -1))])
}

#[test]
fn leaves_come_before_steps() {
    hold([
        late_leaf().refused(5, 1),
        late_leaf().wanting(3).refused(24, 3),
        late_leaf().wanting(4).refused(24, 3),
        late_step(),
        late_step()
            .run
            .wanting(2)
            .shows(&w(-2, -1), &[(2, w(-2, -1))]),
        late_step().run.wanting(3).refused(24, 3),
    ]);
}

/// The first of two walked leaves, though the step reads the other first.
#[test]
fn leaves_are_checked_in_order() {
    let leaves = [w(1, 2), w(4, 3), with(w(1, 2), &[(TYPE, 9)])];
    let run = run(&leaves, &[(ADD, 2, 1)]);
    hold([
        run.clone().refused(5, 1),
        run.clone().wanting(2).refused(4, 2),
        run.wanting(0).shows(&w(1, 2), &[]),
    ]);
}

/// One byte short of the sum.
pub fn short_output() -> Row {
    sum_run().writing(97).refuses((27, NO_NODE), &[(2, sum())])
}

#[test]
fn a_short_output_is_27_at_last() {
    let leaf = || sum_run().wanting(1);
    hold([
        short_output(),
        sum_shown(sum_run().writing(98)),
        sum_shown(sum_run().writing(99)),
        sum_run().writing(0).refuses((27, NO_NODE), &[(2, sum())]),
        leaf().writing(97).refused(27, NO_NODE),
        leaf().writing(98).shows(&w(10, 20), &[]),
        product_run().wanting(2).writing(0).refused(24, 2),
        product_run()
            .writing(97)
            .refuses((27, NO_NODE), &[(3, w(10, 20))]),
    ]);
}

/// Numbers inside sheets are the plan's, whichever nodes are walked.
pub fn numbers_kept() -> Row {
    let leaves = [w(1, 2), w(10, 20), w(100, 200)];
    let steps = [(ADD, 0, 0), (ADD, 1, 2), (ADD, 0, 1), (ADD, 4, 0)];
    let (first, second) = (numbered(w(110, 220), 4), numbered(w(111, 222), 6));
    run(&leaves, &steps).shows(&second, &[(4, first), (6, second.clone())])
}

#[test]
fn every_kind_of_sheet_is_shown() {
    let texts = [t(&[b"pump", b"fan", b""]), t(&[b"a"])];
    let joined = numbered(t(&[b"pumpa", b"fana", b"a"]), 2);
    let huge = [f(1e308, 1.7e308)];
    let endless = numbered(f(f64::INFINITY, f64::INFINITY), 1);
    hold([
        numbers_kept(),
        run(&texts, &[]).wanting(0).shows(&texts[0], &[]),
        run(&texts, &[(ADD, 0, 1)]).shows(&joined, &[(2, joined.clone())]),
        run(&[absent()], &[(ABS, 0, 0)]).shows(&absent(), &[(1, absent())]),
        // Shown as it is, though 5 would refuse it as an operand.
        run(&huge, &[(ADD, 0, 0)]).shows(&endless, &[(1, endless.clone())]),
        run(&huge, &[(ADD, 0, 0), (ABS, 1, 1)]).refuses((5, 2), &[(1, endless)]),
    ]);
}

/// All 32 nodes, each of which stands on the one before.
#[test]
fn the_longest_chain() {
    let steps: Vec<_> = (0..31).map(|node| (NEGATIVE, node, node)).collect();
    let sheet = |node: usize| match node % 2 {
        0 => w(1, 2),
        _ => w(-2, -1),
    };
    let written: Vec<_> = (1..32).map(|node| (node, sheet(node))).collect();
    let chain = || run(&[w(1, 2)], &steps).owned_by(&[&[5]]);
    hold([
        chain().refused(30, 31),
        chain().read_by(&[5]).shows(&sheet(31), &written),
        chain()
            .read_by(&[5])
            .wanting(16)
            .shows(&sheet(16), &written[..16]),
    ]);
}

/// Every pair of sets of six rinks, under some readers.
#[test]
fn every_small_set() {
    const RINKS: [u32; 6] = [0, 1, 2, 31, 32, 63];
    let set = |bits: u32| -> Vec<u32> {
        let picked = |place: &usize| bits >> place & 1 == 1;
        (0..6).filter(picked).map(|place| RINKS[place]).collect()
    };
    let sets: Vec<Vec<u32>> = (0..64).map(set).collect();
    for (first, second) in sets.iter().flat_map(|a| sets.iter().map(move |b| (a, b))) {
        let union: Vec<u32> = RINKS
            .into_iter()
            .filter(|rink| first.contains(rink) || second.contains(rink))
            .collect();
        for reader in sets.iter().step_by(21) {
            let inside = union.iter().all(|rink| reader.contains(rink));
            let run = sum_run().owned_by(&[first, second]).read_by(reader);
            match inside || union.len() >= 5 {
                true => sum_shown(run).holds(),
                false => run.refused(30, 2).holds(),
            }
        }
    }
}
