//! The call that shows a reader one node's sheet (document 02, S-7): drawn over the
//! plans' generator and held against the oracle, walked step by step as for plans.
//! The nodes walked and their owners are found here anew. Every run has two more over
//! other buffers, and stands beside the plan call (`pairs`).

mod draw;
mod outcomes;
mod pairs;
pub mod stored;

use crate::guard::Lent;
use crate::judge;
use crate::plans::{self, Step, NO_NODE, PLANS, SLOT};
use crate::tally::Tally;
use crate::Reply;
use oracle_list::form::hex;
use oracle_list::random::Random;
use oracle_list::sheet::HEAD;
use outcomes::{Outcomes, Seen};
use std::collections::BTreeSet;
use std::fmt;

pub type Reveal = fn(&[u8], &[u8], u64, u32, &mut [u8], &mut [u8]) -> Reply;

/// The calls that are held against the walk, as in `PLANS`.
pub const REVEALS: [(&str, Reveal); 2] = [
    ("port", plain_port::reveal_node),
    ("proved", crate::proved::reveal_node),
];

/// Runs over one plan and its work buffer.
const RUNS: usize = 8;
/// With so many owners a node is shown to everybody.
const ENOUGH: u32 = 5;

/// A call but for its buffers.
#[derive(Clone)]
pub struct Request {
    pub plan: Vec<u8>,
    pub owners: Vec<u8>,
    pub reader: u64,
    pub wanted: u32,
}

#[derive(Clone, PartialEq)]
pub struct Buffers {
    pub work: Vec<u8>,
    pub out: Vec<u8>,
}

/// The reply, the sheets written by node, and the one in the output.
#[derive(Clone, Debug, PartialEq)]
pub struct Expected {
    pub reply: Reply,
    pub written: Vec<(usize, Vec<u8>)>,
    pub shown: Vec<u8>,
}

impl Expected {
    fn refused(reply: Reply) -> Expected {
        Expected {
            reply,
            written: Vec::new(),
            shown: Vec::new(),
        }
    }

    /// The writes, made into any buffers that have room for them.
    pub fn after(&self, before: &Buffers) -> Buffers {
        let mut after = before.clone();
        for (node, sheet) in &self.written {
            let start = SLOT * node;
            after.work[start..start + sheet.len()].copy_from_slice(sheet);
        }
        after.out[..self.shown.len()].copy_from_slice(&self.shown);
        after
    }
}

/// What a node has: its sheet or its refusal, or nothing behind a refusal.
type Found = Option<Result<Vec<u8>, u32>>;

/// A well-formed plan, each of its nodes on its own.
pub struct Walk {
    leaves: usize,
    steps: Vec<Step>,
    /// None at all over a short buffer.
    found: Vec<Found>,
}

impl Walk {
    /// Nothing if the plan is malformed.
    pub fn new(plan: &[u8], work: &[u8]) -> Option<Walk> {
        let (leaves, steps) = plans::parse(plan)?;
        let found = Vec::new();
        let mut walk = Walk {
            leaves,
            steps,
            found,
        };
        if work.len() >= SLOT * walk.nodes() {
            for leaf in work.chunks(SLOT).take(leaves) {
                let sheet = plans::leaf_sheet(leaf).map(<[u8]>::to_vec);
                walk.found.push(Some(sheet));
            }
            for node in leaves..walk.nodes() {
                let found = walk.step(node);
                walk.found.push(found);
            }
        }
        Some(walk)
    }

    fn step(&self, node: usize) -> Found {
        let step = self.steps[node - self.leaves];
        let (left, right) = (self.sheet(step.left)?, self.sheet(step.right)?);
        let answer = judge::answer(step.component, node as u32, left, right, SLOT);
        match answer.code {
            0 => Some(Ok(answer.bytes)),
            code => Some(Err(code)),
        }
    }

    fn nodes(&self) -> usize {
        self.leaves + self.steps.len()
    }

    fn sheet(&self, node: usize) -> Option<&[u8]> {
        let found = self.found.get(node)?.as_ref()?;
        found.as_deref().ok()
    }

    fn refusal(&self, node: usize) -> Option<u32> {
        let found = self.found.get(node)?.as_ref()?;
        found.as_ref().err().copied()
    }

    /// A node and what it stands on, ascending.
    fn stands_on(&self, node: usize) -> BTreeSet<usize> {
        let mut nodes = BTreeSet::from([node]);
        let mut open = vec![node];
        while let Some(node) = open.pop() {
            let Some(place) = node.checked_sub(self.leaves) else {
                continue;
            };
            let step = self.steps[place];
            let new = [step.left, step.right].into_iter();
            open.extend(new.filter(|operand| nodes.insert(*operand)));
        }
        nodes
    }
}

/// The union of the owners below a node, of sets that 1 lets pass.
fn owners_of(walked: &BTreeSet<usize>, owners: &[u8]) -> u64 {
    let sets = owners.chunks_exact(8).enumerate();
    let walked = sets.filter(|(leaf, _)| walked.contains(leaf));
    walked.fold(0, |all, (_, set)| {
        all | u64::from_le_bytes(set.try_into().expect("eight bytes"))
    })
}

fn may_see(reader: u64, owners: u64) -> bool {
    let outside = owners & !reader;
    outside == 0 || (0..64).filter(|rink| owners >> rink & 1 == 1).count() >= ENOUGH as usize
}

/// The plan and the nodes that are walked, or the refusal before any sheet is read.
fn begun<'a>(
    walk: Option<&'a Walk>,
    request: &Request,
    work_len: usize,
) -> Result<(&'a Walk, BTreeSet<usize>), Reply> {
    let walk = walk.ok_or((1, NO_NODE))?;
    let wanted = request.wanted as usize;
    if wanted >= walk.nodes() || request.owners.len() != 8 * walk.leaves {
        return Err((1, NO_NODE));
    }
    if work_len < SLOT * walk.nodes() {
        return Err((27, NO_NODE));
    }
    let walked = walk.stands_on(wanted);
    match may_see(request.reader, owners_of(&walked, &request.owners)) {
        true => Ok((walk, walked)),
        false => Err((30, request.wanted)),
    }
}

/// 1, 27, 30, the walked leaves' 3 to 5, the walked steps, 27.
pub fn expected(
    walk: Option<&Walk>,
    request: &Request,
    work_len: usize,
    out_len: usize,
) -> Expected {
    let (walk, walked) = match begun(walk, request, work_len) {
        Ok(begun) => begun,
        Err(reply) => return Expected::refused(reply),
    };
    let mut found = Expected::refused((27, NO_NODE));
    for node in walked {
        if let Some(code) = walk.refusal(node) {
            found.reply = (code, node as u32);
            return found;
        }
        let sheet = walk.sheet(node).expect("operands without a refusal");
        if node >= walk.leaves {
            found.written.push((node, sheet.to_vec()));
        }
    }
    let sheet = walk.sheet(request.wanted as usize).expect("it was walked");
    if sheet.len() <= out_len {
        found.reply = (0, sheet.len() as u32);
        found.shown = sheet.to_vec();
    }
    found
}

/// What a call left.
pub struct After {
    pub reply: Reply,
    pub work: Lent,
    pub out: Lent,
}

/// Runs a call on guarded copies; what is wrong beside them, if anything.
pub fn run(answer: Reveal, request: &Request, before: &Buffers) -> Result<After, String> {
    let (plan, owners) = (Lent::new(&request.plan), Lent::new(&request.owners));
    let (mut work, mut out) = (Lent::new(&before.work), Lent::new(&before.out));
    let reply = answer(
        plan.bytes(),
        owners.bytes(),
        request.reader,
        request.wanted,
        work.bytes_mut(),
        out.bytes_mut(),
    );
    if plan.bytes() != request.plan || owners.bytes() != request.owners {
        return Err("the plan or the owners changed".to_string());
    }
    if ![&plan, &owners, &work, &out].into_iter().all(Lent::is_kept) {
        return Err("bytes beside a buffer changed".to_string());
    }
    Ok(After { reply, work, out })
}

/// Holds what a call left against what is expected of it.
fn check(found: &After, reply: Reply, wanted: &Buffers) -> Result<(), String> {
    if found.reply != reply {
        return Err(format!("reply {:?}", found.reply));
    }
    if found.work.bytes() != wanted.work {
        return Err("other bytes in the work buffer".to_string());
    }
    if found.out.bytes() != wanted.out {
        return Err("other bytes in the output".to_string());
    }
    Ok(())
}

/// A plan over its work buffer.
struct Scene {
    plan: Vec<u8>,
    work: Vec<u8>,
    walk: Option<Walk>,
    /// The buffer after each of `PLANS`, where it accepts.
    accepted: Vec<Option<Vec<u8>>>,
}

impl Scene {
    fn new(plan: Vec<u8>, work: Vec<u8>) -> Scene {
        let walked = |(_, answer): &(&str, plans::Plan)| {
            let mut after = work.clone();
            (answer(&plan, &mut after).0 == 0).then_some(after)
        };
        Scene {
            accepted: PLANS.iter().map(walked).collect(),
            walk: Walk::new(&plan, &work),
            plan,
            work,
        }
    }

    fn seen<'a>(&'a self, request: &'a Request, wanted: &'a Expected, out_len: usize) -> Seen<'a> {
        Seen {
            request,
            out_len,
            walk: self.walk.as_ref(),
            accepted: self.accepted[0].is_some(),
            wanted,
        }
    }

    /// Holds one run, its pairs and what the plan call says of it.
    fn hold(&self, random: &mut Random, counts: &mut Counts, request: &Request, out: Vec<u8>) {
        let before = Buffers {
            work: self.work.clone(),
            out,
        };
        let walk = self.walk.as_ref();
        let wanted = expected(walk, request, before.work.len(), before.out.len());
        let after = wanted.after(&before);
        let pair = pairs::Pair::draw(random, self, request, &before);
        counts.count(&self.seen(request, &wanted, before.out.len()));
        counts.count_pairs(&wanted, &pair);
        for ((name, answer), accepted) in REVEALS.iter().zip(&self.accepted) {
            let held = run(*answer, request, &before).and_then(|found| {
                check(&found, wanted.reply, &after)?;
                pair.check(*answer, request, &before, &found)?;
                pairs::as_planned(request, &found, accepted.as_deref())
            });
            if let Err(fault) = held {
                let tally = &mut counts.tally;
                tally.differ(|| show(name, &fault, request, &before, &wanted));
            }
        }
    }
}

/// A call in hex, with its leaves' sheets; of one that has none, its head.
fn show(name: &str, fault: &str, request: &Request, before: &Buffers, wanted: &Expected) -> String {
    let (leaves, _) = plans::parse(&request.plan).unwrap_or_default();
    let slots = before.work.chunks_exact(SLOT).take(leaves);
    let sheets: Vec<String> = slots
        .map(|slot| hex(plans::sheet_in(slot).unwrap_or(&slot[..HEAD])))
        .collect();
    format!(
        "{name}: {fault}; wanted {:?}; plan {} owners {} reader {:x} node {} work {} out {} leaves {}",
        wanted.reply,
        hex(&request.plan),
        hex(&request.owners),
        request.reader,
        request.wanted,
        before.work.len(),
        before.out.len(),
        sheets.join(",")
    )
}

/// What was tried.
#[derive(Default)]
pub struct Counts {
    pub tally: Tally,
    pub outcomes: Outcomes,
    /// Pairs that differ in everything unwalked: in all, and with a sheet shown.
    pub alike: [usize; 2],
    /// Pairs over any buffers: in all, and refused with 30.
    pub rights: [usize; 2],
}

impl Counts {
    fn count(&mut self, seen: &Seen) {
        self.tally.count(seen.wanted.reply.0);
        self.outcomes.count(seen);
    }

    fn count_pairs(&mut self, wanted: &Expected, pair: &pairs::Pair) {
        let code = wanted.reply.0;
        self.alike[0] += 1;
        self.alike[1] += usize::from(code == 0);
        if pair.has_rights() {
            self.rights[0] += 1;
            self.rights[1] += usize::from(code == 30);
        }
    }
}

impl fmt::Display for Counts {
    fn fmt(&self, f: &mut fmt::Formatter) -> fmt::Result {
        let ([pairs, shown], [any, refused]) = (self.alike, self.rights);
        writeln!(f, "{}", self.outcomes)?;
        if pairs > 0 {
            writeln!(
                f,
                "pairs: {pairs} that differ in everything unwalked ({shown} shown), {any} over any buffers ({refused} refused with 30)"
            )?;
        }
        write!(f, "{}", self.tally)
    }
}

/// Generated runs over the plans' generator.
pub fn generated(seed: u64, count: usize) -> Counts {
    let mut random = Random::new(seed);
    let mut counts = Counts::default();
    while counts.tally.total() < count {
        let scene = draw::scene(&mut random);
        for _ in 0..RUNS.min(count - counts.tally.total()) {
            let (request, out) = draw::request(&mut random, &scene);
            scene.hold(&mut random, &mut counts, &request, out);
        }
    }
    counts
}

#[cfg(test)]
mod tests {
    use super::*;
    use crate::plans::{Draft, STEP_CODES};
    use oracle_list::text;

    #[test]
    fn generated_runs_agree() {
        let counts = generated(1, 20_000);
        assert_eq!(counts.tally.differences, 0, "{counts}");
        assert_eq!(counts.outcomes.missing(), [""; 0], "{counts}");
        for code in [0, 1, 3, 4, 5, 27, 30].iter().chain(&STEP_CODES) {
            assert!(counts.tally.of(*code) > 5, "no {code}: {counts}");
        }
        assert!(
            counts.alike[0] == 20_000 && counts.alike[1] > 4000,
            "{counts}"
        );
        assert!(
            counts.rights[0] > 10_000 && counts.rights[1] > 2000,
            "{counts}"
        );
    }

    /// The sum of two leaves.
    fn sum() -> (Scene, Request) {
        let mut draft = Draft::new(["W[1,2]", "W[10,20]"].map(text::bytes).to_vec());
        draft.steps.push(plans::step(2, 0, 1));
        let laid = draft.request();
        let request = Request {
            plan: laid.plan.clone(),
            owners: vec![0; 16],
            reader: 0,
            wanted: 2,
        };
        let work = plans::lay_out(&laid, 0x11);
        (Scene::new(laid.plan, work), request)
    }

    fn fault(answer: Reveal) -> Option<String> {
        let (scene, request) = sum();
        let before = Buffers {
            out: vec![0x22; 200],
            work: scene.work.clone(),
        };
        let wanted = expected(scene.walk.as_ref(), &request, before.work.len(), 200);
        assert_eq!(wanted.reply, (0, 98));
        assert_eq!(wanted.shown, text::bytes("W[11,22] node=2"));
        let found = run(answer, &request, &before);
        let held = found.and_then(|found| check(&found, wanted.reply, &wanted.after(&before)));
        held.err()
    }

    /// A wrong answer is seen: the reply, a byte of either buffer, a byte beside one.
    #[test]
    fn a_wrong_answer_is_a_difference() {
        assert_eq!(fault(plain_port::reveal_node), None);
        let refused: Reveal = |_, _, _, wanted, _, _| (30, wanted);
        assert_eq!(fault(refused).as_deref(), Some("reply (30, 2)"));
        let slot: Reveal = |plan, owners, reader, wanted, work, out| {
            let reply = plain_port::reveal_node(plan, owners, reader, wanted, work, out);
            work[2 * SLOT + 98] = 0;
            reply
        };
        let in_work = Some("other bytes in the work buffer");
        assert_eq!(fault(slot).as_deref(), in_work);
        let behind: Reveal = |plan, owners, reader, wanted, work, out| {
            let reply = plain_port::reveal_node(plan, owners, reader, wanted, work, out);
            out[98] = 0;
            reply
        };
        assert_eq!(fault(behind).as_deref(), Some("other bytes in the output"));
    }

    /// By the documents' words, not by the port.
    #[test]
    fn the_walk_finds_nodes_and_owners() {
        let mut draft = Draft::new(["W[1,2]", "W[2,1]", "W[3,4]"].map(text::bytes).to_vec());
        let steps = [(2, 0, 2), (9, 1, 1), (2, 3, 0), (2, 4, 5)];
        let step = |(component, left, right)| plans::step(component, left, right);
        draft.steps.extend(steps.map(step));
        let laid = draft.request();
        let walk = Walk::new(&laid.plan, &plans::lay_out(&laid, 0)).expect("well-formed");
        let nodes = |node| walk.stands_on(node).into_iter().collect::<Vec<_>>();
        assert_eq!([nodes(1), nodes(4)], [vec![1], vec![1, 4]]);
        assert_eq!(nodes(5), [0, 2, 3, 5]);
        assert_eq!(nodes(6), [0, 1, 2, 3, 4, 5, 6]);
        let owners = [3u64, 4, 1 << 63].map(u64::to_le_bytes).concat();
        assert_eq!(owners_of(&walk.stands_on(5), &owners), 3 | 1 << 63);
        assert_eq!(owners_of(&walk.stands_on(4), &owners), 4);
        assert_eq!([walk.refusal(1), walk.refusal(4)], [Some(5), None]);
        assert!(walk.sheet(5).is_some() && walk.sheet(6).is_none());
        for (reader, owners, seen) in [
            (0, 0, true),
            (0, 0x1f, true),
            (0, 0xf, false),
            (7, 0xf, false),
            (0xff, 0xf, true),
            (u64::MAX >> 1, 1 << 63, false),
        ] {
            assert_eq!(may_see(reader, owners), seen, "{reader:x} {owners:x}");
        }
    }
}
