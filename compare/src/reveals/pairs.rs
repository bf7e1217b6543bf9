//! Two runs with the same plan, owners, reader and wanted node, each held against its
//! own first; and a run beside the plan call.

use super::draw::{background, stale};
use super::{begun, run, After, Buffers, Request, Reveal, Scene, Walk};
use crate::plans::{sheet_in, SLOT};
use oracle_list::random::Random;
use std::collections::BTreeSet;
use std::ops::Range;

/// Sizes in a head: what a slot without a sheet is read for.
const SIZES: [Range<usize>; 2] = [0..6, 26..28];

/// The buffers of two second runs.
pub struct Pair {
    /// Differs in everything unwalked. Where no sheet is read, in everything.
    unwalked: Buffers,
    /// The steps that may be written.
    steps: BTreeSet<usize>,
    /// Any bytes, and an output of any length; the work buffer is long enough. None
    /// if the first run's is not.
    any: Option<Buffers>,
}

impl Pair {
    pub fn draw(random: &mut Random, scene: &Scene, request: &Request, before: &Buffers) -> Pair {
        let walk = scene.walk.as_ref();
        let begun = begun(walk, request, before.work.len());
        let walked = begun.map_or_else(|_| BTreeSet::new(), |(_, walked)| walked);
        let leaves = walk.map_or(0, |walk| walk.leaves);
        let steps = walked.iter().copied().filter(|n| *n >= leaves);
        let enough = walk.map(|walk| SLOT * walk.nodes());
        Pair {
            unwalked: unwalked(random, walk, &walked, before),
            steps: steps.collect(),
            any: enough
                .filter(|length| *length <= before.work.len())
                .map(|length| any(random, length)),
        }
    }

    pub fn has_rights(&self) -> bool {
        self.any.is_some()
    }

    /// Runs both, beside the first run of the same program.
    pub fn check(
        &self,
        answer: Reveal,
        request: &Request,
        before: &Buffers,
        first: &After,
    ) -> Result<(), String> {
        let second = run(answer, request, &self.unwalked)?;
        self.alike([before, &self.unwalked], [first, &second])
            .map_err(|fault| format!("over other unwalked bytes: {fault}"))?;
        let Some(any) = &self.any else {
            return Ok(());
        };
        let third = run(answer, request, any)?;
        refused_alike(request.wanted, any, first.reply.0, &third)
            .map_err(|fault| format!("over any buffers: {fault}"))
    }

    /// Equal replies and the same writes, into the slots of walked steps and the
    /// output alone.
    fn alike(&self, before: [&Buffers; 2], after: [&After; 2]) -> Result<(), String> {
        if after[0].reply != after[1].reply {
            return Err(format!("reply {:?}", after[1].reply));
        }
        let slots = before.map(|buffers| buffers.work.chunks(SLOT));
        let [first, second] = after.map(|after| after.work.bytes().chunks(SLOT));
        let [old_first, old_second] = slots;
        let slots = old_first.zip(old_second).zip(first.zip(second));
        for (node, ((old_first, old_second), (first, second))) in slots.enumerate() {
            if (first, second) == (old_first, old_second) {
                continue;
            }
            if !self.steps.contains(&node) {
                return Err(format!("slot {node} is written"));
            }
            if !same_writes([old_first, old_second], [first, second]) {
                return Err(format!("other bytes in slot {node}"));
            }
        }
        let out = after.map(|after| after.out.bytes());
        match same_writes(before.map(|buffers| &buffers.out[..]), out) {
            true => Ok(()),
            false => Err("other bytes in the output".to_string()),
        }
    }
}

/// Each byte is the same afterwards, or in both as it was.
fn same_writes(before: [&[u8]; 2], after: [&[u8]; 2]) -> bool {
    let before = before[0].iter().zip(before[1]);
    let mut bytes = before.zip(after[0].iter().zip(after[1]));
    bytes.all(|(before, after)| after.0 == after.1 || before == after)
}

/// 30 if the first run's code is, and then nothing is changed.
fn refused_alike(wanted: u32, before: &Buffers, first: u32, after: &After) -> Result<(), String> {
    let (code, node) = after.reply;
    if (code == 30) != (first == 30) || code == 30 && node != wanted {
        return Err(format!("reply {:?}", after.reply));
    }
    let kept = after.work.bytes() == before.work && after.out.bytes() == before.out;
    match code != 30 || kept {
        true => Ok(()),
        false => Err("a byte changed".to_string()),
    }
}

/// Other bytes everywhere but in what is read of the walked leaves.
fn unwalked(
    random: &mut Random,
    walk: Option<&Walk>,
    walked: &BTreeSet<usize>,
    before: &Buffers,
) -> Buffers {
    let mask = 1 + random.below(255) as u8;
    let other = |bytes: &[u8]| bytes.iter().map(|byte| byte ^ mask).collect::<Vec<u8>>();
    let mut second = Buffers {
        work: other(&before.work),
        out: other(&before.out),
    };
    let Some(walk) = walk else {
        return second;
    };
    if random.percent(50) {
        let sheets = (0..walk.nodes()).filter_map(|node| walk.sheet(node));
        let sheets: Vec<Vec<u8>> = sheets.map(<[u8]>::to_vec).collect();
        stale(random, &sheets, &mut second.work);
    }
    for leaf in walked.iter().filter(|node| **node < walk.leaves) {
        let slot = &before.work[SLOT * leaf..SLOT * (leaf + 1)];
        let read = match sheet_in(slot) {
            Ok(sheet) => [0..sheet.len(), 0..0],
            Err(_) => SIZES,
        };
        for part in read {
            let start = SLOT * leaf + part.start;
            second.work[start..start + part.len()].copy_from_slice(&slot[part]);
        }
    }
    second
}

fn any(random: &mut Random, enough: usize) -> Buffers {
    let more = random.pick(&[0, 0, 1, SLOT, 3000]);
    let out_len = random.pick(&[0, 97, 98, SLOT, SLOT + 1, 3000]);
    Buffers {
        work: background(random, enough + more),
        out: background(random, out_len),
    }
}

/// Where the plan call accepts: 1, 27, 30, or the sheet of its slot.
pub fn as_planned(request: &Request, found: &After, accepted: Option<&[u8]>) -> Result<(), String> {
    let Some(planned) = accepted else {
        return Ok(());
    };
    let (code, length) = found.reply;
    if code != 0 {
        return match [1, 27, 30].contains(&code) {
            true => Ok(()),
            false => Err(format!("reply {:?} of an accepted plan", found.reply)),
        };
    }
    let start = SLOT * request.wanted as usize;
    let sheet = sheet_in(&planned[start..start + SLOT]);
    let shown = &found.out.bytes()[..length as usize];
    match sheet == Ok(shown) {
        true => Ok(()),
        false => Err("not the sheet that the plan call leaves".to_string()),
    }
}

#[cfg(test)]
mod tests {
    use super::*;
    use crate::plans::{self, Draft};
    use crate::Reply;
    use oracle_list::text;
    use plain_port::{check_sheet, reveal_node};

    /// The sum of two leaves beside a third, which nobody walks, and a step over it.
    fn sum() -> (Scene, Request) {
        let leaves = ["W[1,2]", "W[10,20]", "W[5,6]"].map(text::bytes);
        let mut draft = Draft::new(leaves.to_vec());
        draft
            .steps
            .extend([plans::step(2, 2, 2), plans::step(2, 0, 1)]);
        let laid = draft.request();
        let request = Request {
            plan: laid.plan.clone(),
            owners: [[1, 0, 0, 0, 0, 0, 0, 0]; 3].concat(),
            reader: 1,
            wanted: 4,
        };
        let work = plans::lay_out(&laid, 0x11);
        (Scene::new(laid.plan, work), request)
    }

    /// What pairs find of a program, if anything; the reader sees what 1 lets see.
    fn fault(answer: Reveal, reader: u64) -> Option<String> {
        let (scene, mut request) = sum();
        request.reader = reader;
        let mut random = Random::new(5);
        let before = Buffers {
            work: scene.work.clone(),
            out: vec![0x22; SLOT + 9],
        };
        let mut check = || {
            let pair = Pair::draw(&mut random, &scene, &request, &before);
            assert!(pair.has_rights());
            let first = run(answer, &request, &before)?;
            pair.check(answer, &request, &before, &first)?;
            as_planned(&request, &first, scene.accepted[0].as_deref())
        };
        (0..60).find_map(|_| check().err())
    }

    fn finds(answer: Reveal, reader: u64, wanted: &str) {
        let found = fault(answer, reader).unwrap_or_default();
        assert!(found.contains(wanted), "`{found}`, where `{wanted}` is due");
    }

    #[test]
    fn the_port_is_alike() {
        assert_eq!(fault(reveal_node, 1), None);
        assert_eq!(fault(reveal_node, 0), None);
    }

    #[test]
    fn what_is_unwalked_must_not_be_read() {
        let every_leaf: Reveal = |plan, owners, reader, wanted, work, out| {
            let bad = (0..3).find(|leaf| check_sheet(&work[SLOT * leaf..][..98]) != 0);
            match bad {
                Some(leaf) => (5, leaf as u32),
                None => reveal_node(plan, owners, reader, wanted, work, out),
            }
        };
        finds(every_leaf, 1, "unwalked bytes: reply");
        let whole_slot: Reveal = |plan, owners, reader, wanted, work, out| {
            let reply = reveal_node(plan, owners, reader, wanted, work, out);
            out[..SLOT].copy_from_slice(&work[4 * SLOT..]);
            reply
        };
        finds(whole_slot, 1, "unwalked bytes: other bytes in the output");
        // A byte of the slot is moved behind the sheet.
        let padded: Reveal = |plan, owners, reader, wanted, work, out| {
            let padding = work[3 * SLOT];
            let reply = reveal_node(plan, owners, reader, wanted, work, out);
            work[4 * SLOT + 100] = padding;
            reply
        };
        finds(padded, 1, "unwalked bytes: other bytes in slot 4");
    }

    #[test]
    fn what_is_unwalked_must_not_be_written() {
        let every_step: Reveal = |plan, owners, reader, wanted, work, out| {
            let reply = reveal_node(plan, owners, reader, wanted, work, out);
            work[3 * SLOT] = 0;
            reply
        };
        finds(every_step, 1, "unwalked bytes: slot 3 is written");
        let behind_a_leaf: Reveal = |plan, owners, reader, wanted, work, out| {
            let reply = reveal_node(plan, owners, reader, wanted, work, out);
            work[98] = 0;
            reply
        };
        finds(behind_a_leaf, 1, "unwalked bytes: slot 0 is written");
    }

    /// The reader has no rink: everything is refused with 30.
    #[test]
    fn rights_must_not_hang_on_buffers() {
        let by_output: Reveal = |plan, owners, reader, wanted, work, out| match out.len() {
            0 => (27, plans::NO_NODE),
            _ => reveal_node(plan, owners, reader, wanted, work, out),
        };
        finds(by_output, 0, "any buffers: reply (27, 65535)");
        let after_leaves: Reveal =
            |plan, owners, reader, wanted, work, out| match check_sheet(&work[..98]) {
                0 => reveal_node(plan, owners, reader, wanted, work, out),
                code => (code, 0),
            };
        finds(after_leaves, 0, "reply");
        let signed: Reveal = |plan, owners, reader, wanted, work, out| {
            let reply = reveal_node(plan, owners, reader, wanted, work, out);
            out.iter_mut().skip(2000).for_each(|byte| *byte = 0);
            reply
        };
        finds(signed, 0, "any buffers: a byte changed");
    }

    #[test]
    fn an_accepted_plan_decides() {
        let other_node: Reveal = |plan, owners, reader, _, work, out| -> Reply {
            reveal_node(plan, owners, reader, 0, work, out)
        };
        finds(other_node, 1, "not the sheet that the plan call leaves");
        let refused: Reveal = |_, _, _, _, _, _| (24, 4);
        finds(refused, 1, "reply (24, 4) of an accepted plan");
    }
}
