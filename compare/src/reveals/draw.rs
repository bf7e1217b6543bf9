//! Work buffers, owners, readers and wanted nodes, so that every outcome occurs.

use super::{expected, owners_of, Request, Scene, Walk};
use crate::draw::out_len;
use crate::plans::{self, SLOT};
use oracle_list::random::Random;

/// In a hundred: owner sets of a wrong length, and wanted nodes outside the plan.
const FAULTY: usize = 5;
/// In a hundred: work buffers with sheets where no leaf is.
const STALE: usize = 30;

/// A plan of any kind over a work buffer.
pub fn scene(random: &mut Random) -> Scene {
    let request = plans::request(random);
    let mut work = background(random, request.work_len);
    if random.percent(STALE) {
        stale(random, &request.leaves, &mut work);
    }
    plans::lay_into(&mut work, SLOT, &request.leaves);
    Scene::new(request.plan, work)
}

/// Noise, or one byte throughout.
pub fn background(random: &mut Random, length: usize) -> Vec<u8> {
    if random.percent(25) {
        let byte = random.word() as u8;
        return vec![random.pick(&[0, 0xff, byte]); length];
    }
    let words = (0..length.div_ceil(8)).flat_map(|_| random.word().to_le_bytes());
    words.take(length).collect()
}

/// Sheets in some slots, as an earlier call may have left them.
pub fn stale(random: &mut Random, sheets: &[Vec<u8>], work: &mut [u8]) {
    let fits = |sheet: &&Vec<u8>| sheet.len() <= SLOT;
    let sheets: Vec<&Vec<u8>> = sheets.iter().filter(fits).collect();
    if sheets.is_empty() {
        return;
    }
    for slot in work.chunks_exact_mut(SLOT) {
        if random.percent(50) {
            let sheet = random.pick(&sheets);
            slot[..sheet.len()].copy_from_slice(sheet);
        }
    }
}

/// A call over a scene, and its output; the output's length is drawn around the sheet's.
pub fn request(random: &mut Random, scene: &Scene) -> (Request, Vec<u8>) {
    let walk = scene.walk.as_ref();
    let leaves = walk.map_or(random.below(34), |walk| walk.leaves);
    let mut owners = owner_sets(random, leaves);
    let wanted = wanted(random, walk);
    let inside = walk.filter(|walk| (wanted as usize) < walk.nodes());
    let owned = inside.map_or(random.word(), |walk| {
        owners_of(&walk.stands_on(wanted as usize), &owners)
    });
    if random.percent(FAULTY) {
        let nodes = walk.map_or(leaves, Walk::nodes);
        owners.resize(other_length(random, leaves, nodes), 0);
    }
    let request = Request {
        plan: scene.plan.clone(),
        owners,
        reader: reader(random, owned),
        wanted,
    };
    let shown = expected(walk, &request, scene.work.len(), SLOT).shown;
    let around = match shown.len() {
        0 => random.pick(&[0, 98, SLOT]),
        length => length,
    };
    let length = out_len(random, around);
    let out = background(random, length);
    (request, out)
}

/// Among a few rinks, so that about five own a node.
pub fn owner_sets(random: &mut Random, leaves: usize) -> Vec<u8> {
    let count = random.below(8);
    let rink = |random: &mut Random| match random.below(3) {
        0 => random.pick(&[0, 31, 32, 63]),
        _ => random.below(64),
    };
    let few: Vec<u64> = (0..count).map(|_| 1 << rink(random)).collect();
    let all = few.iter().fold(0, |all, rink| all | rink);
    let set = |random: &mut Random| match random.below(8) {
        0 | 1 => 0,
        2..=4 if count > 0 => random.pick(&few),
        5 | 6 => all & random.word(),
        7 if random.percent(5) => random.word(),
        _ => all,
    };
    let sets = (0..leaves).flat_map(|_| set(random).to_le_bytes());
    sets.collect()
}

/// Beside eight bytes for each leaf: a set for each node, too.
fn other_length(random: &mut Random, leaves: usize, nodes: usize) -> usize {
    let right = 8 * leaves;
    let shorter = [1, 8].map(|bytes| right.saturating_sub(bytes));
    random.pick(&[0, shorter[0], shorter[1], right + 1, right + 8, 8 * nodes])
}

/// Around the owners: all of them, all but one, some, others.
fn reader(random: &mut Random, owners: u64) -> u64 {
    match random.below(9) {
        0 => 0,
        1 => u64::MAX,
        2 => owners,
        3 | 4 => owners | random.word(),
        5 => without_one(random, owners),
        6 => without_one(random, owners) | !owners & random.word(),
        7 => owners & random.word(),
        _ => !owners,
    }
}

fn without_one(random: &mut Random, set: u64) -> u64 {
    let rinks: Vec<u32> = (0..64).filter(|rink| set >> rink & 1 == 1).collect();
    match rinks.is_empty() {
        true => set,
        false => set & !(1 << random.pick(&rinks)),
    }
}

/// Later nodes more often, a leaf now and then.
fn wanted(random: &mut Random, walk: Option<&Walk>) -> u32 {
    let nodes = walk.map_or(32, Walk::nodes);
    let outside = [nodes, nodes + 1, 65_535, 65_536, 70_000, u32::MAX as usize];
    let node = match walk {
        _ if random.percent(FAULTY) => random.pick(&outside),
        Some(walk) if random.percent(15) => random.below(walk.leaves),
        _ => random.below(nodes).max(random.below(nodes)),
    };
    node as u32
}
