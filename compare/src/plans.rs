//! Plans: drawn, answered by walking the oracle step by step, and compared. A
//! step that the oracle has not, of Pool or over a text that is no UTF-8, and a
//! range Subtract, which it answers by another rule, is taken by the port. 29 at a
//! step is the oracle's own test, not the original's word, and mapped lists have lost
//! their repeats before a next step reads them.

use crate::draw;
use crate::judge;
use crate::tally::Tally;
use crate::Reply;
use oracle_list::counts::Counts;
use oracle_list::form::{hex, is_range_subtract, is_unary, POOL, SUBTRACT};
use oracle_list::generate;
use oracle_list::random::Random;
use oracle_list::repeats::Repeats;
use oracle_list::sheet::{
    Sheet, HEAD, LONGEST, MOST_CATEGORIES, MOST_GROUPS, MOST_LISTS, MOST_TEXT, TEXT,
};
use std::ops::RangeInclusive;

pub const SLOT: usize = LONGEST;
pub const MOST_NODES: usize = 32;
pub const NO_NODE: u32 = 65_535;
/// What may be refused at a step: 2, 3, 4, 25 and 27 cannot.
pub const STEP_CODES: [u32; 23] = [
    5, 6, 7, 8, 9, 10, 11, 12, 13, 14, 15, 16, 17, 18, 19, 20, 21, 22, 23, 24, 26, 28, 29,
];
/// What a range Subtract may be refused with.
pub const RANGE_CODES: [u32; 2] = [18, 24];
/// What a step of Pool may be refused with.
pub const POOL_CODES: [u32; 16] = [5, 6, 7, 8, 11, 12, 14, 17, 18, 19, 20, 21, 24, 26, 28, 29];
pub const LEAF_CODES: [u32; 3] = [3, 4, 5];

/// The components that a step is drawn from.
pub type Components = RangeInclusive<u32>;
pub const ALL: Components = 1..=POOL;
pub const POOL_ALONE: Components = POOL..=POOL;
/// Subtract alone, and where a step of it is to be refused, over ranges of one kind.
pub const RANGE_SUBTRACT: Components = SUBTRACT..=SUBTRACT;

pub fn component(random: &mut Random, among: &Components) -> u32 {
    random.between(i64::from(*among.start()), i64::from(*among.end())) as u32
}

pub type Plan = fn(&[u8], &mut [u8]) -> Reply;

/// The plan calls that are held against the walk.
pub const PLANS: &[(&str, Plan)] = &[
    ("port", plain_port::propagate_properties),
    ("proved", crate::proved::propagate_properties),
];

#[derive(Clone, Copy, Debug, PartialEq, Eq)]
pub struct Step {
    pub component: u32,
    pub left: usize,
    pub right: usize,
}

/// A plan with its leaves, and what the judge derives for its nodes.
#[derive(Clone, Default)]
pub struct Draft {
    pub leaves: Vec<Vec<u8>>,
    pub steps: Vec<Step>,
    /// The nodes' sheets as far as they are known.
    sheets: Vec<Vec<u8>>,
}

/// A plan call as it is handed in.
pub struct Request {
    pub plan: Vec<u8>,
    pub leaves: Vec<Vec<u8>>,
    pub work_len: usize,
}

/// The reply, and the sheets of the steps that were derived.
pub struct Expected {
    pub reply: Reply,
    pub derived: Vec<Vec<u8>>,
}

impl Draft {
    pub fn new(leaves: Vec<Vec<u8>>) -> Draft {
        Draft {
            sheets: leaves.clone(),
            leaves,
            steps: Vec::new(),
        }
    }

    pub fn nodes(&self) -> usize {
        self.leaves.len() + self.steps.len()
    }

    pub fn encode(&self) -> Vec<u8> {
        let mut bytes = Vec::new();
        bytes.extend((self.nodes() as u16).to_le_bytes());
        bytes.extend((self.leaves.len() as u16).to_le_bytes());
        for step in &self.steps {
            bytes.extend(step.component.to_le_bytes());
        }
        for step in &self.steps {
            bytes.extend(((step.left + 65_536 * step.right) as u32).to_le_bytes());
        }
        bytes
    }

    pub fn request(&self) -> Request {
        Request {
            plan: self.encode(),
            leaves: self.leaves.clone(),
            work_len: SLOT * self.nodes(),
        }
    }

    fn answer(&self, step: Step) -> (u32, Vec<u8>) {
        let (left, right) = (&self.sheets[step.left], &self.sheets[step.right]);
        let node = self.nodes() as u32;
        let answer = judge::answer(step.component, node, left, right, SLOT);
        (answer.code, answer.bytes)
    }

    /// Any well-formed step; later nodes are drawn more often.
    fn any_step(&self, random: &mut Random, component: u32) -> Step {
        let node = |random: &mut Random| random.below(self.nodes()).max(random.below(self.nodes()));
        let left = node(random);
        let right = if is_unary(component) {
            left
        } else {
            node(random)
        };
        Step {
            component,
            left,
            right,
        }
    }

    /// Adds a step that the judge accepts, if one is found soon.
    pub fn push_accepted(&mut self, random: &mut Random) -> bool {
        for _ in 0..24 {
            let component = component(random, &ALL);
            let step = self.any_step(random, component);
            if let (0, bytes) = self.answer(step) {
                self.steps.push(step);
                self.sheets.push(bytes);
                return true;
            }
        }
        false
    }

    /// Its accepted steps with their sheets.
    fn derived(&self) -> impl Iterator<Item = (&Step, &Vec<u8>)> {
        self.steps.iter().zip(&self.sheets[self.leaves.len()..])
    }

    /// Whether a step of a component was given a nature of this number.
    pub fn derives(&self, component: u32, nature: u8) -> bool {
        self.derived()
            .any(|(step, sheet)| step.component == component && sheet[6] == nature)
    }

    /// What its accepted steps make of repeats.
    pub fn repeats(&self) -> Repeats {
        let mut repeats = Repeats::default();
        for (step, sheet) in self.derived() {
            repeats.count(step.component, &self.sheets[step.left], sheet);
        }
        repeats
    }

    /// What its accepted steps make of several category lists.
    pub fn counts(&self) -> Counts {
        let mut counts = Counts::default();
        for (step, sheet) in self.derived() {
            let (left, right) = (&self.sheets[step.left], &self.sheets[step.right]);
            counts.count((step.component, left, right), 0, sheet);
        }
        counts
    }

    /// Adds well-formed steps without asking the judge.
    fn push_unasked(&mut self, random: &mut Random, count: usize) {
        for _ in 0..count.min(MOST_NODES - self.nodes()) {
            let component = component(random, &ALL);
            let step = self.any_step(random, component);
            self.steps.push(step);
        }
    }
}

/// Mapped lists in a hundred that are about as long as 26 permits.
const LONG: usize = 20;

/// Two sheets that suit a component, or one; texts are now and then no UTF-8.
fn operands(random: &mut Random) -> Vec<Vec<u8>> {
    loop {
        let component = component(random, &ALL);
        let long = is_unary(component) && random.percent(LONG);
        let call = generate::call_for(random, component, if long { 26 } else { 0 });
        let mut sheets = vec![call.left];
        if !is_unary(component) {
            sheets.push(call.right);
        }
        if sheets.iter().all(|sheet| Sheet::decode(sheet).is_ok()) {
            let other = random.percent(20).then(|| draw::text_mask(random));
            for sheet in &mut sheets {
                other.map(|mask| draw::other_text(random, mask, sheet));
            }
            return sheets;
        }
    }
}

/// An accepted plan of about so many nodes (fewer if no step is found).
pub fn accepted(random: &mut Random, nodes: usize) -> Draft {
    let leaves = match random.below(6) {
        0 => nodes,
        1 => 1,
        _ => 1 + random.below(nodes.min(6)),
    };
    let mut sheets = Vec::new();
    while sheets.len() < leaves {
        sheets.append(&mut operands(random));
    }
    sheets.truncate(leaves);
    let mut draft = Draft::new(sheets);
    while draft.nodes() < nodes && draft.push_accepted(random) {}
    draft
}

/// A plan whose step of one of the components is refused with a code: its first
/// step that can be, or one behind accepted steps. Steps behind it are never
/// reached.
pub fn refused_step(random: &mut Random, among: &Components, code: u32, late: bool) -> Draft {
    let (operands, steps) = refused_operands(random, among, code);
    let mut draft = if late {
        accepted(random, 5)
    } else {
        Draft::default()
    };
    let grown = draft.leaves.len();
    let mut leaves = std::mem::take(&mut draft.leaves);
    leaves.extend(operands.iter().cloned());
    let mut draft = Draft::new(leaves);
    for _ in 0..if late { 2 + random.below(8) } else { 0 } {
        draft.push_accepted(random);
    }
    let start = draft.nodes();
    // The operands behind the leaves that were there, derived ones behind all.
    let moved = |node: usize| match node.checked_sub(operands.len()) {
        Some(derived) => start + derived,
        None => grown + node,
    };
    for step in steps {
        draft.steps.push(Step {
            component: step.component,
            left: moved(step.left),
            right: moved(step.right),
        });
    }
    let behind = random.below(4);
    draft.push_unasked(random, behind);
    draft
}

/// Leaves and steps over them, the last of which is refused with the code.
fn refused_operands(
    random: &mut Random,
    among: &Components,
    code: u32,
) -> (Vec<Vec<u8>>, Vec<Step>) {
    if code == 5 {
        return refused_result(random, among);
    }
    loop {
        let component = component(random, among);
        let call = generate::call_for(random, component, code);
        let answer = judge::answer(component, 0, &call.left, &call.right, SLOT);
        let suits =
            *among != RANGE_SUBTRACT || is_range_subtract(component, &call.left, &call.right, code);
        if answer.code != code || !suits {
            continue;
        }
        if is_unary(component) {
            return (vec![call.left], vec![step(component, 0, 0)]);
        }
        return (vec![call.left, call.right], vec![step(component, 0, 1)]);
    }
}

pub fn step(component: u32, left: usize, right: usize) -> Step {
    Step {
        component,
        left,
        right,
    }
}

/// A derived sheet with an infinite end, and a step that reads it.
fn refused_result(random: &mut Random, among: &Components) -> (Vec<Vec<u8>>, Vec<Step>) {
    loop {
        let maker = random.pick(&[2, SUBTRACT, 4, 5]);
        let call = generate::call_for(random, maker, 0);
        let answer = judge::answer(maker, 0, &call.left, &call.right, SLOT);
        if answer.code != 0 || Sheet::decode(&answer.bytes) != Err(5) {
            continue;
        }
        let next = component(random, among);
        let next = match is_unary(next) {
            true => step(next, 2, 2),
            false => random.pick(&[step(next, 2, 0), step(next, 1, 2), step(next, 2, 2)]),
        };
        return (vec![call.left, call.right], vec![step(maker, 0, 1), next]);
    }
}

/// An accepted plan one leaf of which is spoilt towards 3, 4 or 5.
pub fn refused_leaf(random: &mut Random, code: u32) -> Draft {
    loop {
        let size = 1 + random.below(12);
        let mut draft = accepted(random, size);
        let place = random.below(draft.leaves.len());
        let call = generate::call_for(random, 2, code);
        if code == 3 {
            let limits = [
                (0, MOST_GROUPS),
                (2, MOST_LISTS),
                (4, MOST_CATEGORIES),
                (26, MOST_TEXT),
            ];
            let (at, limit) = random.pick(&limits);
            let size = random.pick(&[limit + 1, 2000, 65_535]) as u16;
            draft.leaves[place][at..at + 2].copy_from_slice(&size.to_le_bytes());
            return draft;
        }
        if code == 4 && draft.leaves[place][6] != TEXT && random.percent(20) {
            // In a slot the length is taken from the sizes, so that it is no 3.
            draft.leaves[place][26] = random.pick(&[1, 255]);
            return draft;
        }
        let sheet = [call.left, call.right]
            .into_iter()
            .find(|s| Sheet::decode(s) == Err(code));
        if let Some(sheet) = sheet {
            draft.leaves[place] = sheet;
            return draft;
        }
    }
}

/// A plan's bytes made malformed; a few of the faults stand in the last step.
pub fn malform(random: &mut Random, draft: &Draft) -> Vec<u8> {
    let mut plan = draft.encode();
    let (nodes, leaves, steps) = (draft.nodes(), draft.leaves.len(), draft.steps.len());
    let set = |plan: &mut Vec<u8>, at: usize, value: u32| {
        plan[at..at + 4].copy_from_slice(&value.to_le_bytes())
    };
    let last = 4 * steps.max(1);
    match random.below(12) {
        0 => plan.truncate(random.below(plan.len())),
        1 => plan.push(random.word() as u8),
        2 => plan.extend([0; 8]),
        3 => plan[0] = random.pick(&[0, 33, 255]),
        4 => plan[2] = random.pick(&[0, nodes as u8 + 1, 255]),
        5 => plan[random.pick(&[1, 3])] = 1,
        6 if steps > 0 => set(
            &mut plan,
            last,
            random.pick(&[0, 11, 200, 1 << 8, 1 << 31, u32::MAX]),
        ),
        7 if steps > 0 => plan[4 + 4 * steps] = leaves as u8,
        8 if steps > 0 => plan[last + 4 * steps + 2] = random.pick(&[nodes as u8 - 1, 255]),
        9 if steps > 0 => plan[last + 4 * steps + random.pick(&[1, 3])] = 1,
        10 if nodes > 2 && steps > 0 => {
            set(&mut plan, last, random.pick(&[1, 9]));
            set(&mut plan, last + 4 * steps, 1);
        }
        _ => draw::damage(random, &mut plan),
    }
    plan
}

/// The sheet at the start of a slot, by the sizes in its bytes; 3 if one is over its limit.
pub fn sheet_in(slot: &[u8]) -> Result<&[u8], u32> {
    let size = |at: usize| slot[at] as usize + 256 * slot[at + 1] as usize;
    let (groups, lists, categories, text) = (size(0), size(2), size(4), size(26));
    if groups > MOST_GROUPS
        || lists > MOST_LISTS
        || categories > MOST_CATEGORIES
        || text > MOST_TEXT
    {
        return Err(3);
    }
    let tail = match slot[6] {
        1 | 2 => 18 * lists,
        _ => 9 * categories,
    };
    Ok(&slot[..HEAD + 13 * groups + tail + text])
}

/// The same, or the refusal 3 to 5 of a leaf.
pub fn leaf_sheet(slot: &[u8]) -> Result<&[u8], u32> {
    let sheet = sheet_in(slot)?;
    Sheet::decode(sheet).map(|_| sheet)
}

/// The plan by the documents' words, or nothing if it is malformed.
pub fn parse(plan: &[u8]) -> Option<(usize, Vec<Step>)> {
    let (sizes, rest) = (plan.get(..4)?, plan.get(4..)?);
    let nodes = u16::from_le_bytes([sizes[0], sizes[1]]) as usize;
    let leaves = u16::from_le_bytes([sizes[2], sizes[3]]) as usize;
    if nodes == 0 || nodes > MOST_NODES || leaves == 0 || leaves > nodes {
        return None;
    }
    let count = nodes - leaves;
    let words: Vec<u32> = rest
        .chunks_exact(4)
        .map(|word| u32::from_le_bytes(word.try_into().expect("four bytes")))
        .collect();
    if rest.len() != 8 * count {
        return None;
    }
    let steps: Vec<Step> = (0..count)
        .map(|i| {
            step(
                words[i],
                words[count + i] as usize % 65_536,
                words[count + i] as usize / 65_536,
            )
        })
        .collect();
    let fits = steps.iter().enumerate().all(|(i, step)| {
        let earlier = step.left < leaves + i && step.right < leaves + i;
        let alike = !is_unary(step.component) || step.left == step.right;
        ALL.contains(&step.component) && earlier && alike
    });
    fits.then_some((leaves, steps))
}

/// 1, 27, the leaves' 3 to 5, then each step through the judge.
pub fn walk(plan: &[u8], work: &[u8]) -> Expected {
    let refused = |code, node, derived| Expected {
        reply: (code, node),
        derived,
    };
    let Some((leaves, steps)) = parse(plan) else {
        return refused(1, NO_NODE, Vec::new());
    };
    let nodes = leaves + steps.len();
    if work.len() < SLOT * nodes {
        return refused(27, NO_NODE, Vec::new());
    }
    let mut sheets: Vec<Vec<u8>> = Vec::new();
    for leaf in 0..leaves {
        match leaf_sheet(&work[SLOT * leaf..SLOT * (leaf + 1)]) {
            Ok(sheet) => sheets.push(sheet.to_vec()),
            Err(code) => return refused(code, leaf as u32, Vec::new()),
        }
    }
    for step in &steps {
        let node = sheets.len() as u32;
        let (left, right) = (&sheets[step.left], &sheets[step.right]);
        let answer = judge::answer(step.component, node, left, right, SLOT);
        if answer.code != 0 {
            return refused(answer.code, node, sheets.split_off(leaves));
        }
        sheets.push(answer.bytes);
    }
    refused(0, nodes as u32, sheets.split_off(leaves))
}

/// The work buffer that a request hands over: leaves in their slots, all else filler.
pub fn lay_out(request: &Request, filler: u8) -> Vec<u8> {
    lay_out_by(SLOT, request, filler)
}

/// The same in slots of another length, with as many bytes for each node.
pub fn lay_out_by(slot: usize, request: &Request, filler: u8) -> Vec<u8> {
    let mut work = vec![filler; request.work_len / SLOT * slot + request.work_len % SLOT];
    lay_into(&mut work, slot, &request.leaves);
    work
}

/// Leaves in slots of a length, those that fit.
pub fn lay_into(work: &mut [u8], slot: usize, leaves: &[Vec<u8>]) {
    for (leaf, sheet) in leaves.iter().enumerate() {
        let start = slot * leaf;
        if start + sheet.len() <= work.len() {
            work[start..start + sheet.len()].copy_from_slice(sheet);
        }
    }
}

/// The work buffer after the call: only derived sheets are new.
fn after(work: &[u8], leaves: usize, derived: &[Vec<u8>]) -> Vec<u8> {
    let mut after = work.to_vec();
    for (index, sheet) in derived.iter().enumerate() {
        let start = SLOT * (leaves + index);
        after[start..start + sheet.len()].copy_from_slice(sheet);
    }
    after
}

/// Counts the steps of Pool, over texts, over category lists, of Subtract over
/// ranges and to ranges that were taken, and one that was refused.
fn count_steps(tally: &mut Tally, request: &Request, wanted: &Expected) {
    let (leaves, steps) = parse(&request.plan).unwrap_or_default();
    let (code, node) = wanted.reply;
    let mut sheets = request.leaves.clone();
    sheets.resize(leaves, Vec::new());
    sheets.extend(wanted.derived.iter().cloned());
    for (index, step) in steps.iter().enumerate() {
        let refused = leaves + index == node as usize;
        let (code, sheet) = match wanted.derived.get(index) {
            Some(sheet) => (0, &sheet[..]),
            None if refused => (code, &[][..]),
            None => return,
        };
        if step.component == POOL {
            tally.count_pool(code, sheet);
        }
        let read = (
            step.component,
            &sheets[step.left][..],
            &sheets[step.right][..],
        );
        tally.count_texts(read, code, sheet);
        tally.count_subtract(read, code, sheet);
        tally.count_lists(read, code, sheet);
        tally.count_repeats(step.component, &sheets[step.left], sheet);
        tally.count_range(step.component, sheet);
    }
}

/// Holds every plan call against what is expected; margins around both buffers.
pub fn hold(tally: &mut Tally, request: &Request, filler: u8, wanted: &Expected) {
    const MARGIN: usize = 64;
    const AROUND: u8 = 0x3c;
    tally.count(wanted.reply.0);
    count_steps(tally, request, wanted);
    let (leaves, _) = parse(&request.plan).unwrap_or_default();
    let work = lay_out(request, filler);
    let guarded = |bytes: &[u8]| [&[AROUND; MARGIN], bytes, &[AROUND; MARGIN]].concat();
    let plan_after = guarded(&request.plan);
    let work_after = guarded(&after(&work, leaves, &wanted.derived));
    for (name, answer) in PLANS {
        let (plan, mut lent) = (guarded(&request.plan), guarded(&work));
        let reply = answer(
            &plan[MARGIN..MARGIN + request.plan.len()],
            &mut lent[MARGIN..MARGIN + request.work_len],
        );
        if reply != wanted.reply || lent != work_after || plan != plan_after {
            tally.differ(|| {
                let leaves: Vec<String> = request.leaves.iter().map(|sheet| hex(sheet)).collect();
                format!(
                    "{name}: reply {reply:?}, wanted {:?}; plan {} work {} leaves {}",
                    wanted.reply,
                    hex(&request.plan),
                    request.work_len,
                    leaves.join(",")
                )
            });
        }
    }
}

/// A request of any kind.
pub fn request(random: &mut Random) -> Request {
    let nodes = 1 + random.below(MOST_NODES);
    let late = random.percent(50);
    let draft = match random.below(10) {
        0..=2 => accepted(random, nodes),
        3..=4 => {
            let code = random.pick(&STEP_CODES);
            refused_step(random, &ALL, code, late)
        }
        5 if random.percent(20) => {
            let code = random.pick(&RANGE_CODES);
            refused_step(random, &RANGE_SUBTRACT, code, late)
        }
        5 => {
            let code = random.pick(&POOL_CODES);
            refused_step(random, &POOL_ALONE, code, late)
        }
        6 => {
            let code = random.pick(&LEAF_CODES);
            refused_leaf(random, code)
        }
        _ => accepted(random, 1 + nodes / 4),
    };
    let mut request = draft.request();
    match random.below(12) {
        0 | 1 => request.plan = malform(random, &draft),
        2 => request.work_len = short(random, request.work_len),
        3 => request.work_len += random.below(3000),
        _ => (),
    }
    request
}

/// A length below what the plan asks for.
pub fn short(random: &mut Random, length: usize) -> usize {
    match random.below(4) {
        0 => 0,
        1 => length - SLOT,
        2 => random.below(length),
        _ => length - 1,
    }
}

/// Generated plans, answered by the plan calls and by walking the oracle.
pub fn generated(seed: u64, count: usize) -> Tally {
    let mut random = Random::new(seed);
    let mut tally = Tally::default();
    for _ in 0..count {
        let request = request(&mut random);
        let filler = random.word() as u8;
        let wanted = walk(&request.plan, &lay_out(&request, filler));
        hold(&mut tally, &request, filler, &wanted);
    }
    tally
}

#[cfg(test)]
mod tests {
    use super::*;
    use oracle_list::text;

    #[test]
    fn generated_plans_agree() {
        let tally = generated(1, 1500);
        assert_eq!(tally.differences, 0, "{tally}");
        for code in [0, 1, 3, 4, 5, 27].iter().chain(&STEP_CODES) {
            assert!(tally.of(*code) > 0, "no {code}: {tally}");
        }
        for code in POOL_CODES {
            assert!(tally.of_pool(code) > 0, "no {code} of Pool: {tally}");
        }
        assert!(tally.pooled().iter().all(|count| *count > 20), "{tally}");
        let texts = tally.texts();
        assert!(texts.joined > 20 && texts.united > 20, "{tally}");
        assert!(texts.long_joins > 0 && texts.other > 5, "{tally}");
        for code in [0].iter().chain(&RANGE_CODES) {
            assert!(tally.of_subtract(*code) > 0, "no {code} of ranges: {tally}");
        }
        assert!(
            tally.subtracted().iter().all(|count| *count > 20),
            "{tally}"
        );
        assert!(tally.ranges().infinite > 20, "{tally}");
        let counts = tally.counts();
        assert!(
            !counts.sides.contains(&0) && !counts.kinds.contains(&0),
            "{tally}"
        );
        assert!(counts.taken[0] > 100 && counts.unused > 3, "{tally}");
        assert!(tally.listed().iter().min() > Some(&50), "{tally}");
        let repeats = tally.repeats();
        assert!(repeats.lost > 20 && repeats.spared > 2, "{tally}");
    }

    /// The oracle's list has lost its repeats when it is walked to the next step.
    #[test]
    fn a_walked_list_has_no_repeats() {
        let mut draft = Draft::new(vec![text::bytes("W{-3,3}")]);
        draft.steps.extend([step(1, 0, 0), step(2, 1, 1)]);
        let request = draft.request();
        let wanted = walk(&request.plan, &lay_out(&request, 0));
        assert_eq!(wanted.reply, (0, 3));
        let derived = [text::bytes("W{3}"), text::bytes("W{6} node=2")];
        assert_eq!(wanted.derived, derived);
        let mut tally = Tally::default();
        hold(&mut tally, &request, 0, &wanted);
        assert_eq!((tally.differences, tally.repeats().lost), (0, 1), "{tally}");
    }

    #[test]
    fn a_refused_step_is_refused_as_asked() {
        let mut random = Random::new(9);
        for (among, codes) in [
            (ALL, &STEP_CODES[..]),
            (POOL_ALONE, &POOL_CODES),
            (RANGE_SUBTRACT, &RANGE_CODES),
        ] {
            for (code, late) in codes
                .iter()
                .flat_map(|code| [(*code, false), (*code, true)])
            {
                let request = refused_step(&mut random, &among, code, late).request();
                let wanted = walk(&request.plan, &lay_out(&request, 0));
                assert_eq!(wanted.reply.0, code);
                let mut tally = Tally::default();
                hold(&mut tally, &request, 0, &wanted);
                assert!(
                    among != POOL_ALONE || tally.of_pool(code) == 1,
                    "{code}: {tally}"
                );
                let ranges = tally.of_subtract(code);
                assert!(among != RANGE_SUBTRACT || ranges == 1, "{code}: {tally}");
            }
        }
    }
}
