//! Leaves that meet demand 3's premises, some with another count of category lists
//! than these ask for, and rows inside them.

use crate::exact::Exact;
use oracle_list::random::Random;
use oracle_list::sheet::{Ends, Group, Key, Nature, Sheet, MOST_LISTS};

const EDGES: [i64; 10] = [
    i64::MIN,
    i64::MIN + 1,
    -(1 << 62),
    -(1 << 31),
    -(1 << 32) - 1,
    1 << 31,
    1 << 32,
    1 << 62,
    i64::MAX - 1,
    i64::MAX,
];

/// What the leaves of a plan share, so that steps are often accepted.
pub struct Kin {
    columns: i64,
    data_type: u8,
    releasable: bool,
    rows: Option<i64>,
    dataset: Option<i64>,
    c_stability: u32,
    groups: Vec<Group>,
    zone: Zone,
    /// Category leaves in a hundred whose lists are neither one nor one for each
    /// column: few plans have such leaves, since most are outside the premises then.
    odd: usize,
}

/// Where most numbers of a plan lie.
#[derive(Clone, Copy)]
enum Zone {
    Small,
    Above,
    Edges,
    Any,
}

impl Kin {
    pub fn new(random: &mut Random) -> Kin {
        let releasable = random.percent(50);
        let group = Group {
            partition: 1,
            index: random.pick(&[Key::Int(4), Key::Bool(true), Key::Str(-2)]),
        };
        Kin {
            columns: random.pick(&[1, 1, 1, 2, 2, 3, 5, 16]),
            data_type: random.pick(&[4, 4, 4, 4, 3, 3, 0, 1, 2]),
            releasable,
            rows: random.pick(&[None, Some(1), Some(9)]),
            dataset: random.pick(&[None, Some(3)]),
            c_stability: random.pick(&[1, 2]),
            groups: vec![group; random.below(3)],
            zone: random.pick(&[
                Zone::Small,
                Zone::Small,
                Zone::Above,
                Zone::Edges,
                Zone::Any,
            ]),
            odd: random.pick(&[0, 0, 0, 0, 0, 0, 80, 90]),
        }
    }

    pub fn leaf(&self, random: &mut Random) -> Sheet {
        let single = if self.odd > 0 { 45 } else { 25 };
        let columns = if random.percent(single) {
            1
        } else {
            self.columns
        };
        let lists = if random.percent(50) { 1 } else { columns };
        Sheet {
            nature: self.nature(random, columns as usize, lists as usize),
            data_type: if random.percent(6) {
                random.below(5) as u8
            } else {
                self.data_type
            },
            nullity: random.percent(50),
            releasable: if random.percent(5) {
                !self.releasable
            } else {
                self.releasable
            },
            not_empty: random.percent(50),
            ordered: random.percent(50),
            c_stability: self.c_stability,
            aggregator: 0,
            rows: self.rows,
            columns: Some(columns),
            dataset: self.dataset,
            dimensionality: random.pick(&[None, Some(1), Some(2)]),
            sample: random.pick(&[None, Some(1f64.to_bits())]),
            node: random.between(-3, 40),
            groups: self.groups.clone(),
        }
    }

    fn nature(&self, random: &mut Random, columns: usize, lists: usize) -> Nature {
        // Lists beside lists are what 29 counts.
        let ranges = if self.odd > 0 { 35 } else { 60 };
        if random.percent(ranges) {
            return Nature::WholeRange((0..lists).map(|_| self.ends(random)).collect());
        }
        // Fewer of the plan's own columns, with which another leaf's lists may go.
        let odd = match columns as i64 == self.columns {
            true => self.odd / 3,
            false => self.odd,
        };
        let lists = match random.percent(odd) {
            true => self.odd_count(random, columns),
            false => lists,
        };
        if lists == 1 && columns > 1 && random.percent(LONG) {
            return Nature::WholeLists(vec![pairs(random, columns)]);
        }
        let most = if lists > 3 { 3 } else { 6 };
        Nature::WholeLists((0..lists).map(|_| self.list(random, most)).collect())
    }

    /// In one list of five a value's negative stands last.
    fn list(&self, random: &mut Random, most: usize) -> Vec<i64> {
        let count = 1 + random.below(most);
        let mut list: Vec<i64> = (0..count).map(|_| self.number(random)).collect();
        if random.percent(20) {
            list.push(random.pick(&list).saturating_neg());
        }
        list
    }

    /// A count of lists that is neither one nor the columns'; often the plan's own
    /// column count, which goes with other leaves' columns.
    fn odd_count(&self, random: &mut Random, columns: usize) -> usize {
        let own = self.columns as usize;
        if own != 1 && own != columns && random.percent(60) {
            return own;
        }
        let counts = [2, 3, 4, columns + 1];
        let fits = |count: &usize| *count != columns && *count <= MOST_LISTS;
        let counts: Vec<usize> = counts.into_iter().filter(fits).collect();
        random.pick(&counts)
    }

    fn ends(&self, random: &mut Random) -> Ends<i64> {
        let (a, b) = (self.number(random), self.number(random));
        let lower = (!random.percent(18)).then_some(a.min(b));
        let upper = (!random.percent(22)).then_some(a.max(b));
        (lower, upper)
    }

    fn number(&self, random: &mut Random) -> i64 {
        let zone = if random.percent(80) {
            self.zone
        } else {
            Zone::Small
        };
        match zone {
            Zone::Small => random.between(-9, 9),
            Zone::Above => random.between(1, 12),
            Zone::Edges if random.percent(50) => random.pick(&EDGES),
            Zone::Edges => random.between(-2, 2),
            Zone::Any => random.word() as i64 >> random.below(64),
        }
    }
}

/// Leaves of one list over several columns in a hundred that are about as long as 26
/// permits once repeats are gone.
const LONG: usize = 12;

/// Values and their negatives, which Abs makes about 128 as they would be written.
fn pairs(random: &mut Random, columns: usize) -> Vec<i64> {
    let most = (128 / columns + random.below(3)) as i64 - 1;
    let pairs = (1..=most).flat_map(|value| [value, -value]);
    pairs.take(128).collect()
}

/// A number for each column of a leaf. Turn 0 takes the lowers, 1 the uppers, 2
/// what is nearest to zero; the others mix.
pub fn numbers(random: &mut Random, leaf: &Sheet, turn: usize) -> Vec<Exact> {
    let columns = leaf.columns.unwrap_or(0) as usize;
    (0..columns)
        .map(|column| number(random, leaf, column, turn))
        .collect()
}

fn number(random: &mut Random, leaf: &Sheet, column: usize, turn: usize) -> Exact {
    let kind = if turn < 3 { turn } else { random.below(6) };
    match &leaf.nature {
        Nature::WholeRange(entries) => {
            let (lower, upper) = entries[if entries.len() == 1 { 0 } else { column }];
            inside(random, lower.map(i128::from), upper.map(i128::from), kind)
        }
        Nature::WholeLists(lists) => {
            let list = &lists[if lists.len() == 1 { 0 } else { column }];
            let value = match kind {
                0 => *list.iter().min().expect("no empty list is drawn"),
                1 => *list.iter().max().expect("no empty list is drawn"),
                _ => random.pick(list),
            };
            Exact::Small(i128::from(value))
        }
        _ => unreachable!("leaves are whole"),
    }
}

/// A number between two ends; beyond 64 bits where an end is absent.
fn inside(random: &mut Random, lower: Option<i128>, upper: Option<i128>, kind: usize) -> Exact {
    let far = |random: &mut Random| match random.below(4) {
        0 => (1i128 << (63 + random.below(12))) + random.below(3) as i128,
        1 => i128::from(random.word()) << random.below(20),
        _ => i128::from(random.word() >> random.below(64)),
    };
    // Absent ends become ends of this row, near or far.
    let (low, high) = match (lower, upper) {
        (Some(low), Some(high)) => (low, high),
        (Some(low), None) => (low, low + far(random)),
        (None, Some(high)) => (high - far(random), high),
        (None, None) => (-far(random), far(random)),
    };
    let value = match kind {
        0 => low,
        1 => high,
        2 => 0.clamp(low, high),
        3 => (low + 1).min(high),
        4 => (high - 1).max(low),
        _ => {
            low + (i128::from(random.word()) << 16 | i128::from(random.word() as u16))
                % (high - low + 1)
        }
    };
    Exact::Small(value)
}
