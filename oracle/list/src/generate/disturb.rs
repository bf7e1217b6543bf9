//! Changes that lead a pair of sheets towards one refusal.

use super::numbers::{self, Scale, Taste};
use super::texts;
use crate::form::{is_unary, POOL};
use crate::random::Random;
use crate::sheet::{Key, Nature, Sheet, MOST_LISTS, MOST_TEXT, TEXT};

/// The component that joins texts.
const ADD: u32 = 2;

/// The refusals that a call can be led to.
pub const AIMS: &[u32] = &[
    3, 4, 5, 6, 7, 8, 9, 10, 11, 12, 13, 14, 15, 16, 17, 18, 19, 20, 21, 22, 23, 24, 26, 28, 29,
];

pub fn sheets(random: &mut Random, aim: u32, component: u32, left: &mut Sheet, right: &mut Sheet) {
    match aim {
        5..=7 => one_operand(random, aim, component, left, right),
        8..=10 => origins(random, aim, left, right),
        11..=14 => shapes(random, aim, component, left, right),
        15 | 16 => conditions(random, aim, component, left, right),
        17..=22 => natures(random, aim, component, left, right),
        23 => divisors(random, left, right),
        24 if component == POOL => far_rows(random, left, right),
        24 => extremes(random, left, right),
        26 if matches!(component, ADD | POOL) && random.percent(30) => {
            many_texts(random, component, left, right)
        }
        26 if component == POOL => long_unions(random, left, right),
        26 if is_unary(component) => many_mapped(random, left),
        26 => many_categories(random, left, right),
        28 => long_texts(random, component, left, right),
        29 => miscounts(random, component, left, right),
        _ => (),
    }
}

/// What private operands must have in common.
pub fn share_origin(left: &mut Sheet, right: &mut Sheet) {
    right.groups = left.groups.clone();
    right.dataset = left.dataset;
    right.c_stability = left.c_stability;
}

fn make_private(sheet: &mut Sheet) {
    sheet.releasable = false;
    sheet.aggregator = 0;
    sheet.sample = None;
}

/// 5, 6 and 7 on one operand.
fn one_operand(random: &mut Random, aim: u32, component: u32, left: &mut Sheet, right: &mut Sheet) {
    let unary = is_unary(component);
    let first = unary || random.percent(50);
    let sheet = if first { left } else { right };
    if aim == 5 {
        sheet.nature = bad_range(random);
        return;
    }
    make_private(sheet);
    if aim == 6 || random.percent(10) {
        sheet.aggregator = random.pick(&[1, 2, 9, u32::MAX]);
    }
    if aim == 7 || random.percent(10) {
        let samples = [
            0.5,
            0.0,
            -0.0,
            f64::NAN,
            f64::INFINITY,
            -1.0,
            1.0 + f64::EPSILON,
        ];
        sheet.sample = Some(random.pick(&samples).to_bits());
    }
}

/// A range that 5 refuses, in its first or its second entry.
fn bad_range(random: &mut Random) -> Nature {
    let whole = |l, u| Nature::WholeRange(vec![(Some(l), Some(u))]);
    let float = |l: f64, u: f64| Nature::FloatRange(vec![(Some(l.to_bits()), Some(u.to_bits()))]);
    let mut nature = match random.below(8) {
        0 => whole(1, random.between(-9, 0)),
        1 => whole(i64::MAX, i64::MIN),
        2 => float(0.5, 0.25),
        3 => float(5e-324, -0.0),
        4 => float(f64::NAN, 1.0),
        5 => float(1.0, f64::INFINITY),
        6 => float(f64::NEG_INFINITY, f64::INFINITY),
        _ => Nature::FloatRange(vec![(None, Some(f64::NAN.to_bits()))]),
    };
    if random.percent(40) {
        match &mut nature {
            Nature::WholeRange(entries) => entries.insert(0, (None, Some(3))),
            Nature::FloatRange(entries) => entries.insert(0, (Some(0), None)),
            _ => (),
        }
    }
    nature
}

/// 8, 9 and 10: two private operands that differ in one thing.
fn origins(random: &mut Random, aim: u32, left: &mut Sheet, right: &mut Sheet) {
    make_private(left);
    make_private(right);
    share_origin(left, right);
    match aim {
        8 => match right.groups.last_mut() {
            Some(group) if random.percent(60) => match group.index {
                Key::Bool(value) => group.index = Key::Int(value as i64),
                Key::Int(value) => group.index = Key::Str(value),
                Key::Str(_) => group.partition ^= 1,
            },
            Some(_) if random.percent(50) => drop(right.groups.pop()),
            Some(_) => right.groups.rotate_left(1),
            None => right.groups.push(super::group(random)),
        },
        9 => {
            right.dataset = if left.dataset == Some(0) {
                None
            } else {
                Some(0)
            }
        }
        _ => right.c_stability = left.c_stability ^ random.pick(&[1, 0x8000_0000]),
    }
}

/// 11 to 14: column counts, rows, data types.
fn shapes(random: &mut Random, aim: u32, component: u32, left: &mut Sheet, right: &mut Sheet) {
    match aim {
        11 if matches!(component, 6..=9) || random.percent(50) => left.columns = None,
        11 => right.columns = None,
        12 if component == POOL && random.percent(50) => {
            // One column goes with no other count here.
            let columns = Some(random.between(2, 16));
            let counts = [(Some(1), columns), (columns, Some(1))];
            (left.columns, right.columns) = random.pick(&counts);
        }
        12 => {
            let columns = random.between(2, 16);
            left.columns = Some(columns);
            right.columns = Some(if columns == 2 { 3 } else { columns - 1 });
        }
        13 => {
            let public = random.pick(&[(true, true), (true, false), (false, true)]);
            make_private(left);
            make_private(right);
            (left.releasable, right.releasable) = public;
            left.dataset = Some(4);
            right.dataset = random.pick(&[None, Some(5)]);
            left.rows = random.pick(&[None, Some(2), Some(0), Some(7)]);
            right.rows = random.pick(&[None, Some(3), Some(-1), Some(8)]);
        }
        _ => {
            let types = [
                (3, 4),
                (4, 3),
                (0, 4),
                (1, 2),
                (2, 1),
                (2, 2),
                (0, 0),
                (4, 4),
            ];
            (left.data_type, right.data_type) = random.pick(&types);
        }
    }
}

/// 15 and 16: what Modulo, Log and Power ask of bounds.
fn conditions(random: &mut Random, aim: u32, component: u32, left: &mut Sheet, right: &mut Sheet) {
    let float = component == 7 || left.data_type == 3;
    let sheet = if component == 7 && random.percent(50) {
        left
    } else {
        right
    };
    let bits = |v: f64| v.to_bits();
    sheet.nature = match (aim, float) {
        (15, _) if random.percent(20) => Nature::TextLists(texts::lists(random, 1)),
        (15, true) => match random.below(4) {
            0 => Nature::Absent,
            1 => Nature::FloatRange(vec![(None, Some(bits(3.0)))]),
            2 => Nature::FloatRange(vec![(Some(bits(3.0)), None)]),
            _ => Nature::FloatLists(vec![vec![bits(2.0)]]),
        },
        (15, false) => match random.below(4) {
            0 => Nature::Absent,
            1 => Nature::WholeRange(vec![(None, Some(3))]),
            2 => Nature::FloatRange(vec![(Some(bits(3.0)), Some(bits(4.0)))]),
            _ => Nature::WholeLists(vec![vec![2]]),
        },
        (_, true) => {
            let lower = random.pick(&[0.0, -0.0, -1.0, 0.5, 1.0, -5e-324]);
            let upper = random.pick(&[1.0, 2.0, 1e308]);
            Nature::FloatRange(vec![(Some(bits(lower)), Some(bits(upper)))])
        }
        (_, false) => Nature::WholeRange(vec![(Some(random.between(-3, 0)), Some(5))]),
    };
}

/// 17 to 22: natures that do not go together.
fn natures(random: &mut Random, aim: u32, component: u32, left: &mut Sheet, right: &mut Sheet) {
    if component == 8 && aim >= 19 {
        // Only Float Power combines categories.
        (left.data_type, right.data_type) = (3, 3);
    }
    if aim == 18 {
        wrong_count(random, component, left, right);
        return;
    }
    let taste = Taste::new(random).above_zero();
    let kinds = match aim {
        17 => random.pick(&[(1, 2), (2, 1)]),
        19 => random.pick(&[(5, 3), (3, 5), (5, 5), (4, 5), (5, 4), (6, 5), (5, 6)]),
        20 => random.pick(&[(3, 3), (4, 4), (3, 4), (6, 6), (6, 3)]),
        21 => random.pick(&[(3, 4), (4, 3), (3, 6), (6, 3), (4, 6), (6, 4)]),
        _ if component == 8 => random.pick(&[(3, 3), (4, 4), (6, 6)]),
        _ if component == ADD => (4, 4),
        _ => random.pick(&[(4, 4), (6, 6)]),
    };
    left.nature = super::nature(random, kinds.0, taste, 1);
    right.nature = super::nature(random, kinds.1, taste, 1);
    if aim == 20 {
        let sheet = if is_unary(component) || random.percent(50) {
            left
        } else {
            right
        };
        sheet.nature = match random.below(5) {
            0 | 1 => Nature::WholeLists(Vec::new()),
            2 | 3 => Nature::BoolLists(Vec::new()),
            _ => Nature::TextLists(Vec::new()),
        };
    }
}

/// 18: two ranges of one kind, one of them with neither one entry nor one per column.
fn wrong_count(random: &mut Random, component: u32, left: &mut Sheet, right: &mut Sheet) {
    let taste = Taste::new(random).above_zero();
    let kind = match component {
        6 | 8 if left.data_type == 4 => 1,
        7 => 2,
        _ => random.pick(&[1, 2]),
    };
    let taste_of_right = if component == 7 { taste.base() } else { taste };
    left.nature = super::nature(random, kind, taste, 1);
    right.nature = super::nature(random, kind, taste_of_right, 1);
    let first = is_unary(component) || random.percent(50);
    let nature = if first {
        &mut left.nature
    } else {
        &mut right.nature
    };
    let count = random.pick(&[0, 2, 3, 3, 16]);
    match nature {
        Nature::WholeRange(entries) => *entries = entries.repeat(count),
        Nature::FloatRange(entries) => *entries = entries.repeat(count),
        _ => (),
    }
}

/// 29: categories, mostly on both sides, and on one side neither one list nor one
/// for each output column. Beside them 19 to 22 may stand on either side.
fn miscounts(random: &mut Random, component: u32, left: &mut Sheet, right: &mut Sheet) {
    if component == 8 {
        (left.data_type, right.data_type) = (3, 3);
    }
    let taste = Taste::new(random);
    let kinds = match random.below(4) {
        0 => random.pick(&[
            (3, 4),
            (4, 3),
            (3, 5),
            (5, 3),
            (6, 5),
            (6, 4),
            (1, 3),
            (3, 0),
        ]),
        _ => random.pick(&[(3, 3), (3, 3), (4, 4), (6, 6)]),
    };
    let output = match component {
        6..=8 => left.columns.unwrap_or(1) as usize,
        _ => most_columns(left, right),
    };
    let counts = (2..=MOST_LISTS.min(output + 3)).filter(|count| *count != output);
    let counts: Vec<usize> = counts.collect();
    left.nature = super::nature(random, kinds.0, taste, output as i64);
    right.nature = super::nature(random, kinds.1, taste, output as i64);
    let unary = is_unary(component);
    let (sheet, kind) = match unary || random.percent(50) {
        true => (left, kinds.0),
        false => (right, kinds.1),
    };
    if kind >= 3 {
        let count = random.pick(&counts);
        sheet.nature = super::categories(random, kind, taste, count);
    }
}

/// 23 under Divide: left's ends are there, the divisor may be zero.
fn divisors(random: &mut Random, left: &mut Sheet, right: &mut Sheet) {
    if random.percent(50) {
        let upper = random.pick(&[None, Some(0), Some(5), Some(-1)]);
        let lower = random.pick(&[Some(0), Some(-5), Some(2)]);
        let entry = if random.percent(50) {
            (None, upper)
        } else {
            (lower, None)
        };
        left.nature = Nature::WholeRange(vec![(Some(-7), Some(random.between(-7, 9)))]);
        right.nature = Nature::WholeRange(vec![entry]);
        return;
    }
    let upper = random.pick(&[None, Some(0.0), Some(-0.0), Some(5.0), Some(-1.0)]);
    let lower = random.pick(&[Some(0.0), Some(-0.0), Some(-5.0), Some(2.0)]);
    let entry = if random.percent(50) {
        (None, upper)
    } else {
        (lower, None)
    };
    let bits = |(l, u): (Option<f64>, Option<f64>)| (l.map(f64::to_bits), u.map(f64::to_bits));
    let top = numbers::float(random, Scale::Small).abs();
    left.nature = Nature::FloatRange(vec![bits((Some(-0.5), Some(top)))]);
    right.nature = Nature::FloatRange(vec![bits(entry)]);
}

/// 24: whole numbers at the edges of 64 bits, as ranges or as lists.
fn extremes(random: &mut Random, left: &mut Sheet, right: &mut Sheet) {
    let lists = random.percent(40);
    for sheet in [left, right] {
        sheet.nature = if lists {
            let mut list = Taste::extreme().whole_list(random);
            list.push(numbers::whole(random, Scale::Any));
            list.push(random.pick(&[0, -1, 2, i64::MIN, i64::MAX]));
            Nature::WholeLists(vec![list])
        } else {
            let count = sheet.columns.unwrap_or(1).min(3) as usize;
            let entries = (0..count).map(|_| Taste::extreme().whole_ends(random));
            Nature::WholeRange(entries.collect())
        };
    }
}

/// 24 under Pool: rows whose sum leaves 64 bits, or just fits.
fn far_rows(random: &mut Random, left: &mut Sheet, right: &mut Sheet) {
    let near = random.between(0, 9);
    let rows = random.pick(&[
        (i64::MAX, 1),
        (i64::MIN, -1),
        (i64::MAX - near, 5),
        (-5, i64::MIN + near),
        (i64::MAX, i64::MAX),
        (i64::MIN, i64::MIN),
        (i64::MIN, i64::MAX),
    ]);
    (left.rows, right.rows) = (Some(rows.0), Some(rows.1));
}

/// 26 under Pool: unions around 128, by one list or by one for each column.
fn long_unions(random: &mut Random, left: &mut Sheet, right: &mut Sheet) {
    let columns = left.columns.unwrap_or(1);
    let most = 128 / columns + random.between(-1, 1);
    let start = random.between(-70, 5);
    let split = random.between(0, most.max(0));
    let back = random.below(4) as i64;
    let run = |first: i64, end: i64| {
        let list: Vec<i64> = (first..end).take(128).collect();
        Nature::WholeLists(vec![list])
    };
    left.nature = run(start, start + split);
    right.nature = run(start + split - back, start + most);
}

/// 26: products around 128, and lists that spread over columns.
fn many_categories(random: &mut Random, left: &mut Sheet, right: &mut Sheet) {
    let columns = left.columns.unwrap_or(1).max(right.columns.unwrap_or(1));
    let (long, short) = random.pick(&[(120, 9), (64, 65), (12, 11), (128, 1), (43, 3), (16, 8)]);
    let start = random.between(-70, 5);
    let run = |first: i64, count: i64| (first..first + count).collect::<Vec<i64>>();
    let share = (long + random.between(-1, 1)) / random.pick(&[1, columns]);
    left.nature = Nature::WholeLists(vec![run(start, share.clamp(1, 128))]);
    let mut divisors = run(random.pick(&[0, 1, 1, 1000]), short);
    if random.percent(30) {
        divisors.iter_mut().for_each(|value| *value *= long);
    }
    right.nature = Nature::WholeLists(vec![divisors]);
}

/// 26 under Abs and Negative: one list that spreads, with about 128 values as they
/// would be written; before repeats go, often more. Now and then 24 stands last.
fn many_mapped(random: &mut Random, left: &mut Sheet) {
    let columns = random.pick(&[1, 2, 2, 2, 3, 4, 8, 16]);
    let most = (128 / columns + random.between(-1, 1)).min(128);
    let mut list: Vec<i64> = (1..=most).collect();
    match random.below(8) {
        // Across zero.
        0 | 1 => {
            let start = random.between(-most, 5);
            list = (start..=start + most).collect();
        }
        // Some with their negatives, or all, in any order of the two.
        2..=5 => {
            let twins = random.pick(&[1, most / 2, most]);
            list.extend((1..=twins).map(|value| -value));
            let turn = random.below(list.len());
            list.rotate_left(turn);
        }
        6 => list.extend_from_within(..),
        _ => (),
    }
    list.truncate(128);
    if random.percent(10) {
        list.pop();
        list.push(i64::MIN);
    }
    left.columns = Some(columns);
    left.nature = Nature::WholeLists(vec![list]);
}

fn most_columns(left: &Sheet, right: &Sheet) -> usize {
    left.columns.unwrap_or(1).max(right.columns.unwrap_or(1)) as usize
}

/// 26 by texts.
fn many_texts(random: &mut Random, component: u32, left: &mut Sheet, right: &mut Sheet) {
    let columns = most_columns(left, right);
    let lists = match component {
        POOL => texts::many_unions(random, columns),
        _ => texts::many_joins(random, columns),
    };
    put_texts(left, right, lists);
}

/// 28: texts that take about 1,024 bytes as they would be written.
fn long_texts(random: &mut Random, component: u32, left: &mut Sheet, right: &mut Sheet) {
    let columns = most_columns(left, right);
    let lists = match component {
        POOL => texts::long_unions(random, columns),
        _ => texts::long_joins(random, columns),
    };
    put_texts(left, right, lists);
}

fn put_texts(left: &mut Sheet, right: &mut Sheet, lists: [texts::List; 2]) {
    let [of_left, of_right] = lists;
    left.nature = Nature::TextLists(vec![of_left]);
    right.nature = Nature::TextLists(vec![of_right]);
}

/// Damage to a sheet's bytes: towards 3 by its sizes, towards 4 by a field.
pub fn bytes(random: &mut Random, aim: u32, bytes: &mut Vec<u8>) {
    if bytes.len() < 80 {
        return;
    }
    if aim == 4 && random.percent(if bytes[6] == TEXT { 50 } else { 12 }) {
        return bad_area(random, bytes);
    }
    if aim == 4 {
        return bad_field(random, bytes);
    }
    match random.below(11) {
        0 => bytes.truncate(random.below(80)),
        1 => bytes.truncate(bytes.len() - 1),
        2 => bytes.push(0),
        3 => bytes.extend([0; 18]),
        4 => bytes[random.pick(&[0, 2, 4])] = random.pick(&[5, 17, 129, 255]),
        5 => bytes[random.pick(&[1, 3, 5])] = random.pick(&[1, 128]),
        6 => bytes[random.pick(&[0, 2, 4])] ^= 1,
        7 => bytes[26] ^= random.pick(&[1, 2, 128]),
        8 => bytes[27] = random.pick(&[1, 4, 5, 255]),
        9 => resize_area(random, bytes, MOST_TEXT + 1),
        _ => bytes.truncate(bytes.len().saturating_sub(9).max(80)),
    }
}

/// Another size of the area, with all of its bytes.
fn resize_area(random: &mut Random, bytes: &mut Vec<u8>, size: usize) {
    let before = u16::from_le_bytes([bytes[26], bytes[27]]) as usize;
    let arrays = bytes.len().saturating_sub(before).max(80);
    bytes[26..28].copy_from_slice(&(size as u16).to_le_bytes());
    bytes.resize(arrays + size, random.pick(b"\0ax"));
}

/// An area that is none of the texts': under another nature, or departing from
/// end to end.
fn bad_area(random: &mut Random, bytes: &mut Vec<u8>) {
    let count = u16::from_le_bytes([bytes[4], bytes[5]]) as usize;
    if bytes[6] != TEXT || count == 0 {
        let size = random.pick(&[1, 2, 100, MOST_TEXT]);
        return resize_area(random, bytes, size);
    }
    let values = 80 + 13 * bytes[0] as usize + count;
    let half = |random: &mut Random| values + 4 * random.below(2 * count);
    let at = half(random);
    let word = |bytes: &[u8], at: usize| u32::from_le_bytes(bytes[at..at + 4].try_into().unwrap());
    match random.below(4) {
        0 => {
            // Two starts or lengths change places.
            let other = half(random);
            let (first, second) = (word(bytes, at), word(bytes, other));
            bytes[at..at + 4].copy_from_slice(&second.to_le_bytes());
            bytes[other..other + 4].copy_from_slice(&first.to_le_bytes());
        }
        1 => {
            let changed = word(bytes, at).wrapping_add(random.pick(&[1, 2, u32::MAX, 1 << 31]));
            bytes[at..at + 4].copy_from_slice(&changed.to_le_bytes());
        }
        2 => {
            // Behind the last text.
            bytes.push(b'x');
            let size = u16::from_le_bytes([bytes[26], bytes[27]]).wrapping_add(1);
            bytes[26..28].copy_from_slice(&size.to_le_bytes());
        }
        _ => wrap_lengths(random, bytes, values, count),
    }
}

/// One length more and another one less by the same: in 32 bits the texts
/// still lie end to end.
fn wrap_lengths(random: &mut Random, bytes: &mut [u8], values: usize, count: usize) {
    let shift = random.pick(&[1 << 31, u32::MAX - 2, 5000]);
    let (more, less) = (random.below(count), random.below(count));
    let mut start = 0u32;
    for value in 0..count {
        let at = values + 8 * value;
        let mut length = u32::from_le_bytes(bytes[at + 4..at + 8].try_into().unwrap());
        if value == more {
            length = length.wrapping_add(shift);
        }
        if value == less {
            length = length.wrapping_sub(shift);
        }
        bytes[at..at + 4].copy_from_slice(&start.to_le_bytes());
        bytes[at + 4..at + 8].copy_from_slice(&length.to_le_bytes());
        start = start.wrapping_add(length);
    }
}

fn bad_field(random: &mut Random, bytes: &mut [u8]) {
    let bad = random.pick(&[2, 3, 17, 128, 255]);
    let place = match random.below(10) {
        0 => 6,
        1 => 7,
        2 => random.pick(&[8, 9, 10, 11]),
        3 => random.pick(&[20, 21, 22, 23, 24]),
        4 => random.pick(&[25, 28, 31]),
        5 => random.pick(&[40, 41, 47]),
        6 => 32 + random.below(40),
        _ => random.below(bytes.len()),
    };
    match random.below(4) {
        0 => bytes[place] ^= 1 << random.below(8),
        1 if (20..25).contains(&place) => bytes[place] ^= 1,
        _ => bytes[place] = bad,
    }
}
