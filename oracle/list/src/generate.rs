//! Seeded calls. A pair of sheets that suits the component is drawn first, so
//! that accepted calls are common; then it is disturbed towards a refusal.

mod disturb;
mod numbers;
mod texts;

use crate::form::{is_unary, Call, POOL};
use crate::random::Random;
use crate::sheet::{Group, Key, Nature, Sheet};
use numbers::Taste;

pub use disturb::AIMS;

/// A call of the nine, or of a bad component, with room for every result; the
/// caller sets `out_len`. Range Subtracts are among them: who asks the original
/// draws again.
pub fn call(random: &mut Random) -> Call {
    if random.percent(2) {
        return bad_component(random);
    }
    let component = random.between(1, 9) as u32;
    call_of(random, component)
}

/// A call of a component, often disturbed towards some refusal.
pub fn call_of(random: &mut Random, component: u32) -> Call {
    let aim = if random.percent(60) {
        random.pick(AIMS)
    } else {
        0
    };
    call_for(random, component, aim)
}

/// A call of a component, disturbed towards the refusal `aim` (0 for none).
/// What it really gives is for the answer to say.
pub fn call_for(random: &mut Random, component: u32, aim: u32) -> Call {
    let second = if random.percent(8) {
        random.pick(AIMS)
    } else {
        0
    };
    call_towards(random, component, [aim, second])
}

/// A call disturbed towards two refusals: it shows which is tested first.
pub fn call_towards(random: &mut Random, component: u32, aims: [u32; 2]) -> Call {
    let (mut left, mut right) = pair(random, component);
    for aim in aims {
        disturb::sheets(random, aim, component, &mut left, &mut right);
    }
    let unary = is_unary(component);
    let mut left = left.encode();
    let mut right = if unary {
        unread(random, &right)
    } else {
        right.encode()
    };
    if let [aim @ (3 | 4), _] = aims {
        let side = if unary || random.percent(50) {
            &mut left
        } else {
            &mut right
        };
        damage(random, aim, side);
    } else if random.percent(2) {
        damage(random, 4, &mut left);
    }
    Call {
        component,
        node: node(random),
        left,
        right,
        out_len: usize::MAX,
    }
}

/// Damage that leaves texts UTF-8, as the original asks: others are not damaged.
fn damage(random: &mut Random, aim: u32, bytes: &mut Vec<u8>) {
    let before = bytes.clone();
    disturb::bytes(random, aim, bytes);
    if Sheet::decode(bytes).is_ok_and(|sheet| !sheet.nature.is_utf8()) {
        *bytes = before;
    }
}

/// A call whose component is none of 1 to 10.
pub fn bad_component(random: &mut Random) -> Call {
    let component = random.pick(&[0, 11, 200, 255, 256 + 1, 65536 + 2, 1 << 31, u32::MAX]);
    let (left, right) = pair(random, 2);
    let short = random.percent(30);
    Call {
        component,
        node: node(random),
        left: if short { Vec::new() } else { left.encode() },
        right: right.encode(),
        out_len: usize::MAX,
    }
}

/// One sheet that passes 3 to 5, of any nature.
pub fn valid_sheet(random: &mut Random) -> Sheet {
    let component = random.between(1, 9) as u32;
    let (left, right) = pair(random, component);
    random.pick(&[&left, &right]).clone()
}

fn node(random: &mut Random) -> u32 {
    match random.below(10) {
        0 => u32::MAX,
        1 => 0x8000_0000,
        2 => random.word() as u32,
        _ => random.below(40) as u32,
    }
}

/// Abs and Negative must not read right: it may be anything.
fn unread(random: &mut Random, right: &Sheet) -> Vec<u8> {
    match random.below(4) {
        0 => right.encode(),
        1 => (0..random.below(6)).map(|_| random.word() as u8).collect(),
        _ => Vec::new(),
    }
}

/// Two sheets that mostly suit the component and each other.
fn pair(random: &mut Random, component: u32) -> (Sheet, Sheet) {
    let columns = columns(random);
    let right_columns = match component {
        6..=8 if random.percent(15) => self::columns(random),
        POOL => columns,
        _ if random.percent(25) => 1,
        _ => columns,
    };
    let left_columns = match component {
        POOL => columns,
        _ if random.percent(10) => 1,
        _ => columns,
    };
    let output = match component {
        6..=8 => left_columns,
        _ => left_columns.max(right_columns),
    };
    let (left_type, right_type) = types(random, component);
    let float_type = left_type == 3;
    let (left_nature, right_nature) = natures(random, component, float_type, output);
    let mut left = fields(random, left_nature, left_type, left_columns);
    let mut right = fields(random, right_nature, right_type, right_columns);
    if component == POOL {
        share_groups(random, &left, &mut right);
    } else {
        agree(random, &mut left, &mut right);
    }
    (left, right)
}

fn columns(random: &mut Random) -> i64 {
    match random.below(20) {
        0..=10 => 1,
        11..=15 => 2,
        16..=17 => 3,
        18 => random.between(4, 8),
        _ => random.between(9, 16),
    }
}

/// Data types by the numbers of byte 7, such as the component takes.
fn types(random: &mut Random, component: u32) -> (u8, u8) {
    match component {
        6 | 8 => random.pick(&[(4, 4), (4, 4), (3, 3)]),
        7 => (3, random.pick(&[3, 3, 3, 4, 0, 2])),
        _ => random.pick(&[(4, 4), (4, 4), (3, 3), (3, 3), (0, 0), (1, 1), (2, 2)]),
    }
}

fn natures(
    random: &mut Random,
    component: u32,
    float_type: bool,
    columns: i64,
) -> (Nature, Nature) {
    let taste = Taste::new(random);
    let strict = match component {
        5 if random.percent(45) => taste.away_from_zero(random),
        6 | 8 => taste.above_zero(),
        7 => taste.base(),
        _ => taste,
    };
    let data = if component == 7 {
        taste.above_zero()
    } else {
        taste
    };
    let (left, right) = kinds(random, component, float_type);
    (
        nature(random, left, data, columns),
        nature(random, right, strict, columns),
    )
}

/// Natures by the numbers of byte 6.
fn kinds(random: &mut Random, component: u32, float_type: bool) -> (u8, u8) {
    let any = [0, 1, 2, 3, 4, 5, 6];
    let often = random.percent(80);
    match component {
        // What Divide's nullity reads, with a left that lets it be written.
        5 if random.percent(12) => random.pick(&[(0, 5), (1, 5), (2, 5), (0, 2), (3, 2), (1, 6)]),
        6 if float_type && often => random.pick(&[(2, 2), (2, 2), (1, 1), (0, 2), (3, 2), (6, 2)]),
        6 if often => random.pick(&[(1, 1), (1, 1), (1, 1), (0, 1), (3, 1), (4, 1), (6, 1)]),
        7 if often => random.pick(&[(2, 2), (2, 2), (2, 2), (2, 2), (1, 1)]),
        8 if float_type && often => random.pick(&[(2, 2), (1, 1), (2, 0), (0, 5), (1, 3), (1, 6)]),
        8 if often => random.pick(&[(1, 1), (1, 1), (0, 1), (3, 1), (5, 1), (6, 1)]),
        // What each of the two has a rule for, texts among it.
        2 if often => random.pick(&[
            (1, 1),
            (1, 1),
            (2, 2),
            (2, 2),
            (3, 3),
            (3, 3),
            (6, 6),
            (6, 6),
        ]),
        POOL if often => random.pick(&[(1, 1), (2, 2), (2, 2), (3, 3), (3, 3), (4, 4), (6, 6)]),
        1..=5 | 9 if often => {
            random.pick(&[(1, 1), (1, 1), (1, 1), (2, 2), (2, 2), (3, 3), (3, 3)])
        }
        _ => (random.pick(&any), random.pick(&any)),
    }
}

/// One entry or list, or one for each column; of lists now and then any number, which
/// 29 mostly refuses where it counts them.
fn nature(random: &mut Random, kind: u8, taste: Taste, columns: i64) -> Nature {
    let spread = random.percent(50);
    let count = if spread { 1 } else { columns as usize };
    let lists = match random.below(12) {
        0 => random.below(4),
        1 => random.below(6) + 1,
        _ => count,
    };
    match kind {
        1 => Nature::WholeRange((0..count).map(|_| taste.whole_ends(random)).collect()),
        2 => Nature::FloatRange((0..count).map(|_| taste.float_ends(random)).collect()),
        _ => categories(random, kind, taste, lists),
    }
}

/// So many lists of a kind; the absent nature for a kind that has none.
fn categories(random: &mut Random, kind: u8, taste: Taste, lists: usize) -> Nature {
    match kind {
        3 => Nature::WholeLists((0..lists).map(|_| taste.whole_list(random)).collect()),
        4 => Nature::BoolLists((0..lists).map(|_| numbers::bool_list(random)).collect()),
        5 => Nature::FloatLists((0..lists).map(|_| numbers::float_list(random)).collect()),
        6 => Nature::TextLists(texts::lists(random, lists)),
        _ => Nature::Absent,
    }
}

fn fields(random: &mut Random, nature: Nature, data_type: u8, columns: i64) -> Sheet {
    let releasable = random.percent(55);
    let free = releasable && random.percent(40);
    Sheet {
        nature,
        data_type,
        nullity: random.percent(40),
        releasable,
        not_empty: random.percent(60),
        ordered: random.percent(60),
        c_stability: random.pick(&[1, 1, 1, 2, 3, 0, 0x8000_0000, u32::MAX]),
        aggregator: if free { random.word() as u32 } else { 0 },
        rows: rows(random),
        columns: Some(columns),
        dataset: random.pick(&[None, Some(0), Some(5), Some(5), Some(-7), Some(i64::MIN)]),
        dimensionality: random.pick(&[None, None, Some(1), Some(2), Some(-4), Some(i64::MAX)]),
        sample: if free {
            Some(numbers::odd_float(random))
        } else {
            random.pick(&[None, None, Some(1f64.to_bits())])
        },
        node: random.pick(&[0, 1, 7, 100, -3, i64::MIN]),
        groups: groups(random),
    }
}

fn rows(random: &mut Random) -> Option<i64> {
    match random.below(10) {
        0..=1 => None,
        2..=5 => Some(1),
        6 => Some(0),
        7 => Some(random.pick(&[-3, -1, i64::MIN, i64::MAX])),
        _ => Some(random.between(2, 50)),
    }
}

fn groups(random: &mut Random) -> Vec<Group> {
    let count = random.pick(&[0, 0, 0, 1, 1, 2, 3, 4]);
    (0..count).map(|_| group(random)).collect()
}

fn group(random: &mut Random) -> Group {
    let value = random.pick(&[0, 1, 1, 2, -5, i64::MAX]);
    Group {
        partition: random.pick(&[1, 1, 2, 3, u32::MAX]),
        index: match random.below(3) {
            0 => Key::Int(value),
            1 => Key::Bool(value > 0),
            _ => Key::Str(value),
        },
    }
}

/// All that Pool asks of two private operands: they may be of other datasets,
/// and of other c-stabilities.
fn share_groups(random: &mut Random, left: &Sheet, right: &mut Sheet) {
    if !left.releasable && !right.releasable && !random.percent(10) {
        right.groups = left.groups.clone();
    }
}

/// Makes the two fit: private operands share groups, dataset and c-stability,
/// and rows do not clash. One pair in ten is left as it was drawn.
fn agree(random: &mut Random, left: &mut Sheet, right: &mut Sheet) {
    if random.percent(10) {
        return;
    }
    if !left.releasable && !right.releasable {
        disturb::share_origin(left, right);
    }
    let spreads = |sheet: &Sheet| sheet.releasable && sheet.rows == Some(1);
    if spreads(left) || spreads(right) || left.dataset == right.dataset {
        return;
    }
    if random.percent(60) {
        left.rows = left.rows.or(Some(9));
        right.rows = left.rows;
    } else {
        right.dataset = left.dataset;
    }
}

#[cfg(test)]
mod tests {
    use super::{call, valid_sheet};
    use crate::random::Random;
    use crate::sheet::Sheet;

    #[test]
    fn sheets_come_back() {
        let mut random = Random::new(3);
        for _ in 0..5000 {
            let sheet = valid_sheet(&mut random);
            assert_eq!(Sheet::decode(&sheet.encode()), Ok(sheet));
        }
    }

    #[test]
    fn a_seed_fixes_the_calls() {
        let draw = |seed| {
            let mut random = Random::new(seed);
            (0..50).map(|_| call(&mut random)).collect::<Vec<_>>()
        };
        assert_eq!(draw(1), draw(1));
        assert_ne!(draw(1), draw(2));
    }

    /// Reading and writing agree on every sheet that 3 and 4 let pass.
    #[test]
    fn decoded_bytes_come_back() {
        let mut random = Random::new(4);
        for _ in 0..20000 {
            let call = call(&mut random);
            for bytes in [&call.left, &call.right] {
                if let Ok(sheet) = Sheet::decode_unordered(bytes) {
                    assert_eq!(sheet.encode(), *bytes);
                }
            }
        }
    }
}
