//! Texts: short and empty ones, repeats, parts whose joins collapse, several
//! bytes to a character, now and then long ones. All are UTF-8, as the original
//! asks.

use crate::random::Random;
use crate::sheet::MOST_TEXT;

pub type List = Vec<Vec<u8>>;

const PIECES: &[&str] = &[
    "",
    "a",
    "b",
    "ab",
    "N",
    "pump",
    "7",
    "\0",
    "\u{e9}",
    "e\u{301}",
    "\u{20ac}",
    "\u{1f6b0}",
];
/// "ab" and "" join as "a" and "b" do.
const COLLAPSING: &[&str] = &["", "a", "ab", "b", "abb", "bb"];

fn text(random: &mut Random) -> Vec<u8> {
    let pieces = random.pick(&[0, 1, 1, 1, 2, 3]);
    let text: String = (0..pieces).map(|_| random.pick(PIECES)).collect();
    text.into_bytes()
}

fn list(random: &mut Random) -> List {
    let length = random.pick(&[0, 1, 1, 2, 2, 3, 3, 4, 6]);
    match random.below(8) {
        0..=2 => (0..length)
            .map(|_| random.pick(COLLAPSING).as_bytes().to_vec())
            .collect(),
        3 => runs(random.below(4), length),
        4 => vec![letters(random.below(300))],
        _ => (0..length).map(|_| text(random)).collect(),
    }
}

/// Lists that a sheet has room for: what the area cannot take is left out.
pub fn lists(random: &mut Random, count: usize) -> Vec<List> {
    let mut room = MOST_TEXT;
    let mut fits = |text: &Vec<u8>| {
        let fits = text.len() <= room;
        room -= if fits { text.len() } else { 0 };
        fits
    };
    (0..count)
        .map(|_| list(random).into_iter().filter(&mut fits).collect())
        .collect()
}

/// The letter a so many times.
fn letters(length: usize) -> Vec<u8> {
    vec![b'a'; length]
}

/// Runs of one letter, each longer by one.
fn runs(first: usize, count: usize) -> List {
    (first..first + count).map(letters).collect()
}

/// So many different texts of one byte.
fn bytes(first: usize, count: usize) -> List {
    let byte = |number: usize| vec![(number % 128) as u8];
    (first..first + count).map(byte).collect()
}

/// So many different texts of one length, which is not 0.
fn numbered(count: usize, length: usize) -> List {
    let lengthen = |mut text: Vec<u8>| {
        text.resize(length, b'-');
        text
    };
    bytes(0, count).into_iter().map(lengthen).collect()
}

/// A number near a share of another one.
fn near(random: &mut Random, whole: usize, parts: usize) -> usize {
    let share = (whole / parts) as i64 + random.between(-1, 1);
    share.max(0) as usize
}

/// 28 under Add: lists whose joins take about 1,024 bytes over the columns.
pub fn long_joins(random: &mut Random, columns: usize) -> [List; 2] {
    match random.below(3) {
        0 => {
            let whole = near(random, MOST_TEXT, columns);
            let left = random.below(whole + 1);
            [vec![letters(left)], vec![letters(whole - left)]]
        }
        1 => {
            let (left, right) = random.pick(&[(11, 11), (8, 16), (4, 8), (2, 2), (1, 4), (12, 11)]);
            let join = near(random, MOST_TEXT, left * right * columns).max(2);
            let part = 1 + random.below(join - 1);
            let part = part
                .min(MOST_TEXT / left)
                .max(join.saturating_sub(MOST_TEXT / right));
            [numbered(left, part), numbered(right, join - part)]
        }
        _ => {
            // The joins of these collapse to fewer than twice as many.
            let count = random.pick(&[20, 22, 23, 24, 30]);
            [runs(0, count), runs(random.below(2), count)]
        }
    }
}

/// 28 under Pool: lists that are about 1,024 bytes together, with some in both.
pub fn long_unions(random: &mut Random, columns: usize) -> [List; 2] {
    let count = random.pick(&[1, 2, 5, 20, 60]);
    let length = near(random, MOST_TEXT, count * columns).clamp(1, MOST_TEXT / count);
    let all = numbered(count, length);
    let split = random.below(count + 1);
    let back = split.saturating_sub(random.below(3));
    let mut right = all[back..].to_vec();
    if random.percent(50) && count > 1 {
        right.push(letters(random.below(3)));
    }
    [all[..split].to_vec(), right]
}

/// 26: about 128 different joins of two bytes, shared out over the columns.
pub fn many_joins(random: &mut Random, columns: usize) -> [List; 2] {
    let (left, right) = random.pick(&[(43, 3), (16, 8), (12, 11), (64, 2), (128, 1), (127, 1)]);
    let left = (left / random.pick(&[1, columns])).max(1);
    let first = random.below(128);
    [bytes(first, left), bytes(random.below(100), right)]
}

/// 26 under Pool: about 128 texts of one byte or two over the columns.
pub fn many_unions(random: &mut Random, columns: usize) -> [List; 2] {
    let count = near(random, 128, columns).max(1);
    let all: List = (0..count)
        .map(|number| vec![(number % 128) as u8; 1 + number / 128])
        .collect();
    let split = random.below(count + 1);
    let back = split.saturating_sub(random.below(4));
    [
        all[..split.min(128)].to_vec(),
        all[back..].iter().take(128).cloned().collect(),
    ]
}
