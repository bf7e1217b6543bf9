//! Calls for the comparison: the oracle's generator, with a share of Pool, texts
//! of any bytes and a damaged share.

use oracle_list::form::{Call, POOL};
use oracle_list::generate;
use oracle_list::random::Random;
use oracle_list::sheet::{Sheet, LONGEST, TEXT};

/// Calls in a hundred whose operands are damaged after they were drawn.
const DAMAGED: usize = 25;
/// Calls in a hundred that are Pool's.
const POOLED: usize = 12;
/// Calls with texts in a hundred whose texts get other bytes, which may be no UTF-8.
const OTHER_TEXTS: usize = 25;

/// The caller sets `out_len`.
pub fn call(random: &mut Random) -> Call {
    let mut call = match random.percent(POOLED) {
        true => generate::call_of(random, POOL),
        false => generate::call(random),
    };
    if random.percent(OTHER_TEXTS) {
        let mask = text_mask(random);
        for sheet in [&mut call.left, &mut call.right] {
            other_text(random, mask, sheet);
        }
    }
    if random.percent(DAMAGED) {
        let side = if random.percent(50) {
            &mut call.left
        } else {
            &mut call.right
        };
        damage(random, side);
    }
    call
}

/// One change for the bytes of all texts keeps what repeats and collapses; none
/// stands for any bytes.
pub fn text_mask(random: &mut Random) -> Option<u8> {
    random.pick(&[Some(0x80), Some(0xff), Some(1), None])
}

/// Other bytes in the text area of a permitted sheet, which stays permitted.
pub fn other_text(random: &mut Random, mask: Option<u8>, sheet: &mut [u8]) {
    if sheet.get(6) != Some(&TEXT) || Sheet::decode(sheet).is_err() {
        return;
    }
    let size = usize::from(u16::from_le_bytes([sheet[26], sheet[27]]));
    let start = sheet.len() - size;
    for byte in &mut sheet[start..] {
        *byte ^= mask.unwrap_or(random.word() as u8);
    }
}

pub fn damage(random: &mut Random, bytes: &mut Vec<u8>) {
    match random.below(4) {
        0 => flip(random, bytes),
        1 => bytes.truncate(random.below(bytes.len() + 1)),
        2 => (0..=random.below(40)).for_each(|_| bytes.push(random.word() as u8)),
        _ => {
            for _ in 0..=random.below(4) {
                flip(random, bytes);
            }
        }
    }
}

/// A flipped bit, or another byte; the head is hit as often as the arrays.
fn flip(random: &mut Random, bytes: &mut [u8]) {
    if bytes.is_empty() {
        return;
    }
    let bound = if random.percent(50) {
        bytes.len().min(80)
    } else {
        bytes.len()
    };
    let place = random.below(bound);
    if random.percent(70) {
        bytes[place] ^= 1 << random.below(8);
    } else {
        bytes[place] = random.word() as u8;
    }
}

/// Output lengths around a result's own.
pub fn out_len(random: &mut Random, length: usize) -> usize {
    match random.below(10) {
        0 => 0,
        1 => length.saturating_sub(1),
        2 => random.below(length + 1),
        3..=5 => length,
        6 => length + 1,
        7 => length + random.below(200),
        8 => 3000,
        _ => LONGEST,
    }
}
