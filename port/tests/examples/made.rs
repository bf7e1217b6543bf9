//! Sheets and plans laid out by hand, and calls on them.

use crate::answering::propagate_property;

/// The components by number.
pub const ABS: u32 = 1;
pub const ADD: u32 = 2;
pub const SUBTRACT: u32 = 3;
pub const MULTIPLY: u32 = 4;
pub const DIVIDE: u32 = 5;
pub const MODULO: u32 = 6;
pub const LOG: u32 = 7;
pub const POWER: u32 = 8;
pub const NEGATIVE: u32 = 9;
pub const POOL: u32 = 10;

pub const SLOT: usize = 2308;

/// The least number of 64 bits: its magnitude and its negative leave them.
pub const LEAST: i64 = i64::MIN;

pub type Entry = (Option<i64>, Option<i64>);

/// The bits of an entry's ends.
pub type Bits = (Option<u64>, Option<u64>);

/// Type Int, releasable, one row, `columns` columns, nothing else.
fn head(nature: u8, lists: usize, categories: usize, columns: u8) -> Vec<u8> {
    let mut bytes = vec![0; 80];
    bytes[2] = lists as u8;
    bytes[4] = categories as u8;
    bytes[6] = nature;
    bytes[7] = 4;
    bytes[9] = 1;
    bytes[11] = 1;
    bytes[20] = 1;
    bytes[21] = 1;
    bytes[32] = 1;
    bytes[40] = columns;
    bytes
}

pub fn range(columns: u8, entries: &[Entry]) -> Vec<u8> {
    let bits = |end: Option<i64>| end.map(|end| end as u64);
    let entries: Vec<_> = entries.iter().map(|e| (bits(e.0), bits(e.1))).collect();
    bounds(1, columns, &entries)
}

/// A range of the kind that `nature` says, its ends as bits.
fn bounds(nature: u8, columns: u8, entries: &[Bits]) -> Vec<u8> {
    let mut bytes = head(nature, entries.len(), 0, columns);
    let lowers = entries.iter().map(|entry| entry.0);
    for end in lowers.chain(entries.iter().map(|entry| entry.1)) {
        bytes.push(end.is_some() as u8);
        bytes.extend(end.unwrap_or(0).to_le_bytes());
    }
    bytes
}

pub fn w(lower: i64, upper: i64) -> Vec<u8> {
    range(1, &[(Some(lower), Some(upper))])
}

/// A float range of type Float.
pub fn f(lower: f64, upper: f64) -> Vec<u8> {
    float_range(1, &[(Some(lower.to_bits()), Some(upper.to_bits()))])
}

/// The same with any entries, their ends as bits.
pub fn float_range(columns: u8, entries: &[Bits]) -> Vec<u8> {
    with(bounds(2, columns, entries), &[(TYPE, 3)])
}

pub fn list(values: &[i64]) -> Vec<u8> {
    lists(3, 1, &[values])
}

/// Category lists of the kind that `nature` says, their values as bits.
pub fn lists(nature: u8, columns: u8, lists: &[&[i64]]) -> Vec<u8> {
    let values = lists.concat();
    let mut bytes = head(nature, lists.len(), values.len(), columns);
    for (number, list) in lists.iter().enumerate() {
        bytes.extend(list.iter().map(|_| number as u8));
    }
    bytes.extend(values.iter().flat_map(|value| value.to_le_bytes()));
    bytes
}

/// One list of texts, of type Str.
pub fn t(list: &[&[u8]]) -> Vec<u8> {
    texts(1, &[list])
}

/// Lists of texts, of type Str.
pub fn texts(columns: u8, lists: &[&[&[u8]]]) -> Vec<u8> {
    let area = lists.concat().concat();
    let mut start = 0;
    let mut values: Vec<Vec<(u32, u32)>> = vec![];
    for list in lists {
        values.push(vec![]);
        for text in *list {
            let length = text.len() as u32;
            values.last_mut().unwrap().push((start, length));
            start += length;
        }
    }
    let values: Vec<&[(u32, u32)]> = values.iter().map(Vec::as_slice).collect();
    text_values(columns, &values, &area)
}

/// Text lists by starts and lengths of their own, and an area.
pub fn text_values(columns: u8, values: &[&[(u32, u32)]], area: &[u8]) -> Vec<u8> {
    let bits = |value: &(u32, u32)| (u64::from(value.0) | u64::from(value.1) << 32) as i64;
    let bits: Vec<Vec<i64>> = values
        .iter()
        .map(|list| list.iter().map(bits).collect())
        .collect();
    let bits: Vec<&[i64]> = bits.iter().map(Vec::as_slice).collect();
    let sheet = with(lists(6, columns, &bits), &[(TYPE, 2)]);
    with_area(sheet, area)
}

/// The same sheet with this area behind its arrays, whatever its nature.
pub fn with_area(mut sheet: Vec<u8>, area: &[u8]) -> Vec<u8> {
    sheet[AREA..AREA + 2].copy_from_slice(&(area.len() as u16).to_le_bytes());
    sheet.extend(area);
    sheet
}

/// Nothing stated of the values.
pub fn absent() -> Vec<u8> {
    head(0, 0, 0, 1)
}

/// Places of bytes that tests change.
pub const TYPE: usize = 7;
pub const NULLITY: usize = 8;
pub const RELEASABLE: usize = 9;
pub const NOT_EMPTY: usize = 10;
pub const ORDERED: usize = 11;
pub const STABILITY: usize = 12;
pub const AGGREGATOR: usize = 16;
pub const AREA: usize = 26;
pub const NODE: usize = 72;

/// The same sheet with other bytes.
pub fn with(mut sheet: Vec<u8>, bytes: &[(usize, u8)]) -> Vec<u8> {
    for (at, byte) in bytes {
        sheet[*at] = *byte;
    }
    sheet
}

/// The five values under marks, by their place.
pub const ROWS: usize = 0;
pub const COLUMNS: usize = 1;
pub const DATASET: usize = 2;
pub const DIMENSIONS: usize = 3;
pub const SAMPLE: usize = 4;

/// The same sheet with another value under its mark.
pub fn stating(mut sheet: Vec<u8>, place: usize, value: Option<i64>) -> Vec<u8> {
    let at = 32 + 8 * place;
    sheet[20 + place] = value.is_some() as u8;
    sheet[at..at + 8].copy_from_slice(&value.unwrap_or(0).to_le_bytes());
    sheet
}

/// The same sheet, restricted to one group of partition 1 with this number as its index.
pub fn grouped(mut sheet: Vec<u8>, index: u8) -> Vec<u8> {
    sheet[0] = 1;
    let group = [1, 0, 0, 0, 1, index, 0, 0, 0, 0, 0, 0, 0];
    sheet.splice(80..80, group);
    sheet
}

pub fn call(component: u32, left: &[u8], right: &[u8]) -> Result<Vec<u8>, u32> {
    call_as(5, component, left, right)
}

pub fn call_as(node: u32, component: u32, left: &[u8], right: &[u8]) -> Result<Vec<u8>, u32> {
    let mut out = [0x77; SLOT + 10];
    let (code, length) = propagate_property(component, node, left, right, &mut out);
    let (sheet, rest) = out.split_at(length as usize);
    assert!(rest.iter().all(|byte| *byte == 0x77));
    if code == 0 {
        Ok(sheet.to_vec())
    } else {
        assert_eq!(length, 0);
        Err(code)
    }
}

pub fn plan(leaves: u16, steps: &[(u32, u32, u32)]) -> Vec<u8> {
    let nodes = leaves + steps.len() as u16;
    let mut bytes = [nodes.to_le_bytes(), leaves.to_le_bytes()].concat();
    bytes.extend(steps.iter().flat_map(|step| step.0.to_le_bytes()));
    bytes.extend(
        steps
            .iter()
            .flat_map(|step| (step.1 + 65_536 * step.2).to_le_bytes()),
    );
    bytes
}
