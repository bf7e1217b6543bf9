//! A derived sheet in bytes.

use crate::categories::{Store, Text, Value};
use crate::form::*;
use crate::shape::Fields;
use crate::sheet::Refusal;

/// The ends of a derived range, as bits.
pub struct Entries {
    pub nature: u8,
    pub count: usize,
    pub lowers: [Option<u64>; MOST_LISTS],
    pub uppers: [Option<u64>; MOST_LISTS],
}

pub enum Nature<'a> {
    Absent,
    Range(&'a Entries),
    Lists(&'a Store<i64>),
    Texts(&'a Store<Text<'a>>),
}

impl Nature<'_> {
    fn number(&self) -> u8 {
        match self {
            Nature::Absent => ABSENT,
            Nature::Range(entries) => entries.nature,
            Nature::Lists(store) => store.kind,
            Nature::Texts(store) => store.kind,
        }
    }

    fn sizes(&self) -> (usize, usize) {
        match self {
            Nature::Absent => (0, 0),
            Nature::Range(entries) => (entries.count, 0),
            Nature::Lists(store) => (store.lists, store.count),
            Nature::Texts(store) => (store.lists, store.count),
        }
    }

    /// The size of the text area.
    fn text_length(&self) -> usize {
        match self {
            Nature::Texts(store) => store.text_length(),
            _ => 0,
        }
    }
}

/// Writes the sheet at the start of `out`, or refuses with 27.
pub fn sheet(fields: &Fields, nature: &Nature, out: &mut [u8]) -> Result<usize, Refusal> {
    let (lists, categories) = nature.sizes();
    let tail = match nature {
        Nature::Range(_) => 2 * END * lists,
        _ => (1 + WORD) * categories,
    };
    let length = HEAD + fields.groups.len() + tail + nature.text_length();
    let out = out.get_mut(..length).ok_or(27u32)?;
    let (head, rest) = out.split_at_mut(HEAD);
    write_head(fields, nature, head);
    let (groups, rest) = rest.split_at_mut(fields.groups.len());
    groups.copy_from_slice(fields.groups);
    match nature {
        Nature::Absent => (),
        Nature::Range(entries) => write_entries(entries, rest),
        Nature::Lists(store) => {
            let (numbers, values) = rest.split_at_mut(categories);
            numbers.copy_from_slice(&store.numbers[..categories]);
            for (place, value) in values.chunks_exact_mut(WORD).zip(&store.values) {
                place.copy_from_slice(&value.to_le_bytes());
            }
        }
        Nature::Texts(store) => write_texts(store, rest),
    }
    Ok(length)
}

fn write_entries(entries: &Entries, out: &mut [u8]) {
    let lowers = &entries.lowers[..entries.count];
    let uppers = &entries.uppers[..entries.count];
    for (place, end) in out.chunks_exact_mut(END).zip(lowers.iter().chain(uppers)) {
        place[0] = end.is_some() as u8;
        place[1..].copy_from_slice(&end.unwrap_or(0).to_le_bytes());
    }
}

/// Values with running starts, and the texts end to end behind them.
fn write_texts(store: &Store<Text>, out: &mut [u8]) {
    let (numbers, rest) = out.split_at_mut(store.count);
    let (values, area) = rest.split_at_mut(WORD * store.count);
    numbers.copy_from_slice(&store.numbers[..store.count]);
    let mut start = 0;
    for (place, text) in values.chunks_exact_mut(WORD).zip(&store.values) {
        let length = text.text_length();
        place[..TEXT_LENGTH].copy_from_slice(&(start as u32).to_le_bytes());
        place[TEXT_LENGTH..].copy_from_slice(&(length as u32).to_le_bytes());
        for (byte, from) in area[start..start + length].iter_mut().zip(text.bytes()) {
            *byte = *from;
        }
        start += length;
    }
}

fn write_head(fields: &Fields, nature: &Nature, head: &mut [u8]) {
    let (lists, categories) = nature.sizes();
    let mut put = |at: usize, bytes: &[u8]| head[at..at + bytes.len()].copy_from_slice(bytes);
    let groups = fields.groups.len() / GROUP;
    put(AT_GROUPS, &(groups as u16).to_le_bytes());
    put(AT_LISTS, &(lists as u16).to_le_bytes());
    put(AT_CATEGORIES, &(categories as u16).to_le_bytes());
    put(AT_NATURE, &[nature.number(), fields.data_type]);
    let flags = [
        fields.nullity,
        fields.releasable,
        fields.not_empty,
        fields.ordered,
    ];
    put(AT_FLAGS, &flags.map(u8::from));
    put(AT_STABILITY, &fields.c_stability.to_le_bytes());
    put(AT_AGGREGATOR, &fields.aggregator.to_le_bytes());
    let signed = |value: Option<i64>| value.map(|v| v as u64);
    let values = [
        signed(fields.rows),
        Some(fields.columns as u64),
        signed(fields.dataset),
        signed(fields.dimensionality),
        fields.sample,
    ];
    put(AT_MARKS, &values.map(|value| u8::from(value.is_some())));
    put(AT_GAP, &[0]);
    put(AT_TEXT, &(nature.text_length() as u16).to_le_bytes());
    put(AT_RESERVED, &[0; AT_VALUES - AT_RESERVED]);
    for (place, value) in values.iter().enumerate() {
        put(AT_VALUES + WORD * place, &value.unwrap_or(0).to_le_bytes());
    }
    put(AT_NODE, &fields.node.to_le_bytes());
}
