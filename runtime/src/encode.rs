//! Sheets into bytes.

use crate::form::{field, Form, BYTE, NARROW, NUMBER, TEXT_SIZE, VALUE};
use crate::le::{append, capped};
use crate::nature::{Bound, Nature};
use crate::sheet::{Key, Sheet};

impl Sheet {
    /// The sheet in document 01's form. A size that its field cannot hold is written as the greatest that it can: either is over its limit (3).
    pub fn encode(&self) -> Vec<u8> {
        self.encode_as(&NARROW)
    }

    /// The sheet in the given form.
    pub fn encode_as(&self, form: &Form) -> Vec<u8> {
        let mut bytes = Vec::with_capacity(form.longest());
        let sizes = [self.groups.len(), self.nature.lists(), self.nature.categories()];
        for size in sizes {
            append(&mut bytes, capped(size, form.size_width), form.size_width);
        }
        bytes.resize(form.fields_at, 0);
        self.put_fields(form, &mut bytes);
        bytes.resize(form.arrays_at, 0);
        self.put_groups(&mut bytes);
        self.put_nature(form, &mut bytes);
        bytes
    }

    fn put_fields(&self, form: &Form, bytes: &mut Vec<u8>) {
        let flags = [self.nullity, self.releasable, self.not_empty, self.ordered];
        append(bytes, self.nature.number().into(), BYTE);
        append(bytes, self.data_type as u64, BYTE);
        for flag in flags {
            append(bytes, flag.into(), BYTE);
        }
        append(bytes, self.c_stability.into(), NUMBER);
        append(bytes, self.aggregator.map_or(0, |n| n.get()).into(), NUMBER);
        let values = self.values();
        for value in values {
            append(bytes, value.is_some().into(), BYTE);
        }
        bytes.resize(form.fields_at + field::TEXT, 0);
        append(bytes, capped(self.nature.text_size(), TEXT_SIZE), TEXT_SIZE);
        bytes.resize(form.fields_at + field::VALUES, 0);
        for value in values {
            append(bytes, value.unwrap_or(0), VALUE);
        }
        append(bytes, self.node as u64, VALUE);
    }

    /// The five values that may be absent, as their bits, in the form's order.
    fn values(&self) -> [Option<u64>; 5] {
        let bits = |value: Option<i64>| value.map(|v| v as u64);
        [bits(self.rows), bits(self.columns), bits(self.dataset), bits(self.dimensionality), self.sample.map(f64::to_bits)]
    }

    fn put_groups(&self, bytes: &mut Vec<u8>) {
        for group in &self.groups {
            append(bytes, group.partition.into(), NUMBER);
        }
        for group in &self.groups {
            let (kind, value) = match group.key {
                Key::Int(index) => (1, index as u64),
                Key::Bool(index) => (2, index.into()),
                Key::Str(index) => (3, index as u64),
            };
            append(bytes, kind, BYTE);
            append(bytes, value, VALUE);
        }
    }

    fn put_nature(&self, form: &Form, bytes: &mut Vec<u8>) {
        let width = form.list_number_width;
        match &self.nature {
            Nature::WholeCategories(lists) => put_lists(bytes, width, lists, |v| *v as u64),
            Nature::BoolCategories(lists) => put_lists(bytes, width, lists, |v| u64::from(*v)),
            Nature::FloatCategories(lists) => put_lists(bytes, width, lists, |v| v.to_bits()),
            Nature::TextCategories(lists) => put_texts(bytes, width, lists),
            ranges => put_entries(bytes, ranges),
        }
    }
}

/// All lowers, then all uppers.
fn put_entries(bytes: &mut Vec<u8>, ranges: &Nature) {
    let entries: Vec<(Bound, Bound)> = (0..).map_while(|place| ranges.entry(place)).collect();
    for (lower, _) in &entries {
        put_bound(bytes, *lower);
    }
    for (_, upper) in &entries {
        put_bound(bytes, *upper);
    }
}

fn put_bound(bytes: &mut Vec<u8>, bound: Bound) {
    let (mark, bits) = match bound {
        Bound::Absent => (0, 0),
        Bound::Whole(end) => (1, end as u64),
        Bound::Float(end) => (1, end.to_bits()),
    };
    append(bytes, mark, BYTE);
    append(bytes, bits, VALUE);
}

/// The list number of every category, then every value.
fn put_lists<T>(bytes: &mut Vec<u8>, width: usize, lists: &[Vec<T>], mut bits: impl FnMut(&T) -> u64) {
    for (number, list) in lists.iter().enumerate() {
        for _ in list {
            append(bytes, capped(number, width), width);
        }
    }
    for value in lists.iter().flatten() {
        append(bytes, bits(value), VALUE);
    }
}

/// Each text's start and length, 32 bits each, and behind them the texts end to end.
fn put_texts(bytes: &mut Vec<u8>, width: usize, lists: &[Vec<Vec<u8>>]) {
    let mut end = 0;
    put_lists(bytes, width, lists, |text| {
        let start = end;
        end += text.len();
        capped(start, NUMBER) | capped(text.len(), NUMBER) << 32
    });
    lists.iter().flatten().for_each(|text| bytes.extend_from_slice(text));
}
