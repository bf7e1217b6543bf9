//! Bytes into sheets, with the checks 3 and 4.
//!
//! The proved calls judge a sheet; this reader shows it. Refusal 5 is not tested here, since a derived sheet may break it and is still to be shown.

use crate::fault::Fault;
use crate::form::{field, Form, Sizes, BYTE, NARROW, NUMBER, VALUE};
use crate::le::number_at;
use crate::nature::{Ends, Nature};
use crate::refusal::Refusal;
use crate::sheet::{DataType, Group, Key, Sheet};
use std::num::NonZeroU32;

impl Sheet {
    /// Reads a sheet in document 01's form.
    ///
    /// ```
    /// use gate_runtime::{Refusal, Sheet};
    /// let fault = Sheet::decode(&[0; 79]).unwrap_err();
    /// assert_eq!(fault.refusal, Refusal::SheetSize);
    /// assert_eq!(fault.what, "length: 79 bytes, at least 80");
    /// ```
    pub fn decode(bytes: &[u8]) -> Result<Sheet, Fault> {
        Sheet::decode_as(&NARROW, bytes)
    }

    /// Reads the sheet at the start of a plan's slot.
    pub fn decode_slot(slot: &[u8]) -> Result<Sheet, Fault> {
        Sheet::decode(NARROW.sheet_in(slot))
    }

    /// Reads a sheet in the given form.
    pub fn decode_as(form: &Form, bytes: &[u8]) -> Result<Sheet, Fault> {
        let sizes = form.check_sizes(bytes)?;
        let reader = Reader { form, bytes, sizes };
        let values = reader.values()?;
        reader.zeros("reserved bytes", form.fields_at + field::BEFORE_TEXT, form.fields_at + field::TEXT)?;
        reader.zeros("reserved bytes", form.fields_at + field::BEHIND_TEXT, form.fields_at + field::VALUES)?;
        reader.zeros("bytes before the arrays", form.fields_at + field::END, form.arrays_at)?;
        Ok(Sheet {
            data_type: reader.data_type()?,
            nullity: reader.flag("nullity", field::NULLITY)?,
            releasable: reader.flag("releasable", field::RELEASABLE)?,
            not_empty: reader.flag("not empty", field::NOT_EMPTY)?,
            ordered: reader.flag("ordered", field::ORDERED)?,
            c_stability: reader.field(field::C_STABILITY, NUMBER) as u32,
            aggregator: NonZeroU32::new(reader.field(field::AGGREGATOR, NUMBER) as u32),
            rows: values[0].map(|v| v as i64),
            columns: reader.columns(values[1])?,
            dataset: values[2].map(|v| v as i64),
            dimensionality: values[3].map(|v| v as i64),
            sample: values[4].map(f64::from_bits),
            node: reader.field(field::NODE, VALUE) as i64,
            groups: reader.groups()?,
            nature: reader.nature()?,
        })
    }
}

fn bad<T>(what: String) -> Result<T, Fault> {
    Err(Fault::new(Refusal::FieldValue, what))
}

/// A sheet's bytes, once their length is what the sizes call for.
struct Reader<'a> {
    form: &'a Form,
    bytes: &'a [u8],
    sizes: Sizes,
}

impl Reader<'_> {
    fn at(&self, at: usize, width: usize) -> u64 {
        number_at(self.bytes, at, width)
    }

    fn field(&self, distance: usize, width: usize) -> u64 {
        self.at(self.form.fields_at + distance, width)
    }

    fn flag(&self, name: &str, distance: usize) -> Result<bool, Fault> {
        match self.field(distance, BYTE) {
            0 => Ok(false),
            1 => Ok(true),
            other => bad(format!("{name}: {other}, permitted 0 or 1")),
        }
    }

    fn zeros(&self, name: &str, from: usize, to: usize) -> Result<(), Fault> {
        match (from..to).find(|&at| self.at(at, BYTE) != 0) {
            None => Ok(()),
            Some(at) => bad(format!("{name}: byte {at} is {}, permitted 0", self.at(at, BYTE))),
        }
    }

    fn data_type(&self) -> Result<DataType, Fault> {
        let number = self.field(field::DATA_TYPE, BYTE);
        match DataType::ALL.get(number as usize) {
            Some(data_type) => Ok(*data_type),
            None => bad(format!("data type: {number}, permitted 0 to 4")),
        }
    }

    /// A mark and 64 bits that may stand apart from it.
    fn marked(&self, name: &str, mark_at: usize, at: usize) -> Result<Option<u64>, Fault> {
        match (self.at(mark_at, BYTE), self.at(at, VALUE)) {
            (0, 0) => Ok(None),
            (0, _) => bad(format!("{name}: marked as absent, but its bits are not zero")),
            (1, bits) => Ok(Some(bits)),
            (mark, _) => bad(format!("{name}: mark {mark}, permitted 0 or 1")),
        }
    }

    fn values(&self) -> Result<[Option<u64>; 5], Fault> {
        let names = ["rows", "columns", "dataset id", "dimensionality", "sample proportion"];
        let mut values = [None; 5];
        for (place, name) in names.into_iter().enumerate() {
            let mark_at = self.form.fields_at + field::MARKS + place;
            let at = self.form.fields_at + field::VALUES + place * VALUE;
            values[place] = self.marked(name, mark_at, at)?;
        }
        Ok(values)
    }

    fn columns(&self, value: Option<u64>) -> Result<Option<i64>, Fault> {
        let limit = self.form.columns;
        match value.map(|v| v as i64) {
            Some(columns) if !(1..=limit).contains(&columns) => bad(format!("columns: {columns}, permitted 1 to {limit}")),
            columns => Ok(columns),
        }
    }

    fn groups(&self) -> Result<Vec<Group>, Fault> {
        let keys_at = self.form.arrays_at + self.sizes.groups * NUMBER;
        (0..self.sizes.groups)
            .map(|place| {
                let partition = self.at(self.form.arrays_at + place * NUMBER, NUMBER) as u32;
                let key = self.key(place, keys_at + place * (BYTE + VALUE))?;
                Ok(Group { partition, key })
            })
            .collect()
    }

    fn key(&self, place: usize, at: usize) -> Result<Key, Fault> {
        let group = place + 1;
        match (self.at(at, BYTE), self.at(at + BYTE, VALUE)) {
            (1, index) => Ok(Key::Int(index as i64)),
            (2, index @ 0..=1) => Ok(Key::Bool(index == 1)),
            (2, index) => bad(format!("group {group}: bool index {}, permitted 0 or 1", index as i64)),
            (3, index) => Ok(Key::Str(index as i64)),
            (kind, _) => bad(format!("group {group}: kind {kind}, permitted 1 to 3")),
        }
    }

    /// Where the nature's arrays begin.
    fn nature_at(&self) -> usize {
        self.form.arrays_at + self.sizes.groups * (NUMBER + BYTE + VALUE)
    }

    fn nature(&self) -> Result<Nature, Fault> {
        let Sizes { lists, categories, text, .. } = self.sizes;
        match self.field(field::NATURE, BYTE) {
            6 => self.texts().map(Nature::TextCategories),
            0..=5 if text != 0 => bad(format!("bytes of text: {text}, permitted 0 unless the categories are text")),
            0 if lists == 0 && categories == 0 => Ok(Nature::Absent),
            0 => bad(format!("nature absent: {lists} lists and {categories} categories, permitted 0")),
            1 | 2 if categories != 0 => bad(format!("categories: {categories}, permitted 0 for a range")),
            1 => self.entries(|bits| bits as i64).map(Nature::WholeRange),
            2 => self.entries(f64::from_bits).map(Nature::FloatRange),
            3 => self.lists(|_, bits| Ok(bits as i64)).map(Nature::WholeCategories),
            4 => self.lists(bool_of).map(Nature::BoolCategories),
            5 => self.lists(|_, bits| Ok(f64::from_bits(bits))).map(Nature::FloatCategories),
            other => bad(format!("nature: {other}, permitted 0 to 6")),
        }
    }

    fn entries<T>(&self, value: fn(u64) -> T) -> Result<Vec<Ends<T>>, Fault> {
        let bound = |name: &str, place: usize, entry: usize| {
            let at = self.nature_at() + place * (BYTE + VALUE);
            let name = format!("{name} end of entry {}", entry + 1);
            Ok(self.marked(&name, at, at + BYTE)?.map(value))
        };
        (0..self.sizes.lists)
            .map(|entry| Ok(Ends { lower: bound("lower", entry, entry)?, upper: bound("upper", self.sizes.lists + entry, entry)? }))
            .collect()
    }

    /// `value` reads a category's bits; categories are counted from 1 there.
    fn lists<T>(&self, mut value: impl FnMut(usize, u64) -> Result<T, Fault>) -> Result<Vec<Vec<T>>, Fault> {
        let width = self.form.list_number_width;
        let values_at = self.nature_at() + self.sizes.categories * width;
        let mut lists: Vec<Vec<T>> = (0..self.sizes.lists).map(|_| Vec::new()).collect();
        let mut last = 0;
        for place in 0..self.sizes.categories {
            let category = place + 1;
            let number = self.at(self.nature_at() + place * width, width) as usize;
            if number < last {
                return bad(format!("category {category}: list number {number} after {last}, permitted never to fall"));
            }
            last = number;
            let Some(list) = lists.get_mut(number) else {
                return bad(format!("category {category}: list number {number}, permitted below {}", self.sizes.lists));
            };
            list.push(value(category, self.at(values_at + place * VALUE, VALUE))?);
        }
        Ok(lists)
    }

    /// Texts lie end to end in value order, from 0 to the area's end.
    fn texts(&self) -> Result<Vec<Vec<Vec<u8>>>, Fault> {
        let area = &self.bytes[self.bytes.len() - self.sizes.text..];
        let mut end = 0;
        let lists = self.lists(|category, bits| {
            // Of 32 bits each, so that their sum does not wrap in 64.
            let (start, length) = (bits & u64::from(u32::MAX), bits >> 32);
            if start != end {
                return bad(format!("category {category}: its text starts at {start}, permitted {end}"));
            }
            end = start + length;
            match area.get(start as usize..end as usize) {
                Some(text) => Ok(text.to_vec()),
                None => bad(format!("category {category}: its text ends at {end}, permitted to {}", area.len())),
            }
        })?;
        if end != area.len() as u64 {
            return bad(format!("bytes of text: {}, the texts end at {end}", area.len()));
        }
        Ok(lists)
    }
}

fn bool_of(category: usize, bits: u64) -> Result<bool, Fault> {
    match bits {
        0 => Ok(false),
        1 => Ok(true),
        _ => bad(format!("category {category}: bool value {}, permitted 0 or 1", bits as i64)),
    }
}

#[cfg(test)]
mod tests {
    use super::*;

    /// A wider form: sizes of 4 bytes, fields moved by 6, list numbers of 2 bytes.
    const WIDE: Form = Form {
        size_width: 4,
        fields_at: 12,
        arrays_at: 88,
        list_number_width: 2,
        groups: 4,
        lists: 64,
        categories: 1024,
        columns: 64,
        text: 1024,
    };

    fn sheet(lists: Vec<Vec<i64>>) -> Sheet {
        let mut sheet = Sheet::new(DataType::Int, Nature::WholeCategories(lists)).with_rows(-3);
        sheet.groups = vec![Group { partition: 7, key: Key::Bool(true) }, Group { partition: 8, key: Key::Str(-1) }];
        sheet.sample = Some(0.5);
        sheet.node = 4_294_967_295;
        sheet
    }

    #[test]
    fn a_wider_form_is_one_more_value() {
        let wide = sheet((0..64).map(|k| vec![k; 16]).collect());
        let bytes = wide.encode_as(&WIDE);
        assert_eq!(bytes.len(), 88 + 2 * 13 + 1024 * 10);
        assert_eq!(Sheet::decode_as(&WIDE, &bytes).unwrap().encode_as(&WIDE), bytes);
        assert_eq!(Sheet::decode(&wide.encode()).unwrap_err().what, "lists: 64, at most 16");
        let texts = Sheet::new(DataType::Str, Nature::text_categories(&[&["pump", ""], &["fan"]]));
        for narrow in [sheet(vec![vec![1, 2], vec![]]), texts] {
            let moved = Sheet::decode_as(&WIDE, &narrow.encode_as(&WIDE)).unwrap();
            assert_eq!(moved.encode(), narrow.encode());
        }
    }

    #[test]
    fn the_forms_have_their_lengths() {
        assert_eq!(NARROW.longest(), 80 + 52 + 1152 + 1024);
        assert_eq!(crate::form::plan::SLOT, 2308);
        assert_eq!(WIDE.longest(), 11_404);
        assert_eq!(sheet(vec![vec![1, 2], vec![]]).encode().len(), 80 + 2 * 13 + 2 * 9);
    }

    fn texts(values: &[(u32, u32)], area: &[u8]) -> Vec<u8> {
        let mut bytes = Sheet::new(DataType::Str, Nature::text_categories::<&str>(&[&[]])).encode();
        bytes[4] = values.len() as u8;
        bytes[26] = area.len() as u8;
        bytes.extend(values.iter().map(|_| 0));
        for (start, length) in values {
            bytes.extend(start.to_le_bytes());
            bytes.extend(length.to_le_bytes());
        }
        [&bytes, area].concat()
    }

    #[test]
    fn texts_lie_end_to_end() {
        let sheet = Sheet::new(DataType::Str, Nature::text_categories(&[&["pump", "fan"]]));
        assert_eq!(sheet.encode(), texts(&[(0, 4), (4, 3)], b"pumpfan"));
        assert_eq!(sheet.encode().len(), 105);
        assert_eq!(Sheet::decode(&texts(&[(0, 2), (2, 0)], b"ab")).unwrap().nature.categories(), 2);
        for (values, area, what) in [
            (&[(1, 1), (0, 1)][..], "ab", "category 1: its text starts at 1, permitted 0"),
            (&[(0, 2), (0, 2)], "ab", "category 2: its text starts at 0, permitted 2"),
            (&[(0, 1), (1, 0)], "ab", "bytes of text: 2, the texts end at 1"),
            (&[(0, 0), (1, 1)], "ab", "category 2: its text starts at 1, permitted 0"),
            (&[(0, 1), (1, 2)], "ab", "category 2: its text ends at 3, permitted to 2"),
            (&[(0, u32::MAX), (u32::MAX, 3)], "ab", "category 1: its text ends at 4294967295, permitted to 2"),
            (&[], "ab", "bytes of text: 2, the texts end at 0"),
        ] {
            let fault = Sheet::decode(&texts(values, area.as_bytes())).unwrap_err();
            assert_eq!((fault.refusal, fault.what.as_str()), (Refusal::FieldValue, what));
        }
    }

    #[test]
    fn a_size_over_its_limit_is_a_fault_and_not_cut() {
        let of = |length: usize| Sheet::new(DataType::Str, Nature::text_categories(&[&[vec![b'a'; length]]]));
        assert_eq!(Sheet::decode(&of(1024).encode()).unwrap(), of(1024));
        assert_eq!(Sheet::decode(&of(1025).encode()).unwrap_err().what, "bytes of text: 1025, at most 1024");
        assert_eq!(Sheet::decode(&of(70_000).encode()).unwrap_err().what, "bytes of text: 65535, at most 1024");
    }
}
