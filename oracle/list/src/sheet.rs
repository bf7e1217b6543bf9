//! A property sheet as a record, its bytes, and the checks 3, 4 and 5.
//!
//! Floats are kept as their 64 bits: nothing here computes with them, so a
//! NaN's payload or the sign of a zero cannot be disturbed.

/// Refusals of a sheet by its bytes, with document 01's numbers.
pub const BAD_LENGTH: u32 = 3;
pub const BAD_FIELD: u32 = 4;
pub const BAD_BOUND: u32 = 5;

pub const MOST_GROUPS: usize = 4;
pub const MOST_LISTS: usize = 16;
pub const MOST_CATEGORIES: usize = 128;
pub const MOST_COLUMNS: i64 = 16;
/// Bytes of the text area.
pub const MOST_TEXT: usize = 1024;
/// Where the parallel arrays begin.
pub const HEAD: usize = 80;
/// Places in it: the list count, the nature and the columns.
pub const AT_LISTS: usize = 2;
pub const AT_NATURE: usize = 6;
pub const AT_COLUMNS: usize = 40;
/// The longest sheet, and a plan's slot: 2,308.
pub const LONGEST: usize = HEAD + 13 * MOST_GROUPS + 9 * MOST_CATEGORIES + MOST_TEXT;
/// The number of text categories at byte 6.
pub const TEXT: u8 = 6;

/// A lower and an upper end, each perhaps absent.
pub type Ends<T> = (Option<T>, Option<T>);

#[derive(Clone, Debug, PartialEq, Eq)]
pub enum Nature {
    Absent,
    WholeRange(Vec<Ends<i64>>),
    FloatRange(Vec<Ends<u64>>),
    WholeLists(Vec<Vec<i64>>),
    BoolLists(Vec<Vec<bool>>),
    FloatLists(Vec<Vec<u64>>),
    /// Any bytes: only the original asks for UTF-8.
    TextLists(Vec<Vec<Vec<u8>>>),
}

impl Nature {
    /// The number at byte 6.
    pub fn number(&self) -> u8 {
        match self {
            Nature::Absent => 0,
            Nature::WholeRange(_) => 1,
            Nature::FloatRange(_) => 2,
            Nature::WholeLists(_) => 3,
            Nature::BoolLists(_) => 4,
            Nature::FloatLists(_) => 5,
            Nature::TextLists(_) => TEXT,
        }
    }

    /// The list count n: entries of a range, or lists of categories.
    pub fn lists(&self) -> usize {
        match self {
            Nature::Absent => 0,
            Nature::WholeRange(entries) => entries.len(),
            Nature::FloatRange(entries) => entries.len(),
            Nature::WholeLists(lists) => lists.len(),
            Nature::BoolLists(lists) => lists.len(),
            Nature::FloatLists(lists) => lists.len(),
            Nature::TextLists(lists) => lists.len(),
        }
    }

    /// The category count t, over all lists.
    pub fn categories(&self) -> usize {
        match self {
            Nature::WholeLists(lists) => lists.iter().map(Vec::len).sum(),
            Nature::BoolLists(lists) => lists.iter().map(Vec::len).sum(),
            Nature::FloatLists(lists) => lists.iter().map(Vec::len).sum(),
            Nature::TextLists(lists) => lists.iter().map(Vec::len).sum(),
            _ => 0,
        }
    }

    /// The texts in value order; none of another nature.
    pub fn texts(&self) -> impl Iterator<Item = &Vec<u8>> {
        let lists: &[Vec<Vec<u8>>] = match self {
            Nature::TextLists(lists) => lists,
            _ => &[],
        };
        lists.iter().flatten()
    }

    /// The size of the text area, as the lists would be written.
    pub fn text_length(&self) -> usize {
        self.texts().map(Vec::len).sum()
    }

    /// The same with first occurrences alone, list by list.
    pub fn without_repeats(&self) -> Nature {
        match self {
            Nature::WholeLists(lists) => Nature::WholeLists(firsts(lists)),
            Nature::BoolLists(lists) => Nature::BoolLists(firsts(lists)),
            Nature::FloatLists(lists) => Nature::FloatLists(firsts(lists)),
            Nature::TextLists(lists) => Nature::TextLists(firsts(lists)),
            other => other.clone(),
        }
    }

    /// Whether a list holds a value twice.
    pub fn has_repeats(&self) -> bool {
        self.without_repeats().categories() < self.categories()
    }

    /// Whether the original can be handed its texts.
    pub fn is_utf8(&self) -> bool {
        self.texts().all(|text| std::str::from_utf8(text).is_ok())
    }
}

fn firsts<T: Clone + PartialEq>(lists: &[Vec<T>]) -> Vec<Vec<T>> {
    let of_list = |list: &Vec<T>| {
        let mut kept: Vec<T> = Vec::new();
        for value in list {
            if !kept.contains(value) {
                kept.push(value.clone());
            }
        }
        kept
    };
    lists.iter().map(of_list).collect()
}

/// A group's index. A string stands for itself by the collection's number.
#[derive(Clone, Copy, Debug, PartialEq, Eq)]
pub enum Key {
    Int(i64),
    Bool(bool),
    Str(i64),
}

#[derive(Clone, Copy, Debug, PartialEq, Eq)]
pub struct Group {
    pub partition: u32,
    pub index: Key,
}

#[derive(Clone, Debug, PartialEq, Eq)]
pub struct Sheet {
    pub nature: Nature,
    pub data_type: u8,
    pub nullity: bool,
    pub releasable: bool,
    pub not_empty: bool,
    pub ordered: bool,
    pub c_stability: u32,
    /// 0 is absent.
    pub aggregator: u32,
    pub rows: Option<i64>,
    pub columns: Option<i64>,
    pub dataset: Option<i64>,
    pub dimensionality: Option<i64>,
    pub sample: Option<u64>,
    pub node: i64,
    pub groups: Vec<Group>,
}

impl Sheet {
    pub fn encode(&self) -> Vec<u8> {
        let mut out = Vec::with_capacity(HEAD);
        self.encode_head(&mut out);
        self.encode_groups(&mut out);
        match &self.nature {
            Nature::Absent => (),
            Nature::WholeRange(entries) => encode_range(&mut out, entries, |v| *v as u64),
            Nature::FloatRange(entries) => encode_range(&mut out, entries, |v| *v),
            Nature::WholeLists(lists) => encode_lists(&mut out, lists, |v| *v as u64),
            Nature::BoolLists(lists) => encode_lists(&mut out, lists, |v| *v as u64),
            Nature::FloatLists(lists) => encode_lists(&mut out, lists, |v| *v),
            Nature::TextLists(lists) => encode_texts(&mut out, lists),
        }
        out
    }

    fn encode_head(&self, out: &mut Vec<u8>) {
        for size in [
            self.groups.len(),
            self.nature.lists(),
            self.nature.categories(),
        ] {
            out.extend((size as u16).to_le_bytes());
        }
        out.push(self.nature.number());
        out.push(self.data_type);
        for flag in [self.nullity, self.releasable, self.not_empty, self.ordered] {
            out.push(flag as u8);
        }
        out.extend(self.c_stability.to_le_bytes());
        out.extend(self.aggregator.to_le_bytes());
        let values = self.optional_values();
        for value in values {
            out.push(value.is_some() as u8);
        }
        out.push(0);
        out.extend((self.nature.text_length() as u16).to_le_bytes());
        out.extend([0; 4]);
        for value in values {
            out.extend(value.unwrap_or(0).to_le_bytes());
        }
        out.extend(self.node.to_le_bytes());
    }

    /// The five values that have a mark, in the order of their marks.
    fn optional_values(&self) -> [Option<u64>; 5] {
        let signed = |value: Option<i64>| value.map(|v| v as u64);
        [
            signed(self.rows),
            signed(self.columns),
            signed(self.dataset),
            signed(self.dimensionality),
            self.sample,
        ]
    }

    fn encode_groups(&self, out: &mut Vec<u8>) {
        for group in &self.groups {
            out.extend(group.partition.to_le_bytes());
        }
        for group in &self.groups {
            let (kind, value) = match group.index {
                Key::Int(value) => (1, value),
                Key::Bool(value) => (2, value as i64),
                Key::Str(value) => (3, value),
            };
            out.push(kind);
            out.extend(value.to_le_bytes());
        }
    }

    /// Reads a sheet; the refusal is 3, 4 or 5, in this order.
    pub fn decode(bytes: &[u8]) -> Result<Sheet, u32> {
        let sheet = Sheet::decode_unordered(bytes)?;
        check_ends(&sheet.nature)?;
        Ok(sheet)
    }

    /// Reads a sheet by 3 and 4 alone: a derived one may have infinite ends.
    pub fn decode_unordered(bytes: &[u8]) -> Result<Sheet, u32> {
        let sizes = Sizes::read(bytes)?;
        read_fields(bytes, &sizes)
    }
}

fn encode_range<T>(out: &mut Vec<u8>, entries: &[Ends<T>], bits: impl Fn(&T) -> u64) {
    let lowers = entries.iter().map(|(lower, _)| lower);
    let uppers = entries.iter().map(|(_, upper)| upper);
    for end in lowers.chain(uppers) {
        out.push(end.is_some() as u8);
        out.extend(end.as_ref().map_or(0, &bits).to_le_bytes());
    }
}

fn encode_lists<T>(out: &mut Vec<u8>, lists: &[Vec<T>], mut bits: impl FnMut(&T) -> u64) {
    for (number, list) in lists.iter().enumerate() {
        out.extend(list.iter().map(|_| number as u8));
    }
    for value in lists.iter().flatten() {
        out.extend(bits(value).to_le_bytes());
    }
}

/// A text's value: its start, and its length above.
fn encode_texts(out: &mut Vec<u8>, lists: &[Vec<Vec<u8>>]) {
    let mut start = 0;
    encode_lists(out, lists, |text| {
        let value = start | (text.len() as u64) << 32;
        start += text.len() as u64;
        value
    });
    out.extend(lists.iter().flatten().flatten());
}

/// The sizes at the front and the text area's, once check 3 has passed.
struct Sizes {
    groups: usize,
    lists: usize,
    categories: usize,
    text: usize,
}

impl Sizes {
    fn read(bytes: &[u8]) -> Result<Sizes, u32> {
        if bytes.len() < HEAD {
            return Err(BAD_LENGTH);
        }
        let size = |at: usize| u16::from_le_bytes([bytes[at], bytes[at + 1]]) as usize;
        let sizes = Sizes {
            groups: size(0),
            lists: size(2),
            categories: size(4),
            text: size(26),
        };
        let over = sizes.groups > MOST_GROUPS
            || sizes.lists > MOST_LISTS
            || sizes.categories > MOST_CATEGORIES
            || sizes.text > MOST_TEXT;
        if over || bytes.len() != sizes.length(bytes[6]) {
            return Err(BAD_LENGTH);
        }
        Ok(sizes)
    }

    /// A nature that is none of the permitted ones counts as categories here.
    fn length(&self, nature: u8) -> usize {
        let tail = if nature == 1 || nature == 2 {
            18 * self.lists
        } else {
            9 * self.categories
        };
        HEAD + 13 * self.groups + tail + self.text
    }
}

fn word(bytes: &[u8], at: usize) -> u64 {
    u64::from_le_bytes(bytes[at..at + 8].try_into().expect("eight bytes"))
}

fn half_word(bytes: &[u8], at: usize) -> u32 {
    u32::from_le_bytes(bytes[at..at + 4].try_into().expect("four bytes"))
}

fn flag(byte: u8) -> Result<bool, u32> {
    match byte {
        0 => Ok(false),
        1 => Ok(true),
        _ => Err(BAD_FIELD),
    }
}

/// A value under a mark: absent must be all zero bits.
fn marked(mark: u8, bits: u64) -> Result<Option<u64>, u32> {
    match (flag(mark)?, bits) {
        (true, _) => Ok(Some(bits)),
        (false, 0) => Ok(None),
        (false, _) => Err(BAD_FIELD),
    }
}

/// Check 4 over the whole sheet; its parts have no order among themselves,
/// since all of them give the same number.
fn read_fields(bytes: &[u8], sizes: &Sizes) -> Result<Sheet, u32> {
    let value = |index: usize| marked(bytes[20 + index], word(bytes, 32 + 8 * index));
    let signed = |index: usize| value(index).map(|bits| bits.map(|b| b as i64));
    let columns = signed(1)?;
    if columns.is_some_and(|count| !(1..=MOST_COLUMNS).contains(&count)) {
        return Err(BAD_FIELD);
    }
    if bytes[7] > 4 || bytes[25] != 0 || bytes[28..32].iter().any(|byte| *byte != 0) {
        return Err(BAD_FIELD);
    }
    Ok(Sheet {
        nature: read_nature(bytes, sizes)?,
        data_type: bytes[7],
        nullity: flag(bytes[8])?,
        releasable: flag(bytes[9])?,
        not_empty: flag(bytes[10])?,
        ordered: flag(bytes[11])?,
        c_stability: half_word(bytes, 12),
        aggregator: half_word(bytes, 16),
        rows: signed(0)?,
        columns,
        dataset: signed(2)?,
        dimensionality: signed(3)?,
        sample: value(4)?,
        node: word(bytes, 72) as i64,
        groups: read_groups(bytes, sizes.groups)?,
    })
}

fn read_groups(bytes: &[u8], count: usize) -> Result<Vec<Group>, u32> {
    let indexes = HEAD + 4 * count;
    (0..count)
        .map(|i| {
            let value = word(bytes, indexes + 9 * i + 1) as i64;
            let index = match bytes[indexes + 9 * i] {
                1 => Key::Int(value),
                2 if value == 0 || value == 1 => Key::Bool(value == 1),
                3 => Key::Str(value),
                _ => return Err(BAD_FIELD),
            };
            let partition = half_word(bytes, HEAD + 4 * i);
            Ok(Group { partition, index })
        })
        .collect()
}

fn read_nature(bytes: &[u8], sizes: &Sizes) -> Result<Nature, u32> {
    let nature = bytes[6];
    let at = HEAD + 13 * sizes.groups;
    if nature != TEXT && sizes.text != 0 {
        return Err(BAD_FIELD);
    }
    match nature {
        0 if sizes.lists == 0 && sizes.categories == 0 => Ok(Nature::Absent),
        1 | 2 if sizes.categories == 0 => {
            let entries = read_range(bytes, at, sizes.lists)?;
            Ok(if nature == 1 {
                Nature::WholeRange(entries.into_iter().map(whole_ends).collect())
            } else {
                Nature::FloatRange(entries)
            })
        }
        3 => Ok(Nature::WholeLists(read_lists(bytes, at, sizes, |bits| {
            Ok(bits as i64)
        })?)),
        4 => Ok(Nature::BoolLists(read_lists(
            bytes,
            at,
            sizes,
            |bits| match bits {
                0 => Ok(false),
                1 => Ok(true),
                _ => Err(BAD_FIELD),
            },
        )?)),
        5 => Ok(Nature::FloatLists(read_lists(bytes, at, sizes, Ok)?)),
        TEXT => Ok(Nature::TextLists(read_texts(bytes, at, sizes)?)),
        _ => Err(BAD_FIELD),
    }
}

fn whole_ends((lower, upper): Ends<u64>) -> Ends<i64> {
    (lower.map(|v| v as i64), upper.map(|v| v as i64))
}

fn read_range(bytes: &[u8], at: usize, count: usize) -> Result<Vec<Ends<u64>>, u32> {
    let end = |index: usize| marked(bytes[at + 9 * index], word(bytes, at + 9 * index + 1));
    (0..count)
        .map(|index| Ok((end(index)?, end(count + index)?)))
        .collect()
}

fn read_lists<T>(
    bytes: &[u8],
    at: usize,
    sizes: &Sizes,
    mut value: impl FnMut(u64) -> Result<T, u32>,
) -> Result<Vec<Vec<T>>, u32> {
    let mut lists: Vec<Vec<T>> = (0..sizes.lists).map(|_| Vec::new()).collect();
    let mut last = 0;
    for index in 0..sizes.categories {
        let number = bytes[at + index] as usize;
        if number >= sizes.lists || number < last {
            return Err(BAD_FIELD);
        }
        last = number;
        lists[number].push(value(word(bytes, at + sizes.categories + 8 * index))?);
    }
    Ok(lists)
}

/// Texts lie end to end in value order, from 0 to the area's end.
fn read_texts(bytes: &[u8], at: usize, sizes: &Sizes) -> Result<Vec<Vec<Vec<u8>>>, u32> {
    let mut rest = &bytes[bytes.len() - sizes.text..];
    let lists = read_lists(bytes, at, sizes, |value| {
        let (start, length) = (value as u32 as usize, (value >> 32) as usize);
        if start != sizes.text - rest.len() || length > rest.len() {
            return Err(BAD_FIELD);
        }
        let (text, behind) = rest.split_at(length);
        rest = behind;
        Ok(text.to_vec())
    })?;
    match rest {
        [] => Ok(lists),
        _ => Err(BAD_FIELD),
    }
}

/// Check 5: float ends are finite, and no lower exceeds its upper.
fn check_ends(nature: &Nature) -> Result<(), u32> {
    let crossed = match nature {
        Nature::WholeRange(entries) => entries.iter().any(|entry| match entry {
            (Some(lower), Some(upper)) => lower > upper,
            _ => false,
        }),
        Nature::FloatRange(entries) => entries.iter().any(|(lower, upper)| {
            let lower = lower.map(f64::from_bits);
            let upper = upper.map(f64::from_bits);
            let infinite = [lower, upper].iter().flatten().any(|v| !v.is_finite());
            infinite || matches!((lower, upper), (Some(l), Some(u)) if l > u)
        }),
        _ => false,
    };
    if crossed {
        Err(BAD_BOUND)
    } else {
        Ok(())
    }
}

#[cfg(test)]
mod tests {
    use super::Sheet;
    use crate::text::{bytes, sheet};

    /// Document 01's places, written out by hand.
    #[test]
    fn every_field_has_its_place() {
        let found = bytes(
            "W[-1,2][3,_] type=Str nullity=1 releasable=0 notempty=1 ordered=0 c=258 \
             aggregator=772 rows=5 columns=2 dataset=-1 dim=_ sample=1.0 node=6 \
             groups=7:i8,9:b1",
        );
        let mut wanted = vec![2, 0, 2, 0, 0, 0, 1, 2, 1, 0, 1, 0];
        wanted.extend([2, 1, 0, 0, 4, 3, 0, 0]);
        wanted.extend([1, 1, 1, 0, 1, 0, 0, 0, 0, 0, 0, 0]);
        wanted.extend([5, 0, 0, 0, 0, 0, 0, 0, 2, 0, 0, 0, 0, 0, 0, 0]);
        wanted.extend([255; 8]);
        wanted.extend([0; 8]);
        wanted.extend([0, 0, 0, 0, 0, 0, 0xf0, 0x3f, 6, 0, 0, 0, 0, 0, 0, 0]);
        wanted.extend([7, 0, 0, 0, 9, 0, 0, 0]);
        wanted.extend([1, 8, 0, 0, 0, 0, 0, 0, 0, 2, 1, 0, 0, 0, 0, 0, 0, 0]);
        wanted.extend([1, 255, 255, 255, 255, 255, 255, 255, 255]);
        wanted.extend([1, 3, 0, 0, 0, 0, 0, 0, 0]);
        wanted.extend([1, 2, 0, 0, 0, 0, 0, 0, 0]);
        wanted.extend([0; 9]);
        assert_eq!(found, wanted);
    }

    #[test]
    fn categories_are_two_arrays() {
        let found = bytes("W{5}{}{6,-1}");
        assert_eq!(found[..7], [0, 0, 3, 0, 3, 0, 3]);
        assert_eq!(found[80..84], [0, 2, 2, 5]);
        assert_eq!(found[91..100], [6, 0, 0, 0, 0, 0, 0, 0, 255]);
        assert_eq!(found.len(), 80 + 27);
        assert_eq!(
            bytes("B{1}{0}")[80..],
            [0, 1, 1, 0, 0, 0, 0, 0, 0, 0, 0, 0, 0, 0, 0, 0, 0, 0]
        );
    }

    #[test]
    fn repeats_go_list_by_list() {
        for (repeating, once) in [
            ("W{2,-3,3,-3,2}{2}{}", "W{2,-3,3}{2}{}"),
            ("B{1,0,1}{1}", "B{1,0}{1}"),
            ("F{0.0,-0.0,0.0}", "F{0.0,-0.0}"),
            ("T{a,_,a,_}{a}", "T{a,_}{a}"),
        ] {
            let (repeating, once) = (sheet(repeating).nature, sheet(once).nature);
            assert_eq!(repeating.without_repeats(), once);
            assert!(repeating.has_repeats() && !once.has_repeats());
        }
        for other in ["absent", "W[1,1][1,1]", "Wlists"] {
            assert!(!sheet(other).nature.has_repeats());
        }
    }

    #[test]
    fn texts_lie_behind_the_arrays() {
        let found = bytes("T{pump,fan}");
        assert_eq!((found.len(), found[6]), (105, 6));
        assert_eq!(found[25..32], [0, 7, 0, 0, 0, 0, 0]);
        assert_eq!(found[80..82], [0, 0]);
        assert_eq!(found[82..90], [0, 0, 0, 0, 4, 0, 0, 0]);
        assert_eq!(found[90..98], [4, 0, 0, 0, 3, 0, 0, 0]);
        assert_eq!(&found[98..], b"pumpfan");
        let sheet = sheet("T{pump,_}{}{\\e2\\82}");
        assert_eq!(
            (sheet.nature.is_utf8(), sheet.nature.text_length()),
            (false, 6)
        );
        assert_eq!(Sheet::decode(&sheet.encode()), Ok(sheet));
    }

    #[test]
    fn raw_floats_come_back() {
        for text in [
            "F[-0.0,0.0] sample=0x7ff0000000000123",
            "F{0xfff0000000000001,0x7ff8000000000000,-0.0,inf}",
            "F[5e-324,_] sample=-0.0",
        ] {
            let sheet = sheet(text);
            assert_eq!(Sheet::decode(&sheet.encode()), Ok(sheet));
        }
    }
}
