//! A sheet read from its bytes, with the checks 3 to 5.

use crate::form::*;

pub type Refusal = u32;

/// Reads every field once; the arrays stay where they lie.
#[derive(Clone, Copy)]
pub struct Sheet<'a> {
    pub nature: u8,
    pub data_type: u8,
    pub nullity: bool,
    pub releasable: bool,
    pub not_empty: bool,
    pub ordered: bool,
    pub c_stability: u32,
    pub aggregator: u32,
    pub rows: Option<i64>,
    pub columns: Option<i64>,
    pub dataset: Option<i64>,
    pub dimensionality: Option<i64>,
    /// Its 64 bits: a copy must not go through float arithmetic.
    pub sample: Option<u64>,
    pub node: i64,
    pub groups: &'a [u8],
    pub lists: usize,
    /// Lowers, then uppers.
    pub ends: &'a [u8],
    pub numbers: &'a [u8],
    pub values: &'a [u8],
    /// The texts, end to end.
    pub area: &'a [u8],
}

/// The three sizes at the front, and the text area's.
struct Sizes {
    groups: usize,
    lists: usize,
    categories: usize,
    text: usize,
}

impl Sizes {
    fn read(bytes: &[u8]) -> Result<Sizes, Refusal> {
        if bytes.len() < HEAD {
            return Err(3);
        }
        let sizes = Sizes {
            groups: word16(bytes, AT_GROUPS),
            lists: word16(bytes, AT_LISTS),
            categories: word16(bytes, AT_CATEGORIES),
            text: word16(bytes, AT_TEXT),
        };
        let within = sizes.groups <= MOST_GROUPS
            && sizes.lists <= MOST_LISTS
            && sizes.categories <= MOST_CATEGORIES
            && sizes.text <= MOST_TEXT;
        within.then_some(sizes).ok_or(3)
    }

    /// An unknown nature counts as categories here, and the area under every nature.
    fn called_for(&self, nature: u8) -> usize {
        let tail = if is_range(nature) {
            2 * END * self.lists
        } else {
            (1 + WORD) * self.categories
        };
        HEAD + GROUP * self.groups + tail + self.text
    }
}

pub fn is_range(nature: u8) -> bool {
    nature == WHOLE_RANGE || nature == FLOAT_RANGE
}

pub fn is_lists(nature: u8) -> bool {
    nature >= WHOLE_LISTS
}

/// The sheet at the start of a slot, by the length that its sizes call for.
pub fn in_slot(slot: &[u8]) -> Result<&[u8], Refusal> {
    let length = Sizes::read(slot)?.called_for(slot[AT_NATURE]);
    Ok(&slot[..length])
}

impl<'a> Sheet<'a> {
    /// Checks 3, 4 and 5 in this order.
    pub fn read(bytes: &'a [u8]) -> Result<Sheet<'a>, Refusal> {
        let sizes = Sizes::read(bytes)?;
        if bytes.len() != sizes.called_for(bytes[AT_NATURE]) {
            return Err(3);
        }
        let sheet = Sheet::fields(bytes, &sizes).ok_or(4u32)?;
        if !sheet.arrays_permitted(&sizes) {
            return Err(4);
        }
        if is_range(sheet.nature) && !sheet.bounds_hold() {
            return Err(5);
        }
        Ok(sheet)
    }

    /// Every field, or nothing if one of the head has none of its permitted values.
    fn fields(bytes: &'a [u8], sizes: &Sizes) -> Option<Sheet<'a>> {
        let head: &[u8; HEAD] = bytes[..HEAD].try_into().ok()?;
        let flag = |at: usize| (head[at] < 2).then_some(head[at] == 1);
        let mark = |place: usize| head[AT_MARKS + place];
        let value = |place: usize| marked(mark(place), word64(head, AT_VALUES + WORD * place));
        let signed = |place: usize| value(place).map(|bits| bits.map(|b| b as i64));
        if !bytes_permitted(head) {
            return None;
        }
        let columns = signed(1)?;
        if columns.is_some_and(|count| !(1..=MOST_COLUMNS).contains(&count)) {
            return None;
        }
        let (arrays, area) = bytes[HEAD..].split_at(bytes.len() - HEAD - sizes.text);
        let (groups, tail) = arrays.split_at(GROUP * sizes.groups);
        let range = is_range(head[AT_NATURE]);
        let (ends, categories) = tail.split_at(if range { tail.len() } else { 0 });
        let (numbers, values) = categories.split_at(if range { 0 } else { sizes.categories });
        Some(Sheet {
            nature: head[AT_NATURE],
            data_type: head[AT_TYPE],
            nullity: flag(AT_FLAGS)?,
            releasable: flag(AT_FLAGS + 1)?,
            not_empty: flag(AT_FLAGS + 2)?,
            ordered: flag(AT_FLAGS + 3)?,
            c_stability: word32(head, AT_STABILITY),
            aggregator: word32(head, AT_AGGREGATOR),
            rows: signed(0)?,
            columns,
            dataset: signed(2)?,
            dimensionality: signed(3)?,
            sample: value(4)?,
            node: word64(head, AT_NODE) as i64,
            groups,
            lists: sizes.lists,
            ends,
            numbers,
            values,
            area,
        })
    }

    /// Check 4 behind the head.
    fn arrays_permitted(&self, sizes: &Sizes) -> bool {
        let sizes_fit = match self.nature {
            ABSENT => sizes.lists == 0 && sizes.categories == 0,
            WHOLE_RANGE | FLOAT_RANGE => sizes.categories == 0,
            _ => true,
        };
        let indexes = &self.groups[PARTITION * sizes.groups..];
        let key_permitted = |key: &[u8]| match key[0] {
            INT_KEY | STR_KEY => true,
            BOOL_KEY => word64(key, 1) < 2,
            _ => false,
        };
        sizes_fit
            && indexes.chunks_exact(INDEX).all(key_permitted)
            && self
                .ends
                .chunks_exact(END)
                .all(|end| marked(end[0], word64(end, 1)).is_some())
            && self.categories_permitted()
            && self.area_permitted()
    }

    fn categories_permitted(&self) -> bool {
        let rising = self.numbers.windows(2).all(|pair| pair[0] <= pair[1]);
        let below = self
            .numbers
            .last()
            .map_or(true, |last| (*last as usize) < self.lists);
        let bools = || {
            self.values
                .chunks_exact(WORD)
                .all(|value| word64(value, 0) < 2)
        };
        rising && below && (self.nature != BOOL_LISTS || bools())
    }

    /// An area belongs to texts alone, which lie end to end in value order, from 0
    /// to the area's end.
    fn area_permitted(&self) -> bool {
        if self.nature != TEXT_LISTS {
            return self.area.is_empty();
        }
        let mut end = 0;
        for value in self.values.chunks_exact(WORD) {
            if u64::from(word32(value, 0)) != end {
                return false;
            }
            // In 64 bits: lengths go up to 2^32 - 1.
            end += u64::from(word32(value, TEXT_LENGTH));
        }
        end == self.area.len() as u64
    }

    /// Check 5 over the entries of a range.
    fn bounds_hold(&self) -> bool {
        (0..self.lists).all(|entry| {
            let (lower, upper) = (self.lower(entry), self.upper(entry));
            if self.nature == WHOLE_RANGE {
                return !matches!((lower, upper), (Some(l), Some(u)) if l as i64 > u as i64);
            }
            let (lower, upper) = (lower.map(f64::from_bits), upper.map(f64::from_bits));
            let finite = |end: Option<f64>| end.map_or(true, f64::is_finite);
            finite(lower) && finite(upper) && !matches!((lower, upper), (Some(l), Some(u)) if l > u)
        })
    }

    fn end(&self, place: usize) -> Option<u64> {
        let end = &self.ends[END * place..END * (place + 1)];
        (end[0] == 1).then(|| word64(end, 1))
    }

    /// The bits of a range's lower end.
    pub fn lower(&self, entry: usize) -> Option<u64> {
        self.end(entry)
    }

    /// The bits of a range's upper end.
    pub fn upper(&self, entry: usize) -> Option<u64> {
        self.end(self.lists + entry)
    }

    /// The values of one category list, as bytes.
    pub fn list(&self, number: usize) -> &'a [u8] {
        let number = number as u8;
        let start = self.numbers.partition_point(|n| *n < number);
        let end = self.numbers.partition_point(|n| *n <= number);
        &self.values[WORD * start..WORD * end]
    }

    /// Whether there is one entry or list, or one for each of the output's columns.
    pub fn spreads(&self, columns: usize) -> bool {
        self.lists == 1 || self.lists == columns
    }

    pub fn has_range(&self) -> bool {
        is_range(self.nature)
    }

    pub fn has_lists(&self) -> bool {
        is_lists(self.nature)
    }
}

/// The nature, the data type and the reserved bytes.
fn bytes_permitted(head: &[u8; HEAD]) -> bool {
    let reserved = &head[AT_RESERVED..AT_VALUES];
    head[AT_NATURE] <= TEXT_LISTS
        && head[AT_TYPE] <= INT
        && head[AT_GAP] == 0
        && reserved.iter().all(|byte| *byte == 0)
}

/// A value under its mark; nothing if the mark is no mark, or an absent value has bits.
fn marked(mark: u8, bits: u64) -> Option<Option<u64>> {
    match mark {
        0 if bits == 0 => Some(None),
        1 => Some(Some(bits)),
        _ => None,
    }
}
