//! Limits, places and widths of the stored forms: no other module knows one.
//!
//! A [`Form`] is a value, so that a second, wider form is one more constant of this type, and the readers and writers of sheets take it as an argument.
//! Places of the fields are distances from the nature byte, since every form keeps the fields in the same order and only moves them as a whole.

use crate::fault::Fault;
use crate::le::number_at;
use crate::refusal::Refusal;

/// A stored form of sheets: where things stand, and how many of them there may be.
#[derive(Clone, Copy, Debug, PartialEq, Eq)]
pub struct Form {
    /// Bytes of each of the three sizes, which stand first.
    pub size_width: usize,
    /// Place of the nature byte.
    pub fields_at: usize,
    /// Place of the arrays; a sheet is at least as long.
    pub arrays_at: usize,
    /// Bytes of a category's list number.
    pub list_number_width: usize,
    /// Most groups.
    pub groups: usize,
    /// Most lists: range entries, or category lists.
    pub lists: usize,
    /// Most categories, over all lists.
    pub categories: usize,
    /// Most columns.
    pub columns: i64,
    /// Most bytes of text, over all lists.
    pub text: usize,
}

/// The form of document 01, with document 02's text area behind the arrays.
pub const NARROW: Form = Form {
    size_width: 2,
    fields_at: 6,
    arrays_at: 80,
    list_number_width: 1,
    groups: 4,
    lists: 16,
    categories: 128,
    columns: 16,
    text: 1024,
};

/// Distances from the nature byte.
pub mod field {
    /// The nature's number.
    pub const NATURE: usize = 0;
    /// The data type's number.
    pub const DATA_TYPE: usize = 1;
    /// Whether values may be missing.
    pub const NULLITY: usize = 2;
    /// Whether the array may be given away.
    pub const RELEASABLE: usize = 3;
    /// Whether there is at least one row.
    pub const NOT_EMPTY: usize = 4;
    /// Whether the rows stand in their natural order.
    pub const ORDERED: usize = 5;
    /// C-stability, 32 bits.
    pub const C_STABILITY: usize = 6;
    /// Aggregator, 32 bits, 0 for none.
    pub const AGGREGATOR: usize = 10;
    /// Marks of presence of the five values.
    pub const MARKS: usize = 14;
    /// A byte that is zero, before the text area's size.
    pub const BEFORE_TEXT: usize = 19;
    /// The text area's size, 16 bits in every form.
    pub const TEXT: usize = 20;
    /// Bytes that are zero, behind the text area's size.
    pub const BEHIND_TEXT: usize = 22;
    /// The five values, 64 bits each.
    pub const VALUES: usize = 26;
    /// The node number, 64 bits.
    pub const NODE: usize = 66;
    /// The end of the fields.
    pub const END: usize = 74;
}

/// Bytes of a mark of presence, of a kind and of every other one-byte field.
pub const BYTE: usize = 1;
/// Bytes of a value, a bound or an index behind its mark or kind.
pub const VALUE: usize = 8;
/// Bytes of a 32-bit field.
pub const NUMBER: usize = 4;
/// Bytes of the text area's size.
pub const TEXT_SIZE: usize = 2;
/// Bytes of a group: its partition id, and its index with the kind.
const GROUP: usize = NUMBER + BYTE + VALUE;
/// Bytes of a range entry: two bounds with their marks.
const ENTRY: usize = 2 * (BYTE + VALUE);

/// Numbers of the two natures that are ranges: these alone decide what the lists count.
const RANGES: [u64; 2] = [1, 2];

/// The sizes of a sheet: the three that stand first, and the text area's.
#[derive(Clone, Copy, Debug, PartialEq, Eq)]
pub struct Sizes {
    /// Groups.
    pub groups: usize,
    /// Lists.
    pub lists: usize,
    /// Categories over all lists.
    pub categories: usize,
    /// Bytes of text.
    pub text: usize,
}

impl Form {
    /// The length of the longest sheet: also the size of a plan's slot.
    pub const fn longest(&self) -> usize {
        let ranges = self.lists * ENTRY;
        let categories = self.categories * (self.list_number_width + VALUE);
        let arrays = if ranges > categories { ranges } else { categories };
        self.arrays_at + self.groups * GROUP + arrays + self.text
    }

    /// The sizes as the bytes state them.
    pub fn sizes(&self, bytes: &[u8]) -> Sizes {
        let size = |k: usize| number_at(bytes, k * self.size_width, self.size_width) as usize;
        let text = number_at(bytes, self.fields_at + field::TEXT, TEXT_SIZE) as usize;
        Sizes { groups: size(0), lists: size(1), categories: size(2), text }
    }

    /// The length that the stated sizes call for: the text area counts under any nature.
    pub fn called_for(&self, bytes: &[u8]) -> usize {
        let sizes = self.sizes(bytes);
        let nature = number_at(bytes, self.fields_at + field::NATURE, BYTE);
        let arrays = if RANGES.contains(&nature) { sizes.lists * ENTRY } else { sizes.categories * (self.list_number_width + VALUE) };
        self.arrays_at + sizes.groups * GROUP + arrays + sizes.text
    }

    /// The sheet at the start of a slot: as many bytes as its sizes call for.
    pub fn sheet_in<'a>(&self, slot: &'a [u8]) -> &'a [u8] {
        &slot[..self.called_for(slot).min(slot.len())]
    }

    /// Refusal 3: the sizes against their limits, and the length against the sizes.
    pub fn check_sizes(&self, bytes: &[u8]) -> Result<Sizes, Fault> {
        let size = |what: String| Err(Fault::new(Refusal::SheetSize, what));
        if bytes.len() < self.arrays_at {
            let found = bytes.len();
            return size(format!("length: {found} bytes, at least {}", self.arrays_at));
        }
        let sizes = self.sizes(bytes);
        let limits = [
            ("groups", sizes.groups, self.groups),
            ("lists", sizes.lists, self.lists),
            ("categories", sizes.categories, self.categories),
            ("bytes of text", sizes.text, self.text),
        ];
        for (name, count, limit) in limits {
            if count > limit {
                return size(format!("{name}: {count}, at most {limit}"));
            }
        }
        let (found, wanted) = (bytes.len(), self.called_for(bytes));
        if found != wanted {
            return size(format!("length: {found} bytes, the sizes call for {wanted}"));
        }
        Ok(sizes)
    }
}

/// Form and limits of a plan.
pub mod plan {
    use super::NARROW;

    /// Bytes of a node's slot in the work buffer.
    pub const SLOT: usize = NARROW.longest();
    /// Most nodes.
    pub const NODES: usize = 32;
    /// The node of a refusal that belongs to none.
    pub const NO_NODE: u32 = 65_535;
    /// Bytes of each of the two sizes, nodes and leaves.
    pub const SIZE: usize = 2;
    /// Place of the components, and behind them the operands.
    pub const ARRAYS_AT: usize = 2 * SIZE;
    /// What the right operand is multiplied by.
    pub const RIGHT_UNIT: u64 = 65_536;
    /// Rinks are numbered from 0 to below this: a set of them has a bit for each, 64 in all.
    pub const RINKS: u32 = u64::BITS;
}
