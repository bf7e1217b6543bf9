//! Limits, places and numbers of documents 01 and 02: known here alone.

pub const MOST_GROUPS: usize = 4;
pub const MOST_LISTS: usize = 16;
pub const MOST_CATEGORIES: usize = 128;
pub const MOST_COLUMNS: i64 = 16;
pub const MOST_NODES: usize = 32;
/// Bytes of a sheet's text area.
pub const MOST_TEXT: usize = 1024;
/// With so many owners a node is shown to everybody.
pub const ENOUGH_OWNERS: u32 = 5;

/// Sizes of the sheet's parts.
pub const HEAD: usize = 80;
pub const PARTITION: usize = 4;
pub const INDEX: usize = 9;
pub const END: usize = 9;
pub const WORD: usize = 8;
/// A text's value is its start, and its length from here.
pub const TEXT_LENGTH: usize = 4;
/// A group takes its partition id and its index.
pub const GROUP: usize = PARTITION + INDEX;
/// The longest sheet, and a plan's slot.
pub const SLOT: usize = HEAD + GROUP * MOST_GROUPS + (1 + WORD) * MOST_CATEGORIES + MOST_TEXT;

/// Places in the head.
pub const AT_GROUPS: usize = 0;
pub const AT_LISTS: usize = 2;
pub const AT_CATEGORIES: usize = 4;
pub const AT_NATURE: usize = 6;
pub const AT_TYPE: usize = 7;
pub const AT_FLAGS: usize = 8;
pub const AT_STABILITY: usize = 12;
pub const AT_AGGREGATOR: usize = 16;
pub const AT_MARKS: usize = 20;
pub const AT_GAP: usize = 25;
pub const AT_TEXT: usize = 26;
pub const AT_RESERVED: usize = 28;
pub const AT_VALUES: usize = 32;
pub const AT_NODE: usize = 72;

/// Numbers at the nature's byte.
pub const ABSENT: u8 = 0;
pub const WHOLE_RANGE: u8 = 1;
pub const FLOAT_RANGE: u8 = 2;
pub const WHOLE_LISTS: u8 = 3;
pub const BOOL_LISTS: u8 = 4;
pub const FLOAT_LISTS: u8 = 5;
pub const TEXT_LISTS: u8 = 6;

/// Numbers at the data type's byte that a rule names.
pub const FLOAT: u8 = 3;
pub const INT: u8 = 4;

/// Kinds of a group's index.
pub const INT_KEY: u8 = 1;
pub const BOOL_KEY: u8 = 2;
pub const STR_KEY: u8 = 3;

pub const ABS: u32 = 1;
pub const ADD: u32 = 2;
pub const SUBTRACT: u32 = 3;
pub const MULTIPLY: u32 = 4;
pub const DIVIDE: u32 = 5;
pub const MODULO: u32 = 6;
pub const LOG: u32 = 7;
pub const POWER: u32 = 8;
pub const NEGATIVE: u32 = 9;
pub const POOL: u32 = 10;

/// The node that a plan call names with 1 and 27.
pub const NO_NODE: u32 = 65_535;

pub fn is_unary(component: u32) -> bool {
    component == ABS || component == NEGATIVE
}

pub fn word16(bytes: &[u8], at: usize) -> usize {
    u16::from_le_bytes([bytes[at], bytes[at + 1]]) as usize
}

pub fn word32(bytes: &[u8], at: usize) -> u32 {
    u32::from_le_bytes(bytes[at..at + 4].try_into().expect("four bytes"))
}

pub fn word64(bytes: &[u8], at: usize) -> u64 {
    u64::from_le_bytes(bytes[at..at + 8].try_into().expect("eight bytes"))
}

#[cfg(test)]
mod tests {
    #[test]
    fn the_longest_sheet() {
        assert_eq!(super::SLOT, 2308);
    }
}
