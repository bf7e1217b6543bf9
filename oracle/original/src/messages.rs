//! What the original says when it refuses, and document 01's number for it.
//!
//! The original's words are not kept here: a message is known by its digest,
//! and a comment says in other words what was tested.

/// Every message that a call can end with, by number. No message stands for
/// two numbers, so the component need not be asked.
#[rustfmt::skip] // one message a line
pub const MESSAGES: &[(u32, u64)] = &[
    (6, 0xf8be36ced2f50681), // an operand is aggregated
    (7, 0x1faf7f2ff659d9de), // an operand is sampled
    (8, 0xe5b593a5e1f03b3b), // partitions, with the shape
    (8, 0x439de07f981a312b), // partitions, with the group id
    (9, 0x3560cbdfe2caf330), // dataset ids
    (10, 0x38fa3c3b2c9cb337), // c-stabilities
    (11, 0xb0b972f403379b0e), // a column count is absent
    (12, 0x5ce5f8792ff37d12), // column counts
    (13, 0xcb9c1ba5d09e2bea), // row counts
    (14, 0x8bd99f4922409abf), // types, of 2 to 5
    (14, 0xc8941509cac32f65), // types, of Log
    (14, 0xde444e809e832ab7), // types, of Modulo and Power
    (15, 0xe81bd96313c8c712), // bounds of categories
    (15, 0xeaae4b98b38c5ebc), // whole bounds of a float range
    (15, 0x5460078a9c76a758), // bounds of an absent nature
    (15, 0xa2f4cecfe227ed27), // an absent lower
    (15, 0xb09c25af7f698fe6), // an absent upper
    (16, 0xf65726c5cd535fde), // Modulo's divisor
    (16, BASE_BREAKS),
    (16, DATA_BREAKS),
    (16, 0xd73f47c53c416eb0), // Int Power's exponent
    (17, 0x0363b6126751bf0d), // a whole and a float range
    (18, 0xce114f00d2ca124b), // a bound list of another length
    (19, 0x0be33564939c351c), // float categories
    (20, 0xfd5458de03616fd1), // no lists
    (21, 0xd34e9ac62f6c7a2f), // category kinds
    (22, 0x056caf6403f89ab8), // no rule for whole categories
    (22, 0xc4727fa2088d5e6e), // no rule for bool categories
    (22, 0xc17c23d048e92f77), // no rule for text categories
    (23, 0x93a6630ca664e309), // Divide's ranges
    (24, 0x9079a0f6f689f6d7), // a sum
    (24, 0x7a7a8a32faa1edef), // a difference
    (24, 0x3c6cefa9ab1da951), // a product
    (24, 0x6977fd2826621db8), // a quotient
    (25, 0x883a18033016cc27), // a power
];

/// 16 on Log's base.
pub const BASE_BREAKS: u64 = 0xc0514ce6c2dd0e60;
/// 16 on Log's data.
pub const DATA_BREAKS: u64 = 0xb84112ffbea8b7ac;

/// Panics of unchecked whole-number arithmetic (the compiler's own words): 24,
/// by document 01's addition.
pub const OVERFLOWS: &[&str] = &[
    "attempt to add with overflow",
    "attempt to subtract with overflow",
    "attempt to multiply with overflow",
    "attempt to divide with overflow",
    "attempt to negate with overflow",
];

/// FNV-1a, 64 bits.
pub fn digest(message: &str) -> u64 {
    message.bytes().fold(0xcbf2_9ce4_8422_2325, |hash, byte| {
        (hash ^ u64::from(byte)).wrapping_mul(0x100_0000_01b3)
    })
}

pub fn number(message: &str) -> Option<u32> {
    let wanted = digest(message);
    let found = MESSAGES.iter().find(|(_, known)| *known == wanted);
    found.map(|(number, _)| *number)
}

#[cfg(test)]
mod tests {
    use super::{digest, MESSAGES};
    use std::collections::HashSet;

    const TRANSFORMS: &str = include_str!(concat!(env!("OUT_DIR"), "/transforms.rs"));
    const BASE: &str = include_str!(concat!(env!("OUT_DIR"), "/base_items.rs"));
    const UTILITIES: &str = include_str!(concat!(env!("OUT_DIR"), "/utilities_items.rs"));

    /// The digest of everything that stands between two quotes on one line.
    fn quoted() -> HashSet<u64> {
        let mut digests = HashSet::new();
        for text in &[TRANSFORMS, BASE, UTILITIES] {
            for line in text.lines() {
                digests.extend(line.split('"').skip(1).step_by(2).map(digest));
            }
        }
        digests
    }

    #[test]
    fn every_message_is_the_originals() {
        let quoted = quoted();
        for (number, known) in MESSAGES {
            let found = quoted.contains(known);
            assert!(found, "not in the original: {}, {:#x}", number, known);
        }
    }

    #[test]
    fn no_message_stands_twice() {
        let known: HashSet<u64> = MESSAGES.iter().map(|(_, known)| *known).collect();
        assert_eq!(known.len(), MESSAGES.len());
    }
}
