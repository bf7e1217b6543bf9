//! The two calls of document 01, with document 02's S-1, S-2, S-4, S-5 and S-6, and
//! the one that its S-7 adds, in plain safe Rust on the bytes.
//!
//! It shares no code with the proved crates or the oracle, so that each can be
//! held against the other two.

#![forbid(unsafe_code)]

mod categories;
mod ends;
pub mod form;
mod plan;
mod reveal;
mod shape;
mod sheet;
mod single;
mod write;

/// The code and the length written; a refusal writes nothing and has length 0.
pub fn propagate_property(
    component: u32,
    node: u32,
    left: &[u8],
    right: &[u8],
    out: &mut [u8],
) -> (u32, u32) {
    match single::derive(component, node, left, right, out) {
        Ok(length) => (0, length as u32),
        Err(code) => (code, 0),
    }
}

/// The code and the node count, or a refusal and its node.
pub fn propagate_properties(plan: &[u8], work: &mut [u8]) -> (u32, u32) {
    match plan::walk(plan, work) {
        Ok(nodes) => (0, nodes),
        Err(refusal) => refusal,
    }
}

/// The code and the length of the wanted node's sheet in `out`, or a refusal and its node.
/// `owners` has eight bytes for each leaf; a bit for each rink, as in `reader`.
pub fn reveal_node(
    plan: &[u8],
    owners: &[u8],
    reader: u64,
    wanted: u32,
    work: &mut [u8],
    out: &mut [u8],
) -> (u32, u32) {
    match reveal::reveal(plan, owners, reader, wanted, work, out) {
        Ok(length) => (0, length),
        Err(refusal) => refusal,
    }
}

/// 0, or the refusal 3, 4 or 5 of a sheet.
pub fn check_sheet(bytes: &[u8]) -> u32 {
    sheet::Sheet::read(bytes).map_or_else(|code| code, |_| 0)
}
