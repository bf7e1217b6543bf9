//! The proved library, the plain port and the original text, held against each
//! other on generated calls.

pub mod calls;
pub mod contained;
pub mod draw;
pub mod exact;
pub mod guard;
pub mod judge;
pub mod plans;
pub mod proved;
pub mod reveals;
pub mod stored;
pub mod tally;

/// The code, and the length written, the node count or the node.
pub type Reply = (u32, u32);
