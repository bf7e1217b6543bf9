//! What the stored list needs and the original text does not: the sheet's
//! bytes, the list's form, its statistics and the seeded generator of calls.
//! Standard library alone, so that it builds where the original is missing.

pub mod cases;
pub mod counts;
pub mod form;
pub mod generate;
pub mod random;
pub mod repeats;
pub mod sheet;
pub mod show;
pub mod stats;
pub mod text;
