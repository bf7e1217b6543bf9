//! Safe Rust over the three proved calls of the gate, and what the command `gate` is made of.
//!
//! A sheet describes an array: its range or categories, size, origin and marks. [`propagate_property`] derives the sheet of one component's result, [`propagate_properties`] walks a whole plan, [`reveal_node`] shows one node of a plan to a reader who may see it. They are proved code of a static library; nothing here derives a range or decides about rights.
//!
//! Three layers, each usable alone: bytes ([`propagate_property`], [`propagate_properties`], [`reveal_node`]), values ([`Sheet`], [`Plan`], [`Rinks`], [`derive()`]), and plans as text ([`text::read`]).
//!
//! ```
//! use gate_runtime::text;
//! let plan = text::read("leaf brine_in  : int, whole [-5, 3], rows 8, releasable\n\
//!                        leaf brine_out : int, whole [0, 7], rows 8, releasable\n\
//!                        gap = subtract brine_in brine_out\n").unwrap();
//! let walk = plan.plan.walk(&plan.leaves);
//! assert_eq!(walk.outcome, Ok(3));
//! let gap = walk.sheets[2].as_ref().unwrap();
//! assert_eq!(gate_runtime::show::nature(&gap.nature), "[-12, +3]");
//! ```
//!
//! All functions may be called from any number of threads at once.

#![deny(missing_docs)]
#![deny(unsafe_code)]

pub mod cards;
pub mod causes;
pub mod command;
pub mod form;
pub mod json;
pub mod quotes;
pub mod show;
pub mod svg;
pub mod text;
pub mod view;

mod calls;
mod component;
mod decode;
mod encode;
mod entries;
mod fault;
mod le;
mod nature;
mod plan;
mod refusal;
mod rinks;
mod sheet;

pub use calls::{derive, propagate_properties, propagate_property, reveal_node, Stopped, Walk};
pub use component::Component;
pub use fault::Fault;
pub use nature::{Bound, Ends, Nature};
pub use plan::{Plan, Step};
pub use refusal::Refusal;
pub use rinks::Rinks;
pub use sheet::{DataType, Group, Key, Sheet};
