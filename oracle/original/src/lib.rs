//! The original text of the nine components, built unchanged, behind the
//! bytes and numbers of document 01.
//!
//! [`answer`] is the entry: it decodes the sheets, calls the component's own
//! `propagate_property`, and turns what it says into a number and bytes.
//! [`asked`] does the same and passes over what the original is not asked about.

// The original's own setting: its error macro recurses deeply.
#![recursion_limit = "1024"]

#[macro_use]
extern crate error_chain;

mod call;
mod convert;
#[cfg(test)]
#[path = "../cut.rs"]
mod cut;
pub mod messages;
pub mod select;
mod stand_ins;

pub use call::{answer, asked};
use root::{errors, Float, Integer, Warnable};
use stand_ins::proto;

/// What stands at the root of the original's own crate, cut from it.
#[allow(warnings, clippy::all)]
mod root {
    use errors::Error;

    include!(concat!(env!("OUT_DIR"), "/lib_items.rs"));

    /// A result without the warnings beside it (a stand-in: the fields are private).
    pub fn value<T: std::fmt::Debug>(warnable: Warnable<T>) -> T {
        warnable.0
    }
}

/// Records and accessors, cut from the original.
#[allow(warnings, clippy::all)]
mod base {
    use crate::errors::*;
    use crate::stand_ins::ndarray::{self, ArrayD};
    use crate::utilities::{deduplicate, standardize_categorical_argument};
    use crate::{base, proto, Float, Integer};
    use indexmap::IndexMap;
    use itertools::Itertools;

    include!(concat!(env!("OUT_DIR"), "/base_items.rs"));
}

/// Three functions, cut from the original.
#[allow(warnings, clippy::all)]
mod utilities {
    use crate::errors::*;
    use itertools::Itertools;
    use std::hash::Hash;

    include!(concat!(env!("OUT_DIR"), "/utilities_items.rs"));
}

/// The original's transforms.rs, whole.
#[allow(warnings, clippy::all)]
mod components {
    pub use crate::stand_ins::Component;

    mod transforms {
        include!(concat!(env!("OUT_DIR"), "/transforms.rs"));
    }
}
