//! The original text, called on its own in-memory records.
//!
//! The oracle answers from bytes to bytes and sees overflows; a benchmark wants
//! the text alone, built as a release is. Cutter, stand-ins and conversions are
//! the oracle's own files.

// The original's own setting: its error macro recurses deeply.
#![recursion_limit = "1024"]

#[macro_use]
extern crate error_chain;

#[path = "../../../oracle/original/src/convert.rs"]
mod convert;
#[path = "../../../oracle/original/src/stand_ins.rs"]
mod stand_ins;

use base::{IndexKey, NodeProperties, ValueProperties};
use indexmap::map::IndexMap;
use oracle_list::sheet::Sheet;
use root::{errors, Float, Integer, Warnable};
use stand_ins::{proto, Component};

/// What stands at the root of the original's own crate.
#[allow(warnings, clippy::all)]
mod root {
    use errors::Error;

    include!(concat!(env!("OUT_DIR"), "/lib_items.rs"));

    /// A result without the warnings beside it (a stand-in: the fields are private).
    pub fn value<T: std::fmt::Debug>(warnable: Warnable<T>) -> T {
        warnable.0
    }
}

/// Records and accessors.
#[allow(warnings, clippy::all)]
mod base {
    use crate::errors::*;
    use crate::stand_ins::ndarray::{self, ArrayD};
    use crate::utilities::{deduplicate, standardize_categorical_argument};
    use crate::{base, proto, Float, Integer};
    use indexmap::IndexMap;
    use itertools::Itertools;

    include!(concat!(env!("OUT_DIR"), "/base_items.rs"));
}

/// Three functions.
#[allow(warnings, clippy::all)]
mod utilities {
    use crate::errors::*;
    use itertools::Itertools;
    use std::hash::Hash;

    include!(concat!(env!("OUT_DIR"), "/utilities_items.rs"));
}

/// The original's transforms.rs, whole.
#[allow(warnings, clippy::all)]
mod components {
    pub use crate::stand_ins::Component;

    mod transforms {
        include!(concat!(env!("OUT_DIR"), "/transforms.rs"));
    }
}

/// A call as the original takes it: a component and its operands by name.
pub struct Prepared {
    component: &'static dyn Component,
    properties: NodeProperties,
    node: u32,
}

/// What the original handed back; dropping it frees its records.
pub struct Outcome(Result<ValueProperties, errors::Error>);

impl Prepared {
    /// `right` is not read for Abs and Negative. The component is 1 to 9.
    pub fn new(component: u32, node: u32, left: &Sheet, right: Option<&Sheet>) -> Prepared {
        let (component, first, second): (&dyn Component, _, _) = match component {
            1 => (&proto::Abs, "data", ""),
            2 => (&proto::Add, "left", "right"),
            3 => (&proto::Subtract, "left", "right"),
            4 => (&proto::Multiply, "left", "right"),
            5 => (&proto::Divide, "left", "right"),
            6 => (&proto::Modulo, "left", "right"),
            7 => (&proto::Log, "data", "base"),
            8 => (&proto::Power, "data", "radical"),
            _ => (&proto::Negative, "data", ""),
        };
        let mut properties = NodeProperties::new();
        properties.insert(IndexKey::from(first), convert::to_properties(left).into());
        if let Some(right) = right {
            properties.insert(IndexKey::from(second), convert::to_properties(right).into());
        }
        Prepared {
            component,
            properties,
            node,
        }
    }

    /// The original's `propagate_property`, and nothing else.
    pub fn run(self) -> Outcome {
        let none = IndexMap::new();
        let result = self
            .component
            .propagate_property(&None, none, self.properties, self.node);
        Outcome(result.map(root::value))
    }
}

impl Outcome {
    pub fn accepted(&self) -> bool {
        self.0.is_ok()
    }

    /// The derived record as a sheet, if it was accepted and has one.
    pub fn sheet(&self) -> Option<Sheet> {
        match &self.0 {
            Ok(ValueProperties::Array(array)) => convert::from_properties(array).ok(),
            _ => None,
        }
    }
}
