//! Sheets as values.

use crate::nature::Nature;
use std::num::NonZeroU32;

/// The type of an array's values.
#[derive(Clone, Copy, Debug, PartialEq, Eq)]
pub enum DataType {
    /// Not known.
    Unknown = 0,
    /// Booleans.
    Bool = 1,
    /// Strings.
    Str = 2,
    /// Floats.
    Float = 3,
    /// Whole numbers.
    Int = 4,
}

impl DataType {
    /// All of them, by number.
    pub const ALL: [DataType; 5] = [DataType::Unknown, DataType::Bool, DataType::Str, DataType::Float, DataType::Int];

    /// The word for it in a plan's text.
    pub fn word(self) -> &'static str {
        match self {
            DataType::Unknown => "unknown",
            DataType::Bool => "bool",
            DataType::Str => "str",
            DataType::Float => "float",
            DataType::Int => "int",
        }
    }

    /// The data type with this word.
    pub fn from_word(word: &str) -> Option<DataType> {
        DataType::ALL.into_iter().find(|t| t.word() == word)
    }
}

/// The index of a group within its partition.
#[derive(Clone, Copy, Debug, PartialEq, Eq)]
pub enum Key {
    /// A whole number.
    Int(i64),
    /// A boolean.
    Bool(bool),
    /// The collection's number of a string.
    Str(i64),
}

/// A group that the array is restricted to.
#[derive(Clone, Copy, Debug, PartialEq, Eq)]
pub struct Group {
    /// Partition id.
    pub partition: u32,
    /// Index within the partition.
    pub key: Key,
}

/// What is known of an array. Two sheets are equal if their bytes are, so that NaN equals itself and the zeros differ.
///
/// ```
/// use gate_runtime::{derive, Component, DataType, Nature, Sheet};
/// let brine = Sheet::new(DataType::Int, Nature::whole_range(&[[-5, 3]])).with_rows(1).released();
/// let bytes = brine.encode();
/// assert_eq!(Sheet::decode(&bytes).unwrap(), brine);
/// let distance = derive(Component::Abs, 1, &brine, &brine).unwrap();
/// assert_eq!(gate_runtime::show::nature(&distance.nature), "[-3, +5]");
/// ```
#[derive(Clone, Debug)]
pub struct Sheet {
    /// Range or categories.
    pub nature: Nature,
    /// Type of the values.
    pub data_type: DataType,
    /// Whether values may be missing.
    pub nullity: bool,
    /// Whether the array may be given away.
    pub releasable: bool,
    /// Whether there is at least one row.
    pub not_empty: bool,
    /// Whether the rows stand in their natural order.
    pub ordered: bool,
    /// A factor that says how far one person's rows reach.
    pub c_stability: u32,
    /// The opaque number of an aggregation.
    pub aggregator: Option<NonZeroU32>,
    /// Rows.
    pub rows: Option<i64>,
    /// Columns.
    pub columns: Option<i64>,
    /// Dataset that the rows come from.
    pub dataset: Option<i64>,
    /// Dimensionality.
    pub dimensionality: Option<i64>,
    /// Proportion of the rows that was sampled.
    pub sample: Option<f64>,
    /// Node that the sheet belongs to.
    pub node: i64,
    /// Groups.
    pub groups: Vec<Group>,
}

impl Sheet {
    /// A private sheet with one column for each entry or list (one if there is none), c-stability 1, and nothing else stated.
    pub fn new(data_type: DataType, nature: Nature) -> Sheet {
        let columns = nature.lists().max(1) as i64;
        Sheet {
            nature,
            data_type,
            nullity: false,
            releasable: false,
            not_empty: false,
            ordered: false,
            c_stability: 1,
            aggregator: None,
            rows: None,
            columns: Some(columns),
            dataset: None,
            dimensionality: None,
            sample: None,
            node: 0,
            groups: Vec::new(),
        }
    }

    /// The same sheet with this row count.
    pub fn with_rows(mut self, rows: i64) -> Sheet {
        self.rows = Some(rows);
        self
    }

    /// The same sheet with this column count.
    pub fn with_columns(mut self, columns: i64) -> Sheet {
        self.columns = Some(columns);
        self
    }

    /// The same sheet from this dataset.
    pub fn with_dataset(mut self, dataset: i64) -> Sheet {
        self.dataset = Some(dataset);
        self
    }

    /// The same sheet, marked as one that may be given away.
    pub fn released(mut self) -> Sheet {
        self.releasable = true;
        self
    }
}

impl PartialEq for Sheet {
    fn eq(&self, other: &Sheet) -> bool {
        self.encode() == other.encode()
    }
}

impl Eq for Sheet {}
