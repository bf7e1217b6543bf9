//! What a sheet says of an array's values: ranges or categories.

/// One end of a range.
#[derive(Clone, Copy, Debug, PartialEq)]
pub enum Bound {
    /// The end sets no bound.
    Absent,
    /// A whole number.
    Whole(i64),
    /// A float.
    Float(f64),
}

/// The two ends of a range entry; an end that is `None` sets no bound.
#[derive(Clone, Copy, Debug, PartialEq)]
pub struct Ends<T> {
    /// Lower end.
    pub lower: Option<T>,
    /// Upper end.
    pub upper: Option<T>,
}

impl<T> Ends<T> {
    /// Both ends present.
    pub fn between(lower: T, upper: T) -> Ends<T> {
        Ends { lower: Some(lower), upper: Some(upper) }
    }
}

impl<T> From<[T; 2]> for Ends<T> {
    fn from([lower, upper]: [T; 2]) -> Ends<T> {
        Ends::between(lower, upper)
    }
}

/// The nature of an array. Ranges have one entry per column, or one for all; categories one list per column, or one for all. Another count is refused by a step that uses it: 18 of ranges, 29 of categories. A leaf's list may repeat a value; a derived one, of any kind and under any component, holds each once.
#[derive(Clone, Debug)]
pub enum Nature {
    /// Nothing is stated.
    Absent,
    /// Ranges of whole numbers.
    WholeRange(Vec<Ends<i64>>),
    /// Ranges of floats.
    FloatRange(Vec<Ends<f64>>),
    /// Lists of whole numbers.
    WholeCategories(Vec<Vec<i64>>),
    /// Lists of booleans.
    BoolCategories(Vec<Vec<bool>>),
    /// Lists of floats.
    FloatCategories(Vec<Vec<f64>>),
    /// Lists of texts, each of which is any bytes.
    TextCategories(Vec<Vec<Vec<u8>>>),
}

impl Nature {
    /// Whole ranges with both ends present.
    ///
    /// ```
    /// use gate_runtime::{Bound, Nature};
    /// let nature = Nature::whole_range(&[[-5, 3], [0, 7]]);
    /// assert_eq!(nature.entry(1), Some((Bound::Whole(0), Bound::Whole(7))));
    /// ```
    pub fn whole_range(entries: &[[i64; 2]]) -> Nature {
        Nature::WholeRange(entries.iter().map(|&entry| entry.into()).collect())
    }

    /// Float ranges with both ends present.
    pub fn float_range(entries: &[[f64; 2]]) -> Nature {
        Nature::FloatRange(entries.iter().map(|&entry| entry.into()).collect())
    }

    /// Lists of texts.
    ///
    /// ```
    /// use gate_runtime::{show, Nature};
    /// let pumps = Nature::text_categories(&[&["north", "south"]]);
    /// assert_eq!(show::nature(&pumps), r#"{"north", "south"}"#);
    /// assert_eq!(pumps.text_size(), 10);
    /// ```
    pub fn text_categories<T: AsRef<[u8]>>(lists: &[&[T]]) -> Nature {
        let list = |list: &&[T]| list.iter().map(|text| text.as_ref().to_vec()).collect();
        Nature::TextCategories(lists.iter().map(list).collect())
    }

    /// The number of document 01, or of document 02 for text.
    pub fn number(&self) -> u8 {
        match self {
            Nature::Absent => 0,
            Nature::WholeRange(_) => 1,
            Nature::FloatRange(_) => 2,
            Nature::WholeCategories(_) => 3,
            Nature::BoolCategories(_) => 4,
            Nature::FloatCategories(_) => 5,
            Nature::TextCategories(_) => 6,
        }
    }

    /// Its name in plain words.
    pub fn name(&self) -> &'static str {
        match self {
            Nature::Absent => "absent",
            Nature::WholeRange(_) => "whole range",
            Nature::FloatRange(_) => "float range",
            Nature::WholeCategories(_) => "whole categories",
            Nature::BoolCategories(_) => "bool categories",
            Nature::FloatCategories(_) => "float categories",
            Nature::TextCategories(_) => "text categories",
        }
    }

    /// Whether it is a range, whole or float.
    pub fn is_range(&self) -> bool {
        matches!(self, Nature::WholeRange(_) | Nature::FloatRange(_))
    }

    /// Whether it is categories, of any kind.
    pub fn is_categories(&self) -> bool {
        !self.is_range() && !matches!(self, Nature::Absent)
    }

    /// Range entries or category lists.
    pub fn lists(&self) -> usize {
        match self {
            Nature::Absent => 0,
            Nature::WholeRange(entries) => entries.len(),
            Nature::FloatRange(entries) => entries.len(),
            Nature::WholeCategories(lists) => lists.len(),
            Nature::BoolCategories(lists) => lists.len(),
            Nature::FloatCategories(lists) => lists.len(),
            Nature::TextCategories(lists) => lists.len(),
        }
    }

    /// Categories over all lists.
    pub fn categories(&self) -> usize {
        match self {
            Nature::WholeCategories(lists) => lists.iter().map(Vec::len).sum(),
            Nature::BoolCategories(lists) => lists.iter().map(Vec::len).sum(),
            Nature::FloatCategories(lists) => lists.iter().map(Vec::len).sum(),
            Nature::TextCategories(lists) => lists.iter().map(Vec::len).sum(),
            _ => 0,
        }
    }

    /// Bytes of text over all lists, a repeat counted each time.
    pub fn text_size(&self) -> usize {
        match self {
            Nature::TextCategories(lists) => lists.iter().flatten().map(Vec::len).sum(),
            _ => 0,
        }
    }

    /// Lower and upper bound of the entry at this place, counted from 0.
    pub fn entry(&self, place: usize) -> Option<(Bound, Bound)> {
        match self {
            Nature::WholeRange(entries) => entries.get(place).map(whole_bounds),
            Nature::FloatRange(entries) => entries.get(place).map(float_bounds),
            _ => None,
        }
    }

    /// The entry that column `column` goes by: its own, or the only one.
    pub fn entry_for(&self, column: usize) -> Option<(Bound, Bound)> {
        let place = if self.lists() == 1 { 0 } else { column };
        self.entry(place)
    }
}

fn whole_bounds(ends: &Ends<i64>) -> (Bound, Bound) {
    let bound = |end: Option<i64>| end.map_or(Bound::Absent, Bound::Whole);
    (bound(ends.lower), bound(ends.upper))
}

fn float_bounds(ends: &Ends<f64>) -> (Bound, Bound) {
    let bound = |end: Option<f64>| end.map_or(Bound::Absent, Bound::Float);
    (bound(ends.lower), bound(ends.upper))
}
