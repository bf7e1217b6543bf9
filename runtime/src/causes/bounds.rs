//! Causes of 15, 16 and 23: bounds that a component reads.

use super::{column_name, described, Named, Pair};
use crate::component::Component;
use crate::nature::{Bound, Nature};
use crate::sheet::{DataType, Sheet};
use crate::show;

impl Pair<'_> {
    /// 15. Log's base comes before its data.
    pub(super) fn unsuited(&self) -> Vec<String> {
        let whole = self.left.sheet.data_type == DataType::Int;
        match self.component {
            Component::Log => {
                let base = unsuited_side(self.right, false, &["lower", "upper"]);
                if !base.is_empty() {
                    return base;
                }
                let data = unsuited_side(self.left, false, &["lower"]);
                if !data.is_empty() {
                    return data;
                }
                vec![format!("{}: log takes no whole data under a whole base", self.both("ranges", described))]
            }
            _ => unsuited_side(self.right, whole, &["lower"]),
        }
    }

    /// 16. Log's base comes before its data.
    pub(super) fn conditions(&self) -> Vec<String> {
        let base = |lower: f64, upper: f64| (lower > 0.0 && upper < 1.0) || lower > 1.0;
        match self.component {
            Component::Modulo => broken(self.right, |lower, _| lower > 0.0, "the lower end must be above 0"),
            Component::Power => broken(self.right, |lower, _| lower >= 0.0, "the lower end must be 0 or above"),
            _ => {
                let rule = "the base must lie within (0, 1) or start above 1";
                let of_base = broken(self.right, base, rule);
                if !of_base.is_empty() {
                    return of_base;
                }
                broken(self.left, |lower, _| lower > 0.0, "the lower end must be above 0")
            }
        }
    }

    /// 23, of the first column that meets it.
    pub(super) fn meets_zero(&self) -> Vec<String> {
        let cause = |column: usize| {
            let left = self.left.sheet.nature.entry_for(column)?;
            let right = self.right.sheet.nature.entry_for(column)?;
            let why = zero_within(left, right)?;
            Some(format!("column {}: {}: right {why}", column + 1, self.column_of(left, right)))
        };
        (0..self.columns()).find_map(cause).into_iter().collect()
    }

    /// The two entries of a column: "left [-7, +7], right [+0, +3]".
    pub(super) fn column_of(&self, left: (Bound, Bound), right: (Bound, Bound)) -> String {
        let left = format!("{} {}", self.left.label, show::entry(left));
        if self.component.is_unary() {
            return left;
        }
        format!("{left}, {} {}", self.right.label, show::entry(right))
    }
}

/// What makes a side's bounds unfit for being read: its nature, or absent ends.
fn unsuited_side(side: &Named, whole: bool, ends: &[&str]) -> Vec<String> {
    let fits = match side.sheet.nature {
        Nature::WholeRange(_) => true,
        Nature::FloatRange(_) => !whole,
        _ => false,
    };
    if !fits {
        let wanted = if whole { "a whole range is wanted" } else { "a range is wanted" };
        return vec![format!("{}: {}: {wanted}", side.label, described(side.sheet))];
    }
    entries(side.sheet)
        .flat_map(|(column, entry)| {
            let absent = |end: &&&str| match **end {
                "lower" => entry.0 == Bound::Absent,
                _ => entry.1 == Bound::Absent,
            };
            let text = |end: &&str| format!("{column}: {} {}: the {end} end is absent", side.label, show::entry(entry));
            ends.iter().filter(absent).map(text).collect::<Vec<String>>()
        })
        .collect()
}

/// The entries that break a condition on their ends.
fn broken(side: &Named, holds: impl Fn(f64, f64) -> bool, rule: &str) -> Vec<String> {
    entries(side.sheet)
        .filter(|(_, (lower, upper))| !holds(as_float(*lower), as_float(*upper)))
        .map(|(column, entry)| format!("{column}: {} {}: {rule}", side.label, show::entry(entry)))
        .collect()
}

fn entries(sheet: &Sheet) -> impl Iterator<Item = (String, (Bound, Bound))> + '_ {
    (0..sheet.nature.lists()).filter_map(|place| Some((column_name(sheet, place), sheet.nature.entry(place)?)))
}

/// Rounding keeps every whole number on its side of 0 and of 1, which is all that is asked here.
fn as_float(bound: Bound) -> f64 {
    match bound {
        Bound::Absent => f64::NAN,
        Bound::Whole(end) => end as f64,
        Bound::Float(end) => end,
    }
}

/// Divide's rule: the left ends are looked at first, and then the divisor's absent ends.
fn zero_within(left: (Bound, Bound), right: (Bound, Bound)) -> Option<&'static str> {
    if left.0 == Bound::Absent || left.1 == Bound::Absent {
        return None;
    }
    match right {
        (Bound::Absent, Bound::Absent) => Some("has no ends"),
        (Bound::Absent, upper) if as_float(upper) >= 0.0 => Some("has no lower end, and its upper end is 0 or above"),
        (lower, Bound::Absent) if as_float(lower) <= 0.0 => Some("has no upper end, and its lower end is 0 or below"),
        _ => None,
    }
}
