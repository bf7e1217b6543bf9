//! Causes that count: 18 and 29, the ranges or lists beside the columns; 26 and 28, the categories or the bytes of text that the result would hold.

use super::arithmetic::wholes;
use super::{Named, Pair};
use crate::component::Component;
use crate::form::NARROW;
use crate::nature::Nature;
use std::collections::HashSet;
use std::hash::Hash;

impl Pair<'_> {
    /// Operands with neither one range or list for all columns of the output nor one for each.
    fn uneven(&self) -> Vec<&Named<'_>> {
        let columns = self.columns();
        let spreads = |lists: usize| lists == 1 || lists == columns;
        self.sides().into_iter().filter(|side| !spreads(side.sheet.nature.lists())).collect()
    }

    /// 18, of every operand that meets it.
    pub(super) fn range_counts(&self) -> Vec<String> {
        let output = counted(self.columns(), "column");
        let text = |side: &Named| format!("{}: {} ranges, while the output has {output}", side.label, side.sheet.nature.lists());
        self.uneven().into_iter().map(text).collect()
    }

    /// 29, of the first operand that meets it. Beside a range or an absent nature no list is counted.
    pub(super) fn list_counts(&self) -> Vec<String> {
        if !self.sides().iter().all(|side| side.sheet.nature.is_categories()) {
            return Vec::new();
        }
        self.uneven().first().map(|side| self.list_count(side)).into_iter().collect()
    }

    /// How many lists there are, and how many are wanted. Where the operand itself has another column count, that is named too, and whose columns the output has.
    fn list_count(&self, side: &Named) -> String {
        let columns = self.columns();
        let (lists, output) = (counted(side.sheet.nature.lists(), "category list"), counted(columns, "column"));
        let wanted = if columns == 1 { "one list is wanted" } else { "one list is wanted, or one for each column" };
        if side.sheet.columns == Some(columns as i64) {
            return format!("{}: {lists}, while the output has {output}: {wanted}", side.label);
        }
        let own = side.sheet.columns.map_or("with columns absent".to_string(), |own| format!("over {}", counted(own as usize, "column")));
        let other = if std::ptr::eq(side, self.left) { self.right } else { self.left };
        format!("{}: {lists} {own}, while the output has {output}, as {} has: {wanted}", side.label, other.label)
    }

    /// The two lists of each column of the result: its own, or the only one. 29 has passed, so that both operands have one for every column.
    pub(super) fn lists_that_meet<'a, T>(&self, left: &'a [Vec<T>], right: &'a [Vec<T>]) -> Vec<(&'a [T], &'a [T])> {
        let pick = |lists: &'a [Vec<T>], column: usize| lists.get(if lists.len() == 1 { 0 } else { column });
        (0..self.columns()).filter_map(|column| Some((&pick(left, column)?[..], &pick(right, column)?[..]))).collect()
    }

    /// 26: how many would be written, list by list.
    pub(super) fn too_many(&self) -> Vec<String> {
        let counts = match &self.left.sheet.nature {
            Nature::TextCategories(_) => self.texts_written().iter().map(Vec::len).collect(),
            _ => self.wholes_written(),
        };
        let sizes = self.both("categories", |s| s.nature.categories().to_string());
        vec![format!("{sizes}: the result holds {}", over(&counts, NARROW.categories))]
    }

    /// 28: how many bytes would be written, list by list.
    pub(super) fn too_much_text(&self) -> Vec<String> {
        let lengths: Vec<usize> = self.texts_written().iter().map(|list| list.iter().map(Vec::len).sum()).collect();
        let sizes = self.both("bytes of text", |s| s.nature.text_size().to_string());
        vec![format!("{sizes}: the result holds {}", over(&lengths, NARROW.text))]
    }

    fn wholes_written(&self) -> Vec<usize> {
        let (left, right) = (wholes(&self.left.sheet.nature), wholes(&self.right.sheet.nature));
        let lists = self.lists_that_meet(left, right).into_iter();
        lists.map(|(left, right)| whole_results(self.component, left, right)).collect()
    }

    /// The texts of each column of the result, each once.
    fn texts_written(&self) -> Vec<Vec<Vec<u8>>> {
        let (Nature::TextCategories(left), Nature::TextCategories(right)) = (&self.left.sheet.nature, &self.right.sheet.nature) else {
            return Vec::new();
        };
        let lists = self.lists_that_meet(left, right).into_iter();
        lists.map(|(left, right)| text_results(self.component, left, right).into_iter().collect()).collect()
    }
}

/// "1 column", "3 columns".
fn counted(count: usize, what: &str) -> String {
    if count == 1 {
        format!("1 {what}")
    } else {
        format!("{count} {what}s")
    }
}

/// A total that exceeds its limit; of several lists, each one's part, and the column in which the limit is passed.
fn over(counts: &[usize], limit: usize) -> String {
    let total: usize = counts.iter().sum();
    if counts.len() < 2 {
        return format!("{total}, at most {limit}");
    }
    let words: Vec<String> = counts.iter().map(usize::to_string).collect();
    let passed = (1..=counts.len()).find(|&lists| counts[..lists].iter().sum::<usize>() > limit);
    let from = passed.map_or(String::new(), |column| format!(", exceeded from column {column} on"));
    format!("{total} ({} by list), at most {limit}{from}", words.join(" + "))
}

/// How many values a column's lists make, each counted once: abs and negative map one list, pool takes those of both, the others combine them.
fn whole_results(component: Component, left: &[i64], right: &[i64]) -> usize {
    let result = |a: &i64, b: &i64| operation_result(component, i128::from(*a), i128::from(*b));
    match component {
        Component::Pool => united(left, right).len(),
        Component::Abs | Component::Negative => left.iter().map(|a| result(a, a)).collect::<HashSet<_>>().len(),
        _ => combined(left, right, result).len(),
    }
}

/// Add joins, pool unites; no other component has a rule for text.
fn text_results(component: Component, left: &[Vec<u8>], right: &[Vec<u8>]) -> HashSet<Vec<u8>> {
    match component {
        Component::Pool => united(left, right),
        _ => combined(left, right, |a, b| [&a[..], b].concat()),
    }
}

fn united<T: Clone + Eq + Hash>(left: &[T], right: &[T]) -> HashSet<T> {
    left.iter().chain(right).cloned().collect()
}

fn combined<T, R: Eq + Hash>(left: &[T], right: &[T], result: impl Fn(&T, &T) -> R) -> HashSet<R> {
    let result = &result;
    left.iter().flat_map(|a| right.iter().map(move |b| result(a, b))).collect()
}

/// Abs and negative read the first alone.
fn operation_result(component: Component, a: i128, b: i128) -> Option<i128> {
    match component {
        Component::Abs => Some(a.abs()),
        Component::Negative => Some(-a),
        Component::Add => Some(a + b),
        Component::Subtract => Some(a - b),
        Component::Multiply => Some(a * b),
        _ => a.checked_div(b),
    }
}
