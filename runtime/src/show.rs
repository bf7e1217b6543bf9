//! Bounds, natures and marks as people read them: both signs are always written.

use crate::nature::{Bound, Nature};
use crate::quotes::quoted;
use crate::rinks::Rinks;
use crate::sheet::{Group, Key, Sheet};

/// A lower end: `-5`, `+0.5`, `-inf` if absent. A float end that overflowed is `+overflow` or `-overflow`, so that it is not taken for an absent one.
pub fn lower(bound: Bound) -> String {
    end(bound, "-inf")
}

/// An upper end: as [`lower`], `+inf` if absent.
pub fn upper(bound: Bound) -> String {
    end(bound, "+inf")
}

fn end(bound: Bound, absent: &str) -> String {
    match bound {
        Bound::Absent => absent.to_string(),
        Bound::Whole(number) => whole(number),
        Bound::Float(number) => float(number),
    }
}

/// A whole number with its sign.
pub fn whole(number: i64) -> String {
    format!("{number:+}")
}

/// A float with its sign, that of zero included.
pub fn float(number: f64) -> String {
    if number.is_nan() {
        return "nan".to_string();
    }
    if number.is_infinite() {
        let sign = if number > 0.0 { '+' } else { '-' };
        return format!("{sign}overflow");
    }
    format!("{number:+?}")
}

/// A range entry: `[-0.6, +14.2]`.
pub fn entry((low, high): (Bound, Bound)) -> String {
    format!("[{}, {}]", lower(low), upper(high))
}

/// The members of each list, or the entries of a range, in words.
pub fn items(nature: &Nature) -> Vec<Vec<String>> {
    fn each<T>(lists: &[Vec<T>], word: impl Fn(&T) -> String) -> Vec<Vec<String>> {
        lists.iter().map(|list| list.iter().map(&word).collect()).collect()
    }
    match nature {
        Nature::WholeCategories(lists) => each(lists, |v| whole(*v)),
        Nature::BoolCategories(lists) => each(lists, bool::to_string),
        Nature::FloatCategories(lists) => each(lists, |v| category(*v)),
        Nature::TextCategories(lists) => each(lists, |text| quoted(text)),
        ranges => (0..).map_while(|place| ranges.entry(place)).map(|e| vec![entry(e)]).collect(),
    }
}

/// Unlike a bound, a category may be infinite as it was written.
fn category(number: f64) -> String {
    if number.is_infinite() {
        return format!("{number:+}");
    }
    float(number)
}

/// A nature on one line: `[-5, +3]`, `[-5, +3] [+0, +7]`, `{+1, +2}`, `{"north"}`, `absent`.
pub fn nature(nature: &Nature) -> String {
    if let Nature::Absent = nature {
        return "absent".to_string();
    }
    if nature.lists() == 0 {
        return format!("{} without lists", nature.name());
    }
    let words: Vec<String> = items(nature).iter().map(|list| list_of(nature, list)).collect();
    words.join(" ")
}

/// One list in its brackets; a range entry has its own.
pub fn list_of(nature: &Nature, list: &[String]) -> String {
    if nature.is_range() {
        return list.join(", ");
    }
    format!("{{{}}}", list.join(", "))
}

/// A value that may be absent.
pub fn optional(value: Option<i64>) -> String {
    value.map_or("absent".to_string(), |v| v.to_string())
}

/// Groups as a plan's text writes them.
pub fn groups(groups: &[Group]) -> String {
    let word = |group: &Group| match group.key {
        Key::Int(index) => format!("{}: int {index}", group.partition),
        Key::Bool(index) => format!("{}: bool {index}", group.partition),
        Key::Str(index) => format!("{}: str {index}", group.partition),
    };
    let words: Vec<String> = groups.iter().map(word).collect();
    format!("{{{}}}", words.join(", "))
}

/// Owners as a leaf of a plan's text has them: `owners {3, 17}`.
pub fn owners(owners: Rinks) -> String {
    format!("owners {owners}")
}

/// The four marks, then what else is stated beside the usual.
pub fn marks(sheet: &Sheet) -> String {
    let mut words = vec![if sheet.releasable { "releasable" } else { "private" }.to_string()];
    let flags = [(sheet.nullity, "nullable"), (sheet.not_empty, "nonempty"), (sheet.ordered, "ordered")];
    words.extend(flags.iter().filter(|flag| flag.0).map(|flag| flag.1.to_string()));
    if sheet.c_stability != 1 {
        words.push(format!("stability {}", sheet.c_stability));
    }
    if let Some(aggregator) = sheet.aggregator {
        words.push(format!("aggregator {aggregator}"));
    }
    if let Some(sample) = sheet.sample {
        words.push(format!("sample {sample}"));
    }
    if let Some(dimensions) = sheet.dimensionality {
        words.push(format!("dimensions {dimensions}"));
    }
    if !sheet.groups.is_empty() {
        words.push(format!("groups {}", groups(&sheet.groups)));
    }
    words.join(", ")
}

/// Breaks a text between words, into lines of at most so many cells where words allow it.
pub fn folded(text: &str, cells: usize) -> Vec<String> {
    let mut lines: Vec<String> = Vec::new();
    for word in text.split(' ') {
        match lines.last_mut() {
            Some(line) if width(line) + 1 + width(word) <= cells => {
                line.push(' ');
                line.push_str(word);
            }
            _ => lines.push(word.to_string()),
        }
    }
    lines
}

/// Screen cells that a text takes: none for combining marks and invisible characters, two for wide East Asian characters and most pictures.
pub fn width(text: &str) -> usize {
    text.chars().map(cells).sum()
}

fn cells(c: char) -> usize {
    const NONE: [(u32, u32); 6] =
        [(0x0300, 0x036F), (0x0483, 0x0489), (0x1AB0, 0x1AFF), (0x200B, 0x200F), (0x20D0, 0x20FF), (0xFE00, 0xFE0F)];
    const TWO: [(u32, u32); 9] = [
        (0x1100, 0x115F),
        (0x2E80, 0x303E),
        (0x3041, 0xA4CF),
        (0xAC00, 0xD7A3),
        (0xF900, 0xFAFF),
        (0xFE30, 0xFE6F),
        (0xFF00, 0xFF60),
        (0x1F300, 0x1FAFF),
        (0x20000, 0x3FFFD),
    ];
    let within = |ranges: &[(u32, u32)]| ranges.iter().any(|&(a, b)| (a..=b).contains(&(c as u32)));
    match c {
        _ if within(&NONE) => 0,
        _ if within(&TWO) => 2,
        _ => 1,
    }
}

#[cfg(test)]
mod tests {
    use super::*;
    use crate::nature::Ends;

    #[test]
    fn both_signs_are_written() {
        assert_eq!(nature(&Nature::float_range(&[[-0.6, 14.2]])), "[-0.6, +14.2]");
        assert_eq!(nature(&Nature::float_range(&[[-0.0, 0.0]])), "[-0.0, +0.0]");
        assert_eq!(nature(&Nature::whole_range(&[[0, 7], [-3, -1]])), "[+0, +7] [-3, -1]");
        assert_eq!(nature(&Nature::WholeCategories(vec![vec![1, -2], vec![]])), "{+1, -2} {}");
    }

    #[test]
    fn an_overflow_is_not_an_absent_end() {
        let half = Ends { lower: None, upper: Some(f64::INFINITY) };
        assert_eq!(nature(&Nature::FloatRange(vec![half])), "[-inf, +overflow]");
    }

    #[test]
    fn texts_are_folded_between_words() {
        assert_eq!(folded("one two three", 7), ["one two", "three"]);
        assert_eq!(folded("longer-than-the-line x", 5), ["longer-than-the-line", "x"]);
    }

    #[test]
    fn widths_count_screen_cells() {
        assert_eq!(width("glace"), 5);
        assert_eq!(width("冰場"), 4);
        assert_eq!(width("e\u{301}"), 1);
    }
}
