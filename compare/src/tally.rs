//! Counts by code, and the first differences.

use crate::judge::has_other_texts;
use oracle_list::counts::Counts;
use oracle_list::form::{hex, is_range_subtract, is_unary, POOL};
use oracle_list::repeats::Repeats;
use oracle_list::sheet::{Ends, Nature, Sheet, AT_COLUMNS, AT_LISTS, AT_NATURE, TEXT};
use oracle_list::stats::NAMES;
use std::collections::BTreeMap;
use std::fmt;

const SHOWN: usize = 10;

/// The numbers of the natures that Pool can give.
const POOLED: [u8; 6] = [0, 1, 2, 3, 4, TEXT];

/// The numbers of the kinds of categories that are derived: whole, Bool, text.
const LISTED: [u8; 3] = [3, 4, TEXT];

/// Calls that read a sheet with texts.
#[derive(Default)]
pub struct Texts {
    pub calls: usize,
    /// Results with texts.
    pub joined: usize,
    pub united: usize,
    /// Refused with 28, by Add and by Pool.
    pub long_joins: usize,
    pub long_unions: usize,
    /// With a text that is no UTF-8.
    pub other: usize,
}

/// Derived ranges. Since document 02's S-4 no rule inverts one: a whole lower is
/// never above its upper, and 5 refuses a float range by an infinite end alone.
#[derive(Default)]
pub struct Ranges {
    pub whole: usize,
    pub float: usize,
    /// Float ranges with an infinite end.
    pub infinite: usize,
    /// By component.
    pub of: [usize; NAMES.len()],
}

#[derive(Default)]
pub struct Tally {
    codes: BTreeMap<u32, usize>,
    /// Pool's answers among them.
    pool: BTreeMap<u32, usize>,
    /// Pool's results by their nature, as in `POOLED`.
    pooled: [usize; POOLED.len()],
    texts: Texts,
    /// Range Subtracts' answers among them, and their results: whole, float.
    subtracts: BTreeMap<u32, usize>,
    subtracted: [usize; 2],
    ranges: Ranges,
    counts: Counts,
    /// Derived sheets that state categories, as in `LISTED`.
    listed: [usize; LISTED.len()],
    repeats: Repeats,
    shown: Vec<String>,
    pub differences: usize,
}

impl Tally {
    pub fn count(&mut self, code: u32) {
        *self.codes.entry(code).or_default() += 1;
    }

    /// An answer of Pool; `sheet` is what was accepted.
    pub fn count_pool(&mut self, code: u32, sheet: &[u8]) {
        *self.pool.entry(code).or_default() += 1;
        let nature = sheet.get(AT_NATURE);
        if let Some(place) = POOLED.iter().position(|known| Some(known) == nature) {
            self.pooled[place] += 1;
        }
    }

    /// An answer to a call, if the call reads texts; `sheet` is what was accepted.
    pub fn count_texts(
        &mut self,
        (component, left, right): (u32, &[u8], &[u8]),
        code: u32,
        sheet: &[u8],
    ) {
        let text = |sheet: &[u8]| sheet.get(AT_NATURE) == Some(&TEXT);
        if !text(left) && (is_unary(component) || !text(right)) {
            return;
        }
        let texts = &mut self.texts;
        texts.calls += 1;
        texts.other += usize::from(has_other_texts(component, left, right));
        let pool = component == POOL;
        match code {
            0 if text(sheet) && pool => texts.united += 1,
            0 if text(sheet) => texts.joined += 1,
            28 if pool => texts.long_unions += 1,
            28 => texts.long_joins += 1,
            _ => (),
        }
    }

    /// An answer to a call, if it is a range Subtract's; `sheet` is what was accepted.
    pub fn count_subtract(
        &mut self,
        (component, left, right): (u32, &[u8], &[u8]),
        code: u32,
        sheet: &[u8],
    ) {
        if !is_range_subtract(component, left, right, code) {
            return;
        }
        *self.subtracts.entry(code).or_default() += 1;
        match sheet.get(AT_NATURE) {
            Some(1) => self.subtracted[0] += 1,
            Some(2) => self.subtracted[1] += 1,
            _ => (),
        }
    }

    /// A derived sheet, if it holds a range: one that is inverted is a difference.
    pub fn count_range(&mut self, component: u32, sheet: &[u8]) {
        if !matches!(sheet.get(AT_NATURE), Some(1 | 2)) {
            return;
        }
        let upright = match Sheet::decode_unordered(sheet).map(|sheet| sheet.nature) {
            Ok(Nature::WholeRange(entries)) => {
                self.ranges.whole += 1;
                entries.iter().all(|entry| in_order(*entry, |end| end))
            }
            Ok(Nature::FloatRange(entries)) => {
                let infinite = |entry: &Ends<u64>| {
                    let mut ends = entry.0.iter().chain(&entry.1);
                    ends.any(|end| f64::from_bits(*end).is_infinite())
                };
                self.ranges.float += 1;
                self.ranges.infinite += usize::from(entries.iter().any(infinite));
                entries.iter().all(|entry| in_order(*entry, f64::from_bits))
            }
            _ => false,
        };
        let place = (component as usize).wrapping_sub(1);
        if let Some(count) = self.ranges.of.get_mut(place) {
            *count += 1;
        }
        if !upright {
            self.differ(|| format!("component {component} derives {}", hex(sheet)));
        }
    }

    /// What a call makes of several category lists; `sheet` is what was accepted. 29
    /// out of place is a difference, and so is a derived nature without an entry or a
    /// list for each column: since document 02's S-5 there is none.
    pub fn count_lists(
        &mut self,
        read @ (component, left, right): (u32, &[u8], &[u8]),
        code: u32,
        sheet: &[u8],
    ) {
        if !self.counts.count(read, code, sheet) {
            let (left, right) = (hex(left), hex(right));
            self.differ(|| format!("{code}, where 29 is out of place: {component} {left} {right}"));
        }
        let nature = sheet.get(AT_NATURE).copied().unwrap_or(0);
        if nature > 0 && sheet[AT_LISTS] != sheet[AT_COLUMNS] {
            self.differ(|| format!("component {component} derives {}", hex(sheet)));
        }
    }

    /// A derived sheet, if it states categories: a list that repeats a value is a
    /// difference, under every component, since document 02's S-6 left none.
    pub fn count_repeats(&mut self, component: u32, left: &[u8], sheet: &[u8]) {
        let Some(nature) = sheet.get(AT_NATURE).filter(|nature| **nature > 2) else {
            return;
        };
        if let Some(place) = LISTED.iter().position(|kind| kind == nature) {
            self.listed[place] += 1;
        }
        self.repeats.count(component, left, sheet);
        if Sheet::decode(sheet).map_or(true, |sheet| sheet.nature.has_repeats()) {
            self.differ(|| format!("component {component} derives repeats: {}", hex(sheet)));
        }
    }

    pub fn differ(&mut self, text: impl FnOnce() -> String) {
        self.differences += 1;
        if self.shown.len() < SHOWN {
            self.shown.push(text());
        }
    }

    pub fn total(&self) -> usize {
        self.codes.values().sum()
    }

    pub fn of(&self, code: u32) -> usize {
        self.codes.get(&code).copied().unwrap_or(0)
    }

    pub fn of_pool(&self, code: u32) -> usize {
        self.pool.get(&code).copied().unwrap_or(0)
    }

    /// Pool's results by their nature.
    pub fn pooled(&self) -> [usize; POOLED.len()] {
        self.pooled
    }

    pub fn texts(&self) -> &Texts {
        &self.texts
    }

    pub fn of_subtract(&self, code: u32) -> usize {
        self.subtracts.get(&code).copied().unwrap_or(0)
    }

    /// Range Subtracts' results: whole, float.
    pub fn subtracted(&self) -> [usize; 2] {
        self.subtracted
    }

    pub fn ranges(&self) -> &Ranges {
        &self.ranges
    }

    pub fn counts(&self) -> &Counts {
        &self.counts
    }

    /// Derived sheets that state categories: whole, Bool, text.
    pub fn listed(&self) -> [usize; LISTED.len()] {
        self.listed
    }

    pub fn repeats(&self) -> &Repeats {
        &self.repeats
    }
}

/// Whether an entry's ends are numbers, infinite ones too, and no lower is above
/// its upper.
fn in_order<T: Copy, U: PartialOrd>((lower, upper): Ends<T>, value: impl Fn(T) -> U) -> bool {
    // A NaN is not at most itself.
    let number = |end: Option<T>| end.map_or(true, |end| value(end) <= value(end));
    let crossed = lower
        .zip(upper)
        .is_some_and(|(lower, upper)| value(lower) > value(upper));
    number(lower) && number(upper) && !crossed
}

fn listed(codes: &BTreeMap<u32, usize>) -> String {
    let words: Vec<String> = codes
        .iter()
        .map(|(code, n)| format!("{code}:{n}"))
        .collect();
    words.join(" ")
}

impl fmt::Display for Texts {
    fn fmt(&self, f: &mut fmt::Formatter) -> fmt::Result {
        write!(
            f,
            "texts: {} calls read some, {} of them no UTF-8; {} joined by Add, {} united by Pool; 28: {} by Add, {} by Pool",
            self.calls, self.other, self.joined, self.united, self.long_joins, self.long_unions
        )
    }
}

impl fmt::Display for Ranges {
    fn fmt(&self, f: &mut fmt::Formatter) -> fmt::Result {
        write!(
            f,
            "derived ranges: {} whole, {} float, {} of these with an infinite end",
            self.whole, self.float, self.infinite
        )
    }
}

impl Tally {
    /// Lists that were counted, derived and mapped.
    fn tell_categories(&self, f: &mut fmt::Formatter) -> fmt::Result {
        if self.counts == Counts::default() && self.listed == [0; LISTED.len()] {
            return Ok(());
        }
        let [whole, bools, texts] = self.listed;
        writeln!(f, "{}", self.counts)?;
        writeln!(
            f,
            "derived categories: {whole} whole, {bools} Bool and {texts} text lists"
        )?;
        writeln!(f, "{}", self.repeats)
    }
}

impl fmt::Display for Tally {
    fn fmt(&self, f: &mut fmt::Formatter) -> fmt::Result {
        for text in &self.shown {
            writeln!(f, "{text}")?;
        }
        writeln!(f, "by code: {}", listed(&self.codes))?;
        if !self.pool.is_empty() {
            let [absent, whole, float, lists, bools, texts] = self.pooled;
            writeln!(
                f,
                "Pool by code: {}; its results: {absent} absent, {whole} whole and {float} float ranges, {lists} whole, {bools} Bool and {texts} text lists",
                listed(&self.pool)
            )?;
        }
        if self.texts.calls > 0 {
            writeln!(f, "{}", self.texts)?;
        }
        if !self.subtracts.is_empty() {
            let [whole, float] = self.subtracted;
            let codes = listed(&self.subtracts);
            writeln!(
                f,
                "range Subtract by code: {codes}; its results: {whole} whole and {float} float ranges"
            )?;
        }
        if self.ranges.of != [0; NAMES.len()] {
            writeln!(f, "{}", self.ranges)?;
        }
        self.tell_categories(f)?;
        write!(
            f,
            "{} in all, {} differences",
            self.total(),
            self.differences
        )
    }
}

#[cfg(test)]
mod tests {
    use super::Tally;
    use oracle_list::text;

    /// Whether a derived sheet is let pass, and whether it has an infinite end.
    fn derived(sheet: &str) -> (bool, usize) {
        let mut tally = Tally::default();
        tally.count_range(3, &text::bytes(sheet));
        (tally.differences == 0, tally.ranges().infinite)
    }

    /// Whether an answer to Add is let pass.
    fn passes(left: &str, right: &str, code: u32, sheet: &str) -> bool {
        let mut tally = Tally::default();
        let (left, right) = (text::bytes(left), text::bytes(right));
        tally.count_lists((2, &left, &right), code, &text::bytes(sheet));
        tally.differences == 0
    }

    #[test]
    fn a_wrong_count_is_a_difference() {
        let (two, one) = ("W{1}{2} columns=3", "W{1} columns=3");
        assert!(passes(two, one, 29, "empty") && passes(two, one, 14, "empty"));
        assert!(!passes(two, one, 0, "W{2}{3} columns=3"));
        assert!(!passes(two, one, 21, "empty") && !passes(one, one, 29, "empty"));
        assert!(passes(one, one, 0, "W{2}*3 columns=3"));
        // A derived nature has an entry or a list for each column.
        assert!(!passes(one, one, 0, "W{2} columns=3"));
        assert!(!passes("W[1,2]", "W[1,2]", 0, "W[2,4]*2"));
        assert!(passes(two, "W[1,2] columns=3", 0, "absent columns=3"));
    }

    /// Whatever the component and the kind of the lists; a leaf may repeat.
    #[test]
    fn a_repeat_is_a_difference() {
        let passes = |component, sheet| {
            let mut tally = Tally::default();
            let leaf = text::bytes("W{1,1}");
            tally.count_repeats(component, &leaf, &text::bytes(sheet));
            tally.differences == 0
        };
        for component in [1, 2, 3, 4, 5, 9, 10] {
            assert!(passes(component, "W{1,-1}{1}{}"));
            assert!(!passes(component, "W{1}{2,3,2}"));
            assert!(passes(component, "B{1,0}{1}") && !passes(component, "B{1,0,1}"));
            assert!(passes(component, "T{a,_}{a}") && !passes(component, "T{a}{_,b,_}"));
            assert!(passes(component, "W[1,1][1,1]") && passes(component, "empty"));
        }
    }

    #[test]
    fn an_inverted_range_is_a_difference() {
        assert_eq!(derived("W[-5,1]"), (true, 0));
        assert_eq!(derived("W[1,2][0,-4]"), (false, 0));
        assert_eq!(derived("W[_,-4][0,_]"), (true, 0));
        assert_eq!(derived("F[0.0,-0.0]"), (true, 0));
        assert_eq!(derived("F[-inf,1.0]"), (true, 1));
        assert_eq!(derived("F[inf,1.0]"), (false, 1));
        assert_eq!(derived("F[0.5,0.25]"), (false, 0));
        assert_eq!(derived("F[NaN,_]"), (false, 0));
        assert_eq!(derived("W{2,1}"), (true, 0));
    }
}
