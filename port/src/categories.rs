//! Category lists: first occurrences, mapped, combined or united.

use crate::form::*;
use crate::sheet::{Refusal, Sheet};

/// What a category list is made of.
pub trait Value<'a>: Copy + PartialEq {
    const NONE: Self;
    fn read(word: &[u8], area: &'a [u8]) -> Self;
    /// The bytes that it takes of the text area.
    fn text_length(&self) -> usize;
}

/// Whole numbers, and bools as 0 and 1.
impl Value<'_> for i64 {
    const NONE: i64 = 0;
    fn read(word: &[u8], _area: &[u8]) -> i64 {
        word64(word, 0) as i64
    }
    fn text_length(&self) -> usize {
        0
    }
}

/// A text in two parts, so that a join is compared without being stored: a
/// store of 1,024 bytes would be full before 26 is decided.
#[derive(Clone, Copy)]
pub struct Text<'a>(pub &'a [u8], pub &'a [u8]);

impl<'a> Value<'a> for Text<'a> {
    const NONE: Text<'a> = Text(&[], &[]);
    fn read(word: &[u8], area: &'a [u8]) -> Text<'a> {
        let (start, length) = (word32(word, 0), word32(word, TEXT_LENGTH));
        Text(&area[start as usize..][..length as usize], &[])
    }
    fn text_length(&self) -> usize {
        self.0.len() + self.1.len()
    }
}

impl Text<'_> {
    pub fn bytes(&self) -> impl Iterator<Item = &u8> {
        self.0.iter().chain(self.1)
    }
}

/// By the joined bytes, wherever the parts meet.
impl PartialEq for Text<'_> {
    fn eq(&self, other: &Text) -> bool {
        self.text_length() == other.text_length() && self.bytes().eq(other.bytes())
    }
}

/// Lists as they would be written, at most 128 values. Once more would be
/// needed it is `over`, and only the arithmetic goes on.
pub struct Store<T> {
    /// The nature's number.
    pub kind: u8,
    pub lists: usize,
    pub count: usize,
    pub numbers: [u8; MOST_CATEGORIES],
    pub values: [T; MOST_CATEGORIES],
    over: bool,
}

/// One list without repeats.
struct List<T> {
    count: usize,
    values: [T; MOST_CATEGORIES],
}

impl<'a, T: Value<'a>> List<T> {
    fn read(sheet: &Sheet<'a>, number: usize) -> List<T> {
        let mut list = List {
            count: 0,
            values: [T::NONE; MOST_CATEGORIES],
        };
        for word in sheet.list(number).chunks_exact(WORD) {
            let value = T::read(word, sheet.area);
            if !list.as_slice().contains(&value) {
                list.values[list.count] = value;
                list.count += 1;
            }
        }
        list
    }

    fn as_slice(&self) -> &[T] {
        &self.values[..self.count]
    }
}

impl<'a, T: Value<'a>> Store<T> {
    fn new(kind: u8) -> Store<T> {
        Store {
            kind,
            lists: 0,
            count: 0,
            numbers: [0; MOST_CATEGORIES],
            values: [T::NONE; MOST_CATEGORIES],
            over: false,
        }
    }

    fn push(&mut self, list: usize, value: T) {
        if self.count == MOST_CATEGORIES {
            self.over = true;
            return;
        }
        self.numbers[self.count] = list as u8;
        self.values[self.count] = value;
        self.count += 1;
    }

    /// Appends a value unless it stands there from `start` on. A call of its own
    /// would make products a sixth slower, and the port is the benchmark's baseline.
    #[inline(always)]
    fn push_new(&mut self, start: usize, list: usize, value: T) {
        if !self.over && !self.values[start..self.count].contains(&value) {
            self.push(list, value);
        }
    }

    /// Appends a list's values mapped, first occurrences alone; the first value
    /// that fails ends it.
    fn push_mapped(
        &mut self,
        number: usize,
        rule: impl Fn(T) -> Option<T>,
        list: &List<T>,
    ) -> Result<(), Refusal> {
        let start = self.count;
        for value in list.as_slice() {
            self.push_new(start, number, rule(*value).ok_or(24u32)?);
        }
        Ok(())
    }

    /// Appends a list's product; the first pair that fails ends it.
    fn push_product(
        &mut self,
        list: usize,
        rule: impl Fn(T, T) -> Option<T>,
        left: &List<T>,
        right: &List<T>,
    ) -> Result<(), Refusal> {
        let start = self.count;
        for l in left.as_slice() {
            for r in right.as_slice() {
                self.push_new(start, list, rule(*l, *r).ok_or(24u32)?);
            }
        }
        Ok(())
    }

    /// Appends left's values and then right's, first occurrences alone.
    fn push_union(&mut self, list: usize, left: &List<T>, right: &List<T>) {
        let start = self.count;
        for value in left.as_slice().iter().chain(right.as_slice()) {
            self.push_new(start, list, *value);
        }
    }

    /// Appends, column by column, what `append` makes of the two lists that meet
    /// there: the column's own, or the only one. 29 has let no other count pass.
    fn push_columns(
        &mut self,
        left: &Sheet<'a>,
        right: &Sheet<'a>,
        columns: usize,
        append: impl Fn(&mut Store<T>, usize, &List<T>, &List<T>) -> Result<(), Refusal>,
    ) -> Result<(), Refusal> {
        if left.lists == 1 && right.lists == 1 {
            // Every column's lists are the same.
            append(self, 0, &List::read(left, 0), &List::read(right, 0))?;
            self.repeat_first(columns);
            return Ok(());
        }
        self.lists = columns;
        let entry = |sheet: &Sheet, column: usize| if sheet.lists == 1 { 0 } else { column };
        for column in 0..columns {
            let left_list = List::read(left, entry(left, column));
            let right_list = List::read(right, entry(right, column));
            append(self, column, &left_list, &right_list)?;
        }
        Ok(())
    }

    /// Repeats the first list until there are `lists` of them.
    fn repeat_first(&mut self, lists: usize) {
        let count = self.count;
        for number in 1..lists {
            for place in 0..count {
                self.push(number, self.values[place]);
            }
        }
        self.lists = lists;
    }

    /// The size of the text area, as the lists would be written.
    pub fn text_length(&self) -> usize {
        let values = &self.values[..self.count];
        values.iter().map(T::text_length).sum()
    }

    /// 26, then 28.
    pub fn finish(self) -> Result<Store<T>, Refusal> {
        if self.over {
            return Err(26);
        }
        if self.text_length() > MOST_TEXT {
            return Err(28);
        }
        Ok(self)
    }
}

fn map(component: u32, value: i64) -> Option<i64> {
    match component {
        ABS => value.checked_abs(),
        _ => value.checked_neg(),
    }
}

fn combine(component: u32, left: i64, right: i64) -> Option<i64> {
    match component {
        ADD => left.checked_add(right),
        SUBTRACT => left.checked_sub(right),
        MULTIPLY => left.checked_mul(right),
        _ => left.checked_div(right),
    }
}

/// 19, 20 and 29 of one operand. 29 goes by the output's columns, whatever the
/// operand's own.
fn standard(sheet: &Sheet, columns: usize) -> Result<(), Refusal> {
    if sheet.nature == FLOAT_LISTS {
        return Err(19);
    }
    if sheet.lists == 0 {
        return Err(20);
    }
    if !sheet.spreads(columns) {
        return Err(29);
    }
    Ok(())
}

/// 19, 20 and 29 of left, then of right, then 21.
fn alike(left: &Sheet, right: &Sheet, columns: usize) -> Result<(), Refusal> {
    standard(left, columns)?;
    standard(right, columns)?;
    if left.nature != right.nature {
        return Err(21);
    }
    Ok(())
}

/// Abs and Negative: an operand's repeats go before the mapping, and what it made
/// alike after it, list by list. 24 is tested of every value, then 26 of what is
/// left, once per column where one list spreads.
pub fn unary(component: u32, left: &Sheet, columns: usize) -> Result<Store<i64>, Refusal> {
    standard(left, columns)?;
    if left.nature != WHOLE_LISTS {
        return Err(22);
    }
    let mut store = Store::new(WHOLE_LISTS);
    for number in 0..left.lists {
        let rule = |value| map(component, value);
        store.push_mapped(number, rule, &List::read(left, number))?;
    }
    store.lists = left.lists;
    if left.lists == 1 {
        store.repeat_first(columns);
    }
    store.finish()
}

/// 19, 20, 29, 21 and 22 of two category operands that are not pooled.
pub fn have_rule(
    component: u32,
    left: &Sheet,
    right: &Sheet,
    columns: usize,
) -> Result<(), Refusal> {
    alike(left, right, columns)?;
    let rule = match left.nature {
        // Only Float Power comes here of 6 to 8, and it has no rule.
        WHOLE_LISTS => component != POWER,
        TEXT_LISTS => component == ADD,
        _ => false,
    };
    rule.then_some(()).ok_or(22)
}

/// 24 and 26 of whole numbers under 2 to 5.
pub fn combined(
    component: u32,
    left: &Sheet,
    right: &Sheet,
    columns: usize,
) -> Result<Store<i64>, Refusal> {
    let rule = |l, r| combine(component, l, r);
    product(WHOLE_LISTS, rule, left, right, columns)
}

/// 26 and 28 of texts under Add: left's text, then right's.
pub fn joined<'a>(
    left: &Sheet<'a>,
    right: &Sheet<'a>,
    columns: usize,
) -> Result<Store<Text<'a>>, Refusal> {
    let rule = |l: Text<'a>, r: Text<'a>| Some(Text(l.0, r.0));
    product(TEXT_LISTS, rule, left, right, columns)
}

fn product<'a, T: Value<'a>>(
    kind: u8,
    rule: impl Fn(T, T) -> Option<T>,
    left: &Sheet<'a>,
    right: &Sheet<'a>,
    columns: usize,
) -> Result<Store<T>, Refusal> {
    let mut store = Store::new(kind);
    store.push_columns(left, right, columns, |store, column, left, right| {
        store.push_product(column, &rule, left, right)
    })?;
    store.finish()
}

/// Pool: 19, 20, 29 and 21. The lists may still be too long, since the rows' 24 comes
/// before 26: the caller finishes them.
pub fn pooled<'a, T: Value<'a>>(
    left: &Sheet<'a>,
    right: &Sheet<'a>,
    columns: usize,
) -> Result<Store<T>, Refusal> {
    alike(left, right, columns)?;
    let mut store = Store::new(left.nature);
    store.push_columns(left, right, columns, |store, column, left, right| {
        store.push_union(column, left, right);
        Ok(())
    })?;
    Ok(store)
}
