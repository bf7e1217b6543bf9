//! No repeats after Abs and Negative (document 02, S-6): first occurrences of the mapped values, list by list, and 26 counts what is left.

use crate::answering::propagate_property;
use crate::made::*;
use crate::walked::{slot, walked, FILLER};

type Lists = Vec<Vec<i64>>;

/// What is derived of an operand's lists: one for each column, or a refusal.
type Answer = Result<Lists, u32>;

/// Component, columns, the operand's lists, and what is derived.
struct Row {
    component: u32,
    columns: usize,
    operand: Lists,
    wanted: Answer,
}

fn row(component: u32, columns: usize, operand: &[&[i64]], wanted: Result<&[&[i64]], u32>) -> Row {
    let owned = |lists: &[&[i64]]| lists.iter().map(|list| list.to_vec()).collect();
    Row {
        component,
        columns,
        operand: owned(operand),
        wanted: wanted.map(owned),
    }
}

fn sheet(columns: usize, of: &[Vec<i64>]) -> Vec<u8> {
    let slices: Vec<&[i64]> = of.iter().map(Vec::as_slice).collect();
    lists(3, columns as u8, &slices)
}

impl Row {
    /// Every byte: nothing but the lists is another.
    fn holds(&self) {
        let operand = sheet(self.columns, &self.operand);
        let wanted = self.wanted.clone().map(|lists| sheet(self.columns, &lists));
        let found = call(self.component, &operand, &[]);
        assert_eq!(found, wanted, "{} {:?}", self.component, self.operand);
    }
}

/// 1, -1, 2, -2, .., 64, -64.
fn pairs() -> Vec<i64> {
    (1..=64).flat_map(|value| [value, -value]).collect()
}

fn to_64() -> Vec<i64> {
    (1..=64).collect()
}

/// 64 times -7 and 64 times 7, over 16 columns.
fn sevens() -> Row {
    let operand = [[-7; 64], [7; 64]].concat();
    row(ABS, 16, &[&operand], Ok(&[&[7][..]; 16]))
}

#[test]
fn each_value_stands_once() {
    for row in [
        row(ABS, 1, &[&[-3, 3]], Ok(&[&[3]])),
        row(ABS, 1, &[&[2, -3, 3, -2, 2]], Ok(&[&[2, 3]])),
        row(ABS, 2, &[&[0, -1, 1], &[5, -5]], Ok(&[&[0, 1], &[5]])),
        row(ABS, 1, &[&[i64::MAX, LEAST + 1]], Ok(&[&[i64::MAX]])),
        row(ABS, 3, &[&[4, -4]], Ok(&[&[4], &[4], &[4]])),
        row(ABS, 2, &[&[], &[-1, 1]], Ok(&[&[], &[1]])),
        row(NEGATIVE, 1, &[&[3, 3, -3]], Ok(&[&[-3, 3]])),
        row(NEGATIVE, 1, &[&[-3, 3]], Ok(&[&[3, -3]])),
        row(ABS, 1, &[&[1, -1, LEAST]], Err(24)),
        row(NEGATIVE, 1, &[&[1, 1, LEAST]], Err(24)),
    ] {
        row.holds();
    }
}

/// One byte of a number and eight of a value for each that is left.
#[test]
fn the_length_is_that_of_what_is_left() {
    let pairs = pairs();
    for (left, length) in [
        (lists(3, 1, &[&[-3, 3]]), 89),
        (lists(3, 2, &[&pairs]), 1_232),
    ] {
        let mut out = [0x77; SLOT];
        let short = &mut out[..length - 1];
        assert_eq!(propagate_property(ABS, 5, &left, &[], short), (27, 0));
        assert!(out.iter().all(|byte| *byte == 0x77));
        let room = &mut out[..length];
        let reply = (0, length as u32);
        assert_eq!(propagate_property(ABS, 5, &left, &[], room), reply);
    }
}

#[test]
fn what_is_left_is_counted() {
    let (pairs, half) = (pairs(), to_64());
    row(ABS, 1, &[&pairs], Ok(&[&half])).holds();
    row(ABS, 2, &[&pairs], Ok(&[&half, &half])).holds();
    row(ABS, 3, &[&pairs], Err(26)).holds();
    let back: Vec<i64> = pairs.iter().map(|value| -value).collect();
    row(NEGATIVE, 1, &[&pairs], Ok(&[&back])).holds();
    row(NEGATIVE, 2, &[&pairs], Err(26)).holds();
    sevens().holds();
}

/// What a program makes of an operand's lists, whose count 29 has let pass.
type Program = fn(u32, usize, &[Vec<i64>]) -> Answer;

fn firsts(list: &[i64]) -> Vec<i64> {
    let mut kept = Vec::new();
    for value in list {
        if !kept.contains(value) {
            kept.push(*value);
        }
    }
    kept
}

fn each_firsts(lists: &[Vec<i64>]) -> Lists {
    lists.iter().map(|list| firsts(list)).collect()
}

/// Every value mapped, or 24.
fn each_mapped(component: u32, lists: &[Vec<i64>]) -> Answer {
    let map = |value: &i64| match component {
        ABS => value.checked_abs(),
        _ => value.checked_neg(),
    };
    let list = |list: &Vec<i64>| list.iter().map(map).collect::<Option<Vec<i64>>>();
    lists.iter().map(list).collect::<Option<Lists>>().ok_or(24)
}

/// An operand without repeats, mapped.
fn mapped_once(component: u32, operand: &[Vec<i64>]) -> Answer {
    each_mapped(component, &each_firsts(operand))
}

/// One list repeats per column.
fn spread(columns: usize, lists: &[Vec<i64>]) -> Lists {
    match lists {
        [only] => vec![only.clone(); columns],
        _ => lists.to_vec(),
    }
}

/// 26 over lists as they would be written.
fn counted(columns: usize, lists: &[Vec<i64>]) -> Answer {
    let spread = spread(columns, lists);
    let count: usize = spread.iter().map(Vec::len).sum();
    if count > 128 {
        return Err(26);
    }
    Ok(spread)
}

/// As the documents say.
fn right(component: u32, columns: usize, operand: &[Vec<i64>]) -> Answer {
    let mapped = mapped_once(component, operand)?;
    counted(columns, &each_firsts(&mapped))
}

/// Holds rows that a wrong program fails, each of them.
fn shuts_out(wrong: Program, rows: &[Row]) {
    for row in rows {
        row.holds();
        let answer = |program: Program| program(row.component, row.columns, &row.operand);
        assert_eq!(answer(right), row.wanted, "{:?}", row.operand);
        assert_ne!(answer(wrong), row.wanted, "{:?}", row.operand);
    }
}

/// The old code.
#[test]
fn repeats_kept_after_the_mapping() {
    let wrong: Program = |component, columns, operand| {
        let mapped = mapped_once(component, operand)?;
        counted(columns, &mapped)
    };
    let half = to_64();
    shuts_out(
        wrong,
        &[
            row(ABS, 1, &[&[-3, 3]], Ok(&[&[3]])),
            row(ABS, 2, &[&[0, -1, 1], &[5, -5]], Ok(&[&[0, 1], &[5]])),
            row(ABS, 2, &[&pairs()], Ok(&[&half, &half])),
        ],
    );
}

#[test]
fn counted_before_repeats_go() {
    let wrong: Program = |component, columns, operand| {
        let mapped = mapped_once(component, operand)?;
        counted(columns, &mapped)?;
        Ok(spread(columns, &each_firsts(&mapped)))
    };
    let half = to_64();
    let eight: Vec<i64> = (1..=8).collect();
    let both: Vec<i64> = (1..=8).chain((1..=8).map(|value| -value)).collect();
    shuts_out(
        wrong,
        &[
            row(ABS, 2, &[&pairs()], Ok(&[&half, &half])),
            row(ABS, 16, &[&both], Ok(&[&eight[..]; 16])),
        ],
    );
}

/// 26 as soon as there is no more room for what is there.
#[test]
fn counted_before_the_rest_is_tested_for_24() {
    let wrong: Program = |component, columns, operand| {
        let mut done: Lists = Vec::new();
        for list in each_firsts(operand) {
            done.push(Vec::new());
            for value in list {
                let mapped = each_mapped(component, &[vec![value]])?;
                done.last_mut().unwrap().extend(&mapped[0]);
                counted(columns, &each_firsts(&done))?;
            }
        }
        counted(columns, &each_firsts(&done))
    };
    let late = |values: &[i64]| [values, &[LEAST]].concat();
    let full = late(&(1..=127).collect::<Vec<i64>>());
    shuts_out(
        wrong,
        &[
            row(ABS, 2, &[&full], Err(24)),
            row(NEGATIVE, 2, &[&full], Err(24)),
            row(ABS, 3, &[&late(&pairs()[..126])], Err(24)),
            row(ABS, 16, &[&late(&to_64()[..9])], Err(24)),
        ],
    );
}

#[test]
fn the_last_occurrence_kept() {
    let wrong: Program = |component, columns, operand| {
        let mut mapped = mapped_once(component, operand)?;
        for list in &mut mapped {
            list.reverse();
            *list = firsts(list);
            list.reverse();
        }
        counted(columns, &mapped)
    };
    shuts_out(
        wrong,
        &[
            row(ABS, 1, &[&[2, -3, 3, -2, 2]], Ok(&[&[2, 3]])),
            row(ABS, 1, &[&[1, 2, -1]], Ok(&[&[1, 2]])),
        ],
    );
}

#[test]
fn repeats_removed_across_lists() {
    let wrong: Program = |component, columns, operand| {
        let mapped = mapped_once(component, operand)?;
        let mut left: Lists = Vec::new();
        for list in each_firsts(&mapped) {
            let new = |value: &i64| !left.concat().contains(value);
            let kept = list.into_iter().filter(new).collect();
            left.push(kept);
        }
        counted(columns, &left)
    };
    shuts_out(
        wrong,
        &[
            row(ABS, 2, &[&[3], &[-3]], Ok(&[&[3], &[3]])),
            row(ABS, 2, &[&[1, -1], &[2, 1, -2]], Ok(&[&[1], &[2, 1]])),
            row(NEGATIVE, 2, &[&[3], &[3]], Ok(&[&[-3], &[-3]])),
        ],
    );
}

#[test]
fn an_operands_own_repeats_counted() {
    let wrong: Program = |component, columns, operand| {
        let mapped = each_mapped(component, operand)?;
        counted(columns, &mapped)?;
        Ok(spread(columns, &each_firsts(&mapped)))
    };
    shuts_out(
        wrong,
        &[
            sevens(),
            row(ABS, 2, &[&[1; 128]], Ok(&[&[1], &[1]])),
            row(NEGATIVE, 2, &[&[1; 128]], Ok(&[&[-1], &[-1]])),
        ],
    );
}

#[test]
fn an_operands_own_repeats_kept() {
    let wrong: Program =
        |component, columns, operand| counted(columns, &each_mapped(component, operand)?);
    shuts_out(
        wrong,
        &[
            row(NEGATIVE, 1, &[&[3, 3, -3]], Ok(&[&[-3, 3]])),
            row(ABS, 1, &[&[5, 5]], Ok(&[&[5]])),
        ],
    );
}

#[test]
fn neighbours_alone_compared() {
    let wrong: Program = |component, columns, operand| {
        let mut mapped = mapped_once(component, operand)?;
        mapped.iter_mut().for_each(Vec::dedup);
        counted(columns, &mapped)
    };
    let rows = [row(ABS, 1, &[&[2, -3, 3, -2, 2]], Ok(&[&[2, 3]]))];
    shuts_out(wrong, &rows);
}

#[test]
fn sorted() {
    let wrong: Program = |component, columns, operand| {
        let mut mapped = right(component, columns, operand)?;
        mapped.iter_mut().for_each(|list| list.sort_unstable());
        Ok(mapped)
    };
    shuts_out(
        wrong,
        &[
            row(ABS, 1, &[&[5, -1, 1]], Ok(&[&[5, 1]])),
            row(NEGATIVE, 1, &[&[3, 3, -3, 7]], Ok(&[&[-3, 3, -7]])),
        ],
    );
}

/// A list that spreads is counted once per column.
#[test]
fn a_spread_list_counted_once() {
    let wrong: Program = |component, columns, operand| {
        let left = right(component, 1, operand)?;
        Ok(spread(columns, &left))
    };
    shuts_out(
        wrong,
        &[
            row(ABS, 3, &[&pairs()], Err(26)),
            row(NEGATIVE, 2, &[&pairs()], Err(26)),
        ],
    );
}

/// All lists of up to `most` of these values.
fn all_lists(most: usize) -> Lists {
    const VALUES: [i64; 6] = [-2, -1, 0, 1, 2, LEAST];
    let mut all: Lists = vec![vec![]];
    let mut longest = all.clone();
    for _ in 0..most {
        let longer = |list: &Vec<i64>| VALUES.map(|value| [&list[..], &[value]].concat());
        longest = longest.iter().flat_map(longer).collect();
        all.extend(longest.iter().cloned());
    }
    all
}

/// One list over three columns, and two over two.
#[test]
fn every_short_list() {
    let mut operands: Vec<(usize, Lists)> = Vec::new();
    operands.extend(all_lists(4).into_iter().map(|list| (3, vec![list])));
    let short = all_lists(2);
    for first in &short {
        let with_first = |second: &Vec<i64>| (2, vec![first.clone(), second.clone()]);
        operands.extend(short.iter().map(with_first));
    }
    for (columns, operand) in operands {
        for component in [ABS, NEGATIVE] {
            Row {
                component,
                columns,
                wanted: right(component, columns, &operand),
                operand: operand.clone(),
            }
            .holds();
        }
    }
}

/// An odd count never gets to the mapping.
#[test]
fn lists_are_counted_before() {
    for component in [ABS, NEGATIVE] {
        row(component, 3, &[&[-3, 3], &[1]], Err(29)).holds();
        row(component, 3, &[&[LEAST, 1], &[1]], Err(29)).holds();
        row(component, 1, &[&pairs()[..64], &pairs()[64..]], Err(29)).holds();
    }
}

/// A next step reads each value once; a leaf may still repeat.
#[test]
fn plans() {
    let leaf = list(&[-3, 3]);
    let sum = with(list(&[6]), &[(NODE, 2)]);
    let steps = [(ABS, 0, 0), (ADD, 1, 1)];
    let slots = [&leaf, &list(&[3]), &sum].map(|sheet| slot(sheet));
    assert_eq!(walked(&[leaf], &steps), ((0, 3), slots.to_vec()));
    // Accepted over two columns, refused over three: the leaf stays, and nothing is written.
    let pairs = pairs();
    let half = to_64();
    let leaf = |columns| lists(3, columns, &[&pairs]);
    let (reply, slots) = walked(&[leaf(2)], &[(ABS, 0, 0), (NEGATIVE, 1, 1)]);
    assert_eq!(
        (reply, &slots[1]),
        ((0, 3), &slot(&lists(3, 2, &[&half, &half])))
    );
    let (reply, slots) = walked(&[leaf(3)], &[(ABS, 0, 0)]);
    assert_eq!((reply, &slots[1]), ((26, 1), &vec![FILLER; SLOT]));
}
