//! Category lists mapped by abs and negative (02, S-6): first occurrences of the results, list by list; 26 counts what is left.

use crate::made::{both_signs, cause, derived, listed, plain, shown, Draws, ALONE};
use gate_runtime::{derive, show, Component, DataType, Nature, Plan, Refusal, Sheet};
use std::collections::{BTreeMap, HashSet};

const LEAST: i64 = i64::MIN;

/// One list for all of the columns.
fn over(columns: i64, list: &[i64]) -> Sheet {
    listed(&[list]).with_columns(columns)
}

#[test]
fn each_result_stands_once_and_where_it_came_first() {
    let sevens = [[-7; 64], [7; 64]].concat();
    let sixteen = |list| [list; 16].join(" ");
    for (component, operand, length, wanted) in [
        (Component::Abs, listed(&[&[-3, 3]]), 89, "{+3}"),
        // Last occurrences would be {+3, +2}.
        (Component::Abs, listed(&[&[2, -3, 3, -2, 2]]), 98, "{+2, +3}"),
        // Nothing is sorted.
        (Component::Abs, listed(&[&[5, -1, -5, 0]]), 107, "{+5, +1, +0}"),
        (Component::Abs, listed(&[&[0, -1, 1], &[5, -5]]), 107, "{+0, +1} {+5}"),
        // The same value may stand in two lists.
        (Component::Abs, listed(&[&[3, -3], &[-3], &[]]), 98, "{+3} {+3} {}"),
        // Values that share their last byte are not equal.
        (Component::Abs, listed(&[&[-256, 256, 512, 0, -512]]), 107, "{+256, +512, +0}"),
        // 128 values over 16 columns: neither their own repeats nor those of the results are counted.
        (Component::Abs, over(16, &sevens), 224, &sixteen("{+7}")),
        (Component::Negative, listed(&[&[3, 3, -3]]), 98, "{-3, +3}"),
        (Component::Negative, over(16, &[7; 128]), 224, &sixteen("{-7}")),
    ] {
        assert_eq!(derived(component, &operand, &operand), Ok((length, wanted.to_string())), "{component}: {operand:?}");
    }
}

/// Neither the operand's repeats nor those that abs makes are counted.
#[test]
fn what_is_left_is_counted() {
    let run: Vec<i64> = (1..=64).collect();
    let repeated: Vec<i64> = run.iter().chain(&run).map(|n| -n).collect();
    let twice = show::nature(&listed(&[&run, &run]).nature);
    for (component, list) in [(Component::Abs, both_signs(64)), (Component::Negative, repeated.clone())] {
        assert_eq!(derived(component, &over(2, &list), &listed(&[])), Ok((1232, twice.clone())), "{component}");
    }
    // One magnitude more.
    let more = [&both_signs(63)[..], &[64, 65]].concat();
    for (component, operand, holds) in [
        (Component::Abs, over(3, &both_signs(64)), "192 (64 + 64 + 64 by list), at most 128, exceeded from column 3 on"),
        (Component::Negative, over(2, &both_signs(64)), "256 (128 + 128 by list), at most 128, exceeded from column 2 on"),
        (Component::Abs, over(2, &more), "130 (65 + 65 by list), at most 128, exceeded from column 2 on"),
        (Component::Negative, over(3, &repeated), "192 (64 + 64 + 64 by list), at most 128, exceeded from column 3 on"),
    ] {
        assert_eq!(shown(component, &operand, &operand), Err(Refusal::TooManyCategories), "{component}: {holds}");
        let text = cause(Refusal::TooManyCategories, component, &operand, &operand);
        assert_eq!(text, format!("categories: operand 128: the result holds {holds}"), "{component}");
    }
}

/// 24 on the last value, also where what stands before it is too much for 26, and 29 before both.
#[test]
fn every_value_is_mapped_before_26_is_tested() {
    let run: Vec<i64> = (1..128).collect();
    let ended = [&run[..], &[LEAST]].concat();
    for component in ALONE {
        for operand in [listed(&[&[1, -1, LEAST]]), over(2, &ended), over(16, &ended), listed(&[&run, &[LEAST]])] {
            assert_eq!(shown(component, &operand, &operand), Err(Refusal::WholeOverflow), "{component}: {operand:?}");
            let text = cause(Refusal::WholeOverflow, component, &operand, &operand);
            let wanted = "category -9223372036854775808: -(-9223372036854775808) = 9223372036854775808 leaves 64 signed bits";
            assert!(text.ends_with(wanted), "{text}");
        }
        let uneven = listed(&[&run, &[LEAST]]).with_columns(3);
        assert_eq!(shown(component, &uneven, &uneven), Err(Refusal::CategoryListCount), "{component}");
    }
}

fn firsts(list: &[i64]) -> Vec<i64> {
    let mut kept = Vec::new();
    for value in list {
        if !kept.contains(value) {
            kept.push(*value);
        }
    }
    kept
}

/// The rule in plain words: the operand's repeats go, each value is mapped, and repeats go again.
fn mapped(component: Component, list: &[i64]) -> Option<Vec<i64>> {
    let rule = |value: &i64| if component == Component::Abs { value.checked_abs() } else { value.checked_neg() };
    let results: Option<Vec<i64>> = firsts(list).iter().map(rule).collect();
    Some(firsts(&results?))
}

/// Every list of up to four of the values.
fn short_lists(values: &[i64]) -> Vec<Vec<i64>> {
    let longer = |lists: &Vec<Vec<i64>>| Some(lists.iter().flat_map(|list| values.iter().map(|v| [&list[..], &[*v]].concat())).collect());
    std::iter::successors(Some(vec![Vec::new()]), longer).take(5).flatten().collect()
}

/// Beside each stands a list that never changes, and keeps what the first one has too.
#[test]
fn every_short_list_is_mapped_by_the_rule() {
    let beside = [-1, 2, 1];
    for (list, component) in short_lists(&[0, 1, -1, 257, -257, -2, LEAST]).iter().flat_map(|list| ALONE.map(|c| (list, c))) {
        let reply = shown(component, &listed(&[list, &beside]), &listed(&[]));
        let lists = mapped(component, list).zip(mapped(component, &beside));
        let wanted = lists.map(|(first, second)| show::nature(&listed(&[&first, &second]).nature));
        assert_eq!(reply, wanted.ok_or(Refusal::WholeOverflow), "{component}: {list:?}");
    }
}

/// Categories of few different values, in one list or in one for each column, so that lists repeat them.
fn repeating(draws: &mut Draws, columns: usize) -> Sheet {
    fn lists<T>(draws: &mut Draws, lists: usize, value: impl Fn(usize) -> T) -> Vec<Vec<T>> {
        (0..lists).map(|_| (0..draws.below(8)).map(|_| value(draws.below(7))).collect()).collect()
    }
    let count = draws.pick(&[1, columns]);
    let nature = match draws.below(3) {
        0 => Nature::WholeCategories(lists(draws, count, |n| n as i64 - 3)),
        1 => Nature::BoolCategories(lists(draws, count, |n| n % 2 == 0)),
        _ => Nature::TextCategories(lists(draws, count, |n| b"a".repeat(n))),
    };
    plain(DataType::Int, nature).with_columns(columns as i64)
}

fn has_repeats(nature: &Nature) -> bool {
    show::items(nature).iter().any(|list| list.iter().collect::<HashSet<_>>().len() < list.len())
}

/// Leaves may repeat a category; a list that is derived never does, of any kind and under any component.
#[test]
fn no_derived_list_has_a_repeat() {
    let mut draws = Draws::new(6);
    let mut seen = BTreeMap::new();
    for _ in 0..6_000 {
        let columns = draws.pick(&[1, 2, 3]);
        let (left, right) = (repeating(&mut draws, columns), repeating(&mut draws, columns));
        for component in Component::ALL {
            let Ok(derived) = derive(component, 2, &left, &right) else {
                continue;
            };
            assert!(!has_repeats(&derived.nature), "{component}: {left:?}, {right:?}");
            let met = seen.entry((derived.nature.name(), component.word())).or_insert([0, 0]);
            met[usize::from(has_repeats(&left.nature))] += 1;
        }
    }
    // Whole lists under seven components, bool lists under pool, texts under add and pool.
    assert!(seen.len() == 10 && seen.values().flatten().all(|count| *count > 100), "{seen:?}");
}

#[test]
fn a_next_step_reads_what_is_left() {
    let mut plan = Plan::new(2);
    let distance = plan.unary(Component::Abs, 0);
    plan.step(Component::Add, distance, distance);
    plan.unary(Component::Negative, 1);
    let walk = plan.walk(&[listed(&[&[-3, 3]]), listed(&[&[4, 4]])]);
    assert_eq!(walk.outcome, Ok(5));
    let natures: Vec<String> = walk.sheets.iter().flatten().map(|sheet| show::nature(&sheet.nature)).collect();
    assert_eq!(natures, ["{-3, +3}", "{+4, +4}", "{+3}", "{+6}", "{-4}"]);
}
