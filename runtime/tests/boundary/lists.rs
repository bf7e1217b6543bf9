//! Category lists counted (02, S-5): one list or one for each column of the output, where categories are mapped or meet categories.

use crate::made::{but, cause, listed, plain, shown, texts, whole, ALONE};
use gate_runtime::causes::NO_CAUSE;
use gate_runtime::{derive, Component, DataType, Nature, Plan, Refusal, Sheet};

/// Components that take two operands of categories as far as 29.
const PAIRS: [Component; 6] =
    [Component::Add, Component::Subtract, Component::Multiply, Component::Divide, Component::Power, Component::Pool];

/// What is shown as the cause of 29, whether or not the call is refused with it.
fn count_cause(component: Component, left: &Sheet, right: &Sheet) -> String {
    cause(Refusal::CategoryListCount, component, left, right)
}

/// Every kind of categories, each list with one member.
fn kinds(lists: usize) -> [Nature; 4] {
    [
        Nature::WholeCategories(vec![vec![1]; lists]),
        Nature::BoolCategories(vec![vec![true]; lists]),
        Nature::FloatCategories(vec![vec![0.5]; lists]),
        Nature::TextCategories(vec![vec![b"a".to_vec()]; lists]),
    ]
}

/// Sheets of every kind, with no list to four, over one to three columns.
fn sheets(data_type: DataType) -> Vec<Sheet> {
    let counts = (0..=4).flat_map(|lists| (1..=3).map(move |columns| (lists, columns)));
    counts.flat_map(|(lists, columns)| kinds(lists).map(|nature| plain(data_type, nature).with_columns(columns))).collect()
}

/// 19, 20 and 29 of one operand, in this order.
fn of_operand(sheet: &Sheet, columns: i64) -> Option<u32> {
    match (&sheet.nature, sheet.nature.lists() as i64) {
        (Nature::FloatCategories(_), _) => Some(19),
        (_, 0) => Some(20),
        (_, lists) if lists != 1 && lists != columns => Some(29),
        _ => None,
    }
}

/// Holds a call against the number that counts, kinds and sides call for; gives that number.
fn held(component: Component, sides: &[(&str, &Sheet)], columns: i64) -> Option<u32> {
    let (left, right) = (sides[0].1, sides[sides.len() - 1].1);
    let met = sides.iter().find_map(|(role, sheet)| Some((*role, *sheet, of_operand(sheet, columns)?)));
    let differ = left.nature.number() != right.nature.number();
    let wanted = met.map(|(_, _, number)| number).or(differ.then_some(21));
    let reply = derive(component, 2, left, right);
    match (wanted, &reply) {
        (Some(number), Err(refusal)) => assert_eq!(refusal.code(), number, "{component}: {left:?}, {right:?}"),
        (None, Ok(sheet)) => assert_eq!((sheet.columns, sheet.nature.lists() as i64), (Some(columns), columns)),
        (None, Err(refusal)) => assert_eq!(*refusal, Refusal::NoCategoryRule, "{component}: {left:?}, {right:?}"),
        _ => panic!("{component} was accepted: {left:?}, {right:?}"),
    }
    let text = count_cause(component, left, right);
    match met {
        Some((role, sheet, 29)) => {
            assert!(text.starts_with(&format!("{role}: {} category lists", sheet.nature.lists())), "{text}");
            assert!(text.contains(&format!("the output has {columns} column")), "{text}");
        }
        None => assert_eq!(text, NO_CAUSE, "{component}: {left:?}, {right:?}"),
        _ => {}
    }
    wanted
}

/// All counts and kinds: 19, 20 and 29 finish on left before right, and 21 follows.
#[test]
fn two_operands_are_counted_in_order() {
    let mut seen = [0; 30];
    for component in PAIRS {
        let data_type = if component == Component::Power { DataType::Float } else { DataType::Int };
        let sheets = sheets(data_type);
        for (left, right) in sheets.iter().flat_map(|left| sheets.iter().map(move |right| (left, right))) {
            let (l, r) = (left.columns.unwrap(), right.columns.unwrap());
            let columns = match component {
                Component::Power => l,
                Component::Pool if l != r => continue,
                _ if l != r && l != 1 && r != 1 => continue,
                _ => l.max(r),
            };
            let number = held(component, &[("left", left), ("right", right)], columns);
            seen[number.unwrap_or(0) as usize] += 1;
        }
    }
    assert!([0, 19, 20, 21, 29].iter().all(|number| seen[*number] > 300), "{seen:?}");
}

#[test]
fn one_operand_is_counted_by_its_own_columns() {
    let mut seen = [0; 30];
    for sheet in sheets(DataType::Int) {
        for component in ALONE {
            let number = held(component, &[("operand", &sheet)], sheet.columns.unwrap());
            seen[number.unwrap_or(0) as usize] += 1;
        }
    }
    assert!([0, 19, 20, 29].iter().all(|number| seen[*number] > 10), "{seen:?}");
}

#[test]
fn one_list_or_one_for_each_column_is_taken() {
    let three = || listed(&[&[1], &[2], &[3]]);
    let bools = |lists: &[&[bool]]| plain(DataType::Int, Nature::BoolCategories(lists.iter().map(|list| list.to_vec()).collect()));
    for (component, left, right, wanted) in [
        (Component::Abs, listed(&[&[-1, 2]]).with_columns(3), three(), "{+1, +2} {+1, +2} {+1, +2}"),
        (Component::Negative, three(), three(), "{-1} {-2} {-3}"),
        (Component::Add, three(), listed(&[&[10]]), "{+11} {+12} {+13}"),
        // The lists of a single column go with the other's columns.
        (Component::Subtract, listed(&[&[4], &[5]]).with_columns(1), listed(&[&[1]]).with_columns(2), "{+3} {+4}"),
        (Component::Add, listed(&[&[10], &[20], &[30]]).with_columns(1), three(), "{+11} {+22} {+33}"),
        (Component::Pool, three(), listed(&[&[5]]).with_columns(3), "{+1, +5} {+2, +5} {+3, +5}"),
        (Component::Pool, bools(&[&[true], &[false]]), bools(&[&[true]]).with_columns(2), "{true} {false, true}"),
        (Component::Add, texts(&[&["a"], &["b"]]), texts(&[&["c"]]), r#"{"ac"} {"bc"}"#),
    ] {
        assert_eq!(shown(component, &left, &right).as_deref(), Ok(wanted), "{component}");
        assert_eq!(count_cause(component, &left, &right), NO_CAUSE, "{wanted}");
    }
}

/// Where a range or an absent nature meets categories, their lists are not counted, whatever the kind.
#[test]
fn mixed_natures_are_not_counted() {
    let others = [whole(&[[0, 9]]).with_columns(4), plain(DataType::Int, Nature::Absent).with_columns(4)];
    let lists = [0, 2, 3, 16].into_iter().flat_map(kinds);
    for uneven in lists.map(|nature| plain(DataType::Int, nature).with_columns(4)) {
        for component in PAIRS.into_iter().filter(|component| *component != Component::Power) {
            for other in &others {
                for (left, right) in [(&uneven, other), (other, &uneven)] {
                    assert_eq!(shown(component, left, right).as_deref(), Ok("absent"), "{component}: {uneven:?}");
                    assert_eq!(count_cause(component, left, right), NO_CAUSE, "{component}: {uneven:?}");
                }
            }
        }
    }
}

/// Power of type int, modulo and log want a range first (15); power of type float has no rule behind 29 (22).
#[test]
fn components_that_read_bounds_count_lists_under_power_of_type_float_alone() {
    let float = |sheet| but(sheet, |s: &mut Sheet| s.data_type = DataType::Float);
    let (one, two) = (listed(&[&[1]]), listed(&[&[1], &[2]]));
    for component in [Component::Modulo, Component::Power] {
        assert_eq!(shown(component, &one, &two), Err(Refusal::BoundsUnsuited), "{component}");
    }
    assert_eq!(shown(Component::Log, &float(one.clone()), &float(two.clone())), Err(Refusal::BoundsUnsuited));
    assert_eq!(shown(Component::Power, &float(one.clone()), &float(two.clone())), Err(Refusal::CategoryListCount));
    assert_eq!(shown(Component::Power, &float(two), &float(one)), Err(Refusal::NoCategoryRule));
}

/// A leaf's lists are counted by the step that uses them, and by no other.
#[test]
fn a_plan_stops_at_the_step_that_counts() {
    let leaves = [listed(&[&[1], &[2]]).with_columns(3), whole(&[[1, 2]]).with_columns(3)];
    let mut plan = Plan::new(2);
    plan.step(Component::Add, 0, 1);
    let walk = plan.walk(&leaves);
    assert_eq!(walk.outcome, Ok(3));
    assert!(matches!(walk.sheets[2].as_ref().unwrap().nature, Nature::Absent));
    plan.unary(Component::Negative, 0);
    let stopped = plan.walk(&leaves).outcome.unwrap_err();
    assert_eq!((stopped.refusal, stopped.node), (Refusal::CategoryListCount, Some(3)));
}
