//! Subtract of ranges: left's lower less right's upper, left's upper less right's lower, each absent if one of its two is.

use crate::made::{cause, component, float, listed, plain, sheet, shown, whole, Draws};
use gate_runtime::causes::NO_CAUSE;
use gate_runtime::{derive, show, Bound, Component, DataType, Ends, Nature, Plan, Refusal, Sheet};

const LEAST: i64 = i64::MIN;
const MOST: i64 = i64::MAX;

/// One whole entry for each column.
fn columns(entries: &[(Option<i64>, Option<i64>)]) -> Sheet {
    let ends = entries.iter().map(|&(lower, upper)| Ends { lower, upper }).collect();
    plain(DataType::Int, Nature::WholeRange(ends))
}

fn difference(left: &Sheet, right: &Sheet) -> Result<String, Refusal> {
    shown(Component::Subtract, left, right)
}

/// What is shown as the cause of 24, whether or not the call is refused with it.
fn overflow(left: &Sheet, right: &Sheet) -> String {
    cause(Refusal::WholeOverflow, Component::Subtract, left, right)
}

#[test]
fn ends_cross() {
    for (left, right, wanted) in [
        (whole(&[[0, 1]]), whole(&[[0, 5]]), "[-5, +1]"),
        (whole(&[[3, 8]]), whole(&[[1, 2]]), "[+1, +7]"),
        (whole(&[[0, 1]]), whole(&[[0, 1]]), "[-1, +1]"),
        (whole(&[[0, 1], [5, 6]]), whole(&[[1, 2]]), "[-2, +0] [+3, +5]"),
        (whole(&[[-5, -2]]), whole(&[[LEAST, LEAST]]), "[+9223372036854775803, +9223372036854775806]"),
        (float(&[[-0.0, 1.0]]), float(&[[-0.0, 0.0]]), "[-0.0, +1.0]"),
        (float(&[[0.3, 0.4]]), float(&[[0.1, 0.2]]), "[+0.09999999999999998, +0.30000000000000004]"),
        (float(&[[-1.7e308, 1.0]]), float(&[[0.0, 1.7e308]]), "[-overflow, +1.0]"),
        (listed(&[&[7, 2]]), listed(&[&[2, 7]]), "{+5, +0, -5}"),
    ] {
        assert_eq!(difference(&left, &right).as_deref(), Ok(wanted));
    }
}

#[test]
fn an_end_is_absent_if_one_of_its_two_is() {
    for (left, right, wanted) in [
        ((None, Some(9)), (Some(2), Some(3)), "[-inf, +7]"),
        ((Some(4), None), (Some(2), Some(3)), "[+1, +inf]"),
        ((Some(4), Some(9)), (None, Some(3)), "[+1, +inf]"),
        ((Some(4), Some(9)), (Some(2), None), "[-inf, +7]"),
        ((Some(1), Some(5)), (None, None), "[-inf, +inf]"),
        // The ends that would leave 64 bits meet nothing here.
        ((None, Some(MOST)), (None, Some(-1)), "[-inf, +inf]"),
        ((Some(LEAST), None), (Some(1), None), "[-inf, +inf]"),
        ((Some(5), Some(MOST)), (None, Some(-1)), "[+6, +inf]"),
    ] {
        let (left, right) = (columns(&[left]), columns(&[right]));
        assert_eq!(difference(&left, &right).as_deref(), Ok(wanted));
        assert_eq!(overflow(&left, &right), NO_CAUSE, "{wanted}");
    }
}

/// The cause is the first end in the order of derivation, and of the column that is refused.
#[test]
fn a_cause_names_the_end_that_leaves_64_bits() {
    let fitting = (None, Some(MOST));
    for (left, right, wanted) in [
        (vec![(Some(0), Some(0))], (Some(LEAST), Some(LEAST)), "0 - (-9223372036854775808) = 9223372036854775808"),
        (vec![(Some(-1), Some(4))], (Some(LEAST), Some(3)), "4 - (-9223372036854775808) = 9223372036854775812"),
        (vec![fitting], (Some(-1), None), "9223372036854775807 - (-1) = 9223372036854775808"),
        (vec![(Some(-2), Some(MOST))], (Some(-1), Some(MOST)), "(-2) - 9223372036854775807 = -9223372036854775809"),
        (vec![(Some(LEAST), Some(0))], (Some(0), Some(1)), "(-9223372036854775808) - 1 = -9223372036854775809"),
        (vec![fitting, (Some(LEAST), None)], (None, Some(1)), "(-9223372036854775808) - 1 = -9223372036854775809"),
    ] {
        let column = left.len();
        let (left, right) = (columns(&left), columns(&[right]));
        assert_eq!(difference(&left, &right), Err(Refusal::WholeOverflow), "{wanted}");
        let text = overflow(&left, &right);
        assert!(text.starts_with(&format!("column {column}: left [")), "{text}");
        assert!(text.ends_with(&format!(": {wanted} leaves 64 signed bits")), "{text} does not end in {wanted}");
    }
}

/// A next step on a difference is refused with 5 only where a float end became infinite.
#[test]
fn a_next_step_is_refused_for_an_overflow_alone() {
    let walked = |left: Sheet, right: Sheet| {
        let mut plan = Plan::new(2);
        let gap = plan.step(Component::Subtract, 0, 1);
        plan.unary(Component::Abs, gap);
        let walk = plan.walk(&[left, right]);
        let natures: Vec<String> = walk.sheets[2..].iter().flatten().map(|sheet| show::nature(&sheet.nature)).collect();
        (walk.outcome.map_err(|stopped| (stopped.refusal.code(), stopped.node)), natures)
    };
    let of = |natures: &[&str]| natures.iter().map(|text| text.to_string()).collect::<Vec<String>>();
    assert_eq!(walked(whole(&[[0, 1]]), whole(&[[0, 5]])), (Ok(4), of(&["[-5, +1]", "[-1, +5]"])));
    let infinite = walked(float(&[[-1.7e308, 1.0]]), float(&[[0.0, 1.7e308]]));
    assert_eq!(infinite, (Err((5, Some(3))), of(&["[-overflow, +1.0]"])));
}

/// What of a derived range fails 5: whole ends never do, and float ends by being infinite alone.
#[test]
fn no_component_puts_a_lower_end_above_its_upper() {
    let mut draws = Draws::new(16);
    let (mut differences, mut others, mut infinite) = (0, 0, 0);
    for _ in 0..120_000 {
        let (left, right, component) = (sheet(&mut draws), sheet(&mut draws), component(&mut draws));
        let Ok(derived) = derive(component, 2, &left, &right) else {
            continue;
        };
        for entry in (0..derived.nature.lists()).filter_map(|place| derived.nature.entry(place)) {
            match entry {
                (Bound::Whole(lower), Bound::Whole(upper)) => assert!(lower <= upper, "{component}: {left:?}, {right:?}"),
                (Bound::Float(lower), Bound::Float(upper)) => assert!(lower <= upper, "{component}: {left:?}, {right:?}"),
                _ => continue,
            }
            *(if component == Component::Subtract { &mut differences } else { &mut others }) += 1;
            let is_infinite = |bound| matches!(bound, Bound::Float(end) if end.is_infinite());
            infinite += usize::from(is_infinite(entry.0) || is_infinite(entry.1));
        }
    }
    assert!(differences > 100 && others > 1_000 && infinite > 20, "{differences} differences, {others} others, {infinite} infinite");
}
