//! Where 25 would be looked for (02, S-8): categories under power, modulo and log. Each such call has another answer, and 25 is nobody's.

use crate::made::{but, float, floats_listed, listed, plain, sheet, shown, whole, Draws};
use gate_runtime::{derive, Component, DataType, Nature, Plan, Refusal, Rinks, Sheet, Stopped};
use std::collections::{BTreeSet, HashMap};

/// A component, its operands, and the derived nature or the number of the refusal.
type Asked = (Component, Sheet, Sheet, Result<&'static str, u32>);

fn float_type(sheet: Sheet) -> Sheet {
    but(sheet, |s| s.data_type = DataType::Float)
}

/// Categories on one side or on both.
fn of_categories() -> Vec<Asked> {
    let yes = || plain(DataType::Float, Nature::BoolCategories(vec![vec![true]]));
    let (nine, thirty) = (|| listed(&[&[9]]), || listed(&[&[30]]));
    vec![
        // 9 to the power of 30 leaves 64 bits, and nobody computes it.
        (Component::Power, nine(), thirty(), Err(15)),
        (Component::Power, listed(&[&[i64::MAX]]), listed(&[&[64]]), Err(15)),
        (Component::Power, nine(), whole(&[[30, 30]]), Ok("absent")),
        (Component::Power, whole(&[[2, 2]]), listed(&[&[3]]), Err(15)),
        (Component::Power, float_type(nine()), float_type(thirty()), Err(22)),
        (Component::Power, float_type(listed(&[&[2]])), float_type(listed(&[&[3]])), Err(22)),
        (Component::Power, float_type(listed(&[&[i64::MAX]])), float_type(listed(&[&[64]])), Err(22)),
        (Component::Power, yes(), yes(), Err(22)),
        (Component::Power, floats_listed(), floats_listed(), Err(19)),
        (Component::Power, listed(&[&[2]]), float_type(listed(&[&[3]])), Err(14)),
        (Component::Modulo, listed(&[&[7]]), listed(&[&[2]]), Err(15)),
        (Component::Modulo, float_type(listed(&[&[7]])), float_type(listed(&[&[2]])), Err(15)),
        (Component::Log, float_type(listed(&[&[7]])), float(&[[2.0, 2.0]]), Err(15)),
    ]
}

/// Ranges: no end of a power is computed, so that none leaves 64 bits.
fn of_ranges() -> Vec<Asked> {
    vec![
        (Component::Power, whole(&[[2, 9]]), whole(&[[3, 3]]), Ok("[-inf, +inf]")),
        (Component::Power, whole(&[[2, 9]]), whole(&[[3, 300]]), Ok("[-inf, +inf]")),
        (Component::Power, whole(&[[i64::MAX, i64::MAX]]), whole(&[[i64::MAX, i64::MAX]]), Ok("[-inf, +inf]")),
    ]
}

fn asked() -> impl Iterator<Item = Asked> {
    of_categories().into_iter().chain(of_ranges())
}

#[test]
fn each_call_has_its_answer_and_none_is_25() {
    for (component, left, right, wanted) in asked() {
        let reply = shown(component, &left, &right).map_err(Refusal::code);
        assert_eq!(reply, wanted.map(str::to_string), "{component}: {left:?}, {right:?}");
    }
}

/// The same steps in a plan, and shown to a reader.
#[test]
fn a_plan_and_one_node_of_it_have_the_same_answers() {
    for (component, left, right, wanted) in asked() {
        let mut plan = Plan::new(2);
        let step = plan.step(component, 0, 1);
        let leaves = [left, right];
        let stopped = |number| Stopped { refusal: Refusal::from_code(number).expect("a refusal"), node: Some(step) };
        let walk = plan.walk(&leaves);
        assert_eq!(walk.outcome, wanted.map(|_| 3).map_err(stopped), "{component}: {leaves:?}");
        let shown = plan.reveal(&leaves, &[Rinks::NONE; 2], Rinks::NONE, step);
        assert_eq!(shown.as_ref().err(), walk.outcome.as_ref().err());
        assert_eq!(shown.ok().as_ref(), walk.sheets[step].as_ref());
    }
}

/// Numbers that two category operands can get. Power of type float has no rule; the others stop at 15, or before it.
fn permitted(component: Component, left: &Sheet) -> &'static [u32] {
    match (component, left.data_type) {
        (Component::Power, DataType::Float) => &[6, 7, 14, 11, 19, 20, 29, 21, 22],
        _ => &[6, 7, 14, 15],
    }
}

#[test]
fn two_category_operands_are_never_accepted() {
    let mut draws = Draws::new(20_261_118);
    let mut met: HashMap<(Component, bool), BTreeSet<u32>> = HashMap::new();
    for turn in 0..60_000 {
        let component = [Component::Modulo, Component::Log, Component::Power][turn % 3];
        let (left, mut right) = (sheet(&mut draws), sheet(&mut draws));
        let lists = |sheet: &Sheet| !matches!(sheet.nature, Nature::Absent) && !sheet.nature.is_range();
        if !lists(&left) || !lists(&right) {
            continue;
        }
        if !draws.one_in(4) {
            right.data_type = left.data_type;
        }
        let number = derive(component, 1, &left, &right).expect_err("two category operands").code();
        assert!(permitted(component, &left).contains(&number), "{component}, {number}: {left:?}, {right:?}");
        met.entry((component, left.data_type == DataType::Float)).or_default().insert(number);
    }
    let numbers = |key| met[&key].iter().copied().collect::<Vec<u32>>();
    assert_eq!(numbers((Component::Power, true)), [6, 7, 11, 14, 19, 20, 21, 22, 29]);
    for key in [(Component::Power, false), (Component::Modulo, true), (Component::Modulo, false)] {
        assert_eq!(numbers(key), [6, 7, 14, 15], "{key:?}");
    }
    // Log looks at left's type alone.
    assert_eq!((numbers((Component::Log, true)), numbers((Component::Log, false))), (vec![6, 7, 15], vec![6, 7, 14]));
}
