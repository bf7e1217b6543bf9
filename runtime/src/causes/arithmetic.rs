//! Causes of 24: the numbers that a component computes.

use super::Pair;
use crate::component::Component;
use crate::nature::{Bound, Nature};
use crate::show;

/// An operation as people write it, and its exact result; none for a division by zero.
struct Operation {
    text: String,
    result: Option<i128>,
}

impl Operation {
    /// What is wrong with it, if it is refused with 24.
    fn fault(&self) -> Option<String> {
        match self.result {
            None => Some(format!("{} divides by zero", self.text)),
            Some(n) if i64::try_from(n).is_err() => Some(format!("{} = {n} leaves 64 signed bits", self.text)),
            _ => None,
        }
    }
}

/// A negative number in brackets, so that its sign is not read as an operator.
fn bracketed(n: i128) -> String {
    if n < 0 {
        format!("({n})")
    } else {
        n.to_string()
    }
}

fn negation(a: i128) -> Operation {
    Operation { text: format!("-{}", bracketed(a)), result: Some(-a) }
}

/// Ends and categories have 64 bits, so that no 128-bit operation overflows.
fn operation(component: Component, a: i128, b: i128) -> Operation {
    let (sign, result) = match component {
        Component::Add => ("+", Some(a + b)),
        Component::Subtract => ("-", Some(a - b)),
        Component::Multiply => ("*", Some(a * b)),
        _ => ("/", a.checked_div(b)),
    };
    Operation { text: format!("{} {sign} {}", bracketed(a), bracketed(b)), result }
}

type WholeEnds = (Option<i128>, Option<i128>);

fn whole_ends((lower, upper): (Bound, Bound)) -> WholeEnds {
    let whole = |bound| match bound {
        Bound::Whole(end) => Some(i128::from(end)),
        _ => None,
    };
    (whole(lower), whole(upper))
}

impl Pair<'_> {
    /// 24, of the first column or pair that meets it.
    pub(super) fn overflow(&self) -> Vec<String> {
        if self.component == Component::Pool {
            return self.rows_overflow().into_iter().collect();
        }
        if let Nature::WholeCategories(_) = self.left.sheet.nature {
            return self.category_overflow().into_iter().collect();
        }
        let cause = |column: usize| {
            let left = self.left.sheet.nature.entry_for(column)?;
            let right = self.right.sheet.nature.entry_for(column)?;
            let operations = range_operations(self.component, whole_ends(left), whole_ends(right));
            let fault = operations.iter().find_map(Operation::fault)?;
            Some(format!("column {}: {}: {fault}", column + 1, self.column_of(left, right)))
        };
        (0..self.columns()).find_map(cause).into_iter().collect()
    }

    /// Pool computes no end and no category: its 24 is the rows' sum.
    fn rows_overflow(&self) -> Option<String> {
        let sum = operation(Component::Add, self.left.sheet.rows?.into(), self.right.sheet.rows?.into());
        let fault = sum.fault()?;
        Some(format!("{}: {fault}", self.both("rows", |s| show::optional(s.rows))))
    }

    fn category_overflow(&self) -> Option<String> {
        let (left, right) = (wholes(&self.left.sheet.nature), wholes(&self.right.sheet.nature));
        for (column, (left, right)) in self.lists_that_meet(left, right).into_iter().enumerate() {
            let fault = first_fault(self.component, left, right);
            if let Some(fault) = fault {
                return Some(format!("list {}: {fault}", column + 1));
            }
        }
        None
    }
}

/// The lists of whole categories.
pub(super) fn wholes(nature: &Nature) -> &[Vec<i64>] {
    match nature {
        Nature::WholeCategories(lists) => lists,
        _ => &[],
    }
}

fn first_fault(component: Component, left: &[i64], right: &[i64]) -> Option<String> {
    for &a in left {
        if component.is_unary() {
            let fault = (a < 0 || component == Component::Negative).then(|| negation(a.into()).fault());
            if let Some(fault) = fault.flatten() {
                return Some(format!("category {}: {fault}", show::whole(a)));
            }
            continue;
        }
        for &b in right {
            if let Some(fault) = operation(component, a.into(), b.into()).fault() {
                let pair = format!("categories {} and {}", show::whole(a), show::whole(b));
                return Some(format!("{pair}: {fault}"));
            }
        }
    }
    None
}

/// The operations that a column's end rule takes, in order. In add and subtract an end that lacks one of its two is absent, and takes none.
fn range_operations(component: Component, left: WholeEnds, right: WholeEnds) -> Vec<Operation> {
    let pick = |a: Option<i128>, b: Option<i128>| Some(operation(component, a?, b?));
    match component {
        Component::Abs => abs_operations(left),
        Component::Negative => [left.1, left.0].into_iter().flatten().map(negation).collect(),
        Component::Add => [pick(left.0, right.0), pick(left.1, right.1)].into_iter().flatten().collect(),
        Component::Subtract => [pick(left.0, right.1), pick(left.1, right.0)].into_iter().flatten().collect(),
        _ => corners(component, left, right),
    }
}

fn abs_operations((lower, upper): WholeEnds) -> Vec<Operation> {
    let (Some(lower), Some(upper)) = (lower, upper) else {
        return Vec::new();
    };
    let mut taken = Vec::new();
    if lower <= 0 {
        taken.push(negation(upper));
    }
    taken.push(operation(Component::Add, lower, upper));
    if lower + upper <= 0 {
        taken.push(negation(lower));
    }
    taken
}

/// Products of all corners, or quotients by the divisor ends that are not zero.
fn corners(component: Component, left: WholeEnds, right: WholeEnds) -> Vec<Operation> {
    let (Some(a), Some(c), Some(d), Some(f)) = (left.0, left.1, right.0, right.1) else {
        return Vec::new();
    };
    if component == Component::Multiply {
        return [(a, d), (a, f), (c, d), (c, f)].map(|(x, y)| operation(component, x, y)).into();
    }
    let divisors: Vec<i128> = match (d, f) {
        _ if d > 0 || f < 0 => vec![f, d],
        (0, 0) => Vec::new(),
        (0, f) => vec![f],
        (d, 0) => vec![d],
        _ => Vec::new(),
    };
    let quotients = |x: i128| divisors.iter().map(move |&y| operation(component, x, y)).collect::<Vec<_>>();
    quotients(a).into_iter().chain(quotients(c)).collect()
}
