//! Subtract of ranges (document 02, S-4): left lower - right upper, left upper - right lower, each absent if one of its two is.

use crate::answering::propagate_property;
use crate::made::*;
use crate::walked::{slot, walked, FILLER};
use plain_port::check_sheet;

const MOST: i64 = i64::MAX;

type Ends<T> = (Option<T>, Option<T>);
type Derived<T> = Result<Ends<T>, u32>;

/// Left, right, and what their difference states.
type Row<T> = (Ends<T>, Ends<T>, Derived<T>);

const fn both<T: Copy>(lower: T, upper: T) -> Ends<T> {
    (Some(lower), Some(upper))
}

const fn lower<T: Copy>(end: T) -> Ends<T> {
    (Some(end), None)
}

const fn upper<T: Copy>(end: T) -> Ends<T> {
    (None, Some(end))
}

const WHOLE: [Row<i64>; 13] = [
    (both(0, 1), both(0, 5), Ok(both(-5, 1))),
    (both(3, 8), both(1, 2), Ok(both(1, 7))),
    (upper(9), both(2, 3), Ok(upper(7))),
    (lower(4), both(2, 3), Ok(lower(1))),
    (both(4, 9), upper(3), Ok(lower(1))),
    (both(4, 9), lower(2), Ok(upper(7))),
    (both(1, 5), (None, None), Ok((None, None))),
    (both(0, 0), both(LEAST, LEAST), Err(24)),
    (both(-1, 4), both(LEAST, 3), Err(24)),
    (both(-2, MOST), both(-1, MOST), Err(24)),
    (upper(MOST), upper(-1), Ok((None, None))),
    (upper(MOST), lower(-1), Err(24)),
    // -(-2^63) leaves 64 bits, the differences do not.
    (
        both(-5, -2),
        both(LEAST, LEAST),
        Ok(both(MOST - 4, MOST - 1)),
    ),
];

const FLOAT: [Row<f64>; 8] = [
    (both(-0.0, 1.0), both(-0.0, 0.0), Ok(both(-0.0, 1.0))),
    (
        both(0.3, 0.4),
        both(0.1, 0.2),
        Ok(both(0.09999999999999998, 0.30000000000000004)),
    ),
    (upper(9.0), both(2.0, 3.0), Ok(upper(7.0))),
    (lower(4.0), both(2.0, 3.0), Ok(lower(1.0))),
    (both(4.0, 9.0), upper(3.0), Ok(lower(1.0))),
    (both(4.0, 9.0), lower(2.0), Ok(upper(7.0))),
    (both(1.0, 5.0), (None, None), Ok((None, None))),
    (
        both(-1.7e308, 1.0),
        both(0.0, 1.7e308),
        Ok(both(f64::NEG_INFINITY, 1.0)),
    ),
];

fn subtract(left: &[u8], right: &[u8]) -> Result<Vec<u8>, u32> {
    call(SUBTRACT, left, right)
}

/// What Subtract makes of two plain sheets: this nature, and the node of `call`.
fn numbered(sheet: Vec<u8>) -> Vec<u8> {
    with(sheet, &[(NODE, 5)])
}

fn whole(ends: Ends<i64>) -> Vec<u8> {
    range(1, &[ends])
}

fn bits((lower, upper): Ends<f64>) -> Bits {
    (lower.map(f64::to_bits), upper.map(f64::to_bits))
}

fn float(ends: Ends<f64>) -> Vec<u8> {
    float_range(1, &[bits(ends)])
}

#[test]
fn whole_ends_cross() {
    for (left, right, wanted) in WHOLE {
        let wanted = wanted.map(|ends| numbered(whole(ends)));
        let found = subtract(&whole(left), &whole(right));
        assert_eq!(found, wanted, "{left:?} - {right:?}");
    }
}

#[test]
fn float_ends_cross() {
    for (left, right, wanted) in FLOAT {
        let wanted = wanted.map(|ends| numbered(float(ends)));
        let found = subtract(&float(left), &float(right));
        assert_eq!(found, wanted, "{left:?} - {right:?}");
    }
}

fn whole_difference(left: i64, right: i64) -> Result<i64, u32> {
    left.checked_sub(right).ok_or(24)
}

/// The four ways to take an end from one of left's and one of right's, 0 for a lower and 1 for an upper.
const CHOICES: [(usize, usize); 4] = [(0, 0), (0, 1), (1, 0), (1, 1)];

/// A rule that takes its ends by these choices.
fn chosen<T: Copy>(
    difference: impl Fn(T, T) -> Result<T, u32>,
    (left, right): (Ends<T>, Ends<T>),
    choices: [(usize, usize); 2],
) -> Derived<T> {
    let (left, right) = ([left.0, left.1], [right.0, right.1]);
    let end = |(l, r): (usize, usize)| match (left[l], right[r]) {
        (Some(l), Some(r)) => difference(l, r).map(Some),
        _ => Ok(None),
    };
    Ok((end(choices[0])?, end(choices[1])?))
}

/// Of the sixteen rules that take each end from one of left's and one of right's, the rows admit one alone, whole and float each for
/// itself: not lower - lower and upper - upper, and not one end crossed without the other.
#[test]
fn no_other_choice_of_ends_passes() {
    for lower in CHOICES {
        for upper in CHOICES {
            let by = [lower, upper];
            let right_one = by == [(0, 1), (1, 0)];
            let holds = WHOLE
                .iter()
                .all(|row| chosen(whole_difference, (row.0, row.1), by) == row.2);
            assert_eq!(holds, right_one, "whole {by:?}");
            let holds = FLOAT.iter().all(|row| {
                let found = chosen(|l: f64, r: f64| Ok(l - r), (row.0, row.1), by);
                found.map(bits) == row.2.map(bits)
            });
            assert_eq!(holds, right_one, "float {by:?}");
        }
    }
}

/// The right answer, each end absent unless a rule has what it asks for.
fn asking(row: &Row<i64>, needs: fn(Ends<i64>, Ends<i64>) -> [bool; 2]) -> Derived<i64> {
    let (left, right, _) = *row;
    let [lower, upper] = needs(left, right);
    let ends = chosen(whole_difference, (left, right), [(0, 1), (1, 0)])?;
    Ok((ends.0.filter(|_| lower), ends.1.filter(|_| upper)))
}

/// Right's negation, added to left.
fn negated_and_added(left: Ends<i64>, right: Ends<i64>) -> Derived<i64> {
    let negated = |end: Option<i64>| end.map(|end| end.checked_neg().ok_or(24u32)).transpose();
    let right = (negated(right.0)?, negated(right.1)?);
    let sum = |l: i64, r: i64| l.checked_add(r).ok_or(24);
    chosen(sum, (left, right), [(0, 1), (1, 0)])
}

/// Rules that ask for more than an end's own two are told apart, and so is adding the negation.
#[test]
fn no_rule_that_asks_for_more_passes() {
    let passes = |needs| WHOLE.iter().all(|row| asking(row, needs) == row.2);
    assert!(passes(|_, _| [true, true]));
    assert!(!passes(|left, _| [left.1.is_some(), true]));
    assert!(!passes(|_, right| [right.0.is_some(), true]));
    assert!(!passes(|left, _| [true, left.0.is_some()]));
    assert!(!passes(|_, right| [true, right.1.is_some()]));
    let apart: Vec<_> = WHOLE
        .iter()
        .filter(|row| negated_and_added(row.0, row.1) != row.2)
        .collect();
    assert_eq!(apart.len(), 1, "{apart:?}");
}

/// Every entry whose ends are absent or among the numbers, in order.
fn entries<T: Copy + PartialOrd>(numbers: &[T]) -> Vec<Ends<T>> {
    let ends = || numbers.iter().copied().map(Some).chain([None]);
    let pairs = ends().flat_map(|lower| ends().map(move |upper| (lower, upper)));
    let ordered = |(lower, upper): &Ends<T>| match (lower, upper) {
        (Some(lower), Some(upper)) => lower <= upper,
        _ => true,
    };
    pairs.filter(ordered).collect()
}

/// By numbers of 128 bits, in which no difference of two ends overflows.
fn in_128_bits(left: Ends<i64>, right: Ends<i64>) -> Derived<i64> {
    let wide = |end: Option<i64>| end.map(i128::from);
    let lower = wide(left.0).zip(wide(right.1)).map(|(a, f)| a - f);
    let upper = wide(left.1).zip(wide(right.0)).map(|(c, d)| c - d);
    let narrow = |end: Option<i128>| end.map(i64::try_from).transpose().map_err(|_| 24u32);
    Ok((narrow(lower)?, narrow(upper)?))
}

/// All pairs of entries at the borders of 64 bits and around zero; and no whole range is inverted.
#[test]
fn every_pair_of_borders() {
    let numbers = [LEAST, LEAST + 1, -5, -2, -1, 0, 1, 4, MOST - 1, MOST];
    let entries = entries(&numbers);
    let (mut refused, mut stated) = (0, [0; 3]);
    for left in &entries {
        for right in &entries {
            let wanted = in_128_bits(*left, *right);
            let found = subtract(&whole(*left), &whole(*right));
            match &found {
                Ok(sheet) => assert_eq!(check_sheet(sheet), 0, "{left:?} - {right:?}"),
                Err(_) => refused += 1,
            }
            if let Ok((lower, upper)) = wanted {
                stated[usize::from(lower.is_some()) + usize::from(upper.is_some())] += 1;
            }
            let wanted = wanted.map(|ends| numbered(whole(ends)));
            assert_eq!(found, wanted, "{left:?} - {right:?}");
        }
    }
    assert_eq!((refused, stated), (2292, [351, 1824, 1309]));
}

/// An end's bits are those of left's plus right's with bit 63 flipped; a result fails 5 by an infinite end alone.
#[test]
fn float_ends_are_sums_with_the_sign_flipped() {
    let mut numbers = vec![0.0, 0.1, 0.3, 1.0, 1.7e308, f64::MAX];
    numbers.extend([f64::MIN_POSITIVE, f64::from_bits(1)]);
    numbers.extend(numbers.clone().into_iter().map(|number: f64| -number));
    let entries = entries(&numbers);
    let (mut finite, mut infinite) = (0, 0);
    let flipped = |end: f64| f64::from_bits(end.to_bits() ^ 1 << 63);
    for left in &entries {
        for right in &entries {
            let lower = left.0.zip(right.1).map(|(a, f)| a + flipped(f));
            let upper = left.1.zip(right.0).map(|(c, d)| c + flipped(d));
            let wanted = numbered(float((lower, upper)));
            let found = subtract(&float(*left), &float(*right));
            assert_eq!(found.as_ref(), Ok(&wanted), "{left:?} - {right:?}");
            let far = [lower, upper].iter().flatten().any(|end| end.is_infinite());
            assert_eq!(check_sheet(&wanted), if far { 5 } else { 0 });
            *(if far { &mut infinite } else { &mut finite }) += 1;
        }
    }
    assert!(finite > 10_000 && infinite > 1_000, "{finite} {infinite}");
}

/// One entry goes with every column, and each column has its own ends.
#[test]
fn columns_are_taken_one_by_one() {
    let left = range(2, &[both(0, 1), both(5, 6)]);
    let wanted = range(2, &[both(-2, 0), both(3, 5)]);
    assert_eq!(subtract(&left, &w(1, 2)), Ok(numbered(wanted)));
    let wanted = range(2, &[both(0, 2), both(-5, -3)]);
    assert_eq!(subtract(&w(1, 2), &left), Ok(numbered(wanted)));
    let halves = range(2, &[lower(0), upper(6)]);
    let wanted = range(2, &[lower(-2), upper(5)]);
    assert_eq!(subtract(&halves, &w(1, 2)), Ok(numbered(wanted)));
    let far = range(2, &[both(5, 6), both(LEAST, 0)]);
    assert_eq!(subtract(&far, &w(1, 2)), Err(24));
}

#[test]
fn categories_and_other_natures_are_as_they_were() {
    let found = subtract(&list(&[7, 2]), &list(&[2, 7]));
    assert_eq!(found, Ok(numbered(list(&[5, 0, -5]))));
    assert_eq!(subtract(&list(&[LEAST]), &list(&[1])), Err(24));
    let nothing = Ok(numbered(absent()));
    assert_eq!(subtract(&w(0, 1), &list(&[5])), nothing);
    assert_eq!(subtract(&list(&[5]), &w(0, 1)), nothing);
    assert_eq!(subtract(&w(0, 1), &absent()), nothing);
}

/// Checks and fields are those of Add; 24 comes behind 18 and before 27.
#[test]
fn all_else_is_as_in_add() {
    let mixed = with(f(0.0, 1.0), &[(TYPE, 4)]);
    let private = |sheet| with(sheet, &[(RELEASABLE, 0)]);
    let (first, second) = (grouped(private(w(1, 2)), 1), grouped(private(w(1, 2)), 2));
    let three = range(2, &[both(LEAST, 0); 3]);
    for (left, right, code) in [
        (w(2, 1), w(1, 2), 5),
        (first, second, 8),
        (stating(w(1, 2), COLUMNS, None), w(1, 2), 11),
        (w(0, 1), f(0.0, 1.0), 14),
        (w(0, 1), mixed, 17),
        (range(2, &[both(1, 1)]), three, 18),
    ] {
        assert_eq!(subtract(&left, &right), Err(code));
        assert_eq!(call(ADD, &left, &right), Err(code));
    }
    let left = with(w(3, 8), &[(NULLITY, 1), (NOT_EMPTY, 1), (ORDERED, 0)]);
    let left = stating(with(left, &[(STABILITY, 7)]), DATASET, Some(4));
    let right = stating(grouped(private(w(1, 2)), 6), DIMENSIONS, Some(-4));
    let sum = call(ADD, &left, &right).unwrap();
    let difference = subtract(&left, &right).unwrap();
    assert_eq!(difference[..93], sum[..93]);
    assert_eq!(difference[93..], w(1, 7)[80..]);
    let mut out = [0x77; 97];
    let reply = propagate_property(SUBTRACT, 5, &w(0, 1), &w(0, 5), &mut out);
    assert_eq!((reply, out), ((27, 0), [0x77; 97]));
    let reply = propagate_property(SUBTRACT, 5, &w(0, 0), &w(LEAST, 0), &mut []);
    assert_eq!(reply, (24, 0));
}

/// A sheet with another node, in its slot.
fn at(node: u8, sheet: Vec<u8>) -> Vec<u8> {
    slot(&with(sheet, &[(NODE, node)]))
}

#[test]
fn a_difference_is_read_by_a_next_step() {
    let leaves = [w(0, 1), w(0, 5)];
    let found = walked(&leaves, &[(SUBTRACT, 0, 1), (ABS, 2, 2)]);
    let slots = vec![
        slot(&leaves[0]),
        slot(&leaves[1]),
        at(2, w(-5, 1)),
        // Abs keeps the node of what it reads.
        at(2, w(-1, 5)),
    ];
    assert_eq!(found, ((0, 4), slots));
}

#[test]
fn a_leaf_less_itself() {
    let found = walked(&[w(0, 1)], &[(SUBTRACT, 0, 0)]);
    let slots = vec![slot(&w(0, 1)), at(1, w(-1, 1))];
    assert_eq!(found, ((0, 2), slots));
}

/// An infinite float end is all that 5 finds on a derived sheet: the step behind it reads the bytes that the one before wrote.
#[test]
fn an_infinite_end_is_refused_by_the_next_step() {
    let leaves = [f(-1.7e308, 1.0), f(0.0, 1.7e308)];
    let derived = call_as(2, SUBTRACT, &leaves[0], &leaves[1]).unwrap();
    assert_eq!(derived[81..89], f64::NEG_INFINITY.to_le_bytes());
    assert_eq!(check_sheet(&derived), 5);
    assert_eq!(call(ABS, &derived, &[]), Err(5));
    assert_eq!(subtract(&leaves[0], &derived), Err(5));
    let (first, second) = (slot(&leaves[0]), slot(&leaves[1]));
    let slots = vec![first, second, slot(&derived), vec![FILLER; SLOT]];
    assert_eq!(derived, with(f(f64::NEG_INFINITY, 1.0), &[(NODE, 2)]));
    for next in [(ABS, 2, 2), (SUBTRACT, 0, 2), (SUBTRACT, 2, 0)] {
        let found = walked(&leaves, &[(SUBTRACT, 0, 1), next]);
        assert_eq!(found, ((5, 3), slots.clone()), "{next:?}");
    }
}

#[test]
fn a_difference_that_leaves_64_bits_is_refused_at_its_step() {
    let leaves = [w(-2, MOST), w(-1, MOST)];
    let found = walked(&leaves, &[(SUBTRACT, 0, 1), (ABS, 2, 2)]);
    let untouched = vec![FILLER; SLOT];
    let (first, second) = (slot(&leaves[0]), slot(&leaves[1]));
    let slots = vec![first, second, untouched.clone(), untouched];
    assert_eq!(found, ((24, 2), slots));
}
