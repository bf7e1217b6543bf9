//! Document 01's worked examples and a few traps, on sheets laid out by hand.

use crate::answering::{propagate_properties, propagate_property};
use crate::made::{call, call_as, list, plan, range, w, SLOT};
use plain_port::check_sheet;

/// The nature's bytes of a result: sizes, nature, and what follows the head.
fn nature(sheet: &[u8]) -> (&[u8], &[u8]) {
    (&sheet[..7], &sheet[80..])
}

fn gives(component: u32, left: &[u8], right: &[u8], wanted: &[u8]) {
    let found = call(component, left, right).unwrap();
    assert_eq!(nature(&found), nature(wanted));
    assert_eq!(check_sheet(&found), check_sheet(wanted));
}

#[test]
fn ranges() {
    gives(1, &w(-5, 3), &[], &w(-3, 5));
    gives(1, &w(-7, -2), &[], &w(2, 7));
    gives(1, &w(0, 5), &[], &w(-5, 5));
    gives(2, &w(1, 2), &w(10, 20), &w(11, 22));
    gives(3, &w(0, 1), &w(0, 5), &w(-5, 1));
    gives(4, &w(-2, 3), &w(4, 5), &w(-10, 15));
    gives(5, &w(-7, 7), &w(2, 3), &w(-3, 3));
    gives(5, &w(1, 10), &w(0, 5), &range(1, &[(None, Some(2))]));
    gives(6, &w(1, 2), &w(3, 8), &w(0, 7));
    gives(
        9,
        &range(1, &[(Some(-5), None)]),
        &[],
        &range(1, &[(None, Some(5))]),
    );
}

#[test]
fn refusals() {
    assert_eq!(call(5, &w(1, 10), &range(1, &[(None, Some(5))])), Err(23));
    assert_eq!(call(6, &w(1, 2), &w(0, 8)), Err(16));
    assert_eq!(call(9, &w(i64::MIN, 0), &[]), Err(24));
    assert_eq!(call(1, &w(1 << 62, 1 << 62), &[]), Err(24));
    assert_eq!(call(0, &[], &[]), Err(2));
    assert_eq!(call(11, &[], &[]), Err(2));
    assert_eq!(call(200, &[], &[]), Err(2));
    assert_eq!(call(u32::MAX, &[], &[]), Err(2));
    assert_eq!(call(2, &w(2, 1), &[]), Err(5));
    assert_eq!(call(2, &w(1, 2), &[]), Err(3));
    assert_eq!(call(8, &list(&[2]), &list(&[3])), Err(15));
    assert_eq!(check_sheet(&range(16, &[(None, None)])), 0);
    assert_eq!(check_sheet(&range(17, &[(None, None)])), 4);
}

#[test]
fn categories() {
    gives(2, &list(&[1, 2]), &list(&[10, 11]), &list(&[11, 12, 13]));
    gives(1, &list(&[-3, 3]), &[], &list(&[3]));
    gives(9, &list(&[3, 3]), &[], &list(&[-3]));
    gives(3, &list(&[5, 1]), &list(&[1, 5]), &list(&[4, 0, -4]));
    assert_eq!(call(5, &list(&[1]), &list(&[0])), Err(24));
    let (hundred, short): (Vec<i64>, Vec<i64>) = ((0..100).collect(), (0..29).collect());
    assert!(call(2, &list(&hundred), &list(&short)).is_ok());
    let long: Vec<i64> = (0..30).collect();
    assert_eq!(call(2, &list(&hundred), &list(&long)), Err(26));
    let overflowing: Vec<i64> = (0..100).chain([i64::MAX]).collect();
    assert_eq!(call(2, &list(&overflowing), &list(&long)), Err(24));
}

#[test]
fn a_short_output_is_27_at_last() {
    let mut out = [0; 97];
    assert_eq!(
        propagate_property(2, 0, &w(1, 2), &w(3, 4), &mut out),
        (27, 0)
    );
    assert_eq!(
        propagate_property(9, 0, &w(i64::MIN, 0), &[], &mut []),
        (24, 0)
    );
    assert_eq!(out, [0; 97]);
}

#[test]
fn plans() {
    let mut work = vec![0xee; 4 * SLOT];
    work[..98].copy_from_slice(&w(0, 1));
    work[SLOT..SLOT + 98].copy_from_slice(&w(0, 5));
    let before = work.clone();
    assert_eq!(
        propagate_properties(&plan(2, &[(3, 0, 1), (1, 2, 2)]), &mut work),
        (0, 4)
    );
    let first = call_as(2, 3, &w(0, 1), &w(0, 5)).unwrap();
    let second = call_as(3, 1, &first, &[]).unwrap();
    let mut after = before.clone();
    after[2 * SLOT..2 * SLOT + 98].copy_from_slice(&first);
    after[3 * SLOT..3 * SLOT + 98].copy_from_slice(&second);
    assert_eq!(work, after);
    work.clone_from(&before);
    for malformed in [
        plan(2, &[(3, 0, 1), (1, 2, 1)]),
        plan(2, &[(3, 0, 2)]),
        plan(2, &[(0, 0, 1)]),
        plan(0, &[]),
        plan(33, &[]),
        vec![1, 0, 1, 0, 0],
    ] {
        assert_eq!(propagate_properties(&malformed, &mut work), (1, 65_535));
    }
    assert_eq!(propagate_properties(&plan(5, &[]), &mut work), (27, 65_535));
    assert_eq!(propagate_properties(&plan(2, &[]), &mut work), (0, 2));
    // The third slot is filler: its sizes are over their limits.
    assert_eq!(propagate_properties(&plan(3, &[]), &mut work), (3, 2));
    assert_eq!(work, before);
}
