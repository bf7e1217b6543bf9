//! Pool (document 02, S-1): its worked examples and traps, to the byte.

use crate::answering::{propagate_properties, propagate_property};
use crate::made::*;
use plain_port::check_sheet;

fn pool(left: &[u8], right: &[u8]) -> Result<Vec<u8>, u32> {
    call(POOL, left, right)
}

/// What Pool makes of two plain sheets with this nature: 2 rows, not ordered,
/// and the call's node.
fn pooled(sheet: Vec<u8>) -> Vec<u8> {
    let mut sheet = stating(with(sheet, &[(ORDERED, 0)]), ROWS, Some(2));
    sheet[72] = 5;
    sheet
}

fn private(sheet: Vec<u8>) -> Vec<u8> {
    with(sheet, &[(RELEASABLE, 0)])
}

fn rows(sheet: Vec<u8>, rows: i64) -> Vec<u8> {
    stating(sheet, ROWS, Some(rows))
}

fn run(from: i64, to: i64) -> Vec<i64> {
    (from..=to).collect()
}

#[test]
fn ends_are_the_outer_ones() {
    let result = pool(&w(1, 2), &w(-3, 5)).unwrap();
    assert_eq!((result.len(), &result), (98, &pooled(w(-3, 5))));
    let half = |entry| range(1, &[entry]);
    let (some, none) = (Some, None);
    assert_eq!(
        pool(&half((some(1), none)), &w(-3, 5)),
        Ok(pooled(half((some(-3), none))))
    );
    assert_eq!(
        pool(&half((none, some(4))), &half((none, some(9)))),
        Ok(pooled(half((none, some(9)))))
    );
    assert_eq!(
        pool(&half((none, none)), &w(1, 2)),
        Ok(pooled(half((none, none))))
    );
}

/// One entry goes with every column, and each column has its own ends.
#[test]
fn columns_are_taken_one_by_one() {
    let left = range(2, &[(Some(1), Some(2))]);
    let right = range(2, &[(Some(-3), Some(1)), (Some(2), None)]);
    let wanted = range(2, &[(Some(-3), Some(2)), (Some(1), None)]);
    assert_eq!(pool(&left, &right), Ok(pooled(wanted)));
}

#[test]
fn left_s_end_stands_on_a_tie() {
    let (left, right) = (f(-1.0, -0.0), f(-2.0, 0.0));
    assert_eq!(pool(&left, &right), Ok(pooled(f(-2.0, -0.0))));
    assert_eq!(pool(&right, &left), Ok(pooled(f(-2.0, 0.0))));
    let (left, right) = (f(0.0, 1.0), f(-0.0, 2.0));
    assert_eq!(pool(&left, &right), Ok(pooled(f(0.0, 2.0))));
    assert_eq!(pool(&right, &left), Ok(pooled(f(-0.0, 2.0))));
}

#[test]
fn any_difference_of_columns_is_12() {
    let two = range(2, &[(Some(1), Some(2))]);
    assert_eq!(pool(&w(1, 2), &two), Err(12));
    assert_eq!(pool(&two, &w(1, 2)), Err(12));
    assert!(call(2, &w(1, 2), &two).is_ok());
    assert_eq!(pool(&two, &stating(w(1, 2), COLUMNS, None)), Err(11));
    assert_eq!(pool(&stating(w(1, 2), COLUMNS, None), &two), Err(11));
}

#[test]
fn categories_are_united() {
    assert_eq!(
        pool(&list(&[3, 1, 3]), &list(&[1, 2])),
        Ok(pooled(list(&[3, 1, 2])))
    );
    let bools = |values: &[i64]| lists(4, 1, &[values]);
    assert_eq!(
        pool(&bools(&[1]), &bools(&[0, 1])),
        Ok(pooled(bools(&[1, 0])))
    );
    let float = lists(5, 1, &[&[0]]);
    assert_eq!(pool(&list(&[1]), &float), Err(19));
    assert_eq!(pool(&float, &list(&[1])), Err(19));
    assert_eq!(pool(&list(&[1]), &bools(&[1])), Err(21));
    assert_eq!(pool(&lists(3, 1, &[]), &bools(&[1])), Err(20));
    assert_eq!(pool(&list(&[1]), &lists(4, 1, &[])), Err(20));
    let two = |columns| lists(3, columns, &[&[1], &[2]]);
    assert_eq!(pool(&two(3), &lists(3, 3, &[&[5]])), Err(29));
    assert_eq!(
        pool(&two(2), &lists(3, 2, &[&[5]])),
        Ok(pooled(lists(3, 2, &[&[1, 5], &[2, 5]])))
    );
    assert_eq!(
        pool(&lists(3, 2, &[&[1]]), &lists(3, 2, &[&[2, 1]])),
        Ok(pooled(lists(3, 2, &[&[1, 2], &[1, 2]])))
    );
}

/// The rows' sum is tested under every nature, behind 17 to 21 and 29, and before 26.
#[test]
fn rows_are_the_sum() {
    let most = i64::MAX;
    assert_eq!(pool(&rows(w(1, 2), most), &w(1, 2)), Err(24));
    assert_eq!(pool(&rows(absent(), most), &w(1, 2)), Err(24));
    assert_eq!(pool(&rows(w(1, 2), most), &list(&[1])), Err(24));
    assert_eq!(pool(&rows(w(1, 2), i64::MIN), &rows(w(1, 2), -1)), Err(24));
    assert_eq!(
        pool(&rows(w(1, 2), most), &rows(w(1, 2), i64::MIN)),
        Ok(rows(pooled(w(1, 2)), -1))
    );
    let unknown = stating(w(1, 2), ROWS, None);
    assert_eq!(
        pool(&rows(w(1, 2), most), &unknown),
        Ok(stating(pooled(w(1, 2)), ROWS, None))
    );
    let entries = |count| range(3, &vec![(Some(1), Some(2)); count]);
    assert_eq!(pool(&rows(entries(2), most), &entries(1)), Err(18));
    assert_eq!(
        pool(&rows(w(1, 2), most), &with(f(1.0, 2.0), &[(TYPE, 4)])),
        Err(17)
    );
    assert_eq!(
        pool(&rows(list(&[1]), most), &lists(4, 1, &[&[1]])),
        Err(21)
    );
}

#[test]
fn over_128_categories_are_26() {
    let hundred = list(&run(0, 99));
    assert_eq!(pool(&hundred, &list(&run(100, 129))), Err(26));
    assert_eq!(
        pool(
            &rows(hundred.clone(), i64::MAX),
            &rows(list(&run(100, 129)), 5)
        ),
        Err(24)
    );
    assert_eq!(
        pool(&hundred, &list(&run(28, 127))),
        Ok(pooled(list(&run(0, 127))))
    );
}

#[test]
fn fields_of_private_logs() {
    let log = |dataset, rows, stability| {
        let log = with(private(w(1, 2)), &[(STABILITY, stability)]);
        stating(stating(log, DATASET, Some(dataset)), ROWS, Some(rows))
    };
    let wanted = with(private(pooled(w(1, 2))), &[(STABILITY, 3)]);
    assert_eq!(
        pool(&log(1, 96, 1), &log(2, 40, 3)),
        Ok(stating(wanted, ROWS, Some(136)))
    );
}

/// Either, both, the greater, or gone.
#[test]
fn fields_of_mixed_operands() {
    let left = with(w(1, 2), &[(NULLITY, 1), (AGGREGATOR, 9), (STABILITY, 7)]);
    let left = stating(stating(left, SAMPLE, Some(3)), DATASET, Some(4));
    let right = grouped(private(with(w(1, 2), &[(NOT_EMPTY, 1)])), 6);
    let right = stating(right, DIMENSIONS, Some(-4));
    let wanted = [(NULLITY, 1), (NOT_EMPTY, 1), (STABILITY, 7)];
    let wanted = with(private(pooled(grouped(w(1, 2), 6))), &wanted);
    let wanted = stating(wanted, DIMENSIONS, Some(-4));
    assert_eq!(pool(&left, &right), Ok(wanted.clone()));
    assert_eq!(pool(&right, &left), Ok(wanted));
}

#[test]
fn the_order_of_the_checks() {
    let sampled = stating(private(w(1, 2)), SAMPLE, Some(0.5f64.to_bits() as i64));
    let aggregated = with(private(w(1, 2)), &[(AGGREGATOR, 1)]);
    assert_eq!(pool(&sampled, &aggregated), Err(7));
    assert_eq!(pool(&aggregated, &sampled), Err(6));
    assert_eq!(pool(&aggregated, &[]), Err(3));
    assert_eq!(pool(&w(2, 1), &[]), Err(5));
    assert_eq!(pool(&[], &[]), Err(3));
    let group = grouped(stating(private(w(1, 2)), COLUMNS, None), 1);
    assert_eq!(pool(&group, &private(w(1, 2))), Err(8));
    let two = range(2, &[(Some(1), Some(2))]);
    assert_eq!(pool(&w(1, 2), &with(two, &[(TYPE, 3)])), Err(12));
    assert_eq!(pool(&w(1, 2), &f(1.0, 2.0)), Err(14));
}

#[test]
fn mixed_natures_are_absent() {
    assert_eq!(pool(&w(1, 2), &list(&[1])), Ok(pooled(absent())));
    assert_eq!(pool(&absent(), &lists(5, 1, &[])), Ok(pooled(absent())));
}

#[test]
fn an_output_of_97_bytes_is_27() {
    let mut out = [0x77; 97];
    let reply = propagate_property(POOL, 5, &w(1, 2), &w(-3, 5), &mut out);
    assert_eq!((reply, out), ((27, 0), [0x77; 97]));
}

#[test]
fn a_plan_that_pools() {
    let mut work = vec![0xee; 4 * SLOT];
    work[..98].copy_from_slice(&w(0, 3));
    work[SLOT..SLOT + 98].copy_from_slice(&w(10, 12));
    let before = work.clone();
    let steps = [(POOL, 0, 1), (4, 2, 2)];
    assert_eq!(propagate_properties(&plan(2, &steps), &mut work), (0, 4));
    let sheet = |node: usize| &work[SLOT * node..SLOT * node + 98];
    assert_eq!(sheet(2), call_as(2, POOL, &w(0, 3), &w(10, 12)).unwrap());
    assert_eq!(sheet(2)[80..], w(0, 12)[80..]);
    assert_eq!(sheet(3)[80..], w(0, 144)[80..]);
    assert_eq!((check_sheet(sheet(2)), check_sheet(sheet(3))), (0, 0));
    work.clone_from(&before);
    let eleven = plan(2, &[(11, 0, 1)]);
    assert_eq!(propagate_properties(&eleven, &mut work), (1, 65_535));
    assert_eq!(work, before);
}
