//! Text labels (document 02, S-2): worked examples and traps, to the byte.

use crate::answering::{propagate_properties, propagate_property};
use crate::made::*;

const INT: &[(usize, u8)] = &[(TYPE, 4)];
const FLOAT: &[(usize, u8)] = &[(TYPE, 3)];

fn add(left: &[u8], right: &[u8]) -> Result<Vec<u8>, u32> {
    call(ADD, left, right)
}

fn pool(left: &[u8], right: &[u8]) -> Result<Vec<u8>, u32> {
    call(POOL, left, right)
}

/// What Add makes of two plain sheets with this nature: the call's node.
fn added(mut sheet: Vec<u8>) -> Vec<u8> {
    sheet[72] = 5;
    sheet
}

/// What Pool makes: 2 rows and no order too.
fn pooled(sheet: Vec<u8>) -> Vec<u8> {
    stating(with(added(sheet), &[(ORDERED, 0)]), ROWS, Some(2))
}

/// 0, or the refusal 3 to 5: Pool with itself reads a sheet and is refused for
/// nothing else, unless a test says so.
fn read(sheet: &[u8]) -> u32 {
    pool(sheet, sheet).map_or_else(|code| code, |_| 0)
}

/// The same list by texts that were made.
fn made(list: &[Vec<u8>]) -> Vec<u8> {
    let list: Vec<&[u8]> = list.iter().map(Vec::as_slice).collect();
    t(&list)
}

/// Texts of `length` bytes, each with its number in front.
fn numbered(count: usize, length: usize) -> Vec<Vec<u8>> {
    let text = |number: usize| [vec![number as u8], vec![b'-'; length - 1]].concat();
    (0..count).map(text).collect()
}

fn run_of_a(from: usize, to: usize) -> Vec<Vec<u8>> {
    (from..=to).map(|length| vec![b'a'; length]).collect()
}

#[test]
fn the_bytes_of_a_sheet() {
    let sheet = t(&[b"pump", b"fan"]);
    assert_eq!(
        (sheet.len(), sheet[6], &sheet[26..28]),
        (105, 6, &[7, 0][..])
    );
    assert_eq!(sheet[80..82], [0, 0]);
    assert_eq!(sheet[82..90], [0, 0, 0, 0, 4, 0, 0, 0]);
    assert_eq!(sheet[90..98], [4, 0, 0, 0, 3, 0, 0, 0]);
    assert_eq!(&sheet[98..], b"pumpfan");
    let result = add(&sheet, &t(&[b""])).unwrap();
    assert_eq!(result, added(sheet.clone()));
    assert_eq!(result[25..32], [0, 7, 0, 0, 0, 0, 0]);
    assert_eq!(pool(&sheet, &sheet), Ok(pooled(sheet)));
}

#[test]
fn joins() {
    let result = add(&t(&[b"N", b"S"]), &t(&[b"1", b"2"])).unwrap();
    assert_eq!(result.len(), 124);
    assert_eq!(result, added(t(&[b"N1", b"N2", b"S1", b"S2"])));
    // The left text comes first.
    assert_eq!(add(&t(&[b"1"]), &t(&[b"N"])), Ok(added(t(&[b"1N"]))));
}

/// Equal bytes are one text, wherever the parts meet.
#[test]
fn joins_that_collapse() {
    assert_eq!(
        add(&t(&[b"a", b"ab"]), &t(&[b"bc", b"c"])),
        Ok(added(t(&[b"abc", b"ac", b"abbc"])))
    );
    let empty_and_x = t(&[b"", b"x"]);
    assert_eq!(
        add(&empty_and_x, &empty_and_x),
        Ok(added(t(&[b"", b"x", b"xx"])))
    );
    assert_eq!(
        add(&t(&[b"ab", b"a"]), &t(&[b"", b"b"])),
        Ok(added(t(&[b"ab", b"abb", b"a"])))
    );
    // Of one length, and of one left part, yet different.
    assert_eq!(
        add(&t(&[b"a", b"b"]), &t(&[b"c", b"d"])),
        Ok(added(t(&[b"ac", b"ad", b"bc", b"bd"])))
    );
}

#[test]
fn texts_are_united() {
    assert_eq!(
        pool(&t(&[b"north", b"south"]), &t(&[b"east", b"north", b""])),
        Ok(pooled(t(&[b"north", b"south", b"east", b""])))
    );
}

/// A leaf's list may repeat a text, each with bytes of its own.
#[test]
fn repeats_of_an_operand_go() {
    let twice = t(&[b"a", b"a"]);
    assert_eq!(add(&twice, &t(&[b"b"])), Ok(added(t(&[b"ab"]))));
    assert_eq!(add(&t(&[b"b"]), &twice), Ok(added(t(&[b"ba"]))));
    assert_eq!(pool(&twice, &t(&[b"b"])), Ok(pooled(t(&[b"a", b"b"]))));
    assert_eq!(pool(&t(&[b"b"]), &twice), Ok(pooled(t(&[b"b", b"a"]))));
    // Repeats that are over 1,024 bytes together do not count.
    let long = vec![b'z'; 512];
    assert_eq!(add(&t(&[&long, &long]), &t(&[b""])), Ok(added(t(&[&long]))));
}

#[test]
fn texts_lie_end_to_end() {
    let over_ab = |values: &[(u32, u32)]| read(&text_values(1, &[values], b"ab"));
    assert_eq!(over_ab(&[(0, 2), (2, 0)]), 0);
    assert_eq!(over_ab(&[(0, 0), (0, 2)]), 0);
    for departing in [
        [(1, 1), (0, 1)],
        [(0, 2), (0, 2)],
        [(0, 1), (1, 0)],
        [(0, 0), (1, 1)],
        [(0, 1), (1, 2)],
        [(0, 2), (0, 0)],
        // In 32 bits it would end at 2.
        [(0, u32::MAX), (u32::MAX, 3)],
    ] {
        assert_eq!(over_ab(&departing), 4, "{departing:?}");
    }
    assert_eq!(over_ab(&[(0, u32::MAX), (u32::MAX, 3), (2, 0)]), 4);
    assert_eq!(over_ab(&[]), 4);
    assert_eq!(read(&text_values(1, &[&[]], b"")), 0);
    assert_eq!(read(&text_values(1, &[&[(0, 0)]], b"")), 0);
    assert_eq!(read(&text_values(1, &[&[(0, 1)]], b"")), 4);
    assert_eq!(read(&text_values(1, &[&[(1, 0)]], b"")), 4);
    // Over all lists, not list by list.
    assert_eq!(read(&text_values(2, &[&[(0, 1)], &[(1, 1)]], b"ab")), 0);
    assert_eq!(read(&text_values(2, &[&[(0, 1)], &[(0, 1)]], b"ab")), 4);
}

/// List numbers are checked as for the other categories.
#[test]
fn list_numbers_of_texts() {
    let sheet = texts(2, &[&[b"a"], &[b"b"]]);
    assert_eq!(read(&sheet), 0);
    assert_eq!(read(&with(sheet.clone(), &[(80, 1), (81, 0)])), 4);
    assert_eq!(read(&with(sheet, &[(81, 2)])), 4);
}

/// The area is part of the length called for under any nature.
#[test]
fn an_area_under_another_nature() {
    let sized = with(w(1, 2), &[(AREA, 1)]);
    assert_eq!((sized.len(), read(&sized)), (98, 3));
    let areas = with_area(w(1, 2), b"x");
    assert_eq!((areas.len(), read(&areas)), (99, 4));
    let mut work = vec![0xee; SLOT];
    work[..98].copy_from_slice(&sized);
    let before = work.clone();
    assert_eq!(propagate_properties(&plan(1, &[]), &mut work), (4, 0));
    assert_eq!(work, before);
    for sheet in [
        absent(),
        list(&[1]),
        lists(4, 1, &[&[1]]),
        lists(5, 1, &[&[1]]),
    ] {
        assert_eq!(read(&with_area(sheet.clone(), b"x")), 4);
        assert_eq!(read(&with(sheet, &[(AREA, 1)])), 3);
    }
}

#[test]
fn an_area_over_1024() {
    let full = vec![b'x'; 1024];
    assert_eq!(read(&t(&[&full])), 0);
    assert_eq!(read(&t(&[&[&full[..], b"y"].concat()])), 3);
    let range = with_area(w(1, 2), &[0; 1025]);
    assert_eq!(range[26..28], [1, 4]);
    assert_eq!(read(&range), 3);
    assert_eq!(read(&with_area(w(1, 2), &full)), 4);
    let sized = with(t(&[&full]), &[(27, 5)]);
    assert_eq!(read(&sized), 3);
}

#[test]
fn the_longest_sheet() {
    let mut list = vec![vec![b'x'; 1024 - 127 * 7]];
    list.extend((0..127).map(|number| format!("{number:07}").into_bytes()));
    let sheet = with(made(&list), &[(RELEASABLE, 0), (0, 4)]);
    let groups = (0..4u8).flat_map(|id| [id, 0, 0, 0]);
    let indexes = (0..4u8).flat_map(|index| [1, index, 0, 0, 0, 0, 0, 0, 0]);
    let mut longest = sheet[..80].to_vec();
    longest.extend(groups.chain(indexes));
    longest.extend(&sheet[80..]);
    assert_eq!(longest.len(), SLOT);
    assert_eq!(pool(&longest, &longest), Ok(pooled(longest.clone())));
    assert_eq!(pool(&longest[..SLOT - 1], &longest), Err(3));
    let mut out = [0x77; SLOT - 1];
    assert_eq!(
        propagate_property(POOL, 5, &longest, &longest, &mut out),
        (27, 0)
    );
    assert_eq!(out, [0x77; SLOT - 1]);
}

#[test]
fn reserved_bytes_and_natures() {
    for place in [25, 28, 29, 30, 31] {
        assert_eq!(read(&with(t(&[b"a"]), &[(place, 1)])), 4, "{place}");
    }
    assert_eq!(read(&with(t(&[b"a"]), &[(6, 7)])), 4);
    assert_eq!(read(&with(t(&[b"a"]), &[(6, 255)])), 4);
}

/// The area belongs to the nature, and the head is written from fields.
#[test]
fn modulo_of_a_text_by_a_range_is_absent() {
    let result = call(MODULO, &with(t(&[b"abc"]), INT), &w(3, 8)).unwrap();
    assert_eq!((result.len(), result), (80, absent()));
    // A range beside texts, and an absent nature, give absent under the others too.
    let text = with(t(&[b"abc"]), INT);
    assert_eq!(add(&text, &w(3, 8)), Ok(added(absent())));
    assert_eq!(add(&w(3, 8), &text), Ok(added(absent())));
    assert_eq!(pool(&text, &w(3, 8)), Ok(pooled(absent())));
    assert_eq!(pool(&absent(), &text), Ok(pooled(absent())));
}

/// Divide's extra nullity is not set by texts.
#[test]
fn a_text_divisor_sets_no_nullity() {
    let empty = with(t(&[b""]), INT);
    assert_eq!(call(DIVIDE, &w(1, 2), &empty), Ok(added(absent())));
    let nullity = with(absent(), &[(NULLITY, 1)]);
    assert_eq!(call(DIVIDE, &w(1, 2), &absent()), Ok(added(nullity)));
}

#[test]
fn components_without_a_rule_are_22() {
    let text = t(&[b"a"]);
    for component in [ABS, SUBTRACT, MULTIPLY, DIVIDE, NEGATIVE] {
        assert_eq!(call(component, &text, &text), Err(22), "{component}");
    }
    let float = with(text.clone(), FLOAT);
    assert_eq!(call(POWER, &float, &float), Err(22));
    let int = with(text, INT);
    assert_eq!(call(POWER, &int, &int), Err(15));
    assert_eq!(call(POWER, &w(1, 2), &int), Err(15));
    assert_eq!(call(MODULO, &int, &int), Err(15));
    assert_eq!(call(MODULO, &w(1, 2), &int), Err(15));
    assert_eq!(call(LOG, &float, &f(2.0, 3.0)), Err(15));
    assert_eq!(call(LOG, &f(2.0, 3.0), &float), Err(15));
}

#[test]
fn kinds_that_differ_are_21() {
    let text = with(t(&[b"a"]), INT);
    let bools = lists(4, 1, &[&[1]]);
    for component in [ADD, SUBTRACT, MULTIPLY, DIVIDE, POOL] {
        assert_eq!(call(component, &text, &list(&[1])), Err(21));
        assert_eq!(call(component, &list(&[1]), &text), Err(21));
        assert_eq!(call(component, &text, &bools), Err(21));
        assert_eq!(call(component, &bools, &text), Err(21));
    }
    let floats = lists(5, 1, &[&[0]]);
    assert_eq!(add(&text, &floats), Err(19));
    assert_eq!(add(&floats, &text), Err(19));
    assert_eq!(add(&texts(1, &[]), &t(&[b"a"])), Err(20));
    assert_eq!(add(&with(texts(1, &[]), INT), &list(&[1])), Err(20));
    assert_eq!(pool(&t(&[b"a"]), &texts(1, &[])), Err(20));
    assert_eq!(call(ABS, &texts(1, &[]), &[]), Err(20));
    // Str is not asked for, only equal types.
    assert_eq!(add(&t(&[b"a"]), &text), Err(14));
    assert_eq!(add(&text, &text), Ok(added(with(t(&[b"aa"]), INT))));
}

#[test]
fn over_1024_bytes_of_text_are_28() {
    let of = |length| vec![b'x'; length];
    let result = add(&t(&[&of(600)]), &t(&[&of(424)])).unwrap();
    assert_eq!((result.len(), &result), (1113, &added(t(&[&of(1024)]))));
    assert_eq!(add(&t(&[&of(600)]), &t(&[&of(425)])), Err(28));
    let others = vec![b'y'; 25];
    assert_eq!(pool(&t(&[&of(1000)]), &t(&[&others])), Err(28));
    assert_eq!(
        pool(&t(&[&of(1000)]), &t(&[&of(1000)])),
        Ok(pooled(t(&[&of(1000)])))
    );
}

/// A list that repeats over columns has its texts each time.
#[test]
fn text_is_counted_as_written() {
    let of = |length: usize| vec![b'x'; length];
    let empty = texts(4, &[&[b""]]);
    let whole = of(256);
    let result = add(&texts(4, &[&[&whole]]), &empty).unwrap();
    let wanted = texts(4, &[&[&whole[..]][..]; 4]);
    assert_eq!((result.len(), &result), (1140, &added(wanted)));
    assert_eq!(add(&texts(4, &[&[&of(257)]]), &empty), Err(28));
    assert_eq!(add(&t(&[&of(257)]), &empty), Err(28));
    assert_eq!(pool(&texts(4, &[&[&of(257)]]), &empty), Err(28));
}

#[test]
fn over_128_come_before_28() {
    let (twelve, eleven) = (made(&numbered(12, 50)), made(&numbered(11, 50)));
    assert_eq!(add(&twelve, &eleven), Err(26));
    assert_eq!(add(&eleven, &eleven), Err(28));
}

/// Joins that collapse are counted once: 400 pairs, 39 texts.
#[test]
fn powers_of_a() {
    let twenty = made(&run_of_a(0, 19));
    let result = add(&twenty, &twenty).unwrap();
    assert_eq!(
        (result.len(), result),
        (1172, added(made(&run_of_a(0, 38))))
    );
    let thirty = made(&run_of_a(0, 29));
    assert_eq!(add(&thirty, &thirty), Err(28));
}

#[test]
fn the_rows_come_before_28() {
    let most = stating(t(&[&[b'x'; 1000]]), ROWS, Some(i64::MAX));
    let more = t(&[&[b'y'; 25]]);
    assert_eq!(pool(&most, &more), Err(24));
    assert_eq!(pool(&stating(most, ROWS, Some(1)), &more), Err(28));
}

/// Any bytes are permitted, and compared as bytes.
#[test]
fn no_utf_8_is_asked_for() {
    let euro = t(&[&[0xe2, 0x82, 0xac]]);
    assert_eq!(add(&t(&[&[0xe2, 0x82]]), &t(&[&[0xac]])), Ok(added(euro)));
    let (composed, marked) = ("\u{e9}".as_bytes(), "e\u{301}".as_bytes());
    assert_eq!(
        pool(&t(&[composed]), &t(&[marked])),
        Ok(pooled(t(&[composed, marked])))
    );
}

/// Each column has its list, and two lists go with no third column.
#[test]
fn lists_meet_column_by_column() {
    let left = |columns| texts(columns, &[&[b"a", b"b"], &[b"", b"c"]]);
    let right = |columns| texts(columns, &[&[b"x"]]);
    assert_eq!(
        add(&left(2), &right(2)),
        Ok(added(texts(2, &[&[b"ax", b"bx"], &[b"x", b"cx"]])))
    );
    assert_eq!(
        pool(&left(2), &right(2)),
        Ok(pooled(texts(2, &[&[b"a", b"b", b"x"], &[b"", b"c", b"x"]])))
    );
    assert_eq!(add(&left(3), &right(3)), Err(29));
    assert_eq!(pool(&left(3), &right(3)), Err(29));
}

#[test]
fn slots_have_2308_bytes() {
    let one = plan(1, &[]);
    let mut work = vec![0xee; 2308];
    work[..105].copy_from_slice(&t(&[b"pump", b"fan"]));
    let before = work.clone();
    assert_eq!(propagate_properties(&one, &mut work[..2307]), (27, 65_535));
    assert_eq!(propagate_properties(&one, &mut work), (0, 1));
    assert_eq!(work, before);
}

#[test]
fn a_plan_that_joins_and_pools() {
    let leaves = [t(&[b"N", b"S"]), t(&[b"1"])];
    let mut work = vec![0xee; 5 * SLOT];
    for (slot, leaf) in work.chunks_exact_mut(SLOT).zip(&leaves) {
        slot[..leaf.len()].copy_from_slice(leaf);
    }
    let before = work.clone();
    let steps = [(ADD, 0, 1), (POOL, 2, 0), (SUBTRACT, 3, 3)];
    assert_eq!(propagate_properties(&plan(2, &steps), &mut work), (22, 4));
    let joined = call_as(2, ADD, &leaves[0], &leaves[1]).unwrap();
    let united = call_as(3, POOL, &joined, &leaves[0]).unwrap();
    assert_eq!(united[80..], t(&[b"N1", b"S1", b"N", b"S"])[80..]);
    let mut wanted = before;
    wanted[2 * SLOT..][..joined.len()].copy_from_slice(&joined);
    wanted[3 * SLOT..][..united.len()].copy_from_slice(&united);
    assert_eq!(work, wanted);
}
