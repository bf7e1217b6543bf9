//! Document 02's text labels (S-2) by the proved calls: layout, joins, unions, and every refusal that text brings.

use crate::made::{but, call, derived, floats_listed, joined, listed, plain, texts, whole};
use gate_runtime::form::plan::SLOT;
use gate_runtime::{propagate_properties, propagate_property, Component, DataType, Nature, Plan, Refusal, Sheet, Stopped};

/// What the plan call says of one leaf.
fn as_leaf(sheet: &[u8]) -> Result<usize, (u32, Option<usize>)> {
    let plan = Plan::new(1);
    let mut work = vec![0xA5; SLOT];
    work[..sheet.len()].copy_from_slice(sheet);
    propagate_properties(&plan.encode(), &mut work).map_err(|Stopped { refusal, node }| (refusal.code(), node))
}

fn int(sheet: Sheet) -> Sheet {
    but(sheet, |s| s.data_type = DataType::Int)
}

fn float(sheet: Sheet) -> Sheet {
    but(sheet, |s| s.data_type = DataType::Float)
}

/// `count` different texts of `length` bytes, which begin with `first`.
fn numbered(first: char, count: usize, length: usize) -> Sheet {
    let list: Vec<String> = (0..count).map(|k| format!("{first}{k:0>width$}", width = length - 1)).collect();
    texts(&[&list])
}

/// One text of so many bytes.
fn long(first: char, length: usize) -> Sheet {
    numbered(first, 1, length)
}

/// The text `a` to the powers below `count`.
fn powers(count: usize) -> Sheet {
    let list: Vec<String> = (0..count).map(|k| "a".repeat(k)).collect();
    texts(&[&list])
}

#[test]
fn a_text_sheet_has_its_layout() {
    let bytes = texts(&[&["pump", "fan"]]).encode();
    assert_eq!((bytes.len(), bytes[6], &bytes[26..28]), (105, 6, &[7, 0][..]));
    assert_eq!(bytes[80..82], [0, 0]);
    assert_eq!(bytes[82..98], [0, 0, 0, 0, 4, 0, 0, 0, 4, 0, 0, 0, 3, 0, 0, 0]);
    assert_eq!(bytes[98..], *b"pumpfan");
    assert_eq!(as_leaf(&bytes), Ok(1));
}

#[test]
fn add_joins_left_text_and_right_text() {
    let add = |left: &[&str], right: &[&str]| derived(Component::Add, &texts(&[left]), &texts(&[right]));
    assert_eq!(add(&["N", "S"], &["1", "2"]), Ok((124, r#"{"N1", "N2", "S1", "S2"}"#.to_string())));
    assert_eq!(add(&["a", "ab"], &["bc", "c"]), Ok((116, r#"{"abc", "ac", "abbc"}"#.to_string())));
    assert_eq!(add(&["", "x"], &["", "x"]), Ok((110, r#"{"", "x", "xx"}"#.to_string())));
    assert_eq!(add(&["a", "a"], &["b", "b", "a"]).unwrap().1, r#"{"ab", "aa"}"#);
    assert_eq!(add(&["é"], &[]), Ok((80, "{}".to_string())));
    let euro = derived(Component::Add, &texts(&[&[b"\xe2\x82"]]), &texts(&[&[b"\xac"]]));
    assert_eq!(euro, Ok((92, r#"{"€"}"#.to_string())));
    // Two spellings of one letter are two texts.
    assert_eq!(derived(Component::Pool, &texts(&[&["é"]]), &texts(&[&["e\u{301}"]])).unwrap().1, r#"{"é", "e\u{301}"}"#);
}

#[test]
fn lists_go_with_columns_as_those_of_other_kinds_do() {
    let (two, one) = (texts(&[&["a"], &["b", "c"]]), texts(&[&["x"]]));
    assert_eq!(derived(Component::Add, &two, &one).unwrap().1, r#"{"ax"} {"bx", "cx"}"#);
    assert_eq!(derived(Component::Add, &one, &two).unwrap().1, r#"{"xa"} {"xb", "xc"}"#);
    assert_eq!(derived(Component::Pool, &two, &two.clone()).unwrap().1, r#"{"a"} {"b", "c"}"#);
    let three = texts(&[&["x"], &["y"], &["z"]]).with_columns(2);
    assert_eq!(derived(Component::Add, &two, &three), Err(Refusal::CategoryListCount));
    assert_eq!(derived(Component::Pool, &three, &two), Err(Refusal::CategoryListCount));
}

#[test]
fn pool_unites_texts() {
    let pooled = derived(Component::Pool, &texts(&[&["N1", "S1", "N1"]]), &texts(&[&["S1", "W2"]]));
    assert_eq!(pooled, Ok((80 + 27 + 6, r#"{"N1", "S1", "W2"}"#.to_string())));
}

/// The sheet of two texts with these values over an area.
fn valued(values: [(u32, u32); 2], area: &str) -> Vec<u8> {
    let mut bytes = texts(&[&[area, ""]]).encode();
    for (place, (start, length)) in values.into_iter().enumerate() {
        bytes[82 + 8 * place..][..8].copy_from_slice(&(u64::from(length) << 32 | u64::from(start)).to_le_bytes());
    }
    bytes
}

#[test]
fn texts_lie_end_to_end_or_the_sheet_is_4() {
    assert_eq!(as_leaf(&valued([(0, 2), (2, 0)], "ab")), Ok(1));
    assert_eq!(as_leaf(&valued([(0, 0), (0, 2)], "ab")), Ok(1));
    let departures =
        [[(1, 1), (0, 1)], [(0, 2), (0, 2)], [(0, 1), (1, 0)], [(0, 0), (1, 1)], [(0, 1), (1, 2)], [(0, u32::MAX), (u32::MAX, 3)]];
    for values in departures {
        let bytes = valued(values, "ab");
        assert_eq!(as_leaf(&bytes), Err((4, Some(0))), "{values:?}");
        assert_eq!(Sheet::decode(&bytes).unwrap_err().refusal, Refusal::FieldValue, "{values:?}");
    }
    // 0 + (2^32 - 1) and a next length of 3 are 2 in 32 bits.
    assert_eq!(as_leaf(&valued([(0, u32::MAX), (u32::MAX, 3)], "ab")), Err((4, Some(0))));
    let no_texts = [but(texts::<&str>(&[&[]]), |_| {}).encode(), vec![b'x']].concat();
    assert_eq!(as_leaf(&with_size(no_texts, 1)), Err((4, Some(0))));
}

/// The sheet with this size of the text area.
fn with_size(mut sheet: Vec<u8>, size: u16) -> Vec<u8> {
    sheet[26..28].copy_from_slice(&size.to_le_bytes());
    sheet
}

#[test]
fn the_areas_size_is_part_of_every_length() {
    let range = whole(&[[1, 2]]).encode();
    let judged = |sheet: &[u8]| propagate_property(9, 0, sheet, &[], &mut [0; SLOT]);
    assert_eq!(judged(&with_size(range.clone(), 1)), Err(Refusal::SheetSize));
    let longer = with_size([range.clone(), vec![b'x']].concat(), 1);
    assert_eq!((longer.len(), judged(&longer)), (99, Err(Refusal::FieldValue)));
    assert_eq!(as_leaf(&with_size(range.clone(), 1)), Err((4, Some(0))));
    let over = with_size([range, vec![0; 1025]].concat(), 1025);
    assert_eq!(judged(&over), Err(Refusal::SheetSize));
    assert_eq!(as_leaf(&over), Err((3, Some(0))));
    assert_eq!(judged(&texts(&[&["a".repeat(1025)]]).encode()), Err(Refusal::SheetSize));
    assert_eq!(as_leaf(&texts(&[&["a".repeat(1024)]]).encode()), Ok(1));
}

#[test]
fn a_derived_sheet_of_another_nature_has_no_area() {
    let left = int(texts(&[&["abc"]]));
    let bytes = call(Component::Modulo, &left, &whole(&[[3, 8]])).unwrap();
    assert_eq!((bytes.len(), bytes[6], &bytes[25..32]), (80, 0, &[0; 7][..]));
    let bytes = call(Component::Add, &left, &whole(&[[3, 8]])).unwrap();
    assert_eq!((bytes.len(), bytes[6], &bytes[25..32]), (80, 0, &[0; 7][..]));
}

#[test]
fn every_other_component_has_no_rule() {
    let text = texts(&[&["a"]]);
    for component in [Component::Abs, Component::Subtract, Component::Multiply, Component::Divide, Component::Negative] {
        assert_eq!(call(component, &text, &text), Err(Refusal::NoCategoryRule), "{component}");
    }
    assert_eq!(call(Component::Power, &float(text.clone()), &float(text.clone())), Err(Refusal::NoCategoryRule));
    for component in [Component::Power, Component::Modulo] {
        assert_eq!(call(component, &int(text.clone()), &int(text.clone())), Err(Refusal::BoundsUnsuited), "{component}");
    }
    assert_eq!(call(Component::Log, &float(text.clone()), &float(whole(&[[2, 3]]))), Err(Refusal::BoundsUnsuited));
    assert_eq!(call(Component::Log, &float(whole(&[[2, 3]])), &float(text.clone())), Err(Refusal::BoundsUnsuited));
}

#[test]
fn kinds_are_told_apart_before_rules() {
    let text = int(texts(&[&["a"]]));
    let bools = plain(DataType::Int, Nature::BoolCategories(vec![vec![true]]));
    for component in [Component::Add, Component::Subtract, Component::Pool] {
        assert_eq!(call(component, &text, &listed(&[&[1]])), Err(Refusal::CategoryKindsDiffer), "{component}");
        assert_eq!(call(component, &bools, &text), Err(Refusal::CategoryKindsDiffer), "{component}");
        assert_eq!(call(component, &text, &int(floats_listed())), Err(Refusal::FloatCategories), "{component}");
        let no_lists = int(texts::<&str>(&[]));
        assert_eq!(call(component, &text, &no_lists), Err(Refusal::NoCategoryLists), "{component}");
    }
    // The data type is free; only equal ones are asked for.
    assert_eq!(derived(Component::Add, &text, &text).unwrap().1, r#"{"aa"}"#);
    assert_eq!(call(Component::Add, &text, &texts(&[&["a"]])), Err(Refusal::DataTypes));
}

#[test]
fn the_results_text_is_counted_as_it_would_be_written() {
    let add = |left: &Sheet, right: &Sheet| derived(Component::Add, left, right).map(|(length, _)| length);
    let pool = |left: &Sheet, right: &Sheet| derived(Component::Pool, left, right).map(|(length, _)| length);
    assert_eq!(add(&long('a', 600), &long('b', 424)), Ok(1113));
    assert_eq!(add(&long('a', 600), &long('b', 425)), Err(Refusal::TooMuchText));
    assert_eq!(pool(&long('a', 1000), &long('b', 25)), Err(Refusal::TooMuchText));
    assert_eq!(pool(&long('a', 1000), &long('a', 1000)), Ok(80 + 9 + 1000));
    let empty = texts(&[&[""]]).with_columns(4);
    assert_eq!(add(&long('a', 256).with_columns(4), &empty), Ok(1140));
    assert_eq!(add(&long('a', 257).with_columns(4), &empty), Err(Refusal::TooMuchText));
}

#[test]
fn categories_are_counted_before_text() {
    let add = |left: &Sheet, right: &Sheet| derived(Component::Add, left, right).map(|(length, _)| length);
    assert_eq!(add(&numbered('a', 12, 50), &numbered('b', 11, 50)), Err(Refusal::TooManyCategories));
    assert_eq!(add(&numbered('a', 11, 50), &numbered('b', 11, 50)), Err(Refusal::TooMuchText));
    assert_eq!(add(&powers(20), &powers(20)), Ok(1172));
    assert_eq!(add(&powers(30), &powers(30)), Err(Refusal::TooMuchText));
}

#[test]
fn the_rows_sum_of_pool_comes_before_both_counts() {
    let (left, right) = (long('a', 1000).with_rows(i64::MAX), long('b', 25));
    assert_eq!(call(Component::Pool, &left, &right), Err(Refusal::WholeOverflow));
    assert_eq!(call(Component::Pool, &left, &right.with_rows(0)), Err(Refusal::TooMuchText));
}

#[test]
fn a_slot_has_2308_bytes() {
    let plan = Plan::new(1).encode();
    let mut work = [Plan::new(1).work(&[texts(&[&["a"]])]), vec![0]].concat();
    let short = Stopped { refusal: Refusal::OutputTooShort, node: None };
    assert_eq!(propagate_properties(&plan, &mut work[..2307]), Err(short));
    assert_eq!(propagate_properties(&plan, &mut work[..2308]), Ok(1));
}

/// The longest sheet of all, joined with the empty text, and one byte less of room.
#[test]
fn the_longest_sheet_fits_a_slot_exactly() {
    let groups = |k| gate_runtime::Group { partition: k, key: gate_runtime::Key::Int(0) };
    let sheet = but(numbered('a', 128, 8), |s| s.groups = (0..4).map(groups).collect());
    let empty = texts(&[&[""]]);
    let (bytes, right) = (sheet.encode(), empty.encode());
    assert_eq!((bytes.len(), SLOT), (2308, 2308));
    let add = |out: &mut [u8]| propagate_property(Component::Add.number(), 0, &right, &bytes, out);
    assert_eq!(add(&mut [0; SLOT]), Ok(2308));
    assert_eq!(add(&mut [0; SLOT - 1]), Err(Refusal::OutputTooShort));
    let mut plan = Plan::new(2);
    plan.step(Component::Add, 1, 0);
    let walk = plan.walk(&[sheet.clone(), empty]);
    assert_eq!(walk.outcome, Ok(3));
    assert_eq!(walk.sheets[2].as_ref().map(|s| joined(&s.nature)), Some(joined(&sheet.nature)));
}
