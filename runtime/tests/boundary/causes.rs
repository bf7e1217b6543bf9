//! Whatever a proved call refuses, a cause is found.

use crate::made::{component, sheet, Draws};
use gate_runtime::causes::{self, Call, NO_CAUSE};
use gate_runtime::form::plan::SLOT;
use gate_runtime::{propagate_property, Nature, Refusal, Sheet};
use std::collections::BTreeSet;
use std::fs;

const POOL: u32 = 10;

/// Makes the call; gives the number if it is refused, and checks that the cause is found.
fn refused(component: u32, left: &[u8], right: &[u8], out_len: usize) -> Option<u32> {
    let mut out = vec![0; out_len];
    let refusal = propagate_property(component, 1, left, right, &mut out).err()?;
    let call = Call { component, left, right, out_len, names: ["a", "b"] };
    let texts = causes::of_single(refusal, &call);
    let text = texts.join("; ");
    assert!(!texts.is_empty() && !text.contains(NO_CAUSE), "{refusal}: no cause for component {component}, {left:?}, {right:?}");
    match refusal.code() {
        24 => assert!(text.contains("leaves 64 signed bits") || text.contains("divides by zero"), "{text}"),
        26 => exceeds(&text, 128),
        28 => exceeds(&text, 1024),
        29 => assert!(text.contains("category list") && text.contains("one list is wanted"), "{text}"),
        _ => {}
    }
    // 29 is tested before these, so that operands which meet them do not meet it.
    if let 21..=24 | 26..=28 = refusal.code() {
        assert_eq!(causes::of_single(Refusal::CategoryListCount, &call), [NO_CAUSE], "{refusal}: {left:?}, {right:?}");
    }
    Some(refusal.code())
}

/// The count that a cause of 26 or 28 names, and what follows it.
fn held(cause: &str) -> (usize, &str) {
    let (count, rest) = cause.split_once("the result holds ").expect("the count").1.split_once([' ', ',']).expect("the limit");
    (count.parse().expect("a number"), rest)
}

/// A count that the cause names is over its limit.
fn exceeds(cause: &str, limit: usize) {
    let (count, rest) = held(cause);
    assert!(count > limit && rest.contains(&format!("at most {limit}")), "{cause}");
}

/// What causes of 26 and 28 count is what an accepted call writes. Gives whether there was something to count.
fn counts_what_is_written(component: u32, left: &[u8], right: &[u8]) -> bool {
    let mut out = [0; SLOT];
    let length = propagate_property(component, 1, left, right, &mut out).expect("an accepted call");
    let nature = Sheet::decode(&out[..length]).expect("a derived sheet can be read").nature;
    let call = Call { component, left, right, out_len: SLOT, names: ["a", "b"] };
    let named = |refusal| held(&causes::of_single(refusal, &call)[0]).0;
    if let Nature::TextCategories(_) = nature {
        assert_eq!(named(Refusal::TooMuchText), nature.text_size(), "{component}: {left:?}, {right:?}");
    }
    // Bool lists are never too many, and no cause counts them.
    let counted = matches!(nature, Nature::WholeCategories(_) | Nature::TextCategories(_));
    assert!(!counted || named(Refusal::TooManyCategories) == nature.categories(), "{component}: {left:?}, {right:?}");
    counted
}

/// No arithmetic cause, and no count of lists, is found in operands that the proved call accepts.
fn accepted_has_no_cause(component: u32, left: &[u8], right: &[u8]) {
    let call = Call { component, left, right, out_len: SLOT, names: ["a", "b"] };
    let none = |refusal| assert_eq!(causes::of_single(refusal, &call), [NO_CAUSE], "{refusal}: {left:?}, {right:?}");
    none(Refusal::SheetSize);
    none(Refusal::FieldValue);
    none(Refusal::BadBound);
    none(Refusal::Aggregated);
    none(Refusal::CategoryListCount);
    match component {
        1..=4 | 9 | POOL => none(Refusal::WholeOverflow),
        5 => [Refusal::WholeOverflow, Refusal::DivideMayMeetZero].into_iter().for_each(none),
        _ => none(Refusal::Sampled),
    }
}

#[test]
fn generated_calls_have_causes() {
    let mut draws = Draws::new(20_261_115);
    let (mut seen, mut of_pool) = (BTreeSet::new(), BTreeSet::new());
    let (mut accepted, mut counted) = (0, 0);
    for _ in 0..120_000 {
        let (left, right) = (sheet(&mut draws).encode(), sheet(&mut draws).encode());
        let out_len = if draws.one_in(20) { 100 } else { SLOT };
        let component = component(&mut draws).number();
        match refused(component, &left, &right, out_len) {
            Some(number) => {
                seen.insert(number);
                if component == POOL {
                    of_pool.insert(number);
                }
            }
            None => {
                accepted += 1;
                accepted_has_no_cause(component, &left, &right);
                counted += usize::from(counts_what_is_written(component, &left, &right));
            }
        }
    }
    let wanted: BTreeSet<u32> = (5..=29).filter(|number| *number != 25).collect();
    assert_eq!(seen, wanted);
    assert_eq!(of_pool, BTreeSet::from([5, 6, 7, 8, 11, 12, 14, 17, 18, 19, 20, 21, 24, 26, 27, 28, 29]));
    assert!(accepted > 5_000 && counted > 1_000, "{accepted} calls were accepted, {counted} with categories");
}

/// The repository's stored calls are inputs here; their answers are compared elsewhere.
#[test]
fn stored_calls_have_causes() {
    let list = concat!(env!("CARGO_MANIFEST_DIR"), "/../vectors/single_calls.txt");
    let text = fs::read_to_string(list).expect("the stored list is part of the repository");
    let bytes = |hex: &str| -> Vec<u8> {
        let digits = hex.trim_start_matches('-');
        (0..digits.len() / 2).map(|k| u8::from_str_radix(&digits[2 * k..2 * k + 2], 16).unwrap()).collect()
    };
    let mut refusals = 0;
    for line in text.lines().filter(|line| !line.starts_with('#')) {
        let words: Vec<&str> = line.split(' ').collect();
        let (component, out_len) = (words[0].parse().unwrap(), words[4].parse().unwrap());
        refusals += usize::from(refused(component, &bytes(words[2]), &bytes(words[3]), out_len).is_some());
    }
    assert!(refusals > 1_000, "{refusals} refusals in the stored list");
}
