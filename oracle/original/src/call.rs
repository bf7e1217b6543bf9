//! One single call: sheets in, the original's word, a number and bytes out.

use crate::base::{IndexKey, NodeProperties, ValueProperties};
use crate::convert::{from_properties, to_properties};
use crate::messages::{self, BASE_BREAKS, OVERFLOWS};
use crate::root::value;
use crate::stand_ins::{proto, Component};
use indexmap::map::IndexMap;
use oracle_list::form::{
    hex, is_range_subtract, is_unary, miscounted, Answer, Mark, MISCOUNTED, POOL,
};
use oracle_list::sheet::{Nature, Sheet, MOST_CATEGORIES, MOST_TEXT};
use std::cell::Cell;
use std::panic::{catch_unwind, set_hook, take_hook, AssertUnwindSafe};
use std::sync::Once;

const LOG: u32 = 7;

/// The answer to a single call, by the documents. The order of the checks 6 to
/// 25 is the original's own; this function adds 2 to 5 before, 29 directly behind
/// 20, and after it takes the repeats out of mapped lists and adds 26, 28 and 27.
///
/// # Panics
/// If the original ends in a way that has no number, on permitted sheets that it
/// has no place for, which are both of Pool's and texts that are no UTF-8, and on
/// a range Subtract. Nothing of it must pass for an answer.
pub fn answer(component: u32, node: u32, left: &[u8], right: &[u8], out_len: usize) -> Answer {
    asked(component, node, left, right, out_len).unwrap_or_else(|| {
        let why = "range Subtract is held against document 02";
        fail(why, component, node, left, right)
    })
}

/// The same, with nothing for a range Subtract: what the original says of its ends
/// is no answer.
pub fn asked(
    component: u32,
    node: u32,
    left: &[u8],
    right: &[u8],
    out_len: usize,
) -> Option<Answer> {
    let word = accept(component, node, left, right);
    let code = word.as_ref().err().map_or(0, |refusal| refusal.code);
    let answer = match word {
        // What the original says of such lists is no answer.
        _ if miscounted(component, left, right, code).is_some() => refuse(MISCOUNTED, Mark::Added),
        Err(refusal) => refusal,
        Ok(sheet) => written(component, sheet, out_len),
    };
    let other_ends = is_range_subtract(component, left, right, answer.code);
    (!other_ends).then_some(answer)
}

/// 26, 28 and 27 of a derived sheet, or its bytes. Before that mapped lists lose
/// their repeats (document 02, S-6), so that 26 counts what is left and a next step
/// reads it: "The oracle's lists for these two lose their repeats before comparing".
/// Products have none, since the original takes them out itself.
fn written(component: u32, mut sheet: Sheet, out_len: usize) -> Answer {
    let mut mark = Mark::Rust;
    if is_unary(component) && sheet.nature.has_repeats() {
        sheet.nature = sheet.nature.without_repeats();
        mark = Mark::Added;
    }
    if sheet.nature.categories() > MOST_CATEGORIES {
        return refuse(26, Mark::Added);
    }
    if sheet.nature.text_length() > MOST_TEXT {
        return refuse(28, Mark::Added);
    }
    let bytes = sheet.encode();
    if bytes.len() > out_len {
        return refuse(27, Mark::Added);
    }
    Answer {
        code: 0,
        bytes,
        mark,
    }
}

fn refuse(code: u32, mark: Mark) -> Answer {
    let bytes = Vec::new();
    Answer { code, bytes, mark }
}

/// The sheet as the original derives it, or the refusal: before 29, and before what
/// `written` adds.
fn accept(component: u32, node: u32, left: &[u8], right: &[u8]) -> Result<Sheet, Answer> {
    if !(1..=POOL).contains(&component) {
        return Err(refuse(2, Mark::Added));
    }
    let decode = |bytes| Sheet::decode(bytes).map_err(|code| refuse(code, Mark::Added));
    let data = decode(left)?;
    let other = match is_unary(component) {
        true => None,
        false => Some(decode(right)?),
    };
    if let Some(why) = outside(component, &data, other.as_ref()) {
        fail(why, component, node, left, right);
    }
    let word = run(component, node, &data, other.as_ref());
    if component == LOG && both_whole(&data, other.as_ref()) && past_the_base(&word) {
        return Err(refuse(15, Mark::Decided));
    }
    match word {
        Word::Derived(sheet) => Ok(sheet),
        Word::Refused(code, _) => Err(refuse(code, Mark::Rust)),
        Word::Overflowed => Err(refuse(24, Mark::Added)),
        Word::Fault(text) => fail(&text, component, node, left, right),
    }
}

/// Why the original cannot be asked about permitted sheets, if it cannot.
fn outside(component: u32, left: &Sheet, right: Option<&Sheet>) -> Option<&'static str> {
    if component == POOL {
        return Some("the original has no Pool");
    }
    let utf8 = left.nature.is_utf8() && right.map_or(true, |sheet| sheet.nature.is_utf8());
    (!utf8).then_some("a text is no UTF-8")
}

fn fail(text: &str, component: u32, node: u32, left: &[u8], right: &[u8]) -> ! {
    let (left, right) = (hex(left), hex(right));
    panic!(
        "oracle failure: {}; the call: {} {} {} {}",
        text, component, node, left, right
    )
}

fn both_whole(left: &Sheet, right: Option<&Sheet>) -> bool {
    let whole = |sheet: &Sheet| matches!(sheet.nature, Nature::WholeRange(_));
    whole(left) && right.is_some_and(whole)
}

/// Whether Log's base has passed 15 and 16, read off the original's own word.
/// The project refuses whole data under a whole base there with 15, where the
/// original goes on. A 15 of the original, on base or data, is the same number.
fn past_the_base(word: &Word) -> bool {
    match word {
        Word::Derived(_) => true,
        Word::Refused(6 | 7 | 14 | 15, _) => false,
        Word::Refused(16, message) => messages::digest(message) != BASE_BREAKS,
        Word::Refused(..) => true,
        Word::Overflowed | Word::Fault(_) => false,
    }
}

/// How the original ended.
enum Word {
    Derived(Sheet),
    /// With the number that its message stands for.
    Refused(u32, String),
    /// Unchecked arithmetic left 64 bits.
    Overflowed,
    /// In a way that has no number.
    Fault(String),
}

fn run(component: u32, node: u32, left: &Sheet, right: Option<&Sheet>) -> Word {
    let (name, properties) = arguments(component, left, right);
    silence_panics();
    INSIDE.with(|inside| inside.set(true));
    let ended = catch_unwind(AssertUnwindSafe(|| {
        name.propagate_property(&None, IndexMap::new(), properties, node)
    }));
    INSIDE.with(|inside| inside.set(false));
    match ended {
        Ok(Ok(result)) => derived(&value(result)),
        Ok(Err(error)) => refused(error.to_string()),
        Err(payload) => overflowed(payload.as_ref()),
    }
}

fn derived(properties: &ValueProperties) -> Word {
    match properties {
        ValueProperties::Array(array) => {
            from_properties(array).map_or_else(Word::Fault, Word::Derived)
        }
        _ => Word::Fault("the result is no array".to_string()),
    }
}

fn refused(message: String) -> Word {
    match messages::number(&message) {
        Some(code) => Word::Refused(code, message),
        None => Word::Fault(format!("no number for the message `{}`", message)),
    }
}

/// Only the panics of unchecked arithmetic have a number.
fn overflowed(payload: &(dyn std::any::Any + Send)) -> Word {
    let text = payload.downcast_ref::<&str>().copied();
    let text = text.or_else(|| payload.downcast_ref::<String>().map(String::as_str));
    match text {
        Some(text) if OVERFLOWS.contains(&text) => Word::Overflowed,
        _ => Word::Fault(format!(
            "the original panicked: {}",
            text.unwrap_or("without a text")
        )),
    }
}

/// The component, and the operands under the names that it asks for.
fn arguments(
    component: u32,
    left: &Sheet,
    right: Option<&Sheet>,
) -> (&'static dyn Component, NodeProperties) {
    let (name, first, second): (&dyn Component, _, _) = match component {
        1 => (&proto::Abs, "data", ""),
        2 => (&proto::Add, "left", "right"),
        3 => (&proto::Subtract, "left", "right"),
        4 => (&proto::Multiply, "left", "right"),
        5 => (&proto::Divide, "left", "right"),
        6 => (&proto::Modulo, "left", "right"),
        7 => (&proto::Log, "data", "base"),
        8 => (&proto::Power, "data", "radical"),
        _ => (&proto::Negative, "data", ""),
    };
    let mut properties = NodeProperties::new();
    properties.insert(IndexKey::from(first), to_properties(left).into());
    if let Some(right) = right {
        properties.insert(IndexKey::from(second), to_properties(right).into());
    }
    (name, properties)
}

thread_local! {
    static INSIDE: Cell<bool> = const { Cell::new(false) };
}

/// A panic inside the original is an answer and prints nothing; every other
/// one is reported as usual.
fn silence_panics() {
    static ONCE: Once = Once::new();
    ONCE.call_once(|| {
        let usual = take_hook();
        set_hook(Box::new(move |info| {
            if !INSIDE.with(Cell::get) {
                usual(info);
            }
        }));
    });
}

#[cfg(test)]
mod tests {
    use super::{accept, asked};
    use oracle_list::form::{is_unary, Mark, MISCOUNTED};
    use oracle_list::generate::call_for;
    use oracle_list::random::Random;
    use oracle_list::sheet::{Sheet, LONGEST};
    use std::collections::BTreeMap;

    /// 29 stands for whatever the original says behind 20: it accepts such lists,
    /// or finds right's 19 or 20, 21, 22 or 24. All else is its own.
    #[test]
    fn what_29_stands_for() {
        let mut random = Random::new(7);
        let mut words: BTreeMap<u32, usize> = BTreeMap::new();
        for component in [1, 2, 3, 4, 5, 8, 9] {
            for _ in 0..4000 {
                let call = call_for(&mut random, component, MISCOUNTED);
                let (left, right) = (&call.left, &call.right);
                let word = accept(component, call.node, left, right);
                let code = word.as_ref().err().map_or(0, |refusal| refusal.code);
                match asked(component, call.node, left, right, LONGEST) {
                    Some(answer) if answer.code == MISCOUNTED => {
                        *words.entry(code).or_default() += 1
                    }
                    // 26 and 28 are added behind an accepted sheet.
                    Some(answer) => {
                        let added = code == 0 && matches!(answer.code, 26 | 28);
                        assert!(answer.code == code || added, "{} {}", answer.code, code)
                    }
                    None => (),
                }
            }
        }
        let codes: Vec<u32> = words.keys().copied().collect();
        assert_eq!(codes, [0, 19, 20, 21, 22, 24], "{:?}", words);
        assert!(words.values().all(|count| *count > 50), "{:?}", words);
    }

    /// Of what the original accepts, lists of Abs alone have repeats. They lose them
    /// and nothing else, and the mark says so; 26 counts what is left.
    #[test]
    fn mapped_lists_lose_repeats() {
        let mut random = Random::new(8);
        let (mut kept, mut lost, mut spared, mut full) = (0, 0, 0, 0);
        for turn in 0..20_000 {
            let component = [1, 9, 2, 3, 4, 5][turn % 6];
            let aim = random.pick(&[0, 26]);
            let call = call_for(&mut random, component, aim);
            let (left, right) = (&call.left, &call.right);
            let Ok(mut sheet) = accept(component, call.node, left, right) else {
                continue;
            };
            let repeats = sheet.nature.has_repeats();
            assert!(!repeats || component == 1, "{:?}", call);
            let before = sheet.nature.categories();
            sheet.nature = sheet.nature.without_repeats();
            let Some(answer) = asked(component, call.node, left, right, LONGEST) else {
                continue;
            };
            let over = sheet.nature.categories() > 128;
            assert_eq!(answer.code == 26, over, "{} {:?}", answer.code, call);
            full += usize::from(over && is_unary(component));
            if answer.code != 0 {
                continue;
            }
            assert_eq!(Sheet::decode_unordered(&answer.bytes), Ok(sheet));
            let mark = if repeats { Mark::Added } else { Mark::Rust };
            assert_eq!(answer.mark, mark);
            kept += usize::from(is_unary(component) && !repeats);
            lost += usize::from(repeats);
            spared += usize::from(before > 128);
        }
        let met = [kept, lost, spared, full];
        assert!(
            kept > 1000 && lost > 500 && spared > 100 && full > 100,
            "{:?}",
            met
        );
    }
}
