//! Sheets as a person reads them: each range with both signs written.

use crate::form::{is_unary, Answer, Call};
use crate::sheet::{Ends, Nature, Sheet};

const COMPONENTS: [&str; 9] = [
    "Abs", "Add", "Subtract", "Multiply", "Divide", "Modulo", "Log", "Power", "Negative",
];

pub fn component(number: u32) -> String {
    let name = COMPONENTS.get((number as usize).wrapping_sub(1));
    name.map_or_else(|| format!("component {number}"), |name| name.to_string())
}

/// A call and its answer on one line.
pub fn line(call: &Call, answer: &Answer) -> String {
    let right = if is_unary(call.component) {
        String::new()
    } else {
        operand(&call.right)
    };
    let result = match answer.code {
        0 => operand(&answer.bytes),
        code => format!("refused with {code}"),
    };
    let name = component(call.component);
    columns([&name, &operand(&call.left), &right, &result])
}

/// The head of a table of such lines.
pub fn head() -> String {
    columns(["", "left", "right", "derived"])
}

fn columns([name, left, right, result]: [&str; 4]) -> String {
    format!("{name:<9} {left:<29} {right:<23} {result}")
}

/// The nature of a sheet's bytes, with its columns where there are several.
fn operand(bytes: &[u8]) -> String {
    let Ok(sheet) = Sheet::decode_unordered(bytes) else {
        return "a sheet that 4 refuses".to_string();
    };
    let nature = nature(&sheet.nature);
    match sheet.columns {
        Some(1) => nature,
        Some(columns) => format!("{nature} over {columns} columns"),
        None => format!("{nature} over unknown columns"),
    }
}

fn nature(nature: &Nature) -> String {
    match nature {
        Nature::Absent => "nothing stated".to_string(),
        Nature::WholeRange(entries) => ranges(entries, |v| format!("{v:+}")),
        Nature::FloatRange(entries) => ranges(entries, |v| format!("{:+?}", f64::from_bits(*v))),
        Nature::WholeLists(lists) => categories(lists, |v| format!("{v:+}")),
        Nature::BoolLists(lists) => categories(lists, |v| v.to_string()),
        Nature::FloatLists(lists) => categories(lists, |v| format!("{:+?}", f64::from_bits(*v))),
        Nature::TextLists(lists) => categories(lists, |v| format!("\"{}\"", v.escape_ascii())),
    }
}

fn ranges<T: PartialEq>(entries: &[Ends<T>], text: impl Fn(&T) -> String) -> String {
    let end = |end: &Option<T>| end.as_ref().map_or("absent".to_string(), &text);
    once_if_alike(entries, |(lower, upper)| {
        format!("[{}, {}]", end(lower), end(upper))
    })
}

fn categories<T: PartialEq>(lists: &[Vec<T>], text: impl Fn(&T) -> String) -> String {
    once_if_alike(lists, |list| {
        let values: Vec<String> = list.iter().map(&text).collect();
        format!("{{{}}}", values.join(", "))
    })
}

/// Several entries that are all alike are shown once, with their count.
fn once_if_alike<T: PartialEq>(entries: &[T], text: impl Fn(&T) -> String) -> String {
    match entries {
        [] => "no entries".to_string(),
        [only] => text(only),
        [first, rest @ ..] if rest.iter().all(|other| other == first) => {
            format!("{} x {}", text(first), entries.len())
        }
        _ => entries.iter().map(text).collect::<Vec<_>>().join(" "),
    }
}

#[cfg(test)]
mod tests {
    use super::line;
    use crate::form::{Answer, Call, Mark};
    use crate::text;

    fn shown(component: u32, left: &str, right: &str, code: u32, result: &str) -> String {
        let call = Call::of(component, left, right);
        let bytes = if code == 0 {
            text::bytes(result)
        } else {
            Vec::new()
        };
        let answer = Answer {
            code,
            bytes,
            mark: Mark::Rust,
        };
        line(&call, &answer)
            .split_whitespace()
            .collect::<Vec<_>>()
            .join(" ")
    }

    #[test]
    fn both_signs_are_written() {
        assert_eq!(
            shown(2, "W[-5,3]", "W[_,20]", 0, "W[_,23]"),
            "Add [-5, +3] [absent, +20] [absent, +23]"
        );
        assert_eq!(
            shown(4, "F[-0.0,1.5]", "F[0.0,2.0]", 24, ""),
            "Multiply [-0.0, +1.5] [+0.0, +2.0] refused with 24"
        );
    }

    #[test]
    fn texts_are_quoted() {
        assert_eq!(
            shown(2, "T{a,_}", "T{\\e2\\82}", 22, ""),
            "Add {\"a\", \"\"} {\"\\xe2\\x82\"} refused with 22"
        );
    }

    #[test]
    fn alike_entries_are_shown_once() {
        assert_eq!(
            shown(1, "W{-3,3}", "empty", 0, "W{3}*2 columns=2"),
            "Abs {-3, +3} {+3} x 2 over 2 columns"
        );
    }
}
