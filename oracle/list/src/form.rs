//! The list's form: one call a line, eight fields separated by one blank,
//! `component node left right out_len code result mark`.

use crate::sheet::{AT_COLUMNS, AT_LISTS, AT_NATURE, HEAD};
use std::fmt;

/// The component that document 02 adds; the original has none such.
pub const POOL: u32 = 10;
/// The component to whose ranges document 02 gives other ends than the original.
pub const SUBTRACT: u32 = 3;
/// The component whose output has left's columns, of those that combine lists.
const POWER: u32 = 8;

/// Abs and Negative, which read left alone and map its categories.
pub fn is_unary(component: u32) -> bool {
    component == 1 || component == 9
}

/// The refusal that document 02 adds behind 20, which the original has not.
pub const MISCOUNTED: u32 = 29;

/// The number of float categories at byte 6.
const FLOAT_LISTS: u8 = 5;

/// Whether a call is a range Subtract, which leaves the oracle runs (document 02,
/// S-4): "Range Subtract is held against this rule instead of the Rust". That is
/// Subtract of two whole or of two float ranges, unless `code`, its answer, is of
/// a check up to 17: those come before the ends, and the original's word on them
/// stands. Behind 3 to 5, byte 6 is a sheet's nature.
pub fn is_range_subtract(component: u32, left: &[u8], right: &[u8], code: u32) -> bool {
    let natures = (left.get(AT_NATURE), right.get(AT_NATURE));
    let ranges = matches!(natures, (Some(1), Some(1)) | (Some(2), Some(2)));
    component == SUBTRACT && ranges && !(2..=17).contains(&code)
}

/// A sheet that a call reads.
#[derive(Clone, Copy, Debug, PartialEq, Eq)]
pub enum Operand {
    Left,
    Right,
}

/// The operand that 29 refuses, if 29 answers the call (document 02, S-5): "the
/// number of category lists is neither one nor the output's column count, directly
/// after 20; 19, 20 and 29 finish on left before right". It is asked where lists are
/// mapped, and where two category operands meet under 2 to 5, Float Power and Pool.
/// `code` is the answer of whoever counts no lists: one of a check up to 16 comes
/// before and stands. (The 8 of Power comes behind, and no such pair gets to it; 15
/// keeps them out of Modulo, Log and Int Power.)
pub fn miscounted(component: u32, left: &[u8], right: &[u8], code: u32) -> Option<Operand> {
    let both = [(Operand::Left, left), (Operand::Right, right)];
    let read = match component {
        1 | 9 => &both[..1],
        2..=5 | POWER | POOL => &both[..],
        _ => return None,
    };
    let lists = |sheet: &[u8]| sheet.len() >= HEAD && (3..=6).contains(&sheet[AT_NATURE]);
    if (2..=16).contains(&code) || !read.iter().all(|(_, sheet)| lists(sheet)) {
        return None;
    }
    let columns = match component {
        POWER => left[AT_COLUMNS],
        _ => read.iter().map(|(_, sheet)| sheet[AT_COLUMNS]).max()?,
    };
    for (operand, sheet) in read {
        match (sheet[AT_NATURE], sheet[AT_LISTS]) {
            // Its own 19 or 20 comes first.
            (FLOAT_LISTS, _) | (_, 0) => return None,
            (_, count) if count == 1 || count == columns => (),
            _ => return Some(*operand),
        }
    }
    None
}

/// Whose word an answer is.
#[derive(Clone, Copy, Debug, PartialEq, Eq)]
pub enum Mark {
    /// The original text's.
    Rust,
    /// The documents' additions: 2 to 5, 26 to 29, 24 by unchecked arithmetic, and
    /// mapped lists that lost repeats.
    Added,
    /// The project's decision on Log over two whole ranges.
    Decided,
}

impl Mark {
    pub fn name(self) -> &'static str {
        match self {
            Mark::Rust => "rust",
            Mark::Added => "added",
            Mark::Decided => "decided",
        }
    }

    fn parse(text: &str) -> Result<Mark, String> {
        match text {
            "rust" => Ok(Mark::Rust),
            "added" => Ok(Mark::Added),
            "decided" => Ok(Mark::Decided),
            _ => Err(format!("`{text}` is no mark (rust, added, decided)")),
        }
    }
}

#[derive(Clone, Debug, PartialEq, Eq, Hash)]
pub struct Call {
    pub component: u32,
    pub node: u32,
    pub left: Vec<u8>,
    pub right: Vec<u8>,
    pub out_len: usize,
}

/// A number of document 01, and the bytes written if it is 0.
#[derive(Clone, Debug, PartialEq, Eq)]
pub struct Answer {
    pub code: u32,
    pub bytes: Vec<u8>,
    pub mark: Mark,
}

#[derive(Clone, Debug, PartialEq, Eq)]
pub struct Line {
    pub call: Call,
    pub answer: Answer,
}

impl Call {
    /// Of two sheets by their short texts, with room for every result.
    #[cfg(test)]
    pub(crate) fn of(component: u32, left: &str, right: &str) -> Call {
        Call {
            component,
            node: 1,
            left: crate::text::bytes(left),
            right: crate::text::bytes(right),
            out_len: crate::sheet::LONGEST,
        }
    }

    /// Reads the first five fields of a line; an answer behind them is not read.
    pub fn parse(text: &str) -> Result<Call, String> {
        let fields: Vec<&str> = text.split(' ').collect();
        let [component, node, left, right, out_len, ..] = fields[..] else {
            return Err(format!("{} fields where a call has 5", fields.len()));
        };
        Ok(Call {
            component: number(component)?,
            node: number(node)?,
            left: bytes(left)?,
            right: bytes(right)?,
            out_len: number(out_len)?,
        })
    }
}

impl fmt::Display for Line {
    fn fmt(&self, f: &mut fmt::Formatter) -> fmt::Result {
        let Line { call, answer } = self;
        write!(
            f,
            "{} {} {} {} {} {} {} {}",
            call.component,
            call.node,
            hex(&call.left),
            hex(&call.right),
            call.out_len,
            answer.code,
            hex(&answer.bytes),
            answer.mark.name()
        )
    }
}

impl Line {
    /// See [`is_range_subtract`].
    pub fn is_range_subtract(&self) -> bool {
        let Line { call, answer } = self;
        is_range_subtract(call.component, &call.left, &call.right, answer.code)
    }

    /// See [`miscounted`].
    pub fn miscounted(&self) -> Option<Operand> {
        let Line { call, answer } = self;
        miscounted(call.component, &call.left, &call.right, answer.code)
    }

    pub fn parse(text: &str) -> Result<Line, String> {
        let fields: Vec<&str> = text.split(' ').collect();
        let [_, _, _, _, _, code, result, mark] = fields[..] else {
            return Err(format!("{} fields where 8 are wanted", fields.len()));
        };
        Ok(Line {
            call: Call::parse(text)?,
            answer: Answer {
                code: number(code)?,
                bytes: bytes(result)?,
                mark: Mark::parse(mark)?,
            },
        })
    }
}

/// Lines that begin with `#` are comments; empty lines count as such.
pub fn is_comment(line: &str) -> bool {
    line.is_empty() || line.starts_with('#')
}

/// All calls of a list, comments left out.
pub fn parse_list(text: &str) -> Result<Vec<Line>, String> {
    let lines = text.lines().enumerate();
    lines
        .filter(|(_, line)| !is_comment(line))
        .map(|(at, line)| Line::parse(line).map_err(|fault| format!("line {}: {fault}", at + 1)))
        .collect()
}

fn number<T: std::str::FromStr>(text: &str) -> Result<T, String> {
    text.parse()
        .map_err(|_| format!("`{text}` is no number of the wanted size"))
}

/// Lower-case hex; `-` for no bytes.
pub fn hex(bytes: &[u8]) -> String {
    const DIGITS: &[u8; 16] = b"0123456789abcdef";
    if bytes.is_empty() {
        return "-".to_string();
    }
    let mut text = String::with_capacity(2 * bytes.len());
    for byte in bytes {
        text.push(DIGITS[(byte >> 4) as usize] as char);
        text.push(DIGITS[(byte & 15) as usize] as char);
    }
    text
}

fn bytes(text: &str) -> Result<Vec<u8>, String> {
    if text == "-" {
        return Ok(Vec::new());
    }
    let digits: Option<Vec<u8>> = text.bytes().map(digit).collect();
    match digits {
        Some(digits) if !digits.is_empty() && digits.len() % 2 == 0 => Ok(digits
            .chunks(2)
            .map(|pair| pair[0] << 4 | pair[1])
            .collect()),
        _ => Err(format!("`{text}` is not lower-case hex in pairs")),
    }
}

fn digit(byte: u8) -> Option<u8> {
    match byte {
        b'0'..=b'9' => Some(byte - b'0'),
        b'a'..=b'f' => Some(byte - b'a' + 10),
        _ => None,
    }
}

#[cfg(test)]
mod tests {
    use super::{miscounted, parse_list, Call, Line, Operand, MISCOUNTED};

    #[test]
    fn a_line_comes_back() {
        for text in [
            "2 0 00ff - 2308 0 10 rust",
            "4294967295 4294967295 - - 0 2 - added",
            "7 1 0a 0b 98 15 - decided",
        ] {
            assert_eq!(Line::parse(text).unwrap().to_string(), text);
        }
    }

    fn counted(component: u32, left: &str, right: &str, code: u32) -> Option<Operand> {
        let call = Call::of(component, left, right);
        miscounted(component, &call.left, &call.right, code)
    }

    const TWO: &str = "W{1}{2} columns=3";

    /// Whatever the answer behind it would be, and nothing before it.
    #[test]
    fn lists_are_counted_behind_20() {
        for code in (0..=MISCOUNTED).filter(|code| *code != 1) {
            let asked = !(2..=16).contains(&code);
            let left = asked.then_some(Operand::Left);
            let right = asked.then_some(Operand::Right);
            for component in [2, 3, 4, 5, 8, 10] {
                assert_eq!(counted(component, TWO, "B{1} columns=3", code), left);
                assert_eq!(counted(component, "B{1} columns=3", TWO, code), right);
            }
            for component in [1, 9] {
                assert_eq!(counted(component, TWO, "empty", code), left);
            }
            for component in [0, 6, 7, 11] {
                assert_eq!(counted(component, TWO, TWO, code), None);
            }
        }
    }

    /// Left's 19 and 20 come before right's 29, and left's 29 before right's.
    #[test]
    fn left_is_counted_before_right() {
        for first in ["F{1.0} columns=3", "Wlists columns=3", "Flists columns=3"] {
            assert_eq!(counted(2, first, TWO, 19), None);
            assert_eq!(counted(2, TWO, first, 19), Some(Operand::Left));
            assert_eq!(counted(9, first, "empty", 19), None);
        }
        assert_eq!(counted(2, TWO, TWO, 0), Some(Operand::Left));
    }

    /// By the output's columns; one list, and lists beside another nature, pass.
    #[test]
    fn lists_that_pass() {
        for (left, right) in [
            ("W{1}{2}", "W{1} columns=2"),
            ("W{1} columns=2", "W{1}{2}"),
            (TWO, "W[1,2] columns=3"),
            ("F[1.0,2.0] columns=3", TWO),
            (TWO, "absent columns=3"),
            ("absent columns=3", TWO),
            ("T{a}{b}{c} columns=3", "T{a}"),
        ] {
            for code in [0, 19, 21, 22, 27] {
                assert_eq!(counted(2, left, right, code), None, "{left} {right}");
            }
        }
        // Power's output has left's columns, the others' the greater count.
        assert_eq!(
            counted(8, "W{1}", "W{1}{2} columns=2", 22),
            Some(Operand::Right)
        );
        assert_eq!(counted(8, "W{1}{2} columns=2", "W{1}", 22), None);
        assert_eq!(counted(2, "W{1}{2}", "W{1}{2}", 0), Some(Operand::Left));
    }

    #[test]
    fn faults_are_named() {
        for text in [
            "2 0 00 - 0 0 -",
            "2 0 0 - 0 0 - rust",
            "2 0 0G - 0 0 - rust",
            "2 0 FF - 0 0 - rust",
            "2 -1 - - 0 0 - rust",
            "2 0 - - 0 0 - other",
        ] {
            assert!(Line::parse(text).is_err(), "{text}");
        }
        assert!(parse_list("# form\n\nbad\n")
            .unwrap_err()
            .starts_with("line 3"));
    }
}
