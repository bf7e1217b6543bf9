//! The answer to a single call that the library and the port are held against.

use crate::guard::Expected;
use oracle_list::form::{hex, is_range_subtract, is_unary, miscounted, MISCOUNTED, POOL};
use oracle_list::sheet::{Sheet, LONGEST, TEXT};

/// The original text's answer; the port's where the original has none, for Pool
/// and for texts that are no UTF-8, and where it is not asked, for a range
/// Subtract: there the library is held against the port alone. 29 is the oracle's
/// own test wherever it is due, also where the port answers.
///
/// # Panics
/// If the port refuses a range Subtract by a check that the original passes.
pub fn answer(component: u32, node: u32, left: &[u8], right: &[u8], out_len: usize) -> Expected {
    if component == POOL || has_other_texts(component, left, right) {
        let answer = of_port(component, node, left, right, out_len);
        let refused = Expected {
            code: MISCOUNTED,
            bytes: Vec::new(),
        };
        let counted = miscounted(component, left, right, answer.code);
        return counted.map_or(answer, |_| refused);
    }
    match oracle_original::asked(component, node, left, right, out_len) {
        Some(answer) => Expected {
            code: answer.code,
            bytes: answer.bytes,
        },
        None => {
            let answer = of_port(component, node, left, right, out_len);
            let goes_on = is_range_subtract(component, left, right, answer.code);
            assert!(
                goes_on,
                "the port refuses with {} where the original comes to the ends: 3 {} {}",
                answer.code,
                hex(left),
                hex(right)
            );
            answer
        }
    }
}

/// Whether the sheets that are read are permitted, and one has a text that is no
/// UTF-8.
pub fn has_other_texts(component: u32, left: &[u8], right: &[u8]) -> bool {
    let read = match is_unary(component) {
        true => vec![left],
        false => vec![left, right],
    };
    if read.iter().all(|sheet| sheet.get(6) != Some(&TEXT)) {
        return false;
    }
    let sheets: Result<Vec<Sheet>, u32> = read.into_iter().map(Sheet::decode).collect();
    sheets.is_ok_and(|sheets| sheets.iter().any(|sheet| !sheet.nature.is_utf8()))
}

fn of_port(component: u32, node: u32, left: &[u8], right: &[u8], out_len: usize) -> Expected {
    // No sheet is longer, and a drawn call may ask for any room at all.
    let mut bytes = vec![0; out_len.min(LONGEST)];
    let (code, length) = plain_port::propagate_property(component, node, left, right, &mut bytes);
    bytes.truncate(length as usize);
    Expected { code, bytes }
}

#[cfg(test)]
mod tests {
    use super::{answer, has_other_texts};
    use oracle_list::sheet::Sheet;
    use oracle_list::text::{bytes, sheet};

    /// The ends are the port's, refusals up to 17 the original's.
    #[test]
    fn range_subtracts_are_the_ports() {
        let subtract = |left, right| answer(3, 0, &bytes(left), &bytes(right), 200);
        let difference = subtract("W[3,8]", "W[1,2]");
        let found = Sheet::decode(&difference.bytes).map(|sheet| sheet.nature);
        assert_eq!(found, Ok(sheet("W[1,7]").nature));
        assert_eq!(subtract("W[-1,4]", "W[-9223372036854775808,3]").code, 24);
        assert_eq!(subtract("W[1,2]*3", "W[1,2]").code, 18);
        assert_eq!(subtract("W[1,2]*3", "W[1,2] type=Float").code, 14);
        assert_eq!(subtract("W[1,2]*3", "F[1.0,2.0]").code, 17);
    }

    /// Where the original answers, and where the port does: Pool, other texts.
    #[test]
    fn lists_are_counted() {
        let code = |component, left, right| {
            let answer = answer(component, 0, &bytes(left), &bytes(right), 200);
            assert!(answer.code == 0 || answer.bytes.is_empty());
            answer.code
        };
        let two = "W{1}{2} columns=3";
        assert_eq!(code(9, two, "empty"), 29);
        assert_eq!(code(2, two, "B{1} columns=3"), 29);
        assert_eq!(code(2, "F{1.0} columns=3", two), 19);
        assert_eq!(code(2, two, "W[1,2] columns=3"), 0);
        assert_eq!(code(10, two, "W{5} columns=3"), 29);
        assert_eq!(code(10, "F{1.0} columns=3", two), 19);
        assert_eq!(code(10, two, "W[1,2] columns=3"), 0);
        let other = "T{\\ff}{\\fe}";
        assert_eq!(code(2, other, "T{a}"), 29);
        assert_eq!(code(2, "T{a}", other), 29);
        assert_eq!(code(3, other, "T{a} type=Float"), 14);
        assert_eq!(code(2, other, "T{a} columns=2"), 0);
    }

    #[test]
    fn other_texts_are_the_ports() {
        let (half, rest) = (bytes("T{\\e2\\82}"), bytes("T{\\ac}"));
        assert!(has_other_texts(2, &half, &rest) && has_other_texts(9, &half, &[]));
        assert!(!has_other_texts(2, &half, &[]) && !has_other_texts(9, &bytes("T{a}"), &half));
        let joined = answer(2, 0, &half, &rest, 200);
        assert_eq!(
            (joined.code, &joined.bytes[89..]),
            (0, "\u{20ac}".as_bytes())
        );
    }
}
