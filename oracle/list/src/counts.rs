//! What calls make of several category lists, and where they say 29 (document 02, S-5).

use crate::form::{is_unary, miscounted, Operand, MISCOUNTED};
use crate::sheet::{AT_COLUMNS, AT_LISTS, AT_NATURE, TEXT};
use std::fmt;

/// Operands with several category lists, or refused for their count.
#[derive(Clone, Copy, Debug, Default, PartialEq, Eq)]
pub struct Counts {
    /// Refused with 29: left, right.
    pub sides: [usize; 2],
    /// By the kind of the lists refused: whole, Bool, text.
    pub kinds: [usize; 3],
    /// Taken, with a list for each of the output's columns: their own columns, and
    /// others than their own.
    pub taken: [usize; 2],
    /// Accepted beside a range or an absent nature, where 29 would refuse them.
    pub unused: usize,
    /// Where 29 is due and another answer stands, or the other way round: there
    /// must be none.
    pub wrong: usize,
}

impl Counts {
    /// A call with its answer; `sheet` is what was accepted. Says whether 29 is in its
    /// place.
    pub fn count(
        &mut self,
        (component, left, right): (u32, &[u8], &[u8]),
        code: u32,
        sheet: &[u8],
    ) -> bool {
        let refused = miscounted(component, left, right, code);
        let in_place = refused.is_some() == (code == MISCOUNTED);
        self.wrong += usize::from(!in_place);
        match refused {
            Some(Operand::Left) => self.count_refused(0, left),
            Some(Operand::Right) => self.count_refused(1, right),
            None => {
                self.count_accepted(left, sheet);
                if !is_unary(component) {
                    self.count_accepted(right, sheet);
                }
            }
        }
        in_place
    }

    fn count_refused(&mut self, side: usize, operand: &[u8]) {
        self.sides[side] += 1;
        let kind = [3, 4, TEXT]
            .iter()
            .position(|kind| *kind == operand[AT_NATURE]);
        if let Some(place) = kind {
            self.kinds[place] += 1;
        }
    }

    fn count_accepted(&mut self, operand: &[u8], sheet: &[u8]) {
        let Some(columns) = sheet.get(AT_COLUMNS).copied() else {
            return;
        };
        if !has_lists(operand) || operand[AT_LISTS] < 2 {
            return;
        }
        if operand[AT_LISTS] != columns {
            self.unused += 1;
        } else if has_lists(sheet) {
            self.taken[usize::from(operand[AT_COLUMNS] != columns)] += 1;
        }
    }
}

/// Whether a sheet that was read or written states categories.
fn has_lists(sheet: &[u8]) -> bool {
    (3..=TEXT).contains(&sheet[AT_NATURE])
}

impl fmt::Display for Counts {
    fn fmt(&self, f: &mut fmt::Formatter) -> fmt::Result {
        let ([left, right], [whole, bools, texts]) = (self.sides, self.kinds);
        let [own, others] = self.taken;
        write!(
            f,
            "29: {left} on left, {right} on right; {whole} of whole, {bools} of Bool, {texts} of text lists; {} out of place\n\
             several lists taken: {own} for the operand's own columns, {others} for the output's other count; {} not counted",
            self.wrong, self.unused
        )
    }
}

#[cfg(test)]
mod tests {
    use super::Counts;
    use crate::text::bytes;

    fn counted(component: u32, left: &str, right: &str, code: u32, sheet: &str) -> Counts {
        let mut counts = Counts::default();
        let read = (component, &bytes(left)[..], &bytes(right)[..]);
        counts.count(read, code, &bytes(sheet));
        counts
    }

    #[test]
    fn operands_are_counted_by_what_becomes_of_them() {
        let none = Counts::default();
        let two = "W{1}{2} columns=2";
        let own = Counts {
            taken: [1, 0],
            ..none
        };
        assert_eq!(counted(2, two, "W{1}", 0, two), own);
        assert_eq!(counted(9, two, "B{1}{0}", 0, two), own);
        let others = Counts {
            taken: [0, 1],
            ..none
        };
        assert_eq!(counted(2, "W{1} columns=2", "W{1}{2}", 0, two), others);
        let unused = Counts { unused: 1, ..none };
        assert_eq!(counted(2, "W{1}{2}", "W[1,2]", 0, "absent"), unused);
        // Two lists over two columns are none that 29 would refuse.
        assert_eq!(counted(2, two, "absent", 0, "absent columns=2"), none);
        assert_eq!(counted(2, two, "W{1}", 27, "empty"), none);
        let refused = Counts {
            sides: [0, 1],
            kinds: [0, 0, 1],
            ..none
        };
        assert_eq!(counted(2, "W{1}", "T{a}{b}", 29, "empty"), refused);
        let wrong = Counts {
            wrong: 1,
            ..refused
        };
        assert_eq!(counted(2, "W{1}", "T{a}{b}", 21, "empty"), wrong);
        let wrong = Counts { wrong: 1, ..none };
        assert_eq!(counted(2, "W{1}", "T{a}", 29, "empty"), wrong);
    }
}
