//! What Abs and Negative make of repeats (document 02, S-6).

use crate::form::is_unary;
use crate::sheet::{Sheet, AT_NATURE, MOST_CATEGORIES};
use std::fmt;

/// The number of whole categories at byte 6: no others are mapped.
const WHOLE_LISTS: u8 = 3;

/// Accepted lists of Abs and Negative.
#[derive(Clone, Copy, Debug, Default, PartialEq, Eq)]
pub struct Repeats {
    /// Of Abs, and of Negative.
    pub mapped: [usize; 2],
    /// Whose operand repeats a value.
    pub repeating: usize,
    /// That lost repeats by the mapping: values of the operand became one.
    pub lost: usize,
    /// That would be refused with 26 if these were counted.
    pub spared: usize,
    /// That would be if the operand's own were counted, and not by these alone.
    pub spared_own: usize,
}

impl Repeats {
    /// A call: its left operand, and what was derived of it, if it was accepted.
    pub fn count(&mut self, component: u32, left: &[u8], derived: &[u8]) {
        if !is_unary(component) || derived.get(AT_NATURE) != Some(&WHOLE_LISTS) {
            return;
        }
        let (Ok(left), Ok(derived)) = (Sheet::decode(left), Sheet::decode(derived)) else {
            return;
        };
        let (left, derived) = (left.nature, derived.nature);
        // As many values as would be written, one list once per column.
        let columns = match left.lists() {
            1 => derived.lists(),
            _ => 1,
        };
        let all = columns * left.categories();
        let once = columns * left.without_repeats().categories();
        self.mapped[usize::from(component != 1)] += 1;
        self.repeating += usize::from(once < all);
        self.lost += usize::from(derived.categories() < once);
        self.spared += usize::from(once > MOST_CATEGORIES);
        self.spared_own += usize::from(once <= MOST_CATEGORIES && all > MOST_CATEGORIES);
    }
}

impl fmt::Display for Repeats {
    fn fmt(&self, f: &mut fmt::Formatter) -> fmt::Result {
        let [of_abs, of_negative] = self.mapped;
        write!(
            f,
            "mapped lists: {of_abs} of Abs, {of_negative} of Negative, {} of an operand with repeats; {} lost repeats by the mapping; \
             accepted, and 26 with repeats counted: {} by those, {} by the operand's own",
            self.repeating, self.lost, self.spared, self.spared_own
        )
    }
}

#[cfg(test)]
mod tests {
    use super::Repeats;
    use crate::text::bytes;

    fn counted(component: u32, left: &str, derived: &str) -> Repeats {
        let mut repeats = Repeats::default();
        repeats.count(component, &bytes(left), &bytes(derived));
        repeats
    }

    #[test]
    fn results_are_counted_by_what_they_lost() {
        let abs = Repeats {
            mapped: [1, 0],
            ..Repeats::default()
        };
        assert_eq!(counted(1, "W{1,2}", "W{1,2}"), abs);
        let repeating = Repeats {
            repeating: 1,
            ..abs
        };
        assert_eq!(counted(1, "W{1,1}", "W{1}"), repeating);
        let lost = Repeats { lost: 1, ..abs };
        assert_eq!(counted(1, "W{1}{2,-2}", "W{1}{2}"), lost);
        let spared = Repeats { spared: 1, ..lost };
        let pairs = "W{+-1..64} columns=2";
        assert_eq!(counted(1, pairs, "W{1..64}*2 columns=2"), spared);
        let spared_own = Repeats {
            spared_own: 1,
            ..repeating
        };
        assert_eq!(counted(1, "W{1*65} columns=2", "W{1}*2"), spared_own);
        let negative = Repeats {
            mapped: [0, 1],
            ..Repeats::default()
        };
        assert_eq!(counted(9, "W{1,-1}", "W{-1,1}"), negative);
        assert_eq!(counted(1, "W[1,2]", "W[1,2]"), Repeats::default());
        assert_eq!(counted(2, "W{1,-1}", "W{1}"), Repeats::default());
        assert_eq!(counted(1, "W{1,-1}", "empty"), Repeats::default());
    }
}
