//! The refusals of document 01, with what document 02 adds to them.

use std::error::Error;
use std::fmt;

/// Why a call said no. The discriminant is its number in documents 01 and 02.
#[derive(Clone, Copy, Debug, PartialEq, Eq, Hash, PartialOrd, Ord)]
pub enum Refusal {
    /// 1: The plan is malformed.
    MalformedPlan = 1,
    /// 2: The component is not 1 to 10.
    NoSuchComponent = 2,
    /// 3: A sheet's size exceeds its limit, or its length isn't what its sizes call for.
    SheetSize = 3,
    /// 4: A field has none of its permitted values.
    FieldValue = 4,
    /// 5: A float bound is infinite or NaN, or a lower bound exceeds its upper.
    BadBound = 5,
    /// 6: An operand that isn't releasable has an aggregator.
    Aggregated = 6,
    /// 7: An operand that isn't releasable has a sample proportion present and not equal to 1.
    Sampled = 7,
    /// 8: Neither operand is releasable and their groups differ.
    GroupsDiffer = 8,
    /// 9: Neither operand is releasable and their dataset ids differ.
    DatasetsDiffer = 9,
    /// 10: Neither operand is releasable and their c-stabilities differ.
    StabilitiesDiffer = 10,
    /// 11: A column count is absent.
    NoColumnCount = 11,
    /// 12: The column counts differ and neither is 1; for pool, they differ.
    ColumnsDiffer = 12,
    /// 13: The row counts clash.
    RowsClash = 13,
    /// 14: The data types don't suit the component.
    DataTypes = 14,
    /// 15: The bounds that log, modulo or power read are not ranges of the wanted kind, or one is absent.
    BoundsUnsuited = 15,
    /// 16: The bounds that log, modulo or power read break the component's condition.
    BoundsCondition = 16,
    /// 17: One range is whole, the other float.
    MixedRanges = 17,
    /// 18: A range list has neither one entry nor one per output column.
    BoundListCount = 18,
    /// 19: Float categories are to be combined or mapped.
    FloatCategories = 19,
    /// 20: A category operand has no lists.
    NoCategoryLists = 20,
    /// 21: The category kinds differ.
    CategoryKindsDiffer = 21,
    /// 22: The component has no rule for this category kind.
    NoCategoryRule = 22,
    /// 23: Divide may meet zero.
    DivideMayMeetZero = 23,
    /// 24: Whole-number arithmetic leaves 64 signed bits, or a category divides by zero.
    WholeOverflow = 24,
    /// 25: A category under power overflows.
    PowerCategoryOverflow = 25,
    /// 26: The result holds over 128 categories, counted as they would be written.
    TooManyCategories = 26,
    /// 27: The output is too short.
    OutputTooShort = 27,
    /// 28: The result's text exceeds 1,024 bytes after repeats go.
    TooMuchText = 28,
    /// 29: The number of category lists is neither one nor the output's column count.
    CategoryListCount = 29,
    /// 30: The reader may not see the node.
    NotForReader = 30,
}

/// A refusal, its sentence, and what a person can do about it.
type Row = (Refusal, &'static str, &'static str);

/// By number.
const TABLE: [Row; 30] = [
    (Refusal::MalformedPlan, "The plan is malformed.",
     "The bytes of a plan have another length than its sizes call for, there are no nodes or more than 32, no leaves or more leaves than nodes, a component is not 1 to 10, an operand is not an earlier node, or abs or negative names two different operands. The call that shows one node also says it of a node that the plan does not have, and of owner sets that are not one for each leaf. The command `gate cards` writes plans that never meet it, and `gate show` meets it only if its NODE is a number that no node has."),
    (Refusal::NoSuchComponent, "The component is not 1 to 10.",
     "Only a single call can meet it; in a plan the same fault is refusal 1."),
    (Refusal::SheetSize, "A sheet's size exceeds its limit, or its length isn't what its sizes call for.",
     "A sheet holds at most 4 groups, 16 ranges or category lists, 128 categories over all its lists, and 1,024 bytes of text. Its length is what these sizes call for, 2,308 bytes at most; the text counts under any nature."),
    (Refusal::FieldValue, "A field has none of its permitted values.",
     "Columns are 1 to 16; marks are 0 or 1; natures, data types and kinds have their listed numbers; list numbers never fall and stay below the list count; absent values and reserved bytes are zero. Texts lie end to end in the order of their values, from 0 to the end of the text area, which is empty unless the categories are text."),
    (Refusal::BadBound, "A float bound is infinite or NaN, or a lower bound exceeds its upper.",
     "A leaf's range must have its lower end first, and float ends must be finite. A derived range fails by an infinite float end alone, which a card shows as -overflow or +overflow: the step that made it is accepted, and the step that reads it is refused. Narrow the ranges of the leaves. Where nobody knows an end, state none (`..`) instead of a huge number."),
    (Refusal::Aggregated, "An operand that isn't releasable has an aggregator.",
     "A private result of an aggregation takes no further steps. Release it first, or leave the step out."),
    (Refusal::Sampled, "An operand that isn't releasable has a sample proportion present and not equal to 1.",
     "Leave the sample proportion out, or set it to 1. Abs and negative do not look at it."),
    (Refusal::GroupsDiffer, "Neither operand is releasable and their groups differ.",
     "Two private operands must have the same groups, in the same order."),
    (Refusal::DatasetsDiffer, "Neither operand is releasable and their dataset ids differ.",
     "Two private operands must come from the same dataset. An absent dataset id differs from every present one. Pool does not compare them, and its result has none."),
    (Refusal::StabilitiesDiffer, "Neither operand is releasable and their c-stabilities differ.",
     "Two private operands must have the same c-stability. Pool does not compare them and takes the greater."),
    (Refusal::NoColumnCount, "A column count is absent.",
     "State the columns of the leaf. Modulo, log and power read only left's count."),
    (Refusal::ColumnsDiffer, "The column counts differ and neither is 1; for pool, they differ.",
     "Two operands must have as many columns as each other, or one of them a single column, which then goes with each of the other's. Pool puts rows under rows: there a single column goes with no other count."),
    (Refusal::RowsClash, "The row counts clash.",
     "Rows must be equal and present on both sides, or both operands come from one dataset, or one operand is releasable with 1 row and goes with every row of the other. Pool takes any row counts and adds them (24)."),
    (Refusal::DataTypes, "The data types don't suit the component.",
     "Add, subtract, multiply, divide and pool need equal types; modulo and power need both int or both float; log needs a left operand of type float; abs and negative take any."),
    (Refusal::BoundsUnsuited, "The bounds that log, modulo or power read are not ranges of the wanted kind, or one is absent.",
     "Modulo reads right's lower ends, power of type int right's lower ends, log both ends of the base (right) and the lower ends of the data (left). These must be ranges with the ends present; modulo and power of type int want whole ranges; log takes no whole data under a whole base."),
    (Refusal::BoundsCondition, "The bounds that log, modulo or power read break the component's condition.",
     "Modulo: right's lower ends are above 0. Power of type int: right's lower ends are 0 or above. Log: in each entry the base lies within (0, 1) or starts above 1, and the data's lower ends are above 0."),
    (Refusal::MixedRanges, "One range is whole, the other float.",
     "Write both ranges as whole or both as float."),
    (Refusal::BoundListCount, "A range list has neither one entry nor one per output column.",
     "Write one range for all columns, or one for each. The output of modulo, log and power has left's columns."),
    (Refusal::FloatCategories, "Float categories are to be combined or mapped.",
     "No component computes with float categories, and pool does not unite them. Use a float range, or whole categories."),
    (Refusal::NoCategoryLists, "A category operand has no lists.",
     "Write one category list for all columns, or one for each (29)."),
    (Refusal::CategoryKindsDiffer, "The category kinds differ.",
     "Both operands need categories of one kind."),
    (Refusal::NoCategoryRule, "The component has no rule for this category kind.",
     "No component computes with bool categories, and only add with text categories: it joins left text and right text. Pool unites both kinds. Power of type float has no rule for any categories."),
    (Refusal::DivideMayMeetZero, "Divide may meet zero.",
     "It is said of a divisor whose lower end is absent while its upper end is absent or is 0 or above, and of one whose upper end is absent while its lower end is 0 or below. State the missing end, or a divisor on one side of zero."),
    (Refusal::WholeOverflow, "Whole-number arithmetic leaves 64 signed bits, or a category divides by zero.",
     "Narrow the ranges, or take the zero out of the divisor's categories. Abs adds the two ends of its range, and that sum must fit too. Pool computes no end: it adds the two row counts, whatever the natures are. State smaller row counts there, or none."),
    (Refusal::PowerCategoryOverflow, "A category under power overflows.",
     "No call can meet it: power of type int wants a range on its right (15), and power of type float has no category rule (22). The number is kept because document 01 lists it."),
    (Refusal::TooManyCategories, "The result holds over 128 categories, counted as they would be written.",
     "Of equal results in one list the first stays, under abs and negative too, and what is left is counted: abs of -3 and 3 is one category. A single list goes with every output column and then counts once for each. Take fewer categories, or fewer columns. 24 is tested first."),
    (Refusal::OutputTooShort, "The output is too short.",
     "A single call needs as many bytes as the derived sheet has, at most 2,308. A plan call needs 2,308 bytes of work buffer for each node. The call that shows one node needs both, tests the work buffer before it asks for the reader's rights, and its output last. The command `gate` always lends enough."),
    (Refusal::TooMuchText, "The result's text exceeds 1,024 bytes after repeats go.",
     "Add joins every left text with every right text, and pool takes the texts of both; of equal ones the first stays. The lists count as they would be written: a single list goes with every output column and then counts once for each. Take shorter texts, fewer of them, or fewer columns. It is tested directly after 26."),
    (Refusal::CategoryListCount, "The number of category lists is neither one nor the output's column count.",
     "Write one category list for all columns, or one for each. A leaf is not refused with it; the steps that use its lists count them: abs and negative, and add, subtract, multiply, divide, pool and power of type float where both operands have categories. Beside a range or an absent nature no list is counted. The columns are the result's, so that beside three columns a single column may have three lists; the output of power has left's. It is tested directly after 20: left finishes 19, 20 and 29 before right, and 21 follows."),
    (Refusal::NotForReader, "The reader may not see the node.",
     "The owners of a node are the rinks that own any of the leaves it stands on, each counted once. The node is shown if all of them lie in the reader's set, or if there are five or more; a node without owners is shown to everybody. Ask with a set that holds the owners named, or for a node that stands on the leaves of more rinks. It is tested before any sheet is read, so that it tells nothing of one. Only the call that shows one node (`gate show`) meets it; `gate cards` asks nobody for rights."),
];

impl Refusal {
    /// All of them, by number.
    ///
    /// ```
    /// use gate_runtime::Refusal;
    /// assert_eq!(Refusal::all().count(), 30);
    /// ```
    pub fn all() -> impl Iterator<Item = Refusal> {
        TABLE.iter().map(|row| row.0)
    }

    /// Its number.
    pub fn code(self) -> u32 {
        self as u32
    }

    /// The refusal with this number; 0 is acceptance, and like every other number none.
    ///
    /// ```
    /// use gate_runtime::Refusal;
    /// assert_eq!(Refusal::from_code(23), Some(Refusal::DivideMayMeetZero));
    /// assert_eq!(Refusal::from_code(0), None);
    /// ```
    pub fn from_code(code: u32) -> Option<Refusal> {
        Refusal::all().find(|refusal| refusal.code() == code)
    }

    /// The documents' sentence.
    pub fn sentence(self) -> &'static str {
        self.row().1
    }

    /// What it means and what can be done about it.
    ///
    /// ```
    /// use gate_runtime::Refusal;
    /// assert!(Refusal::PowerCategoryOverflow.explain().starts_with("No call can meet it"));
    /// ```
    pub fn explain(self) -> &'static str {
        self.row().2
    }

    /// Rows stand by number, from 1.
    fn row(self) -> &'static Row {
        &TABLE[self as usize - 1]
    }
}

impl fmt::Display for Refusal {
    fn fmt(&self, f: &mut fmt::Formatter<'_>) -> fmt::Result {
        write!(f, "{}: {}", self.code(), self.sentence())
    }
}

impl Error for Refusal {}

#[cfg(test)]
mod tests {
    use super::*;
    use crate::form::NARROW;

    #[test]
    fn rows_stand_by_number() {
        for (place, refusal) in Refusal::all().enumerate() {
            assert_eq!(refusal.code() as usize, place + 1);
            assert_eq!(Refusal::from_code(refusal.code()), Some(refusal));
            assert!(refusal.sentence().ends_with('.') && refusal.explain().ends_with('.'));
        }
        assert_eq!(Refusal::from_code(31), None);
        // Texts name the limits in figures.
        assert_eq!((NARROW.longest(), NARROW.text), (2308, 1024));
        assert!(Refusal::SheetSize.explain().contains("2,308") && Refusal::OutputTooShort.explain().contains("2,308"));
        assert!(Refusal::SheetSize.explain().contains("1,024") && Refusal::TooMuchText.sentence().contains("1,024"));
    }

    /// Repeats that abs makes go before it counts.
    #[test]
    fn what_26_counts_is_said() {
        let text = Refusal::TooManyCategories.explain();
        assert!(text.contains("under abs and negative too, and what is left is counted: abs of -3 and 3 is one category"), "{text}");
        assert!(text.contains("24 is tested first") && !text.contains("except"), "{text}");
    }

    /// Its place is not that of its number.
    #[test]
    fn the_place_of_29_in_the_order_is_said() {
        let text = Refusal::CategoryListCount.explain();
        assert!(text.contains("directly after 20: left finishes 19, 20 and 29 before right, and 21 follows"), "{text}");
        assert!(Refusal::NoCategoryLists.explain().contains("(29)"));
    }

    /// No component puts a lower end above its upper.
    #[test]
    fn a_derived_range_is_said_to_fail_5_by_an_infinite_end_alone() {
        let text = Refusal::BadBound.explain();
        assert!(text.contains("A leaf's range must have its lower end first"), "{text}");
        assert!(text.contains("A derived range fails by an infinite float end alone"), "{text}");
        assert!(!text.contains("subtract"), "{text}");
    }
}
