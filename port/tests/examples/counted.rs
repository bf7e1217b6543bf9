//! Category lists counted (document 02, S-5): 29 where the lists of a mapped or combined operand are neither one nor as many as the output's columns, directly behind 20.

use crate::answering::propagate_property;
use crate::made::*;
use crate::walked::{slot, walked, FILLER};

/// Numbers of the natures.
const ABSENT: u8 = 0;
const RANGE: u8 = 1;
const WHOLE: u8 = 3;
const BOOL: u8 = 4;
const FLOAT: u8 = 5;
const TEXT: u8 = 6;

const OF_FLOAT: &[(usize, u8)] = &[(TYPE, 3)];

type Lists = &'static [&'static [i64]];

/// A text has one letter, by the value.
#[derive(Clone, Copy, Debug)]
struct Operand {
    nature: u8,
    columns: u8,
    lists: Lists,
}

const fn of(nature: u8, columns: u8, lists: Lists) -> Operand {
    Operand {
        nature,
        columns,
        lists,
    }
}

const fn whole(columns: u8, lists: Lists) -> Operand {
    of(WHOLE, columns, lists)
}

impl Operand {
    /// Its sheet, of type Int whatever the nature, so that 14 stays out of the way.
    fn sheet(&self) -> Vec<u8> {
        match self.nature {
            ABSENT => stating(absent(), COLUMNS, Some(self.columns.into())),
            RANGE => range(self.columns, &[(Some(0), Some(9))]),
            TEXT => with(letters(self.columns, self.lists), &[(TYPE, 4)]),
            nature => lists(nature, self.columns, self.lists),
        }
    }

    fn has_lists(&self) -> bool {
        self.nature >= WHOLE
    }
}

fn letters(columns: u8, lists: Lists) -> Vec<u8> {
    let letter = |value: &i64| [b'a' + *value as u8];
    let made: Vec<Vec<[u8; 1]>> = lists
        .iter()
        .map(|list| list.iter().map(letter).collect())
        .collect();
    let lent: Vec<Vec<&[u8]>> = made
        .iter()
        .map(|list| list.iter().map(|text| &text[..]).collect())
        .collect();
    let lent: Vec<&[&[u8]]> = lent.iter().map(Vec::as_slice).collect();
    texts(columns, &lent)
}

/// Component, left, right, and what is derived.
type Row = (u32, Operand, Operand, Result<Operand, u32>);

/// Abs or Negative, which do not read right.
const fn alone(component: u32, left: Operand, wanted: Result<Operand, u32>) -> Row {
    (component, left, left, wanted)
}

const ONE: Lists = &[&[1]];
const TWO: Lists = &[&[1], &[2]];
const TWO_BOOLS: Lists = &[&[1], &[0]];
const THREE: Lists = &[&[1], &[2], &[3]];
const THREE_TENS: Lists = &[&[10], &[20], &[30]];
const ABSENT_4: Operand = of(ABSENT, 4, &[]);
const RANGE_4: Operand = of(RANGE, 4, &[]);

const MAPPED: [Row; 14] = [
    alone(ABS, whole(3, TWO), Err(29)),
    alone(NEGATIVE, whole(1, TWO), Err(29)),
    alone(ABS, whole(3, ONE), Ok(whole(3, &[&[1], &[1], &[1]]))),
    alone(
        NEGATIVE,
        whole(3, ONE),
        Ok(whole(3, &[&[-1], &[-1], &[-1]])),
    ),
    alone(ABS, whole(3, THREE), Ok(whole(3, THREE))),
    alone(
        NEGATIVE,
        whole(3, THREE),
        Ok(whole(3, &[&[-1], &[-2], &[-3]])),
    ),
    alone(ABS, whole(2, &[&[4], &[5], &[6]]), Err(29)),
    // It hides 24 and 22, and not 19 and 20.
    alone(NEGATIVE, whole(3, &[&[LEAST], &[1]]), Err(29)),
    alone(NEGATIVE, whole(2, &[&[LEAST], &[1]]), Err(24)),
    alone(ABS, of(BOOL, 3, TWO_BOOLS), Err(29)),
    alone(NEGATIVE, of(TEXT, 2, THREE), Err(29)),
    alone(ABS, of(BOOL, 2, TWO_BOOLS), Err(22)),
    alone(ABS, of(FLOAT, 3, TWO), Err(19)),
    alone(NEGATIVE, whole(3, &[]), Err(20)),
];

const COMBINED: [Row; 30] = [
    (SUBTRACT, whole(4, TWO), of(FLOAT, 4, ONE), Err(29)),
    (SUBTRACT, of(FLOAT, 4, ONE), whole(4, TWO), Err(19)),
    (ADD, whole(3, TWO), of(BOOL, 3, ONE), Err(29)),
    (ADD, of(BOOL, 3, ONE), whole(3, TWO), Err(29)),
    (ADD, whole(3, TWO), whole(3, &[]), Err(29)),
    (ADD, whole(3, &[]), whole(3, TWO), Err(20)),
    (MULTIPLY, of(BOOL, 3, TWO_BOOLS), of(BOOL, 3, ONE), Err(29)),
    (MULTIPLY, of(BOOL, 2, TWO_BOOLS), of(BOOL, 2, ONE), Err(22)),
    (MULTIPLY, of(BOOL, 3, ONE), of(BOOL, 3, TWO_BOOLS), Err(29)),
    (DIVIDE, whole(3, TWO), whole(3, &[&[0]]), Err(29)),
    (DIVIDE, whole(2, TWO), whole(2, &[&[0]]), Err(24)),
    // By the output's columns, not by the operand's own.
    (
        SUBTRACT,
        whole(1, &[&[4], &[5]]),
        whole(2, ONE),
        Ok(whole(2, &[&[3], &[4]])),
    ),
    (
        ADD,
        whole(3, THREE),
        whole(1, THREE_TENS),
        Ok(whole(3, &[&[11], &[22], &[33]])),
    ),
    (ADD, whole(2, TWO), whole(1, THREE_TENS), Err(29)),
    (ADD, whole(1, TWO), whole(1, &[&[10], &[20]]), Err(29)),
    (
        ADD,
        whole(2, &[&[0], &[0]]),
        whole(1, &[&[1], &[]]),
        Ok(whole(2, &[&[1], &[]])),
    ),
    (ADD, whole(4, TWO), RANGE_4, Ok(ABSENT_4)),
    (SUBTRACT, RANGE_4, whole(4, TWO), Ok(ABSENT_4)),
    (MULTIPLY, whole(4, TWO), ABSENT_4, Ok(ABSENT_4)),
    (ADD, ABSENT_4, whole(4, TWO), Ok(ABSENT_4)),
    (POOL, whole(4, TWO), RANGE_4, Ok(ABSENT_4)),
    (ADD, of(TEXT, 3, TWO), of(TEXT, 3, ONE), Err(29)),
    (ADD, of(TEXT, 3, ONE), of(TEXT, 3, TWO), Err(29)),
    (SUBTRACT, of(TEXT, 3, TWO), of(TEXT, 3, ONE), Err(29)),
    (POOL, whole(3, TWO), whole(3, &[&[5]]), Err(29)),
    (POOL, whole(3, &[&[5]]), whole(3, TWO), Err(29)),
    (POOL, of(BOOL, 3, TWO_BOOLS), of(BOOL, 3, ONE), Err(29)),
    (POOL, of(TEXT, 3, THREE), of(TEXT, 3, TWO), Err(29)),
    (POOL, whole(3, TWO), of(FLOAT, 3, ONE), Err(29)),
    (
        POOL,
        whole(2, TWO),
        whole(2, &[&[5]]),
        Ok(whole(2, &[&[1, 5], &[2, 5]])),
    ),
];

/// What a component makes of two plain sheets with this nature: the call's node, but for Abs and Negative; of Pool 2 rows and no order too.
fn derived(component: u32, sheet: Vec<u8>) -> Vec<u8> {
    match component {
        ABS | NEGATIVE => sheet,
        POOL => stating(with(sheet, &[(NODE, 5), (ORDERED, 0)]), ROWS, Some(2)),
        _ => with(sheet, &[(NODE, 5)]),
    }
}

#[test]
fn lists_are_counted() {
    for (component, left, right, wanted) in MAPPED.iter().chain(&COMBINED) {
        let found = call(*component, &left.sheet(), &right.sheet());
        let wanted = wanted.map(|sheet| derived(*component, sheet.sheet()));
        assert_eq!(found, wanted, "{component} {left:?} {right:?}");
    }
}

/// What a program asks of the lists of one operand, 0 for left and 1 for right, or of both.
#[derive(Clone, Copy)]
enum Test {
    /// 19 and 20.
    Standard(usize),
    /// 29.
    Count(usize),
    /// 21.
    Kinds,
    /// 22.
    Rule,
}
use Test::{Count, Kinds, Rule, Standard};

#[derive(Clone, Copy)]
struct Program {
    name: &'static str,
    order: &'static [Test],
    /// The columns that a count is held against, by the operand's own and the output's.
    columns: fn(usize, usize) -> usize,
    /// Whether so many lists go with so many columns.
    fits: fn(usize, usize) -> bool,
    /// Whether a component counts the lists of a nature.
    counts: fn(u32, u8) -> bool,
    /// Whether lists beside a range or an absent nature are counted.
    mixed: bool,
}

/// As the documents say.
const RIGHT: Program = Program {
    name: "right",
    order: &[Standard(0), Count(0), Standard(1), Count(1), Kinds, Rule],
    columns: |_, output| output,
    fits: |lists, columns| lists == 1 || lists == columns,
    counts: |_, _| true,
    mixed: false,
};

const fn ordered(name: &'static str, order: &'static [Test]) -> Program {
    Program {
        name,
        order,
        ..RIGHT
    }
}

const fn fitting(name: &'static str, fits: fn(usize, usize) -> bool) -> Program {
    Program {
        name,
        fits,
        ..RIGHT
    }
}

const fn counting(name: &'static str, counts: fn(u32, u8) -> bool) -> Program {
    Program {
        name,
        counts,
        ..RIGHT
    }
}

const WRONG: [Program; 14] = [
    ordered(
        "29 behind 21",
        &[Standard(0), Standard(1), Kinds, Count(0), Count(1), Rule],
    ),
    ordered(
        "29 behind 22",
        &[Standard(0), Standard(1), Kinds, Rule, Count(0), Count(1)],
    ),
    ordered(
        "right's 19 and 20 before left's 29",
        &[Standard(0), Standard(1), Count(0), Count(1), Kinds, Rule],
    ),
    ordered(
        "right's 29 behind 21",
        &[Standard(0), Count(0), Standard(1), Kinds, Count(1), Rule],
    ),
    ordered(
        "29 before 20",
        &[Count(0), Standard(0), Count(1), Standard(1), Kinds, Rule],
    ),
    ordered(
        "right is not counted",
        &[Standard(0), Count(0), Standard(1), Kinds, Rule],
    ),
    Program {
        name: "the sheet's own columns",
        columns: |own, _| own,
        ..RIGHT
    },
    fitting(
        "a count below the columns is taken or padded",
        |lists, columns| lists <= columns,
    ),
    fitting("a count above the columns is taken", |lists, columns| {
        lists == 1 || lists >= columns
    }),
    fitting("one list is not spread", |lists, columns| lists == columns),
    counting("Bool is not counted", |_, nature| nature != BOOL),
    counting("text is not counted", |_, nature| nature != TEXT),
    counting("Pool does not count", |component, _| component != POOL),
    Program {
        name: "mixed natures are counted",
        mixed: true,
        ..RIGHT
    },
];

impl Program {
    fn refuses(&self, component: u32, operand: &Operand, output: u8) -> bool {
        let columns = (self.columns)(operand.columns.into(), output.into());
        (self.counts)(component, operand.nature) && !(self.fits)(operand.lists.len(), columns)
    }

    fn test(&self, test: Test, component: u32, operands: &[Operand], output: u8) -> Option<u32> {
        let failed = |failed: bool, code: u32| failed.then_some(code);
        match test {
            Standard(side) => {
                let operand = operands.get(side)?;
                failed(operand.nature == FLOAT, 19).or(failed(operand.lists.is_empty(), 20))
            }
            Count(side) => failed(self.refuses(component, operands.get(side)?, output), 29),
            Kinds => failed(
                operands[0].nature != operands[operands.len() - 1].nature,
                21,
            ),
            Rule => {
                let has_rule = match operands[0].nature {
                    WHOLE => true,
                    TEXT => component == ADD || component == POOL,
                    _ => component == POOL,
                };
                failed(!has_rule, 22)
            }
        }
    }

    /// The first of 19 to 22 and 29 that refuses, if one does.
    fn code(&self, component: u32, left: &Operand, right: &Operand) -> Option<u32> {
        let both = [*left, *right];
        let operands = match component {
            ABS | NEGATIVE => &both[..1],
            _ => &both[..],
        };
        let output = operands.iter().map(|operand| operand.columns).max()?;
        if !operands.iter().all(Operand::has_lists) {
            let counted =
                |operand: &Operand| operand.has_lists() && self.refuses(component, operand, output);
            let refused = self.mixed && operands.iter().any(counted);
            return refused.then_some(29);
        }
        let mut tests = self.order.iter();
        tests.find_map(|test| self.test(*test, component, operands, output))
    }

    /// Whether the rows let it pass: their 24 comes behind what it tests.
    fn passes(&self) -> bool {
        let rows = MAPPED.iter().chain(&COMBINED);
        let meets = |(component, left, right, wanted): &Row| {
            let wanted = wanted.as_ref().err().copied().filter(|code| *code != 24);
            self.code(*component, left, right) == wanted
        };
        rows.into_iter().all(meets)
    }
}

#[test]
fn no_wrong_program_passes() {
    assert!(RIGHT.passes());
    for program in WRONG {
        assert!(!program.passes(), "{}", program.name);
    }
}

/// So many lists of one value, which no rule overflows or divides by zero.
const COUNTS: [Lists; 5] = [
    &[],
    ONE,
    &[&[1], &[1]],
    &[&[1], &[1], &[1]],
    &[&[1], &[1], &[1], &[1]],
];

/// Operands of every nature over one and three columns, with up to four lists.
fn operands() -> Vec<Operand> {
    let mut operands = Vec::new();
    for columns in [1, 3] {
        operands.extend([of(ABSENT, columns, &[]), of(RANGE, columns, &[])]);
        for nature in [WHOLE, BOOL, FLOAT, TEXT] {
            operands.extend(COUNTS.map(|lists| of(nature, columns, lists)));
        }
    }
    operands
}

/// All pairs of such operands: what is refused, and with what; what is derived has a list for each column.
#[test]
fn every_pair_of_counts() {
    let operands = operands();
    let mut codes = [0; 30];
    for component in [ABS, ADD, SUBTRACT, MULTIPLY, DIVIDE, NEGATIVE, POOL] {
        for left in &operands {
            for right in &operands {
                if component == POOL && left.columns != right.columns {
                    continue;
                }
                let wanted = RIGHT.code(component, left, right);
                let found = call(component, &left.sheet(), &right.sheet());
                assert_eq!(found.as_ref().err(), wanted.as_ref(), "{left:?} {right:?}");
                codes[wanted.unwrap_or(0) as usize] += 1;
                if let Ok(sheet) = found {
                    assert!(sheet[6] == ABSENT || sheet[2] == sheet[40]);
                }
            }
        }
    }
    let counted: Vec<usize> = [0, 19, 20, 21, 22, 29].map(|code| codes[code]).to_vec();
    assert!(counted.iter().all(|count| *count > 300), "{counted:?}");
}

/// What is found before the lists are looked at comes first; all that is behind them is hidden.
#[test]
fn the_order_of_the_other_checks() {
    let two = whole(3, TWO).sheet();
    let five = whole(3, &[&[5]]).sheet();
    let private = |sheet: &[u8]| with(sheet.to_vec(), &[(RELEASABLE, 0)]);
    let grouped = grouped(private(&two), 1);
    assert_eq!(call(ADD, &grouped, &private(&five)), Err(8));
    let no_columns = stating(two.clone(), COLUMNS, None);
    assert_eq!(call(ADD, &no_columns, &five), Err(11));
    assert_eq!(call(ABS, &no_columns, &[]), Err(11));
    assert_eq!(call(ADD, &two, &whole(2, TWO).sheet()), Err(12));
    assert_eq!(call(ADD, &two, &with(five.clone(), OF_FLOAT)), Err(14));
    let most = stating(two.clone(), ROWS, Some(i64::MAX));
    assert_eq!(call(POOL, &most, &five), Err(29));
    let fitting = stating(whole(2, TWO).sheet(), ROWS, Some(i64::MAX));
    assert_eq!(call(POOL, &fitting, &whole(2, &[&[5]]).sheet()), Err(24));
    let hundred: Vec<i64> = (0..100).collect();
    let thirty: Vec<i64> = (0..30).collect();
    let many = |columns| lists(WHOLE, columns, &[&hundred, &[1]]);
    let factor = |columns| lists(WHOLE, columns, &[&thirty]);
    assert_eq!(call(ADD, &many(3), &factor(3)), Err(29));
    assert_eq!(call(ADD, &many(2), &factor(2)), Err(26));
    let long = |columns| texts(columns, &[&[&[b'x'; 600]], &[b"y"]]);
    let rest = |columns| texts(columns, &[&[&[b'x'; 425]]]);
    assert_eq!(call(ADD, &long(3), &rest(3)), Err(29));
    assert_eq!(call(ADD, &long(2), &rest(2)), Err(28));
    assert_eq!(propagate_property(ABS, 5, &two, &[], &mut []), (29, 0));
}

/// Float Power's output has left's columns. No pair of categories gets past the 15 of Modulo, Log and Int Power.
#[test]
fn six_to_eight() {
    let float = |operand: Operand| with(operand.sheet(), OF_FLOAT);
    let power = |left, right| call(POWER, &float(left), &float(right));
    assert_eq!(power(whole(1, ONE), whole(2, TWO)), Err(29));
    assert_eq!(power(whole(2, TWO), whole(1, ONE)), Err(22));
    assert_eq!(power(whole(2, TWO), whole(1, TWO)), Err(22));
    assert_eq!(power(whole(3, TWO), of(FLOAT, 3, ONE)), Err(29));
    assert_eq!(power(of(FLOAT, 3, ONE), whole(3, TWO)), Err(19));
    assert_eq!(power(whole(3, ONE), of(BOOL, 3, TWO_BOOLS)), Err(29));
    let private = |sheet| with(sheet, &[(RELEASABLE, 0)]);
    let left = grouped(private(float(whole(3, TWO))), 1);
    let right = private(float(whole(3, ONE)));
    assert_eq!(call(POWER, &left, &right), Err(29));
    for (left, right) in [
        (whole(1, ONE), whole(2, TWO)),
        (whole(3, TWO), whole(3, TWO)),
    ] {
        assert_eq!(call(POWER, &left.sheet(), &right.sheet()), Err(15));
        assert_eq!(call(MODULO, &left.sheet(), &right.sheet()), Err(15));
        assert_eq!(call(LOG, &float(left), &float(right)), Err(15));
    }
    // A range beside such lists is no pair of categories.
    let absent = of(ABSENT, 3, &[]);
    let found = call(POWER, &whole(3, TWO).sheet(), &of(RANGE, 3, &[]).sheet());
    assert_eq!(found, Ok(absent.sheet()));
    assert_eq!(power(of(RANGE, 3, &[]), whole(3, TWO)), Ok(float(absent)));
}

/// A leaf is not counted by being there, nor beside a range, but by the step that maps it.
#[test]
fn plans_count_where_lists_are_used() {
    let leaves = [whole(3, TWO).sheet(), range(3, &[(Some(1), Some(2))])];
    let sum = slot(&with(of(ABSENT, 3, &[]).sheet(), &[(NODE, 2)]));
    let mut slots = vec![slot(&leaves[0]), slot(&leaves[1]), sum];
    assert_eq!(walked(&leaves, &[]), ((0, 2), slots[..2].to_vec()));
    assert_eq!(walked(&leaves, &[(ADD, 0, 1)]), ((0, 3), slots.clone()));
    slots.push(vec![FILLER; SLOT]);
    let steps = [(ADD, 0, 1), (NEGATIVE, 0, 0)];
    assert_eq!(walked(&leaves, &steps), ((29, 3), slots));
}

/// A derived sheet has a list for each column, so that it is refused only beside other columns.
#[test]
fn derived_lists_are_counted_too() {
    let leaves = [whole(1, &[&[4], &[5]]).sheet(), whole(2, ONE).sheet()];
    let (reply, slots) = walked(&leaves, &[(SUBTRACT, 0, 1), (NEGATIVE, 2, 2)]);
    let difference = with(whole(2, &[&[3], &[4]]).sheet(), &[(NODE, 2)]);
    let negated = with(whole(2, &[&[-3], &[-4]]).sheet(), &[(NODE, 2)]);
    assert_eq!(reply, (0, 4));
    assert_eq!(slots[2..], [slot(&difference), slot(&negated)]);
    // The leaf itself has one column and two lists.
    let (reply, _) = walked(&leaves, &[(SUBTRACT, 0, 1), (NEGATIVE, 0, 0)]);
    assert_eq!(reply, (29, 3));
}
