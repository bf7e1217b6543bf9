//! 25 is retired (document 02, S-8): what Power, Modulo and Log answer where it would be looked for, and that nothing else has its number.

use crate::answering::{propagate_property, reveal_node};
use crate::made::*;
use crate::walked::{slot, walked, FILLER};

/// Numbers of category natures.
const WHOLE: u8 = 3;
const BOOL: u8 = 4;
const FLOAT: u8 = 5;

/// One entry, or one list with one value, as bits.
#[derive(Clone, Copy, Debug, PartialEq)]
enum Nature {
    Absent,
    Whole(Option<i64>, Option<i64>),
    Float(Option<f64>, Option<f64>),
    List(u8, i64),
}

/// An operand of type Float, or else of type Int.
#[derive(Clone, Copy, Debug)]
struct Operand {
    float: bool,
    nature: Nature,
}

/// The derived nature, or a refusal.
type Answer = Result<Nature, u32>;

/// Component, left, right, and what is derived.
type Row = (u32, Operand, Operand, Answer);

const fn of(float: bool, nature: Nature) -> Operand {
    Operand { float, nature }
}

const fn whole(lower: i64, upper: i64) -> Operand {
    of(false, Nature::Whole(Some(lower), Some(upper)))
}

const fn listed(value: i64) -> Operand {
    of(false, Nature::List(WHOLE, value))
}

/// The same of type Float.
const fn float(operand: Operand) -> Operand {
    of(true, operand.nature)
}

const OPEN: Nature = Nature::Whole(None, None);
const TRUE: Operand = of(true, Nature::List(BOOL, 1));
/// 0.5, by its bits.
const HALF: Operand = of(true, Nature::List(FLOAT, 0x3fe0_0000_0000_0000));
const TWO: Operand = of(true, Nature::Float(Some(2.0), Some(2.0)));

/// The cases of S-8, and some whose power is far out of 64 bits.
const ROWS: [Row; 15] = [
    (POWER, listed(9), listed(30), Err(15)),
    (POWER, listed(i64::MAX), listed(64), Err(15)),
    (POWER, listed(9), whole(30, 30), Ok(Nature::Absent)),
    (POWER, whole(2, 2), listed(3), Err(15)),
    (POWER, float(listed(2)), float(listed(3)), Err(22)),
    (POWER, float(listed(9)), float(listed(30)), Err(22)),
    (POWER, TRUE, TRUE, Err(22)),
    (POWER, HALF, HALF, Err(19)),
    (POWER, whole(2, 9), whole(3, 3), Ok(OPEN)),
    (POWER, whole(2, 9), whole(3, 300), Ok(OPEN)),
    (POWER, whole(i64::MAX, i64::MAX), whole(64, 64), Ok(OPEN)),
    (POWER, listed(2), float(listed(3)), Err(14)),
    (MODULO, listed(7), listed(2), Err(15)),
    (MODULO, float(listed(7)), float(listed(2)), Err(15)),
    (LOG, float(listed(7)), TWO, Err(15)),
];

impl Operand {
    fn sheet(&self) -> Vec<u8> {
        let bits = |end: Option<f64>| end.map(f64::to_bits);
        let bytes = match self.nature {
            Nature::Absent => absent(),
            Nature::Whole(lower, upper) => range(1, &[(lower, upper)]),
            Nature::Float(lower, upper) => float_range(1, &[(bits(lower), bits(upper))]),
            Nature::List(kind, value) => lists(kind, 1, &[&[value]]),
        };
        with(bytes, &[(TYPE, if self.float { 3 } else { 4 })])
    }
}

/// Every byte: the result has left's fields and another nature.
fn holds((component, left, right, wanted): Row) {
    let wanted = wanted.map(|nature| of(left.float, nature).sheet());
    let found = call(component, &left.sheet(), &right.sheet());
    assert_eq!(found, wanted, "{component} {left:?} {right:?}");
}

#[test]
fn each_call_has_its_answer() {
    ROWS.into_iter().for_each(holds);
}

#[test]
fn plans_and_single_nodes_have_the_same() {
    for (component, left, right, wanted) in ROWS {
        let leaves = [left.sheet(), right.sheet()];
        let steps = [(component, 0, 1)];
        let (reply, slots) = walked(&leaves, &steps);
        let sheet = wanted.map(|nature| of(left.float, nature).sheet());
        let (last, node_count, length) = match &sheet {
            Ok(sheet) => (slot(sheet), (0, 3), (0, sheet.len() as u32)),
            Err(code) => (vec![FILLER; SLOT], (*code, 2), (*code, 2)),
        };
        assert_eq!(
            (reply, &slots[2]),
            (node_count, &last),
            "{left:?} {right:?}"
        );
        let mut work = [slot(&leaves[0]), slot(&leaves[1]), vec![FILLER; SLOT]].concat();
        let mut out = vec![FILLER; SLOT];
        let shown = reveal_node(&plan(2, &steps), &[0; 16], 0, 2, &mut work, &mut out);
        assert_eq!((shown, &out), (length, &last), "{left:?} {right:?}");
    }
}

/// Power over one column, with what a wrong program does otherwise.
#[derive(Clone, Copy)]
struct Program {
    name: &'static str,
    /// Whether 15 lets categories on the right of Int Power pass.
    lists_pass: bool,
    /// Whether Float Power has a rule for whole categories.
    float_rule: bool,
    /// Whether the power of two ranges is computed.
    ranges: bool,
}

/// As the documents say.
const RIGHT: Program = Program {
    name: "right",
    lists_pass: false,
    float_rule: false,
    ranges: false,
};

const WRONG: [Program; 3] = [
    Program {
        name: "Int Power takes categories on its right",
        lists_pass: true,
        ..RIGHT
    },
    Program {
        name: "Float Power has a rule for whole categories",
        float_rule: true,
        ..RIGHT
    },
    Program {
        name: "25 of ranges whose power leaves 64 bits",
        ranges: true,
        ..RIGHT
    },
];

/// A power as document 01's category rule would have it.
fn raised(base: i64, exponent: i64) -> Result<i64, u32> {
    let exponent = u32::try_from(exponent).map_err(|_| 25u32)?;
    base.checked_pow(exponent).ok_or(25)
}

impl Program {
    /// 14, 15 and 16.
    fn bounds(&self, left: Operand, right: Operand) -> Result<(), u32> {
        if left.float != right.float {
            return Err(14);
        }
        match right.nature {
            _ if left.float => Ok(()),
            Nature::Whole(Some(lower), _) if lower < 0 => Err(16),
            Nature::Whole(Some(_), _) => Ok(()),
            Nature::List(..) if self.lists_pass => Ok(()),
            _ => Err(15),
        }
    }

    fn categories(&self, float: bool, left: (u8, i64), right: (u8, i64)) -> Answer {
        let has_rule = if float {
            self.float_rule
        } else {
            self.lists_pass
        };
        match (left.0, right.0) {
            (FLOAT, _) | (_, FLOAT) => Err(19),
            (one, other) if one != other => Err(21),
            (WHOLE, _) if has_rule => {
                raised(left.1, right.1).map(|value| Nature::List(WHOLE, value))
            }
            _ => Err(22),
        }
    }

    fn answer(&self, left: Operand, right: Operand) -> Answer {
        self.bounds(left, right)?;
        match (left.nature, right.nature) {
            (Nature::List(kind, value), Nature::List(other, exponent)) => {
                self.categories(left.float, (kind, value), (other, exponent))
            }
            (Nature::Whole(_, Some(base)), Nature::Whole(_, Some(exponent))) if self.ranges => {
                raised(base, exponent).map(|_| OPEN)
            }
            (Nature::Whole(..), Nature::Whole(..)) => Ok(OPEN),
            (Nature::Float(..), Nature::Float(..)) => Ok(Nature::Float(None, None)),
            (Nature::Whole(..), Nature::Float(..)) | (Nature::Float(..), Nature::Whole(..)) => {
                Err(17)
            }
            _ => Ok(Nature::Absent),
        }
    }

    /// Whether the rows let it pass.
    fn passes(&self) -> bool {
        let mut rows = ROWS.iter().filter(|row| row.0 == POWER);
        rows.all(|(_, left, right, wanted)| self.answer(*left, *right) == *wanted)
    }
}

#[test]
fn wrong_programs_are_shut_out() {
    assert!(RIGHT.passes());
    for program in WRONG {
        assert!(!program.passes(), "{}", program.name);
    }
}

/// Each nature on each side, of each type.
#[test]
fn every_pair_of_natures() {
    let ends = [
        Nature::Whole(Some(-1), Some(3)),
        Nature::Whole(Some(0), None),
        Nature::Whole(None, Some(3)),
        OPEN,
        whole(i64::MAX, i64::MAX).nature,
        TWO.nature,
        Nature::Float(None, None),
    ];
    let values = [listed(9), listed(i64::MAX), TRUE, HALF].map(|operand| operand.nature);
    let natures = [&[Nature::Absent], &ends[..], &values[..]].concat();
    let operands: Vec<Operand> = [false, true]
        .iter()
        .flat_map(|float| natures.iter().map(move |nature| of(*float, *nature)))
        .collect();
    for left in &operands {
        for right in &operands {
            let wanted = RIGHT.answer(*left, *right);
            assert_ne!(wanted, Err(25));
            holds((POWER, *left, *right, wanted));
        }
    }
}

/// None of them was given another number.
#[test]
fn the_numbers_around_it_stay() {
    let many: Vec<i64> = (0..100).collect();
    assert_eq!(call(NEGATIVE, &w(LEAST, 0), &[]), Err(24));
    assert_eq!(call(NEGATIVE, &lists(WHOLE, 2, &[&many]), &[]), Err(26));
    let short = propagate_property(NEGATIVE, 5, &w(1, 2), &[], &mut [0; 97]);
    assert_eq!(short, (27, 0));
    let long = t(&[&[b'a'; 513]]);
    assert_eq!(call(ADD, &long, &long), Err(28));
    assert_eq!(
        call(NEGATIVE, &lists(WHOLE, 3, &[&[1], &[2]]), &[]),
        Err(29)
    );
    let mut work = slot(&w(1, 2));
    let owned = [1, 0, 0, 0, 0, 0, 0, 0];
    let shown = reveal_node(&plan(1, &[]), &owned, 0, 0, &mut work, &mut [0; 98]);
    assert_eq!(shown, (30, 0));
}
