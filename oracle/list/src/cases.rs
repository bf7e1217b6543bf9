//! Named cases: document 01's worked examples, and inputs on which a reading
//! of it and of document 02 can go wrong. Each says the answer that is expected.
//! Pool's, texts that are no UTF-8, and range Subtracts stand by themselves, since
//! the original has no answer to them, or another one.

use crate::form::{Answer, Call};
use crate::sheet::{Sheet, LONGEST};
use crate::text;

/// Label, component, left, right, and either a refusal's number or the result
/// with the fields that matter (see [`crate::text`]).
type Row = (&'static str, u32, &'static str, &'static str, &'static str);

pub struct Case {
    pub label: &'static str,
    pub call: Call,
    expected: &'static str,
}

/// The call's own node number in these cases; sheets say others.
const NODE: u32 = 11;

impl Case {
    fn new(row: &Row) -> Case {
        let (label, component, left, right, expected) = *row;
        Case::at(label, component, [left, right], (NODE, LONGEST), expected)
    }

    fn at(
        label: &'static str,
        component: u32,
        [left, right]: [&str; 2],
        (node, out_len): (u32, usize),
        expected: &'static str,
    ) -> Case {
        let call = Call {
            component,
            node,
            left: text::bytes(left),
            right: text::bytes(right),
            out_len,
        };
        Case {
            label,
            call,
            expected,
        }
    }

    /// Whether an answer is the expected one.
    pub fn check(&self, answer: &Answer) -> Result<(), String> {
        match self.expected.parse::<u32>() {
            Ok(code) if code == answer.code => Ok(()),
            Ok(code) => Err(format!("{}: {}, wanted {code}", self.label, answer.code)),
            Err(_) if answer.code != 0 => Err(format!("{}: {}", self.label, answer.code)),
            Err(_) => {
                // A result may hold an infinite end, which 5 refuses.
                let written = Sheet::decode_unordered(&answer.bytes)
                    .map_err(|code| format!("{}: the result is {code}", self.label))?;
                text::matches(self.expected, &written)
                    .map_err(|fault| format!("{}: {fault}", self.label))
            }
        }
    }
}

/// Every named case, in a fixed order.
pub fn all() -> Vec<Case> {
    let tables = [
        SHELF,
        BYTES,
        ORDER,
        MARKS,
        ENDS,
        CATEGORIES,
        COUNTED,
        MAPPED,
        SIX_TO_EIGHT,
        FIELDS,
        AREA,
        TEXTS,
    ];
    let rows = tables.into_iter().flatten();
    let mut cases: Vec<Case> = rows.map(Case::new).collect();
    cases.extend(
        OUTPUTS
            .iter()
            .map(|(label, component, left, right, node, out_len, expected)| {
                Case::at(
                    label,
                    *component,
                    [left, right],
                    (*node, *out_len),
                    expected,
                )
            }),
    );
    cases
}

/// Pool's cases, for whoever answers it.
pub fn pool() -> Vec<Case> {
    let mut cases: Vec<Case> = POOLED.iter().map(Case::new).collect();
    let (call, short) = (["W[1,2]", "W[-3,5]"], (NODE, 97));
    cases.push(Case::at("Pool into 97 bytes of 98", 10, call, short, "27"));
    cases
}

/// Texts that are no UTF-8, for whoever takes any bytes.
pub fn raw() -> Vec<Case> {
    RAW.iter().map(Case::new).collect()
}

/// Range Subtracts, for whoever answers by document 02's rule.
pub fn differences() -> Vec<Case> {
    let mut cases: Vec<Case> = DIFFERENCES.iter().map(Case::new).collect();
    let call = ["W[0,1]", "W[0,5]"];
    let short = "Subtract into 97 bytes of 98";
    cases.push(Case::at(short, 3, call, (NODE, 97), "27"));
    cases
}

/// Document 01's worked examples alone, without that of Subtract and the trap of
/// short category lists, which document 02 gives other answers. That of Abs {-3,3}
/// has the answer of document 02: "The example becomes {3}".
pub fn shelf() -> Vec<Case> {
    SHELF.iter().map(Case::new).collect()
}

/// Document 01's worked examples that the original answers.
#[rustfmt::skip] // one case a line
const SHELF: &[Row] = &[
    ("Abs [-5,3]", 1, "W[-5,3]", "empty", "W[-3,5]"),
    ("Abs [-7,-2]", 1, "W[-7,-2]", "empty", "W[2,7]"),
    ("Abs [0,5]: the lower is not 0", 1, "W[0,5]", "empty", "W[-5,5]"),
    ("Add [1,2],[10,20]", 2, "W[1,2]", "W[10,20]", "W[11,22]"),
    ("Multiply [-2,3],[4,5]", 4, "W[-2,3]", "W[4,5]", "W[-10,15]"),
    ("Divide [-7,7],[2,3]", 5, "W[-7,7]", "W[2,3]", "W[-3,3]"),
    ("Divide [1,10],[0,5]", 5, "W[1,10]", "W[0,5]", "W[_,2]"),
    ("Divide [1,10],[_,5]", 5, "W[1,10]", "W[_,5]", "23"),
    ("Modulo by [3,8]", 6, "W[-100,100]", "W[3,8]", "W[0,7]"),
    ("Modulo by [0,8]", 6, "W[-100,100]", "W[0,8]", "16"),
    ("Negative [-5,_]", 9, "W[-5,_]", "empty", "W[_,5]"),
    ("Negative [-2^63,0]", 9, "W[-9223372036854775808,0]", "empty", "24"),
    ("Add {1,2},{10,11}", 2, "W{1,2}", "W{10,11}", "W{11,12,13}"),
    ("Abs {-3,3}", 1, "W{-3,3}", "empty", "W{3}"),
    ("16 columns pass", 1, "W[-5,3] columns=16", "empty", "W[-3,5]*16 columns=16"),
    ("17 columns give 4", 1, "W[-5,3] @40=17", "empty", "4"),
    ("16 columns pass in Add", 2, "W[1,2] columns=16", "W[10,20]", "W[11,22]*16 columns=16"),
    ("17 columns give 4 in Add", 2, "W[1,2]", "W[10,20] @40=17", "4"),
    ("Modulo keeps left's node", 6, "W[1,2] node=77", "W[3,8]", "W[0,7] node=77"),
    ("unequal rows of one dataset", 2, "W[1,2] releasable=0 rows=3 dataset=5", "W[1,2] releasable=0 rows=4 dataset=5", "W[2,4] rows=_"),
];

/// The sheet's bytes: lengths, fields, float bounds.
#[rustfmt::skip] // one case a line
const BYTES: &[Row] = &[
    ("two groups are records of 9 bytes", 1, "W[1,2] groups=1:i5,2:b1", "empty", "W[1,2] groups=1:i5,2:b1"),
    ("two groups, second kind byte bad", 1, "W[1,2] groups=1:i5,2:b1 @97=7", "empty", "4"),
    ("two groups, first kind byte bad", 1, "W[1,2] groups=1:i5,2:b1 @88=0", "empty", "4"),
    ("two groups, byte 89 is a value's", 1, "W[1,2] groups=1:i5,2:b1 @89=7", "empty", "W[1,2] groups=1:i7,2:b1"),
    ("unknown nature without lists", 1, "absent @6=9", "empty", "4"),
    ("unknown nature counts categories", 1, "absent @6=9 @4=1", "empty", "3"),
    ("unknown nature, one category, its length", 1, "absent @6=9 @4=1 length=89", "empty", "4"),
    ("range with t = 5, length without t", 1, "W[1,2] @4=5", "empty", "4"),
    ("range with t = 5, length with t", 1, "W[1,2] @4=5 length=143", "empty", "3"),
    ("absent nature with n = 3", 1, "absent @2=3", "empty", "4"),
    ("absent nature with t = 1, 80 bytes", 1, "absent @4=1", "empty", "3"),
    ("absent nature with t = 1, 89 bytes", 1, "absent @4=1 length=89", "empty", "4"),
    ("range with t = 129", 1, "W[1,2] @4=129", "empty", "3"),
    ("n = 17", 1, "W{} @2=17", "empty", "3"),
    ("five groups", 1, "W[1,2] @0=5 length=163", "empty", "3"),
    ("a size's high byte", 1, "W[1,2] @3=1", "empty", "3"),
    ("79 bytes", 1, "absent length=79", "empty", "3"),
    ("81 bytes", 1, "absent length=81", "empty", "3"),
    ("no bytes", 1, "empty", "empty", "3"),
    ("whole range without entries", 1, "Wrange", "empty", "18"),
    ("whole categories without lists", 1, "Wlists", "empty", "20"),
    ("no list number is below 0", 1, "W{5} @2=0", "empty", "4"),
    ("16 empty lists over one column", 1, "W{}*16", "empty", "29"),
    ("16 empty lists over 16 columns", 1, "W{}*16 columns=16", "empty", "W{}*16 columns=16"),
    ("16 empty lists over one column, binary", 2, "W{}*16", "W{}*16", "29"),
    ("16 empty lists over 16 columns, binary", 2, "W{}*16", "W{}*16 columns=16", "W{}*16 columns=16"),
    ("an absent sample of -0.0", 1, "W[1,2] @71=128", "empty", "4"),
    ("an absent row count of 1", 1, "W[1,2] rows=_ @32=1", "empty", "4"),
    ("an absent bound that is not zero", 1, "W[_,2] @81=1", "empty", "4"),
    ("a present 0 rows", 1, "W[1,2] rows=0", "empty", "W[1,2] rows=0"),
    ("a present lower 0 under Modulo", 6, "W[1,2]", "W[0,2]", "16"),
    ("a NaN sample of a private operand", 2, "W[1,2] releasable=0 sample=NaN", "W[1,2]", "7"),
    ("a NaN sample with a payload is copied", 2, "W[1,2] sample=0x7ff0000000000123", "W[1,2]", "W[2,4] sample=0x7ff0000000000123"),
    ("a negative NaN sample is copied", 9, "W[1,2] sample=0xfff8000000000001", "empty", "W[-2,-1] sample=0xfff8000000000001"),
    ("an infinite sample is copied", 6, "W[1,2] sample=inf", "W[1,2]", "W[0,1] sample=inf"),
    ("a negative sample is copied", 4, "W[1,2] sample=-0.5", "W[1,2]", "W[1,4] sample=-0.5"),
    ("a sample of -0.0 is copied", 2, "W[1,2] sample=-0.0", "W[1,2]", "W[2,4] sample=-0.0"),
    ("NaN categories are permitted", 2, "W[1,2]", "F{NaN,inf,-0.0}", "absent"),
    ("F[0.0,-0.0] is in order", 2, "F[0.0,-0.0]", "F[1.0,1.0]", "F[1.0,1.0]"),
    ("F[-0.0,0.0] is in order", 2, "F[-0.0,0.0]", "F[1.0,1.0]", "F[1.0,1.0]"),
    ("a whole lower above its upper", 2, "W[2,1]", "W[1,2]", "5"),
    ("a float lower above its upper", 2, "F[2.0,1.0]", "F[1.0,2.0]", "5"),
    ("a NaN lower", 9, "F[NaN,1.0]", "empty", "5"),
    ("a NaN upper alone", 9, "F[_,NaN]", "empty", "5"),
    ("an infinite upper alone", 9, "F[_,inf]", "empty", "5"),
    ("an infinite lower", 9, "F[-inf,1.0]", "empty", "5"),
    ("a crossed entry in front of a mark of 7", 9, "W[2,1][1,2] @98=7", "empty", "4"),
    ("a crossed second entry", 9, "W[1,2][2,1]", "empty", "5"),
    ("negative rows", 2, "W[1,2] rows=-3", "W[1,2] rows=-3", "W[2,4] rows=-3"),
    ("negative dataset, dimensionality, node", 9, "W[1,2] dataset=-1 dim=-9 node=-5", "empty", "W[-2,-1] dataset=-1 dim=-9 node=-5"),
    ("c-stability is unsigned", 2, "W[1,2] c=2147483648", "W[1,2] c=1", "W[2,4] c=2147483648"),
    ("columns 0", 1, "W[1,2] @40=0", "empty", "4"),
    ("columns -1", 1, "W[1,2] @40=255 @41=255 @42=255 @43=255 @44=255 @45=255 @46=255 @47=255", "empty", "4"),
    ("columns of 2^32 + 1", 1, "W[1,2] @44=1", "empty", "4"),
    ("absent columns with a value", 1, "W[1,2] @21=0", "empty", "4"),
    ("Bool key 2", 1, "W[1,2] groups=1:b1 @85=2", "empty", "4"),
    ("Bool category 2", 9, "B{1} @81=2", "empty", "4"),
    ("falling list numbers", 1, "W{1}{2} @80=1 @81=0", "empty", "4"),
    ("rising list numbers that leave one out", 1, "W{1}{}{2} columns=3", "empty", "W{1}{}{2} columns=3"),
    ("byte 25", 1, "W[1,2] @25=1", "empty", "4"),
    ("byte 28", 1, "W[1,2] @28=1", "empty", "4"),
    ("byte 31", 1, "W[1,2] @31=255", "empty", "4"),
    ("a mark of 2 for rows", 1, "W[1,2] @20=2", "empty", "4"),
    ("a mark of 2 for the sample", 1, "W[1,2] @24=2", "empty", "4"),
    ("a bound's mark of 2", 1, "W[1,2] @80=2", "empty", "4"),
    ("nullity 2", 1, "W[1,2] @8=2", "empty", "4"),
    ("ordered 2", 1, "W[1,2] @11=2", "empty", "4"),
    ("data type 5", 1, "W[1,2] @7=5", "empty", "4"),
    ("nature 6", 1, "W{} @6=6", "empty", "22"),
    ("nature 7", 1, "W{} @6=7", "empty", "4"),
    ("any Str key", 1, "W[1,2] groups=1:s-9223372036854775808", "empty", "W[1,2] groups=1:s-9223372036854775808"),
];

/// The order of the checks.
#[rustfmt::skip] // one case a line
const ORDER: &[Row] = &[
    ("component 0", 0, "empty", "empty", "2"),
    ("component 10", 10, "empty", "empty", "3"),
    ("component 11", 11, "empty", "empty", "2"),
    ("component 200", 200, "W[1,2]", "W[1,2]", "2"),
    ("component 2^32 - 1", 4294967295, "W[1,2]", "W[1,2]", "2"),
    ("component 256 + 2", 258, "W[1,2]", "W[1,2]", "2"),
    ("Abs beside garbage", 1, "W[-5,3]", "W[2,1] @25=1 length=97", "W[-3,5]"),
    ("Negative beside 3 bytes", 9, "W[-5,3]", "absent length=3", "W[-3,5]"),
    ("left's 5 before right's 3", 2, "W[2,1]", "empty", "5"),
    ("right's 3 before left's 6", 2, "W[1,2] releasable=0 aggregator=4", "empty", "3"),
    ("right's 5 before left's 6", 2, "W[1,2] releasable=0 aggregator=4", "W[2,1]", "5"),
    ("left's 7 before right's 6", 2, "W[1,2] releasable=0 sample=0.5", "W[1,2] releasable=0 aggregator=4", "7"),
    ("left's 7 before right's 6, Modulo", 6, "W[1,2] releasable=0 sample=0.5", "W[1,2] releasable=0 aggregator=4", "7"),
    ("left's 6 before left's 7", 2, "W[1,2] releasable=0 sample=0.5 aggregator=4", "W[1,2]", "6"),
    ("Add: 13 before 14", 2, "W[1,2] rows=2 dataset=1", "W[1,2] rows=3 dataset=2 type=Float", "13"),
    ("Modulo: 14, no 13", 6, "W[1,2] rows=2 dataset=1", "W[1,2] rows=3 dataset=2 type=Float", "14"),
    ("Add: 8 before 11", 2, "W[1,2] releasable=0 groups=1:i1 columns=_", "W[1,2] releasable=0", "8"),
    ("Modulo: 11 before 8", 6, "W[1,2] releasable=0 groups=1:i1 columns=_", "W[1,2] releasable=0", "11"),
    ("Modulo: 8 at the end", 6, "W[1,2] releasable=0 groups=1:i1", "W[1,2] releasable=0", "8"),
    ("Modulo: 18 before 8", 6, "W[1,2][1,2] releasable=0 groups=1:i1", "W[1,2] releasable=0", "18"),
    ("Power: 21 before 8", 8, "W{1} type=Float releasable=0 groups=1:i1", "B{1} type=Float releasable=0", "21"),
    ("Log: 17 before 8", 7, "F[1.0,2.0] type=Float releasable=0 groups=1:i1", "W[2,2] releasable=0", "17"),
    ("17 before 18", 2, "W[1,2][1,2][1,2] columns=2", "F[1.0,2.0] columns=2", "17"),
    ("Subtract of a whole and a float range", 3, "W[1,2]", "F[1.0,2.0]", "17"),
    ("Subtract of a float and a whole range", 3, "F[1.0,2.0]", "W[1,2]", "17"),
    ("Subtract: 17 before 18", 3, "W[1,2][1,2][1,2] columns=2", "F[1.0,2.0] columns=2", "17"),
    ("Subtract: 12 before 14", 3, "W[1,2] columns=2", "W[1,2] columns=3 type=Float", "12"),
    ("Subtract: 14 before the ends", 3, "W[-9223372036854775808,0]", "W[1,2] type=Float", "14"),
    ("Subtract of ranges: right's columns absent", 3, "F[0.5,1.0]", "F[0.5,1.0] columns=_", "11"),
    ("18 on every list before any column's 24", 2, "W[9223372036854775807,9223372036854775807] columns=2", "W[1,2][1,2][1,2] columns=2", "18"),
    ("left without lists, float right", 2, "Wlists", "F{1.0}", "20"),
    ("left float without lists", 2, "Flists", "W{1}", "19"),
    ("right float without lists", 2, "W{1}", "Flists", "19"),
    ("whole with Bool without lists", 2, "W{1}", "Blists", "20"),
    ("whole with Bool", 2, "W{1}", "B{1}", "21"),
    ("Bool with Bool", 2, "B{1}", "B{0}", "22"),
    ("Bool with Bool, all lists empty", 4, "B{}", "B{}", "22"),
    ("Abs of an empty Bool list", 1, "B{}", "empty", "22"),
    ("column 0 gives 24, column 1 gives 23", 5, "W[-9223372036854775808,0][1,2] columns=2", "W[-1,-1][_,5] columns=2", "24"),
    ("column 0 gives 23, column 1 gives 24", 5, "W[1,2][-9223372036854775808,0] columns=2", "W[_,5][-1,-1] columns=2", "23"),
    ("128 sums are left", 2, "W{0..99}", "W{0..28}", "W{0..127}"),
    ("129 sums are left", 2, "W{0..99}", "W{0..29}", "26"),
    ("24 behind more than 128 sums", 2, "W{0..99,9223372036854775807}", "W{1..27}", "24"),
    ("24 in column 1 behind 129 in column 0", 2, "W{0..99}{9223372036854775807} columns=2", "W{0..29}{1} columns=2", "24"),
    ("the largest product", 5, "W{0..127} columns=16", "W{1000..1127} columns=16", "W{0}*16 columns=16"),
    ("Log: base 16 before data 15", 7, "absent type=Float", "F[0.5,2.0]", "16"),
    ("Log: 14 before all", 7, "absent", "F[0.5,2.0]", "14"),
    ("Log: base 15 before data 16", 7, "F[-1.0,2.0] type=Float", "absent", "15"),
    ("Log: data 15 behind a good base", 7, "absent type=Float", "F[2.0,3.0]", "15"),
    ("Log: data 16", 7, "F[-1.0,2.0] type=Float", "F[2.0,3.0]", "16"),
    ("Abs: private and sampled passes", 1, "W[-5,3] releasable=0 sample=0.5", "empty", "W[-3,5] sample=0.5"),
    ("Negative: private and sampled passes", 9, "W[-5,3] releasable=0 sample=0.5", "empty", "W[-3,5] sample=0.5"),
    ("Abs: 6 before 11", 1, "W[-5,3] releasable=0 aggregator=1 columns=_", "empty", "6"),
    ("Abs: 11 with an absent nature", 1, "absent columns=_", "empty", "11"),
    ("Modulo does not read right's columns", 6, "W[1,2]", "W[3,8] columns=_", "W[0,7]"),
    ("Modulo: left's columns absent", 6, "W[1,2] columns=_", "W[3,8]", "11"),
    ("Add reads right's columns", 2, "W[1,2]", "W[3,8] columns=_", "11"),
];

/// Marks, groups and shape.
#[rustfmt::skip] // one case a line
const MARKS: &[Row] = &[
    ("a private sample of 1 passes", 2, "W[1,2] releasable=0 sample=1.0", "W[1,2]", "W[2,4] sample=1.0"),
    ("a private absent sample passes", 2, "W[1,2] releasable=0", "W[1,2]", "W[2,4] sample=_"),
    ("a releasable sample of 0.5 passes", 2, "W[1,2] sample=0.5", "W[1,2]", "W[2,4] sample=0.5"),
    ("Add drops an aggregator", 2, "W[1,2] aggregator=9", "W[1,2]", "W[2,4] aggregator=0"),
    ("Abs keeps an aggregator", 1, "W[1,2] aggregator=9", "empty", "W[1,2] aggregator=9"),
    ("Modulo keeps left's aggregator", 6, "W[1,2] aggregator=4294967295", "W[3,8] aggregator=7", "W[0,7] aggregator=4294967295"),
    ("equal groups", 2, "W[1,2] releasable=0 groups=1:i1,2:s5", "W[1,2] releasable=0 groups=1:i1,2:s5", "W[2,4] groups=1:i1,2:s5"),
    ("groups in another order", 2, "W[1,2] releasable=0 groups=1:i1,2:s5", "W[1,2] releasable=0 groups=2:s5,1:i1", "8"),
    ("one group more", 2, "W[1,2] releasable=0 groups=1:i1", "W[1,2] releasable=0 groups=1:i1,1:i1", "8"),
    ("Int 1 is not Bool 1", 2, "W[1,2] releasable=0 groups=1:i1", "W[1,2] releasable=0 groups=1:b1", "8"),
    ("Int 1 is not Str 1", 2, "W[1,2] releasable=0 groups=1:i1", "W[1,2] releasable=0 groups=1:s1", "8"),
    ("other Str numbers", 3, "W[1,2] releasable=0 groups=1:s1", "W[1,2] releasable=0 groups=1:s2", "8"),
    ("other partitions", 6, "W[1,2] releasable=0 groups=1:i1", "W[1,2] releasable=0 groups=2:i1", "8"),
    ("both releasable: right's groups", 2, "W[1,2] groups=1:i1", "W[1,2] groups=2:i2", "W[2,4] groups=2:i2"),
    ("left releasable: right's missing groups", 2, "W[1,2] groups=1:i1", "W[1,2] releasable=0", "W[2,4] groups=_"),
    ("right releasable: left's groups", 8, "W[1,2] releasable=0 groups=1:i1", "W[1,2] groups=2:i2", "W[_,_] groups=1:i1"),
    ("Abs keeps left's groups", 1, "W[1,2] groups=1:i1", "W[1,2] groups=2:i2", "W[1,2] groups=1:i1"),
    ("spreading left, right's rows absent", 2, "W[1,2]", "W[1,2] rows=_", "W[2,4] rows=_"),
    ("spreading left, right 0 rows", 2, "W[1,2]", "W[1,2] rows=0", "W[2,4] rows=1"),
    ("a private operand never spreads", 2, "W[1,2] releasable=0 rows=1 dataset=3", "W[1,2] releasable=0 rows=5 dataset=3", "W[2,4] rows=_"),
    ("both row counts absent, one dataset", 2, "W[1,2] rows=_ dataset=3", "W[1,2] rows=_ dataset=3", "W[2,4] rows=_"),
    ("both row counts and datasets absent", 2, "W[1,2] rows=_", "W[1,2] rows=_", "W[2,4] rows=_"),
    ("both row counts absent, other datasets", 2, "W[1,2] rows=_ dataset=3", "W[1,2] rows=_ dataset=4", "13"),
    ("equal rows of other datasets", 2, "W[1,2] rows=7 dataset=3", "W[1,2] rows=7 dataset=4", "W[2,4] rows=7 dataset=3"),
    ("other rows of other datasets", 5, "W[1,2] rows=7 dataset=3", "W[1,2] rows=8 dataset=4", "13"),
    ("a dataset absent is not 0", 2, "W[1,2] releasable=0", "W[1,2] releasable=0 dataset=0", "9"),
    ("9 before 10", 2, "W[1,2] releasable=0 c=1", "W[1,2] releasable=0 dataset=0 c=2", "9"),
    ("c-stabilities differ", 2, "W[1,2] releasable=0 c=1", "W[1,2] releasable=0 c=2", "10"),
    ("columns 2 and 3", 2, "W[1,2] columns=2", "W[1,2] columns=3", "12"),
    ("columns 1 and 3", 2, "W[1,2] columns=1", "W[1,2] columns=3", "W[2,4]*3 columns=3"),
    ("a list count of its own is no 12", 2, "W[1,2]*3 columns=3", "W[1,2]*2 columns=3", "18"),
    ("three entries over one column", 1, "W[1,2]*3", "empty", "18"),
];

/// The ends of ranges.
#[rustfmt::skip] // one case a line
const ENDS: &[Row] = &[
    ("Abs: the sum leaves 64 bits", 1, "W[4611686018427387904,4611686018427387904]", "empty", "24"),
    ("Abs: the sum just fits", 1, "W[4611686018427387903,4611686018427387904]", "empty", "W[4611686018427387903,4611686018427387904]"),
    ("Abs: the sum of negatives leaves 64 bits", 1, "W[-4611686018427387905,-4611686018427387904]", "empty", "24"),
    ("Abs: the sum of negatives just fits", 1, "W[-4611686018427387904,-4611686018427387904]", "empty", "W[4611686018427387904,4611686018427387904]"),
    ("Abs: widest that passes", 1, "W[-9223372036854775807,9223372036854775807]", "empty", "W[-9223372036854775807,9223372036854775807]"),
    ("Abs: -lower leaves 64 bits", 1, "W[-9223372036854775808,9223372036854775807]", "empty", "24"),
    ("Abs: one end absent", 1, "W[_,5]", "empty", "W[_,_]"),
    ("float Abs: the sum is infinite", 1, "F[1.7e308,1.7e308]", "empty", "F[1.7e308,1.7e308]"),
    ("float Abs: the sum is minus infinite", 1, "F[-1.7e308,-1.7e308]", "empty", "F[1.7e308,1.7e308]"),
    ("float Abs of zeros", 1, "F[-0.0,0.0]", "empty", "F[-0.0,0.0]"),
    ("float Abs of zeros the other way", 1, "F[0.0,-0.0]", "empty", "F[0.0,-0.0]"),
    ("float Abs [0,5]", 1, "F[0.0,5.0]", "empty", "F[-5.0,5.0]"),
    ("float Abs keeps the minus of -0.6", 1, "F[-0.6,0.2]", "empty", "F[-0.2,0.6]"),
    ("float Negative of a zero", 9, "F[0.0,5.0]", "empty", "F[-5.0,-0.0]"),
    ("Multiply: a product of each sign of zero", 4, "F[-1.0,1.0]", "F[0.0,0.0]", "F[-0.0,0.0]"),
    ("Multiply: first least, last greatest", 4, "F[1.0,1.0]", "F[0.0,-0.0]", "F[0.0,-0.0]"),
    ("Divide: last greatest among zeros", 5, "F[0.0,-0.0]", "F[0.0,2.0]", "F[_,-0.0]"),
    ("Divide: first least among zeros", 5, "F[0.0,-0.0]", "F[-2.0,0.0]", "F[-0.0,_]"),
    ("Divide: quotients of zero", 5, "F[-0.0,0.0]", "F[1.0,2.0]", "F[-0.0,0.0]"),
    ("Divide: -0.0 is zero", 5, "F[1.0,2.0]", "F[-0.0,4.0]", "F[_,0.5]"),
    ("Divide by [-0.0,0.0]", 5, "F[1.0,2.0]", "F[-0.0,0.0]", "F[_,_]"),
    ("Divide: d absent, f = -0.0", 5, "F[1.0,2.0]", "F[_,-0.0]", "23"),
    ("Divide: d absent, f below 0", 5, "W[1,2]", "W[_,-1]", "W[_,_]"),
    ("Divide: f absent, d above 0", 5, "W[1,2]", "W[1,_]", "W[_,_]"),
    ("Divide: f absent, d = 0", 5, "W[1,2]", "W[0,_]", "23"),
    ("Divide: both absent", 5, "W[1,2]", "W[_,_]", "23"),
    ("Divide across zero", 5, "W[1,2]", "W[-1,1]", "W[_,_]"),
    ("Divide by [0,0]", 5, "W[1,2]", "W[0,0]", "W[_,_]"),
    ("Divide by [-2,0]", 5, "W[1,10]", "W[-2,0]", "W[-5,_]"),
    ("Divide: a/d leaves 64 bits", 5, "W[-9223372036854775808,0]", "W[-1,0]", "24"),
    ("Divide: left's absent end comes first, [0,0]", 5, "W[_,5]", "W[0,0]", "W[_,_]"),
    ("Divide: left's absent end comes first, no 23", 5, "W[1,_]", "W[_,_]", "W[_,_]"),
    ("Add: each end on its own", 2, "W[1,_]", "W[10,20]", "W[11,_]"),
    ("Multiply needs all ends", 4, "W[1,_]", "W[10,20]", "W[_,_]"),
    ("a float sum may be infinite", 2, "F[1.7e308,1.7e308]", "F[1.7e308,1.7e308]", "F[inf,inf]"),
    ("a float product may be infinite", 4, "F[-1e308,1e308]", "F[10.0,10.0]", "F[-inf,inf]"),
    ("a float quotient may be infinite", 5, "F[1e308,1e308]", "F[5e-324,1.0]", "F[1e308,inf]"),
    ("subnormal products", 4, "F[5e-324,1e-320]", "F[0.5,0.5]", "F[0.0,5e-321]"),
    ("one entry over three columns", 2, "W[1,2] columns=3", "W[1,2] columns=3", "W[2,4]*3"),
    ("Negative: one entry over three columns", 9, "W[1,2] columns=3", "empty", "W[-2,-1]*3"),
    ("a quotient truncates", 5, "W[-7,-7]", "W[2,2]", "W[-3,-3]"),
    ("float ranges of type Str", 2, "F[0.5,1.0] type=Str", "F[0.5,1.0] type=Str", "F[1.0,2.0] type=Str"),
    ("Add: the lower leaves 64 bits", 2, "W[-9223372036854775808,0]", "W[-1,0]", "24"),
    ("Multiply: a corner leaves 64 bits", 4, "W[0,4611686018427387904]", "W[0,2]", "24"),
    ("Multiply: -2^63 times -1", 4, "W[-9223372036854775808,0]", "W[-1,0]", "24"),
];

/// Categories.
#[rustfmt::skip] // one case a line
const CATEGORIES: &[Row] = &[
    ("lists 1 and 2 over three columns", 2, "W{1} columns=3", "W{1}{2} columns=3", "29"),
    ("lists 2 and 5 over three columns", 2, "W{1}{2} columns=3", "W{1}*5 columns=3", "29"),
    ("lists 1 and 2 over two columns", 2, "W{1} columns=2", "W{1}{2} columns=2", "W{2}{3} columns=2"),
    ("Abs: two lists over three columns", 1, "W{1}{2} columns=3", "empty", "29"),
    ("lists 16 and 1 over one column", 2, "W{1}*16", "W{1}", "29"),
    ("65 over two columns", 9, "W{1..65} columns=2", "empty", "26"),
    ("64 over two columns", 9, "W{-64..-1} columns=2", "empty", "W{64,63,62,61,60,59,58,57,56,55,54,53,52,51,50,49,48,47,46,45,44,43,42,41,40,39,38,37,36,35,34,33,32,31,30,29,28,27,26,25,24,23,22,21,20,19,18,17,16,15,14,13,12,11,10,9,8,7,6,5,4,3,2,1}*2"),
    ("Negative drops repeats before it maps", 9, "W{3,3}", "empty", "W{-3}"),
    ("Abs drops what repeats after", 1, "W{-3,3,-3}", "empty", "W{3}"),
    ("Abs {3,3,-3}", 1, "W{3,3,-3}", "empty", "W{3}"),
    ("128 repeats over two columns", 1, "W{1*128} columns=2", "empty", "W{1}*2"),
    ("{1} / {}", 5, "W{1}", "W{}", "W{}"),
    ("{} / {0}", 5, "W{}", "W{0}", "W{}"),
    ("a category divides by zero", 5, "W{1}", "W{0}", "24"),
    ("-2^63 / -1 among categories", 5, "W{-9223372036854775808}", "W{-1}", "24"),
    ("Abs of a category -2^63", 1, "W{-9223372036854775808}", "empty", "24"),
    ("Negative of a category -2^63", 9, "W{-9223372036854775808}", "empty", "24"),
    ("a sum of categories leaves 64 bits", 2, "W{1,9223372036854775807}", "W{0,1}", "24"),
    ("a range with float categories", 2, "W[1,2]", "F{1.0}", "absent"),
    ("a range with no lists", 2, "W[1,2]", "Wlists", "absent"),
    ("three entries over two columns with categories", 2, "W[1,2]*3 columns=2", "W{1} columns=2", "absent"),
    ("an absent nature with no entries", 2, "absent", "Wrange", "absent"),
    ("{5,1} - {1,5}", 3, "W{5,1}", "W{1,5}", "W{4,0,-4}"),
    ("{7,2} - {2,7}", 3, "W{7,2}", "W{2,7}", "W{5,0,-5}"),
    ("a difference of categories leaves 64 bits", 3, "W{0}", "W{1,-9223372036854775808}", "24"),
    ("a difference of categories just fits", 3, "W{-1}", "W{-9223372036854775808}", "W{9223372036854775807}"),
    ("a range less categories", 3, "W[1,2]", "W{1}", "absent"),
    ("categories less a range", 3, "W{1}", "F[1.0,2.0]", "absent"),
    ("{2,3,2} * {3,2}", 4, "W{2,3,2}", "W{3,2}", "W{6,4,9}"),
    ("quotients of categories truncate", 5, "W{-7,7}", "W{2}", "W{-3,3}"),
    ("repeats go list by list", 2, "W{1,1}{1} columns=2", "W{0}{0,0} columns=2", "W{1}{1}"),
    ("whole categories of type Bool", 4, "W{2} type=Bool", "W{3} type=Bool", "W{6} type=Bool"),
    ("128 spread over one column more", 2, "W{0..63} columns=2", "W{0} columns=2", "W{0..63}*2"),
    ("129 over two lists", 2, "W{0..63}{0..63} columns=2", "W{0}{0,1} columns=2", "26"),
];

/// Category lists counted (document 02, S-5).
#[rustfmt::skip] // one case a line
const COUNTED: &[Row] = &[
    ("two category lists over three columns", 2, "W{1}{2} columns=3", "W{5} columns=3", "29"),
    ("Negative: two lists over one column", 9, "W{1}{2}", "empty", "29"),
    ("Abs: three lists over two columns", 1, "W{4}{5}{6} columns=2", "empty", "29"),
    ("Abs: one list over three columns", 1, "W{1} columns=3", "empty", "W{1}*3 columns=3"),
    ("Abs: three lists over three columns", 1, "W{1}{2}{3} columns=3", "empty", "W{1}{2}{3} columns=3"),
    ("Negative: three lists over three columns", 9, "W{1}{2}{3} columns=3", "empty", "W{-1}{-2}{-3} columns=3"),
    ("Negative: 29 before 24", 9, "W{-9223372036854775808}{1} columns=3", "empty", "29"),
    ("Abs: 29 before 22", 1, "B{1}{0} columns=3", "empty", "29"),
    ("Abs: 19 before 29", 1, "F{1.0}{2.0} columns=3", "empty", "19"),
    ("Abs: 11 before 29", 1, "W{1}{2} columns=_", "empty", "11"),
    ("left's 29 before right's 19", 3, "W{1}{2} columns=4", "F{1.0} columns=4", "29"),
    ("left's 19 before right's 29", 3, "F{1.0} columns=4", "W{1}{2} columns=4", "19"),
    ("left's 29 before right's 20", 2, "W{1}{2} columns=3", "Wlists columns=3", "29"),
    ("left's 20 before right's 29", 2, "Wlists columns=3", "W{1}{2} columns=3", "20"),
    ("left's 29 before 21", 2, "W{1}{2} columns=3", "B{1} columns=3", "29"),
    ("right's 29 before 21", 2, "B{1} columns=3", "W{1}{2} columns=3", "29"),
    ("29 before 22", 4, "B{1}{0} columns=3", "B{1} columns=3", "29"),
    ("29 before a division by zero", 5, "W{1}{2} columns=3", "W{0} columns=3", "29"),
    ("29 before 26", 2, "W{0..99}{1} columns=3", "W{0..29} columns=3", "29"),
    ("14 before 29", 2, "W{1}{2} columns=3", "W{1} columns=3 type=Float", "14"),
    ("12 before 29", 4, "W{1}{2} columns=3", "W{1} columns=2", "12"),
    ("two lists over one column, to two columns", 3, "W{4}{5}", "W{1} columns=2", "W{3}{4} columns=2"),
    ("three lists over one column, to three columns", 2, "W{1}{2}{3} columns=3", "W{10}{20}{30}", "W{11}{22}{33} columns=3"),
    ("three lists over one column, to two columns", 2, "W{1}{2} columns=2", "W{10}{20}{30}", "29"),
    ("two lists over one column on both sides", 2, "W{1}{2}", "W{10}{20}", "29"),
    ("an empty list over one column, to two columns", 2, "W{0}{0} columns=2", "W{1}{}", "W{1}{} columns=2"),
    ("two lists over four columns beside a range", 2, "W{1}{2} columns=4", "W[0,9] columns=4", "absent columns=4"),
    ("two lists over four columns beside an absent nature", 2, "W{1}{2} columns=4", "absent columns=4", "absent columns=4"),
    ("Float Power: right's lists by left's columns", 8, "W{1} type=Float", "W{1}{2} columns=2 type=Float", "29"),
    ("Float Power: two lists over two columns", 8, "W{1}{2} columns=2 type=Float", "W{1} type=Float", "22"),
    ("Float Power: 29 before 8", 8, "W{1}{2} columns=3 type=Float releasable=0 groups=1:i1", "W{1} type=Float releasable=0", "29"),
    ("Int Power: 15 before 29", 8, "W{1}", "W{1}{2} columns=2", "15"),
    ("Modulo: 15 before 29", 6, "W{1}{2} columns=3", "W{1}{2} columns=3", "15"),
    ("Modulo of two lists over three columns by a range", 6, "W{1}{2} columns=3", "W[3,8]", "absent columns=3"),
];

/// No repeats after Abs and Negative (document 02, S-6).
#[rustfmt::skip] // one case a line
const MAPPED: &[Row] = &[
    ("Abs {2,-3,3,-2,2}", 1, "W{2,-3,3,-2,2}", "empty", "W{2,3}"),
    ("Abs: the first occurrence stays", 1, "W{1,2,-1}", "empty", "W{1,2}"),
    ("Abs: what is left is not sorted", 1, "W{5,-1,1}", "empty", "W{5,1}"),
    ("Abs: repeats go in each of two lists", 1, "W{0,-1,1}{5,-5} columns=2", "empty", "W{0,1}{5} columns=2"),
    ("Abs: one value in two lists", 1, "W{3}{-3} columns=2", "empty", "W{3}{3} columns=2"),
    ("Negative {3,3,-3}", 9, "W{3,3,-3}", "empty", "W{-3,3}"),
    ("Negative keeps both signs", 9, "W{-3,3}", "empty", "W{3,-3}"),
    ("Abs of 64 pairs", 1, "W{+-1..64}", "empty", "W{1..64}"),
    ("Abs of 64 pairs over two columns", 1, "W{+-1..64} columns=2", "empty", "W{1..64}*2 columns=2"),
    ("Abs of 64 pairs over three columns", 1, "W{+-1..64} columns=3", "empty", "26"),
    ("Abs of 63 pairs and two over two columns", 1, "W{+-1..63,64,65} columns=2", "empty", "26"),
    ("Negative of 64 pairs over two columns", 9, "W{+-1..64} columns=2", "empty", "26"),
    ("Negative of 64 values twice over two columns", 9, "W{-64..-1,-64..-1} columns=2", "empty", "W{64,63,62,61,60,59,58,57,56,55,54,53,52,51,50,49,48,47,46,45,44,43,42,41,40,39,38,37,36,35,34,33,32,31,30,29,28,27,26,25,24,23,22,21,20,19,18,17,16,15,14,13,12,11,10,9,8,7,6,5,4,3,2,1}*2 columns=2"),
    ("Abs of eight pairs and zero over 14 columns", 1, "W{-8..8} columns=14", "empty", "W{8,7,6,5,4,3,2,1,0}*14 columns=14"),
    ("Abs of 64 times -7 and 64 times 7 over 16 columns", 1, "W{-7*64,7*64} columns=16", "empty", "W{7}*16 columns=16"),
    ("Abs: 24 behind a repeat", 1, "W{1,-1,-9223372036854775808}", "empty", "24"),
    ("Abs: 24 behind too many", 1, "W{1..127,-9223372036854775808} columns=2", "empty", "24"),
    ("Negative: 24 behind too many", 9, "W{1..127,-9223372036854775808} columns=2", "empty", "24"),
    ("Abs: 24 behind pairs that are too many", 1, "W{+-1..63,-9223372036854775808} columns=3", "empty", "24"),
    ("Abs: 24 in a second list", 1, "W{1,-1}{-9223372036854775808} columns=2", "empty", "24"),
    ("Abs: the magnitude of -2^63 + 1", 1, "W{9223372036854775807,-9223372036854775807}", "empty", "W{9223372036854775807}"),
    ("Abs: 29 before repeats are looked at", 1, "W{-3,3}{1} columns=3", "empty", "29"),
    ("Add reads what Abs left once", 2, "W{3}", "W{3}", "W{6}"),
];

/// Modulo, Log and Power.
#[rustfmt::skip] // one case a line
const SIX_TO_EIGHT: &[Row] = &[
    ("Log of whole data under a whole base", 7, "W[2,3] type=Float", "W[2,2]", "15"),
    ("Log of whole data, lower 0", 7, "W[0,3] type=Float", "W[2,2]", "15"),
    ("Log of whole data, no columns", 7, "W[2,3] type=Float columns=_", "W[2,2]", "15"),
    ("Log of whole data, three entries", 7, "W[2,3]*3 type=Float", "W[2,2]", "15"),
    ("Log of whole data, other groups", 7, "W[2,3] type=Float releasable=0 groups=1:i1", "W[2,2] releasable=0", "15"),
    ("Log of whole data, base 1", 7, "W[2,3] type=Float", "W[1,2]", "16"),
    ("Log of whole data, base absent", 7, "W[2,3] type=Float", "W[2,_]", "15"),
    ("Log of whole data, wrong type", 7, "W[2,3]", "W[2,2]", "14"),
    ("Log of whole data, sampled", 7, "W[2,3] type=Float releasable=0 sample=0.5", "W[2,2]", "7"),
    ("Log of whole data, no entries", 7, "Wrange type=Float", "Wrange", "15"),
    ("Log of float data under a whole base", 7, "F[2.0,3.0] type=Float", "W[2,2]", "17"),
    ("Log of whole data under a float base", 7, "W[2,3] type=Float", "F[2.0,2.0]", "17"),
    ("Log of whole data, lower 0, float base", 7, "W[0,3] type=Float", "F[2.0,2.0]", "16"),
    ("Log", 7, "F[2.0,3.0] type=Float node=4", "F[2.0,2.0]", "F[_,_] node=4"),
    ("Log under a base in (0,1)", 7, "F[2.0,3.0] type=Float", "F[0.1,0.9]", "F[_,_]"),
    ("Log: base upper absent", 7, "F[2.0,3.0] type=Float", "F[2.0,_]", "15"),
    ("Log: data upper absent", 7, "F[2.0,_] type=Float", "F[2.0,3.0]", "F[_,_]"),
    ("Log: base [0.5,1.0]", 7, "F[2.0,3.0] type=Float", "F[0.5,1.0]", "16"),
    ("Log: data lower -0.0", 7, "F[-0.0,3.0] type=Float", "F[2.0,3.0]", "16"),
    ("Log: data categories", 7, "F{1.0} type=Float", "F[2.0,3.0]", "15"),
    ("Log: base categories", 7, "F[2.0,3.0] type=Float", "F{2.0}", "15"),
    ("Log: the base's type is free", 7, "F[2.0,3.0] type=Float", "F[2.0,3.0] type=Str", "F[_,_] type=Float"),
    ("Float Modulo over whole ranges", 6, "W[1,2] type=Float", "W[3,8] type=Float", "W[_,_]"),
    ("Float Modulo, whole right, float left", 6, "F[1.0,2.0] type=Float", "W[3,8] type=Float", "17"),
    ("Float Modulo", 6, "F[1.0,2.0] type=Float", "F[3.0,8.0] type=Float", "F[0.0,8.0]"),
    ("Float Modulo, lower 0", 6, "F[1.0,2.0] type=Float", "F[0.0,8.0] type=Float", "16"),
    ("Float Modulo, upper absent", 6, "F[1.0,2.0] type=Float", "F[3.0,_] type=Float", "F[0.0,_]"),
    ("Int Modulo, float right", 6, "W[1,2]", "F[3.0,8.0]", "15"),
    ("Int Modulo, float left", 6, "F[1.0,2.0]", "W[3,8]", "17"),
    ("Int Power, float right", 8, "W[1,2]", "F[3.0,8.0]", "15"),
    ("Int Power, float left", 8, "F[1.0,2.0]", "W[3,8]", "17"),
    ("right without entries, left absent", 6, "absent", "Wrange", "absent"),
    ("right without entries, left a range", 6, "W[1,2]", "Wrange", "18"),
    ("left absent: right's entries are not counted", 6, "absent", "W[3,8]*3", "absent"),
    ("left categories: right's entries are not counted", 8, "W{1}", "W[3,8]*3", "absent"),
    ("Power of categories", 8, "W{2}", "W{3}", "15"),
    ("Modulo of categories", 6, "W{2}", "W{3}", "15"),
    ("Float Power reads no bounds", 8, "F[_,_] type=Float", "F[-1.0,_] type=Float", "F[_,_]"),
    ("Float Power over an absent nature", 8, "F[1.0,2.0] type=Float", "absent type=Float", "absent"),
    ("Float Power of whole categories", 8, "W{2} type=Float", "W{3} type=Float", "22"),
    ("Float Power of float categories", 8, "F{2.0} type=Float", "F{3.0} type=Float", "19"),
    ("Float Power of mixed kinds", 8, "W{2} type=Float", "B{1} type=Float", "21"),
    ("Float Power over whole ranges", 8, "W[1,2] type=Float", "W[1,2] type=Float", "W[_,_]"),
    ("Int Power keeps the nature", 8, "W[1,2] columns=3", "W[3,8]", "W[_,_]*3 columns=3"),
    ("Int Power, lower 0", 8, "W[1,2]", "W[0,8]", "W[_,_]"),
    ("Int Power, lower -1", 8, "W[1,2]", "W[-1,8]", "16"),
    ("Modulo, right upper absent", 6, "W[1,2]", "W[3,_]", "W[0,_]"),
    ("Modulo by [1,1]", 6, "W[1,2]", "W[1,1]", "W[0,0]"),
    ("Modulo, right lower absent", 6, "W[1,2]", "W[_,8]", "15"),
    ("Modulo, left's ends are not read", 6, "W[_,_]", "W[3,8]", "W[0,7]"),
    ("Modulo by the greatest", 6, "W[1,2]", "W[1,9223372036854775807]", "W[0,9223372036854775806]"),
    ("left 1 column, right 3 entries", 6, "W[1,2]", "W[3,8]*3 columns=3", "18"),
    ("left 1 column, right 3 columns with 1 entry", 6, "W[1,2]", "W[3,8] columns=3", "W[0,7] columns=1"),
    ("left 3 columns, right 1", 6, "W[1,2] columns=3", "W[3,8]", "W[0,7]*3 columns=3"),
    ("columns 2 and 3 are no refusal", 6, "W[1,2] columns=2", "W[3,8] columns=3", "W[0,7]*2 columns=2"),
    ("Modulo of Str", 6, "W[1,2] type=Str", "W[3,8] type=Str", "14"),
    ("Power of Int and Float", 8, "W[1,2]", "W[3,8] type=Float", "14"),
];

/// The other fields.
#[rustfmt::skip] // one case a line
const FIELDS: &[Row] = &[
    ("Add writes the call's node", 2, "W[1,2] node=77", "W[1,2] node=78", "W[2,4] node=11"),
    ("Abs keeps left's node", 1, "W[1,2] node=77", "empty", "W[1,2] node=77"),
    ("Power keeps left's node", 8, "W[1,2] node=-77", "W[1,2]", "W[_,_] node=-77"),
    ("Modulo by a private right stays releasable", 6, "W[1,2] c=3 rows=6 dataset=1", "W[3,8] releasable=0 nullity=1 c=5 rows=7 dataset=2 notempty=0", "W[0,7] releasable=1 nullity=0 c=3 rows=6 dataset=1 notempty=0"),
    ("Modulo copies ordered", 6, "W[1,2] ordered=0", "W[3,8]", "W[0,7] ordered=0"),
    ("Modulo takes the greater dimensionality", 6, "W[1,2] dim=1", "W[3,8] dim=2", "W[0,7] dim=2"),
    ("left's sample and dataset", 2, "W[1,2] sample=0.5", "W[1,2] releasable=0 dataset=8 sample=1.0", "W[2,4] releasable=0 dataset=_ sample=0.5"),
    ("that sheet is refused by a next step", 2, "W[2,4] releasable=0 sample=0.5", "W[1,2]", "7"),
    ("absent dimensionality is least", 2, "W[1,2]", "W[1,2] dim=-4", "W[2,4] dim=-4"),
    ("ordered is set", 2, "W[1,2] ordered=0", "W[1,2] ordered=0", "W[2,4] ordered=1"),
    ("nullity either, not empty both", 4, "W[1,2] nullity=1", "W[1,2] notempty=0", "W[1,4] nullity=1 notempty=0"),
    ("Divide's nullity: F[1,_]", 5, "W{1}", "F[1.0,_]", "absent nullity=1"),
    ("Divide's nullity: F[-1,_]", 5, "W{1}", "F[-1.0,_]", "absent nullity=0"),
    ("Divide's nullity: F[0.0,_]", 5, "W{1}", "F[0.0,_]", "absent nullity=0"),
    ("Divide's nullity: F[_,-1]", 5, "W{1}", "F[_,-1.0]", "absent nullity=1"),
    ("Divide's nullity: F[_,1]", 5, "W{1}", "F[_,1.0]", "absent nullity=0"),
    ("Divide's nullity: F[_,0.0]", 5, "W{1}", "F[_,0.0]", "absent nullity=0"),
    ("Divide's nullity: F[_,-0.0]", 5, "absent", "F[_,-0.0]", "absent nullity=0"),
    ("Divide's nullity: F[0,1]", 5, "F[1.0,2.0]", "F[0.0,1.0]", "F[_,2.0] nullity=0"),
    ("Divide's nullity: F[-1,0]", 5, "F[1.0,2.0]", "F[-1.0,0.0]", "F[-2.0,_] nullity=0"),
    ("Divide's nullity: F[-1,1]", 5, "F[1.0,2.0]", "F[-1.0,1.0]", "F[_,_] nullity=1"),
    ("Divide's nullity: F[_,_]", 5, "absent", "F[_,_]", "absent nullity=1"),
    ("Divide's nullity: a second column", 5, "absent columns=2", "F[1.0,2.0][-1.0,1.0] columns=2", "absent nullity=1"),
    ("Divide's nullity: a whole range across zero", 5, "W[1,2]", "W[-1,2]", "W[_,_] nullity=0"),
    ("Divide's nullity: whole categories with 0", 5, "W[1,2]", "W{0}", "absent nullity=0"),
    ("Divide's nullity: NaN categories", 5, "W[1,2]", "F{NaN}", "absent nullity=1"),
    ("Divide's nullity: a category of -0.0", 5, "absent", "F{1.0}{-0.0}", "absent nullity=1"),
    ("Divide's nullity: an infinite category", 5, "W[1,2]", "F{inf}", "absent nullity=0"),
    ("Divide's nullity: Bool categories", 5, "W[1,2]", "B{0}", "absent nullity=0"),
    ("Divide's nullity: no entries", 5, "absent", "Frange", "absent nullity=0"),
    ("Divide's nullity: right absent", 5, "W[1,2]", "absent", "absent nullity=1"),
];

/// Subtract of two ranges of one kind (document 02, S-4).
#[rustfmt::skip] // one case a line
const DIFFERENCES: &[Row] = &[
    ("Subtract [0,1],[0,5]", 3, "W[0,1]", "W[0,5]", "W[-5,1] node=11 ordered=1"),
    ("Subtract [3,8],[1,2]", 3, "W[3,8]", "W[1,2]", "W[1,7]"),
    ("Subtract: left's lower absent", 3, "W[_,9]", "W[2,3]", "W[_,7]"),
    ("Subtract: left's upper absent", 3, "W[4,_]", "W[2,3]", "W[1,_]"),
    ("Subtract: right's lower absent", 3, "W[4,9]", "W[_,3]", "W[1,_]"),
    ("Subtract: right's upper absent", 3, "W[4,9]", "W[2,_]", "W[_,7]"),
    ("Subtract: right's ends absent", 3, "W[1,5]", "W[_,_]", "W[_,_]"),
    ("Subtract: both leave 64 bits", 3, "W[0,0]", "W[-9223372036854775808,-9223372036854775808]", "24"),
    ("Subtract: the upper leaves 64 bits", 3, "W[-1,4]", "W[-9223372036854775808,3]", "24"),
    ("Subtract: the lower leaves 64 bits", 3, "W[-2,9223372036854775807]", "W[-1,9223372036854775807]", "24"),
    ("Subtract: uppers alone", 3, "W[_,9223372036854775807]", "W[_,-1]", "W[_,_]"),
    ("Subtract: an upper and a lower", 3, "W[_,9223372036854775807]", "W[-1,_]", "24"),
    ("Subtract: -2^63 is not negated", 3, "W[-5,-2]", "W[-9223372036854775808,-9223372036854775808]", "W[9223372036854775803,9223372036854775806]"),
    ("Subtract: the least difference", 3, "W[-9223372036854775807,0]", "W[0,1]", "W[-9223372036854775808,0]"),
    ("Subtract: the sign of a zero", 3, "F[-0.0,1.0]", "F[-0.0,0.0]", "F[-0.0,1.0]"),
    ("Subtract: each end is rounded once", 3, "F[0.3,0.4]", "F[0.1,0.2]", "F[0.09999999999999998,0.30000000000000004]"),
    ("Subtract: a float end may be infinite", 3, "F[-1.7e308,1.0]", "F[0.0,1.7e308]", "F[-inf,1.0]"),
    ("Subtract: float ends that are absent", 3, "F[_,9.0]", "F[2.0,_]", "F[_,7.0]"),
    ("Subtract: one entry goes with both columns", 3, "W[0,1][5,6] columns=2", "W[1,2]", "W[-2,0][3,5] columns=2"),
    ("Subtract: three entries over one column", 3, "W[1,2]*3", "W[1,2]", "18"),
    ("Subtract: 18 before 24", 3, "W[0,0] columns=2", "W[-9223372036854775808,0]*3 columns=2", "18"),
    ("Subtract: whole ranges of type Str", 3, "W[0,1] type=Str", "W[0,5] type=Str", "W[-5,1] type=Str"),
    ("Subtract: nullity either, not empty both", 3, "W[1,2] nullity=1", "W[1,2] notempty=0", "W[-1,1] nullity=1 notempty=0"),
];

/// Pool (document 02, S-1).
#[rustfmt::skip] // one case a line
const POOLED: &[Row] = &[
    ("the outer ends", 10, "W[1,2]", "W[-3,5]", "W[-3,5] rows=2 ordered=0 node=11"),
    ("an absent upper", 10, "W[1,_]", "W[-3,5]", "W[-3,_]"),
    ("absent lowers", 10, "W[_,4]", "W[_,9]", "W[_,9]"),
    ("left's zero on a tie of uppers", 10, "F[-1.0,-0.0]", "F[-2.0,0.0]", "F[-2.0,-0.0]"),
    ("the same turned round", 10, "F[-2.0,0.0]", "F[-1.0,-0.0]", "F[-2.0,0.0]"),
    ("left's zero on a tie of lowers", 10, "F[-0.0,1.0]", "F[0.0,2.0]", "F[-0.0,2.0]"),
    ("one column and two", 10, "W[1,2]", "W[1,2] columns=2", "12"),
    ("one entry and one for each column", 10, "W[1,2] columns=2", "W[-3,1][2,_] columns=2", "W[-3,2][1,_] columns=2"),
    ("left's categories and then right's", 10, "W{3,1,3}", "W{1,2}", "W{3,1,2}"),
    ("Bool categories unite", 10, "B{1}", "B{0,1}", "B{1,0}"),
    ("float categories on the right", 10, "W{1}", "F{1.0}", "19"),
    ("float categories on the left", 10, "F{1.0}", "W{1}", "19"),
    ("category kinds", 10, "W{1}", "B{1}", "21"),
    ("no lists before other kinds", 10, "Wlists", "B{1}", "20"),
    ("Pool: two lists over three columns", 10, "W{1}{2} columns=3", "W{5} columns=3", "29"),
    ("Pool: two lists over two columns", 10, "W{1}{2} columns=2", "W{5} columns=2", "W{1,5}{2,5} columns=2"),
    ("Pool: two lists of Bool over three columns", 10, "B{1}{0} columns=3", "B{1} columns=3", "29"),
    ("Pool: two lists of texts over three columns", 10, "T{a} columns=3", "T{a}{b} columns=3", "29"),
    ("Pool: left's 29 before right's 19", 10, "W{1}{2} columns=3", "F{1.0} columns=3", "29"),
    ("Pool: left's 19 before right's 29", 10, "F{1.0} columns=3", "W{1}{2} columns=3", "19"),
    ("Pool: right's 29 before 21", 10, "B{1} columns=3", "W{1}{2} columns=3", "29"),
    ("Pool: 29 before the rows' 24", 10, "W{1}{2} columns=3 rows=9223372036854775807", "W{5} columns=3", "29"),
    ("Pool: two lists over four columns beside a range", 10, "W{1}{2} columns=4", "W[0,9] columns=4", "absent columns=4"),
    ("a range beside categories", 10, "W[1,2]", "W{1}", "absent rows=2"),
    ("the rows' sum leaves 64 bits", 10, "W[1,2] rows=9223372036854775807", "W[1,2]", "24"),
    ("also below", 10, "W[1,2] rows=-9223372036854775808", "W[1,2] rows=-1", "24"),
    ("also beside an absent nature", 10, "absent rows=9223372036854775807", "W[1,2]", "24"),
    ("rows that just fit", 10, "W[1,2] rows=9223372036854775807", "W[1,2] rows=-9223372036854775808", "W[1,2] rows=-1"),
    ("an absent row count", 10, "W[1,2] rows=9223372036854775807", "W[1,2] rows=_", "W[1,2] rows=_"),
    ("18 before the rows' 24", 10, "W[1,2]*2 columns=3 rows=9223372036854775807", "W[1,2] columns=3", "18"),
    ("17 before the rows' 24", 10, "W[1,2] rows=9223372036854775807", "F[1.0,2.0]", "17"),
    ("130 categories", 10, "W{0..99}", "W{100..129}", "26"),
    ("the rows' 24 before 26", 10, "W{0..99} rows=9223372036854775807", "W{100..129} rows=5", "24"),
    ("128 categories", 10, "W{0..99}", "W{28..127}", "W{0..127}"),
    ("two private logs", 10, "W[1,2] releasable=0 dataset=1 rows=96 c=1", "W[1,2] releasable=0 dataset=2 rows=40 c=3", "W[1,2] releasable=0 dataset=_ rows=136 c=3 ordered=0"),
    ("marks of either, of both, or gone", 10, "W[1,2] nullity=1 notempty=0 sample=0.5 aggregator=9 dataset=4 dim=1", "W[1,2] releasable=0 groups=1:i1 dim=2", "W[1,2] nullity=1 notempty=1 releasable=0 sample=_ aggregator=0 dataset=_ dim=2 groups=1:i1"),
    ("neither has rows", 10, "W[1,2] notempty=0", "W[1,2] notempty=0", "W[1,2] notempty=0 nullity=0 releasable=1"),
    ("Pool: left's 7 before right's 6", 10, "W[1,2] releasable=0 sample=0.5", "W[1,2] releasable=0 aggregator=4", "7"),
    ("Pool: 8 before 11", 10, "W[1,2] releasable=0 groups=1:i1 columns=_", "W[1,2] releasable=0", "8"),
    ("Pool: right's columns absent", 10, "W[1,2]", "W[1,2] columns=_", "11"),
    ("Pool: 12 before 14", 10, "W[1,2]", "W[1,2] columns=2 type=Float", "12"),
    ("Pool: other types", 10, "W[1,2]", "W[1,2] type=Float", "14"),
    ("Pool unites texts", 10, "T{north,south} type=Str", "T{east,north,_} type=Str", "T{north,south,east,_} type=Str rows=2"),
    ("Pool: repeats of an operand go", 10, "T{a,b,a}", "T{c,b,c}", "T{a,b,c}"),
    ("Pool: texts list by list", 10, "T{a}{b} columns=2", "T{b}{b} columns=2", "T{a,b}{b} columns=2"),
    ("Pool: whole and text categories", 10, "W{1}", "T{1}", "21"),
    ("Pool: text and Bool categories", 10, "T{1}", "B{1}", "21"),
    ("Pool: texts beside a range", 10, "T{a}", "W[1,2]", "absent"),
    ("Pool: texts without lists", 10, "T{a}", "Tlists", "20"),
    ("Pool: 1,025 bytes of text", 10, "T{a*1000}", "T{b*25}", "28"),
    ("Pool: 1,024 bytes of text", 10, "T{a*1000}", "T{b*24}", "T{a*1000,b*24}"),
    ("Pool: the same 1,000 bytes", 10, "T{a*1000}", "T{a*1000}", "T{a*1000}"),
    ("Pool: texts over four columns", 10, "T{a*250} columns=4", "T{b*7} columns=4", "28"),
    ("Pool: the rows' 24 before 28", 10, "T{a*1000} rows=9223372036854775807", "T{b*25}", "24"),
    ("Pool: 26 before 28", 10, "T{100#10}", "T{29#11}", "26"),
    ("Pool: an area under a range", 10, "W[1,2] @26=1 length=99", "W[1,2]", "4"),
];

/// The text area's 3 and 4 (document 02, S-2).
#[rustfmt::skip] // one case a line
const AREA: &[Row] = &[
    ("a range with an area's size", 9, "W[1,2] @26=1", "empty", "3"),
    ("a range with an area", 9, "W[1,2] @26=1 length=99", "empty", "4"),
    ("the high byte of an area's size", 9, "W[1,2] @27=1", "empty", "3"),
    ("a range with an area of 256", 9, "W[1,2] @27=1 length=354", "empty", "4"),
    ("a range with an area of 1,024", 9, "W[1,2] @27=4 length=1122", "empty", "4"),
    ("a range with an area of 1,025", 9, "W[1,2] @26=1 @27=4 length=1123", "empty", "3"),
    ("an absent nature with an area", 9, "absent @26=1 length=81", "empty", "4"),
    ("whole categories with an area", 9, "W{1} @26=1 length=90", "empty", "4"),
    ("Bool categories with an area", 9, "B{1} @26=1 length=90", "empty", "4"),
    ("float categories with an area", 9, "F{1.0} @26=1 length=90", "empty", "4"),
    ("an unknown nature with an area's size", 9, "absent @6=9 @26=1", "empty", "3"),
    ("an unknown nature with an area", 9, "absent @6=9 @26=1 length=81", "empty", "4"),
    ("an area and a crossed range", 9, "W[2,1] @26=1 length=99", "empty", "4"),
    ("right's area under a range", 2, "W[1,2]", "W[1,2] @26=1 length=99", "4"),
    ("a full area", 2, "T{a*1024}", "T{_}", "T{a*1024}"),
    ("a text of 1,025", 2, "T{a*1025}", "T{_}", "3"),
    ("texts of 1,025", 2, "T{a*1000,b*25}", "T{_}", "3"),
    ("a text sheet without its last byte", 2, "T{ab} length=90", "T{_}", "3"),
    ("a text sheet with a byte more", 2, "T{ab} length=92", "T{_}", "3"),
    ("a text sheet without its area", 2, "T{ab} @26=0 length=89", "T{_}", "4"),
    ("an empty text behind all", 2, "T{ab,_}", "T{_}", "T{ab,_}"),
    ("an empty text in front", 2, "T{_,ab}", "T{_}", "T{_,ab}"),
    ("texts in another order", 2, "T{a,b} @82=1 @90=0", "T{_}", "4"),
    ("texts that share bytes", 2, "T{a,b} @86=2 @90=0 @94=2", "T{_}", "4"),
    ("a last end before the area's", 2, "T{a,b} @94=0", "T{_}", "4"),
    ("a gap", 2, "T{a,b} @86=0", "T{_}", "4"),
    ("a last end behind the area's", 2, "T{a,b} @94=2", "T{_}", "4"),
    ("an empty text with no running start", 2, "T{ab,_} @90=0", "T{_}", "4"),
    ("lengths that wrap to the area's end", 2, "T{a,b} @86=255 @87=255 @88=255 @89=255 @90=255 @91=255 @92=255 @93=255 @94=3", "T{_}", "4"),
    ("a length of 2^32 - 1", 2, "T{a} @85=255 @86=255 @87=255 @88=255", "T{_}", "4"),
    ("a start of 2^31", 2, "T{a} @84=128", "T{_}", "4"),
    ("starts run over all lists", 2, "T{a}{b} columns=2", "T{_} columns=2", "T{a}{b} columns=2"),
    ("starts that begin anew in each list", 2, "T{a}{b} columns=2 @90=0", "T{_} columns=2", "4"),
    ("no texts over an area", 2, "T{} @26=1 length=81", "T{_}", "4"),
    ("no texts", 2, "T{}", "T{a}", "T{}"),
    ("falling list numbers of texts", 2, "T{a}{b} columns=2 @80=1 @81=0", "T{_} columns=2", "4"),
    ("a text's list number is n", 2, "T{a} @80=1", "T{_}", "4"),
    ("n = 0 under a text", 2, "T{a} @2=0", "T{_}", "4"),
    ("byte 25 beside an area", 2, "T{a} @25=1", "T{_}", "4"),
    ("byte 28 beside an area", 2, "T{a} @28=1", "T{_}", "4"),
    ("byte 31 beside an area", 2, "T{a} @31=128", "T{_}", "4"),
    ("nature 7 with texts", 2, "T{a} @6=7", "T{_}", "4"),
];

/// Texts under the nine components (document 02, S-2).
#[rustfmt::skip] // one case a line
const TEXTS: &[Row] = &[
    ("Add {N,S},{1,2}", 2, "T{N,S} type=Str", "T{1,2} type=Str", "T{N1,N2,S1,S2} type=Str"),
    ("Add joins left and then right", 2, "T{1}", "T{N}", "T{1N}"),
    ("joins that collapse", 2, "T{a,ab}", "T{bc,c}", "T{abc,ac,abbc}"),
    ("ab and nothing are a and b", 2, "T{ab,a}", "T{_,b}", "T{ab,abb,a}"),
    ("the empty text and x", 2, "T{_,x}", "T{_,x}", "T{_,x,xx}"),
    ("joins of one length", 2, "T{a,b}", "T{c,d}", "T{ac,ad,bc,bd}"),
    ("repeats of texts go before the joins", 2, "T{a,b,a}", "T{c,c}", "T{ac,bc}"),
    ("repeats that fill the area", 2, "T{a*512,a*512}", "T{_}", "T{a*512}"),
    ("texts of several bytes to a character", 2, "T{\u{e9},\u{20ac}}", "T{\u{1f6b0}}", "T{\u{e9}\u{1f6b0},\u{20ac}\u{1f6b0}}"),
    ("no normal forms", 2, "T{\u{e9},e\u{301}}", "T{_}", "T{\u{e9},e\u{301}}"),
    ("two lists of texts over three columns", 2, "T{a}{b} columns=3", "T{x} columns=3", "29"),
    ("two lists of texts over two columns", 2, "T{a}{b} columns=2", "T{x} columns=2", "T{ax}{bx} columns=2"),
    ("texts: 29 before 28", 2, "T{a*600}{b} columns=3", "T{b*425} columns=3", "29"),
    ("texts: 29 before 22", 3, "T{a} columns=3", "T{a}{b} columns=3", "29"),
    ("texts over three columns", 2, "T{a,b}", "T{x} columns=3", "T{ax,bx}*3 columns=3"),
    ("repeats of texts go list by list", 2, "T{a}{a,a} columns=2", "T{_} columns=2", "T{a}{a} columns=2"),
    ("Abs of texts", 1, "T{a}", "empty", "22"),
    ("Negative of texts", 9, "T{a}", "empty", "22"),
    ("Negative of an empty list of texts", 9, "T{}", "empty", "22"),
    ("Subtract of texts", 3, "T{a}", "T{a}", "22"),
    ("Multiply of texts", 4, "T{a}", "T{a}", "22"),
    ("Divide of texts", 5, "T{a}", "T{a}", "22"),
    ("Float Power of texts", 8, "T{a} type=Float", "T{a} type=Float", "22"),
    ("Int Power by texts", 8, "T{a}", "T{a}", "15"),
    ("Modulo by texts", 6, "T{a}", "T{a}", "15"),
    ("Modulo of a range by texts", 6, "W[1,2]", "T{a}", "15"),
    ("Log of texts", 7, "T{a} type=Float", "F[2.0,3.0]", "15"),
    ("Log by texts", 7, "F[2.0,3.0] type=Float", "T{a}", "15"),
    ("Modulo of texts by a range", 6, "T{abc}", "W[3,8]", "absent"),
    ("Int Power of texts by a range", 8, "T{abc}", "W[3,8]", "absent"),
    ("Float Power of a range by texts", 8, "W[1,2] type=Float", "T{abc} type=Float", "absent"),
    ("texts beside a range", 2, "T{abc}", "W[3,8]", "absent"),
    ("a range beside texts", 4, "F[0.5,1.5]", "T{abc}", "absent"),
    ("texts beside an absent nature", 3, "T{abc}", "absent", "absent"),
    ("Divide's nullity: texts", 5, "W[1,2]", "T{_}", "absent nullity=0"),
    ("text and whole categories", 2, "T{a}", "W{1}", "21"),
    ("Bool and text categories", 4, "B{1}", "T{1}", "21"),
    ("21 before the 22 of texts", 3, "T{a}", "W{1}", "21"),
    ("text and float categories", 2, "T{a}", "F{1.0}", "19"),
    ("float and text categories", 2, "F{1.0}", "T{a}", "19"),
    ("texts without lists", 2, "Tlists", "T{a}", "20"),
    ("Negative of texts without lists", 9, "Tlists", "empty", "20"),
    ("texts without lists beside whole ones", 2, "Tlists", "W{1}", "20"),
    ("texts of types Str and Int", 2, "T{a} type=Str", "T{a}", "14"),
    ("1,024 bytes of text", 2, "T{a*600}", "T{b*424}", "T{a*600+b*424}"),
    ("1,025 bytes of text", 2, "T{a*600}", "T{b*425}", "28"),
    ("256 bytes over four columns", 2, "T{a*256} columns=4", "T{_} columns=4", "T{a*256}*4 columns=4"),
    ("257 bytes over four columns", 2, "T{a*257} columns=4", "T{_} columns=4", "28"),
    ("257 bytes spread over four columns", 2, "T{a*257}", "T{_} columns=4", "28"),
    ("132 joins of 100 bytes: 26 before 28", 2, "T{12#50}", "T{11#50}", "26"),
    ("121 joins of 100 bytes", 2, "T{11#50}", "T{11#50}", "28"),
    ("400 joins of which 39 are left", 2, "T{a*0..19}", "T{a*0..19}", "T{a*0..38}"),
    ("900 joins of which 59 are left", 2, "T{a*0..29}", "T{a*0..29}", "28"),
    ("128 joins", 2, "T{16#4}", "T{8#4}", "T{16#4+8#4}"),
    ("129 joins", 2, "T{43#1}", "T{3#1}", "26"),
];

/// Texts that are no UTF-8.
#[rustfmt::skip] // one case a line
const RAW: &[Row] = &[
    ("a character in two halves", 2, "T{\\e2\\82}", "T{\\ac}", "T{\\e2\\82\\ac}"),
    ("bytes of no character", 2, "T{\\ff,\\c0\\80}", "T{\\80,_}", "T{\\ff\\80,\\ff,\\c0\\80\\80,\\c0\\80}"),
    ("joins of bytes that collapse", 2, "T{\\ff,\\ff\\fe}", "T{\\fe\\fd,\\fd}", "T{\\ff\\fe\\fd,\\ff\\fd,\\ff\\fe\\fe\\fd}"),
    ("Pool of bytes", 10, "T{\\ff,\\00}", "T{\\00,\\fe,\\ff}", "T{\\ff,\\00,\\fe}"),
    ("Negative of bytes", 9, "T{\\ff}", "empty", "22"),
    ("Modulo of bytes by a range", 6, "T{\\ff}", "W[3,8]", "absent"),
    ("bytes over 1,024", 2, "T{\\ff*600}", "T{\\fe*425}", "28"),
    ("two lists of bytes over three columns", 2, "T{\\ff}{\\fe} columns=3", "T{\\fd} columns=3", "29"),
];

/// Cases that turn on the node or on the output's length.
type OutputRow = (
    &'static str,
    u32,
    &'static str,
    &'static str,
    u32,
    usize,
    &'static str,
);

#[rustfmt::skip] // one case a line
const OUTPUTS: &[OutputRow] = &[
    ("97 bytes for 98", 2, "W[1,2]", "W[10,20]", 1, 97, "27"),
    ("98 bytes for 98", 2, "W[1,2]", "W[10,20]", 1, 98, "W[11,22] node=1"),
    ("99 bytes for 98", 2, "W[1,2]", "W[10,20]", 1, 99, "W[11,22] node=1"),
    ("no byte for 98", 2, "W[1,2]", "W[10,20]", 1, 0, "27"),
    ("80 bytes for an absent nature", 1, "absent", "empty", 1, 80, "absent"),
    ("79 bytes for an absent nature", 1, "absent", "empty", 1, 79, "27"),
    ("24 before 27", 9, "W[-9223372036854775808,0]", "empty", 1, 0, "24"),
    ("26 before 27", 2, "W{0..99}", "W{0..29}", 1, 0, "26"),
    ("2 before 27", 200, "W[1,2]", "W[1,2]", 1, 0, "2"),
    ("the longest sheet without texts", 9, "W{1..128} groups=1:i1,2:i2,3:i3,4:i4", "empty", 1, 1284, "W{-1,-2,-3,-4,-5,-6,-7,-8,-9,-10,-11,-12,-13,-14,-15,-16,-17,-18,-19,-20,-21,-22,-23,-24,-25,-26,-27,-28,-29,-30,-31,-32,-33,-34,-35,-36,-37,-38,-39,-40,-41,-42,-43,-44,-45,-46,-47,-48,-49,-50,-51,-52,-53,-54,-55,-56,-57,-58,-59,-60,-61,-62,-63,-64,-65,-66,-67,-68,-69,-70,-71,-72,-73,-74,-75,-76,-77,-78,-79,-80,-81,-82,-83,-84,-85,-86,-87,-88,-89,-90,-91,-92,-93,-94,-95,-96,-97,-98,-99,-100,-101,-102,-103,-104,-105,-106,-107,-108,-109,-110,-111,-112,-113,-114,-115,-116,-117,-118,-119,-120,-121,-122,-123,-124,-125,-126,-127,-128} groups=1:i1,2:i2,3:i3,4:i4"),
    ("the longest sheet without texts, one byte short", 9, "W{1..128} groups=1:i1,2:i2,3:i3,4:i4", "empty", 1, 1283, "27"),
    ("the longest sheet", 2, "T{127#8,a*8}", "T{_} groups=1:i1,2:i2,3:i3,4:i4", 1, LONGEST, "T{127#8,a*8} groups=1:i1,2:i2,3:i3,4:i4"),
    ("the longest sheet, one byte short", 2, "T{127#8,a*8}", "T{_} groups=1:i1,2:i2,3:i3,4:i4", 1, LONGEST - 1, "27"),
    ("105 bytes of texts", 2, "T{pump,fan}", "T{_}", 1, 105, "T{pump,fan}"),
    ("104 bytes for 105 of texts", 2, "T{pump,fan}", "T{_}", 1, 104, "27"),
    ("28 before 27", 2, "T{a*600}", "T{b*425}", 1, 0, "28"),
    ("29 before 27", 1, "W{1}{2} columns=3", "empty", 1, 0, "29"),
    ("89 bytes for Abs {-3,3}", 1, "W{-3,3}", "empty", 1, 89, "W{3}"),
    ("88 bytes for 89 of Abs {-3,3}", 1, "W{-3,3}", "empty", 1, 88, "27"),
    ("1,232 bytes for Abs of 64 pairs over two columns", 1, "W{+-1..64} columns=2", "empty", 1, 1232, "W{1..64}*2 columns=2"),
    ("1,231 bytes for 1,232 of Abs of 64 pairs", 1, "W{+-1..64} columns=2", "empty", 1, 1231, "27"),
    ("80 bytes for Modulo of texts", 6, "T{abc}", "W[3,8]", 1, 80, "absent"),
    ("the node is unsigned", 2, "W[1,2]", "W[10,20]", 4294967295, LONGEST, "W[11,22] node=4294967295"),
    ("node 0", 4, "W[1,2]", "W[10,20]", 0, LONGEST, "W[10,40] node=0"),
];

#[cfg(test)]
mod tests {
    use super::{all, differences, pool, raw, Case};
    use crate::form::{is_range_subtract, is_unary, miscounted, Call, MISCOUNTED};
    use crate::sheet::Sheet;
    use std::collections::HashSet;

    /// The first of 3, 4 and 5 that the sheets of a case meet.
    fn refusal(case: &Case) -> Option<u32> {
        let left = Sheet::decode(&case.call.left).err();
        match is_unary(case.call.component) {
            true => left,
            false => left.or(Sheet::decode(&case.call.right).err()),
        }
    }

    #[test]
    fn sheets_are_refused_as_expected() {
        let mut refused = 0;
        for case in all() {
            let expected = case.expected.parse().ok();
            if expected == Some(2) {
                continue;
            }
            let expected = expected.filter(|code| (3..=5).contains(code));
            assert_eq!(refusal(&case), expected, "{}", case.label);
            refused += expected.is_some() as usize;
        }
        assert!(refused > 50);
    }

    /// They reach the ends, and no other case does.
    #[test]
    fn range_subtracts_stand_by_themselves() {
        let reaches = |case: &Case| {
            let Call {
                component,
                left,
                right,
                ..
            } = &case.call;
            let code = case.expected.parse().unwrap_or(0);
            is_range_subtract(*component, left, right, code)
        };
        assert!(differences().iter().all(reaches));
        assert!(!all().iter().any(reaches));
    }

    /// 29 is expected where lists are miscounted, and nowhere else.
    #[test]
    fn lists_are_counted() {
        let mut counted = 0;
        for case in all().iter().chain(&pool()).chain(&raw()) {
            let code = case.expected.parse().unwrap_or(0);
            let Call {
                component,
                left,
                right,
                ..
            } = &case.call;
            let refused = miscounted(*component, left, right, code).is_some();
            assert_eq!(refused, code == MISCOUNTED, "{}", case.label);
            counted += usize::from(refused);
        }
        assert!(counted > 30);
    }

    #[test]
    fn labels_and_calls_differ() {
        let cases = all();
        let labels: HashSet<&str> = cases.iter().map(|case| case.label).collect();
        let calls: HashSet<_> = cases.iter().map(|case| &case.call).collect();
        assert_eq!((labels.len(), calls.len()), (cases.len(), cases.len()));
    }
}
