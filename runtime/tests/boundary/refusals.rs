//! Every refusal number from Rust, by the proved calls, with a cause that names the right field, column or pair.

use crate::made::{both_signs, but, float, floats_listed, listed, plain, private, texts, whole, whole_ends};
use gate_runtime::causes::{self, Call, NO_CAUSE};
use gate_runtime::form::plan::SLOT;
use gate_runtime::{propagate_properties, propagate_property, DataType, Ends, Group, Key, Nature, Plan, Refusal, Rinks, Sheet, Stopped};
use std::collections::BTreeSet;
use std::num::NonZeroU32;

/// A refused single call.
pub struct Case {
    pub number: u32,
    pub component: u32,
    pub left: Vec<u8>,
    pub right: Vec<u8>,
    pub out_len: usize,
    /// Part of the cause.
    pub cause: &'static str,
}

const ABS: u32 = 1;
const ADD: u32 = 2;
const SUBTRACT: u32 = 3;
const MULTIPLY: u32 = 4;
const DIVIDE: u32 = 5;
const MODULO: u32 = 6;
const LOG: u32 = 7;
const POWER: u32 = 8;
const NEGATIVE: u32 = 9;
const POOL: u32 = 10;

fn bytes(number: u32, component: u32, left: Vec<u8>, right: Vec<u8>, cause: &'static str) -> Case {
    Case { number, component, left, right, out_len: SLOT, cause }
}

fn case(number: u32, component: u32, left: Sheet, right: Sheet, cause: &'static str) -> Case {
    bytes(number, component, left.encode(), right.encode(), cause)
}

/// A plain sheet with one byte changed.
fn with_byte(mut sheet: Vec<u8>, at: usize, byte: u8) -> Vec<u8> {
    sheet[at] = byte;
    sheet
}

fn one() -> Sheet {
    whole(&[[1, 2]])
}

fn half_open(lower: Option<f64>, upper: Option<f64>) -> Sheet {
    plain(DataType::Float, Nature::FloatRange(vec![Ends { lower, upper }]))
}

fn sizes_and_fields() -> Vec<Case> {
    let plain_bytes = one().encode();
    let right = |left: Vec<u8>| (left, plain_bytes.clone());
    let wrong = |at, byte| right(with_byte(plain_bytes.clone(), at, byte));
    let of = |number, (left, right), cause| bytes(number, ADD, left, right, cause);
    let listed_bytes = listed(&[&[1], &[2]]).encode();
    let falling = listed(&[&[], &[1, 2]]).encode();
    let bool_list = plain(DataType::Bool, Nature::BoolCategories(vec![vec![true]])).encode();
    let grouped = but(one(), |s| s.groups = vec![Group { partition: 5, key: Key::Bool(true) }]).encode();
    let longer = [plain_bytes.clone(), vec![0]].concat();
    vec![
        bytes(2, 0, Vec::new(), Vec::new(), "component: 0"),
        bytes(2, 11, Vec::new(), Vec::new(), "component: 11, permitted 1 to 10"),
        bytes(2, 200, plain_bytes.clone(), plain_bytes.clone(), "component: 200"),
        bytes(2, u32::MAX, plain_bytes.clone(), plain_bytes.clone(), "component: 4294967295"),
        bytes(3, POOL, Vec::new(), Vec::new(), "left, length: 0 bytes, at least 80"),
        of(3, right(vec![0; 79]), "left, length: 79 bytes"),
        of(3, right(whole(&[[0, 1]; 17]).encode()), "left, lists: 17, at most 16"),
        of(3, right(listed(&[&[7; 129]]).encode()), "left, categories: 129, at most 128"),
        of(3, (plain_bytes.clone(), longer), "right, length: 99 bytes, the sizes call for 98"),
        of(4, wrong(25, 1), "reserved bytes: byte 25 is 1"),
        of(4, wrong(28, 1), "reserved bytes: byte 28 is 1"),
        of(4, wrong(31, 1), "byte 31 is 1"),
        of(4, wrong(8, 2), "nullity: 2"),
        of(4, wrong(7, 5), "data type: 5"),
        of(4, wrong(20, 2), "rows: mark 2"),
        of(4, wrong(24, 2), "sample proportion: mark 2"),
        of(4, wrong(48, 1), "dataset id: marked as absent"),
        of(4, wrong(80, 3), "lower end of entry 1: mark 3"),
        of(4, wrong(4, 1), "categories: 1, permitted 0 for a range"),
        of(4, right(one().with_columns(17).encode()), "columns: 17, permitted 1 to 16"),
        of(4, right(with_byte(falling, 81, 0)), "category 2: list number 0 after 1"),
        of(4, right(with_byte(listed_bytes, 81, 2)), "list number 2, permitted below 2"),
        of(4, right(with_byte(bool_list, 81, 2)), "bool value 2"),
        of(4, right(with_byte(grouped.clone(), 84, 4)), "group 1: kind 4"),
        of(4, right(with_byte(grouped, 85, 2)), "group 1: bool index 2"),
        of(4, right(with_byte(plain(DataType::Int, Nature::Absent).encode(), 6, 9)), "nature: 9, permitted 0 to 6"),
        of(4, right(with_byte(plain(DataType::Int, Nature::Absent).encode(), 2, 3)), "nature absent: 3 lists"),
    ]
}

fn bounds_and_marks() -> Vec<Case> {
    let grouped = |key| but(private(one()), move |s| s.groups = vec![Group { partition: 7, key }]);
    let sampled = |proportion| but(private(one()), move |s| s.sample = Some(proportion));
    let summed = || but(private(one()), |s| s.aggregator = NonZeroU32::new(3));
    vec![
        case(5, ADD, whole(&[[2, 1]]), one(), "left, column 1: [+2, +1]: the lower end exceeds"),
        case(5, ADD, one(), whole(&[[0, 1], [0, 1], [4, 3]]), "right, column 3: [+4, +3]"),
        case(5, NEGATIVE, float(&[[0.0, f64::INFINITY]]), one(), "operand, column 1: [+0.0, +overflow]: the upper end is infinite"),
        case(
            5,
            ABS,
            float(&[[f64::NEG_INFINITY, f64::NAN]]),
            one(),
            "[-overflow, nan]: the lower end is infinite, the upper end is not a number",
        ),
        case(5, ABS, whole(&[[2, 1]]).with_columns(3), one(), "every column: [+2, +1]"),
        case(6, ADD, one(), summed(), "right: aggregator 3, and it is not releasable"),
        case(6, NEGATIVE, summed(), one(), "operand: aggregator 3"),
        case(7, MULTIPLY, sampled(0.5), summed(), "left: sample proportion 0.5"),
        case(7, ADD, one(), sampled(f64::NAN), "right: sample proportion NaN"),
        case(8, ADD, grouped(Key::Int(1)), grouped(Key::Bool(true)), "groups: left {7: int 1}, right {7: bool true}"),
        case(8, MODULO, grouped(Key::Str(2)), private(one()), "groups: left {7: str 2}, right {}"),
        case(9, ADD, private(one()).with_dataset(1), private(one()), "dataset ids: left 1, right absent"),
        case(10, ADD, private(one()), but(private(one()), |s| s.c_stability = 2), "c-stabilities: left 1, right 2"),
    ]
}

fn shapes_and_types() -> Vec<Case> {
    let no_columns = |sheet| but(sheet, |s: &mut Sheet| s.columns = None);
    let other = || one().with_rows(3).with_dataset(2);
    vec![
        case(11, ADD, no_columns(one()), one(), "left: columns absent"),
        case(11, DIVIDE, one(), no_columns(one()), "right: columns absent"),
        case(11, POWER, no_columns(one()), no_columns(one()), "left: columns absent"),
        case(12, ADD, one().with_columns(2), one().with_columns(3), "columns: left 2, right 3"),
        case(13, ADD, one().with_rows(2).with_dataset(1), other(), "rows: left 2, right 3"),
        case(13, ADD, one().with_rows(2), other(), "dataset ids: left absent, right 2"),
        case(14, ADD, one(), float(&[[0.0, 1.0]]), "data types: left int, right float: they must be equal"),
        case(14, MODULO, one(), float(&[[1.0, 2.0]]), "modulo needs both int or both float"),
        case(14, POWER, float(&[[1.0, 2.0]]), one(), "power needs both int or both float"),
        case(14, LOG, one(), float(&[[2.0, 3.0]]), "log needs a left operand of type float"),
    ]
}

fn bounds_read() -> Vec<Case> {
    let as_float = |sheet: Sheet| but(sheet, |s| s.data_type = DataType::Float);
    let two = || float(&[[2.0, 2.0]]);
    vec![
        case(15, MODULO, one(), listed(&[&[3]]), "right: whole categories {+3}: a whole range is wanted"),
        case(15, MODULO, one(), whole_ends(None, Some(5)), "column 1: right [-inf, +5]: the lower end is absent"),
        case(15, POWER, one(), but(float(&[[0.0, 1.0]]), |s| s.data_type = DataType::Int), "right: float range"),
        case(15, MODULO, float(&[[1.0, 2.0]]), plain(DataType::Float, Nature::Absent), "right: absent nature: a range is wanted"),
        case(15, LOG, two(), half_open(Some(2.0), None), "right [+2.0, +inf]: the upper end is absent"),
        case(15, LOG, half_open(None, Some(5.0)), two(), "left [-inf, +5.0]: the lower end is absent"),
        case(15, LOG, as_float(listed(&[&[3]])), two(), "left: whole categories {+3}"),
        case(15, LOG, as_float(one()), whole(&[[2, 2]]), "log takes no whole data under a whole base"),
        case(16, MODULO, one(), whole(&[[0, 8]]), "column 1: right [+0, +8]: the lower end must be above 0"),
        case(16, POWER, one().with_columns(2), whole(&[[0, 1], [-1, 2]]), "column 2: right [-1, +2]: the lower end must be 0 or above"),
        case(16, LOG, two(), float(&[[0.5, 2.0]]), "right [+0.5, +2.0]: the base must lie within (0, 1) or start above 1"),
        case(16, LOG, float(&[[-0.0, 1.0]]), two(), "left [-0.0, +1.0]: the lower end must be above 0"),
    ]
}

fn natures() -> Vec<Case> {
    let floats = |lists: Vec<Vec<f64>>| plain(DataType::Int, Nature::FloatCategories(lists));
    let bools = || plain(DataType::Int, Nature::BoolCategories(vec![vec![true]]));
    let mixed = but(float(&[[0.0, 1.0]]), |s| s.data_type = DataType::Int);
    let power = |sheet| but(sheet, |s: &mut Sheet| s.data_type = DataType::Float);
    vec![
        case(17, ADD, one(), mixed, "ranges: left whole range [+1, +2], right float range [+0.0, +1.0]"),
        case(18, ADD, one().with_columns(2), whole(&[[0, 1]; 3]).with_columns(2), "right: 3 ranges, while the output has 2 columns"),
        case(18, MODULO, one(), whole(&[[1, 2]; 3]), "right: 3 ranges, while the output has 1 column"),
        case(19, ADD, listed(&[&[1]]), floats(vec![vec![0.5]]), "right: float categories {+0.5}"),
        case(19, ABS, floats(vec![]), one(), "operand: float categories without lists"),
        case(20, ADD, listed(&[&[1]]), listed(&[]), "right: whole categories without lists"),
        case(21, ADD, listed(&[&[1]]), bools(), "natures: left whole categories, right bool categories"),
        case(22, NEGATIVE, bools(), one(), "operand: bool categories {true}: negative has no rule for bool categories"),
        case(22, POWER, power(listed(&[&[2]])), power(listed(&[&[3]])), "power of type float has no rule for whole categories"),
    ]
}

/// 29 by operand, kind and component, each before what else its operands meet.
fn uneven_lists() -> Vec<Case> {
    let two = || listed(&[&[1], &[2]]);
    let bools = |lists: usize| plain(DataType::Int, Nature::BoolCategories(vec![vec![true]; lists])).with_columns(3);
    let floats = plain(DataType::Int, Nature::FloatCategories(vec![vec![0.5]]));
    let least = listed(&[&[i64::MIN], &[1]]).with_columns(3);
    let (two_of_three, one_of_three) = (|| two().with_columns(3), || listed(&[&[5]]).with_columns(3));
    let left = "left: 2 category lists, while the output has 3 columns: one list is wanted, or one for each column";
    let right = "right: 2 category lists, while the output has 3 columns: one list is wanted, or one for each column";
    let operand = "operand: 2 category lists, while the output has 3 columns: one list is wanted, or one for each column";
    let single = "2 category lists, while the output has 1 column: one list is wanted";
    vec![
        case(29, ADD, two_of_three(), one_of_three(), left),
        case(29, ADD, one_of_three(), two_of_three(), right),
        case(29, ADD, two_of_three(), bools(1), left),
        case(29, ADD, bools(1), two_of_three(), right),
        case(29, MULTIPLY, bools(2), bools(1), left),
        case(29, SUBTRACT, two().with_columns(4), floats.with_columns(4), "left: 2 category lists, while the output has 4 columns"),
        case(29, DIVIDE, two_of_three(), listed(&[]).with_columns(3), left),
        case(29, ADD, two().with_columns(1), two().with_columns(1), single),
        case(29, NEGATIVE, two().with_columns(1), one(), single),
        case(29, NEGATIVE, least, one(), operand),
        case(29, ABS, two_of_three(), one(), operand),
        case(29, ABS, listed(&[&[4], &[5], &[6]]).with_columns(2), one(), "operand: 3 category lists, while the output has 2 columns"),
        case(29, ADD, texts(&[&["a"], &["b"]]).with_columns(3), texts(&[&["c"]]).with_columns(3), left),
        case(29, POOL, two_of_three().with_rows(i64::MAX), one_of_three(), left),
        case(29, POOL, texts(&[&["a"]]).with_columns(3), texts(&[&["a"], &["b"]]).with_columns(3), right),
    ]
}

/// 29 of an operand that has other columns than the output.
fn uneven_beside_another() -> Vec<Case> {
    let float = |sheet| but(sheet, |s: &mut Sheet| s.data_type = DataType::Float);
    let two = || listed(&[&[1], &[2]]);
    let three_of_one = listed(&[&[10], &[20], &[30]]).with_columns(1);
    let no_columns = but(float(two()), |s| s.columns = None);
    let wide =
        "right: 3 category lists over 1 column, while the output has 2 columns, as left has: one list is wanted, or one for each column";
    let narrow = "right: 2 category lists over 2 columns, while the output has 1 column, as left has: one list is wanted";
    let unknown = "right: 2 category lists with columns absent, while the output has 1 column, as left has: one list is wanted";
    vec![
        case(29, ADD, two(), three_of_one, wide),
        case(29, POWER, float(listed(&[&[1]])), float(two()), narrow),
        case(29, POWER, float(listed(&[&[1]])), no_columns, unknown),
    ]
}

fn arithmetic() -> Vec<Case> {
    let many: Vec<i64> = (0..100).collect();
    let thirty: Vec<i64> = (0..30).collect();
    let two = |second: [i64; 2]| whole(&[[-7, 7], second]);
    let open = |upper| plain(DataType::Int, Nature::WholeRange(vec![Ends::between(1, 2), Ends { lower: None, upper }]));
    vec![
        case(23, DIVIDE, two([-7, 7]), open(Some(3)), "column 2: left [-7, +7], right [-inf, +3]: right has no lower end, and its upper end is 0 or above"),
        case(23, DIVIDE, two([1, 2]), open(None), "column 2: left [+1, +2], right [-inf, +inf]: right has no ends"),
        case(23, DIVIDE, one(), whole_ends(Some(0), None), "right has no upper end, and its lower end is 0 or below"),
        case(24, ADD, two([0, i64::MAX]), whole(&[[0, 1]]), "column 2: left [+0, +9223372036854775807], right [+0, +1]: 9223372036854775807 + 1 = 9223372036854775808 leaves 64 signed bits"),
        case(24, SUBTRACT, whole(&[[i64::MIN, 0]]), whole(&[[0, 1]]), "(-9223372036854775808) - 1"),
        case(24, SUBTRACT, two([-1, 4]), whole(&[[0, 1], [i64::MIN, 3]]), "column 2: left [-1, +4], right [-9223372036854775808, +3]: 4 - (-9223372036854775808) = 9223372036854775812 leaves 64 signed bits"),
        case(24, SUBTRACT, whole_ends(None, Some(i64::MAX)), whole_ends(Some(-1), None), "9223372036854775807 - (-1) = 9223372036854775808"),
        case(24, MULTIPLY, whole(&[[1 << 62, 1 << 62]]), whole(&[[2, 2]]), "4611686018427387904 * 2"),
        case(24, DIVIDE, whole(&[[i64::MIN, 0]]), whole(&[[-1, 0]]), "(-9223372036854775808) / (-1) = 9223372036854775808"),
        case(24, ABS, whole(&[[1 << 62, 1 << 62]]), one(), "4611686018427387904 + 4611686018427387904 = 9223372036854775808"),
        case(24, NEGATIVE, whole(&[[i64::MIN, 0]]), one(), "-(-9223372036854775808) = 9223372036854775808"),
        case(24, DIVIDE, listed(&[&[1], &[4]]), listed(&[&[2], &[5, 0]]), "list 2: categories +4 and +0: 4 / 0 divides by zero"),
        case(24, ABS, listed(&[&[3, i64::MIN]]), one(), "list 1: category -9223372036854775808"),
        case(26, ADD, listed(&[&many]), listed(&[&thirty]), "categories: left 100, right 30: the result holds 129, at most 128"),
        case(26, NEGATIVE, listed(&[&many]).with_columns(2), one(), "the result holds 200 (100 + 100 by list)"),
        case(26, ABS, listed(&[&both_signs(64)]).with_columns(3), one(), "the result holds 192 (64 + 64 + 64 by list)"),
        Case { out_len: 97, ..case(27, ADD, one(), one(), "output: 97 bytes, the derived sheet has 98") },
        Case { out_len: 0, ..case(27, ABS, one(), one(), "output: 0 bytes, the derived sheet has 98") },
    ]
}

/// What text brings: its area in 3 and 4, the kinds and rules, and 26 and 28.
fn labelled() -> Vec<Case> {
    let plain_bytes = one().encode();
    let text = || but(texts(&[&["a"]]), |s| s.data_type = DataType::Int);
    let fan = || texts(&[&["pump", "fan"]]).encode();
    let pair = |number, left, cause| bytes(number, ADD, left, plain_bytes.clone(), cause);
    let no_text = |at| with_byte([plain_bytes.clone(), vec![0]].concat(), at, 1);
    let of = |length: usize| texts(&[&["x".repeat(length)]]);
    let many = |first: &str, count: usize| {
        let list: Vec<String> = (0..count).map(|k| format!("{first}{k:049}")).collect();
        texts(&[&list])
    };
    vec![
        pair(3, with_byte(plain_bytes.clone(), 26, 1), "left, length: 98 bytes, the sizes call for 99"),
        pair(3, of(1025).encode(), "left, bytes of text: 1025, at most 1024"),
        pair(4, no_text(26), "bytes of text: 1, permitted 0 unless the categories are text"),
        pair(4, with_byte(fan(), 82, 1), "category 1: its text starts at 1, permitted 0"),
        pair(4, with_byte(fan(), 90, 3), "category 2: its text starts at 3, permitted 4"),
        pair(4, with_byte(fan(), 94, 4), "category 2: its text ends at 8, permitted to 7"),
        pair(4, with_byte(fan(), 94, 2), "bytes of text: 7, the texts end at 6"),
        pair(4, with_byte(fan(), 81, 1), "category 2: list number 1, permitted below 1"),
        case(15, MODULO, text(), text(), "right: text categories {\"a\"}: a whole range is wanted"),
        case(19, ADD, text(), but(floats_listed(), |s| s.data_type = DataType::Int), "right: float categories {+0.5}"),
        case(20, ADD, texts::<&str>(&[]), texts(&[&["a"]]), "left: text categories without lists"),
        case(21, ADD, text(), listed(&[&[1]]), "natures: left text categories, right whole categories"),
        case(22, SUBTRACT, text(), text(), "left: text categories {\"a\"}: subtract has no rule for text categories"),
        case(22, ABS, text(), text(), "operand: text categories {\"a\"}: abs has no rule for text categories"),
        case(26, ADD, many("a", 12), many("b", 11), "categories: left 12, right 11: the result holds 132, at most 128"),
        case(28, ADD, many("a", 11), many("b", 11), "bytes of text: left 550, right 550: the result holds 12100, at most 1024"),
        case(28, ADD, of(600), of(425), "bytes of text: left 600, right 425: the result holds 1025, at most 1024"),
        case(
            28,
            ADD,
            of(257).with_columns(4),
            of(0).with_columns(4),
            "the result holds 1028 (257 + 257 + 257 + 257 by list), at most 1024, exceeded from column 4 on",
        ),
        case(28, POOL, of(1000), of(25), "bytes of text: left 1000, right 25: the result holds 1025, at most 1024"),
        case(24, POOL, of(1000).with_rows(i64::MAX), of(25), "9223372036854775807 + 1 = 9223372036854775808 leaves"),
    ]
}

/// Every refusal that pool can give behind the sheets' own, in the order of its checks.
fn pooled() -> Vec<Case> {
    let floats = || plain(DataType::Int, Nature::FloatCategories(vec![vec![0.5]]));
    let bools = || plain(DataType::Int, Nature::BoolCategories(vec![vec![true]]));
    let mixed = but(float(&[[0.0, 1.0]]), |s| s.data_type = DataType::Int);
    let summed = || but(private(one()), |s| s.aggregator = NonZeroU32::new(3));
    let sampled = || but(private(one()), |s| s.sample = Some(0.5));
    let grouped = || but(private(one()), |s| s.groups = vec![Group { partition: 7, key: Key::Int(1) }]);
    let no_columns = |sheet| but(sheet, |s: &mut Sheet| s.columns = None);
    let most = |sheet: Sheet| sheet.with_rows(i64::MAX);
    let run = |from: i64, to: i64| listed(&[&(from..to).collect::<Vec<i64>>()]);
    let sum = "rows: left 9223372036854775807, right 1: 9223372036854775807 + 1 = 9223372036854775808 leaves 64 signed bits";
    vec![
        case(5, POOL, one(), whole(&[[2, 1]]), "right, column 1: [+2, +1]: the lower end exceeds"),
        case(6, POOL, summed(), sampled(), "left: aggregator 3, and it is not releasable"),
        case(7, POOL, sampled(), summed(), "left: sample proportion 0.5, and it is not releasable"),
        case(8, POOL, no_columns(grouped()), private(one()), "groups: left {7: int 1}, right {}"),
        case(11, POOL, one(), no_columns(one()), "right: columns absent"),
        case(12, POOL, one(), one().with_columns(2), "columns: left 1, right 2: pool needs equal counts"),
        case(14, POOL, one(), float(&[[0.0, 1.0]]), "data types: left int, right float: they must be equal"),
        case(17, POOL, most(one()), mixed, "ranges: left whole range [+1, +2], right float range [+0.0, +1.0]"),
        case(18, POOL, most(whole(&[[1, 2]; 2]).with_columns(3)), one().with_columns(3), "left: 2 ranges, while the output has 3 columns"),
        case(19, POOL, floats(), listed(&[&[1]]), "left: float categories {+0.5}"),
        case(19, POOL, listed(&[&[1]]), floats(), "right: float categories {+0.5}"),
        case(20, POOL, listed(&[]), bools(), "left: whole categories without lists"),
        case(21, POOL, listed(&[&[1]]), bools(), "natures: left whole categories, right bool categories"),
        case(24, POOL, most(one()), one(), sum),
        case(24, POOL, most(plain(DataType::Int, Nature::Absent)), one(), sum),
        case(24, POOL, most(run(0, 100)), run(100, 130), sum),
        case(24, POOL, one().with_rows(i64::MIN), one().with_rows(-1), "(-9223372036854775808) + (-1) = -9223372036854775809 leaves"),
        case(26, POOL, run(0, 100), run(100, 130), "categories: left 100, right 30: the result holds 130, at most 128"),
        case(26, POOL, run(0, 60).with_columns(2), run(50, 70).with_columns(2), "the result holds 140 (70 + 70 by list)"),
        Case { out_len: 97, ..case(27, POOL, one(), one(), "output: 97 bytes, the derived sheet has 98") },
    ]
}

pub fn cases() -> Vec<Case> {
    let first = [sizes_and_fields(), bounds_and_marks(), shapes_and_types(), bounds_read()];
    let behind = [natures(), uneven_lists(), uneven_beside_another(), arithmetic(), labelled(), pooled()];
    first.into_iter().chain(behind).flatten().collect()
}

#[test]
fn every_single_call_case_has_its_number_and_cause() {
    for case in cases() {
        let mut out = vec![0xA5; case.out_len];
        let reply = propagate_property(case.component, 9, &case.left, &case.right, &mut out);
        let refusal = Refusal::from_code(case.number).unwrap();
        assert_eq!(reply, Err(refusal), "{}", case.cause);
        assert!(out.iter().all(|byte| *byte == 0xA5), "{}", case.cause);
        let (left, right, out_len) = (&case.left[..], &case.right[..], case.out_len);
        let call = Call { component: case.component, left, right, out_len, names: ["", ""] };
        let text = causes::of_single(refusal, &call).join("; ");
        assert!(text.contains(case.cause), "{}: {text} does not hold {}", case.number, case.cause);
    }
}

#[test]
fn every_number_but_25_is_reached_and_25_says_why_not() {
    let for_a_reader = Plan::new(1).reveal(&[one()], &[Rinks::from_bits(1)], Rinks::NONE, 0).unwrap_err().refusal.code();
    let reached: BTreeSet<u32> = cases().iter().map(|case| case.number).chain([1, for_a_reader]).collect();
    let all: BTreeSet<u32> = Refusal::all().map(Refusal::code).filter(|number| *number != 25).collect();
    assert_eq!(reached, all);
    let text = Refusal::PowerCategoryOverflow.explain();
    assert!(text.contains("No call can meet it") && text.contains("(15)") && text.contains("(22)"));
    // The two ways in which a reader would look for it.
    let power = |left: Sheet, right: Sheet| propagate_property(POWER, 0, &left.encode(), &right.encode(), &mut [0; SLOT]);
    let floats = |sheet| but(sheet, |s: &mut Sheet| s.data_type = DataType::Float);
    let (base, exponent) = (|| listed(&[&[i64::MAX]]), || listed(&[&[64]]));
    assert_eq!(power(base(), exponent()), Err(Refusal::BoundsUnsuited));
    assert_eq!(power(floats(base()), floats(exponent())), Err(Refusal::NoCategoryRule));
}

/// Plans that are malformed, each with a part of its cause.
pub fn malformed_plans() -> Vec<(Vec<u8>, &'static str)> {
    let plan = |nodes: u16, leaves: u16, steps: &[(u32, u32)]| {
        let mut bytes = [nodes.to_le_bytes(), leaves.to_le_bytes()].concat();
        bytes.extend(steps.iter().flat_map(|step| step.0.to_le_bytes()));
        bytes.extend(steps.iter().flat_map(|step| step.1.to_le_bytes()));
        bytes
    };
    vec![
        (vec![], "length: 0 bytes"),
        (plan(0, 0, &[]), "nodes: 0"),
        (plan(33, 33, &[]), "nodes: 33, permitted 1 to 32"),
        (plan(1, 0, &[]), "leaves: 0"),
        (plan(1, 2, &[]), "leaves: 2, permitted 1 to 1"),
        (plan(2, 1, &[]), "length: 4 bytes, the sizes call for 12"),
        (plan(2, 1, &[(0, 0)]), "node 1: component 0"),
        (plan(2, 1, &[(11, 0)]), "node 1: component 11, permitted 1 to 10"),
        (plan(2, 1, &[(200, 0)]), "node 1: component 200"),
        (plan(2, 1, &[(ADD, 1)]), "node 1: operand 1 is no earlier node"),
        (plan(2, 1, &[(ADD, 65_536)]), "node 1: operand 1 is no earlier node"),
        (plan(3, 2, &[(NEGATIVE, 65_536)]), "node 2: negative has two operands, 0 and 1"),
    ]
}

#[test]
fn a_malformed_plan_is_1_without_a_node() {
    let stopped = Stopped { refusal: Refusal::MalformedPlan, node: None };
    for (plan, cause) in malformed_plans() {
        let mut work = vec![0xA5; 33 * SLOT];
        assert_eq!(propagate_properties(&plan, &mut work), Err(stopped), "{cause}");
        assert!(work.iter().all(|byte| *byte == 0xA5));
        let text = causes::of_plan(Refusal::MalformedPlan, &plan, work.len()).join("; ");
        assert!(text.contains(cause), "{text} does not hold {cause}");
    }
}

#[test]
fn a_short_work_buffer_is_27_without_a_node() {
    let plan = Plan::new(2).encode();
    let mut work = vec![0; 2 * SLOT - 1];
    let stopped = Stopped { refusal: Refusal::OutputTooShort, node: None };
    assert_eq!(propagate_properties(&plan, &mut work), Err(stopped));
    let text = causes::of_plan(Refusal::OutputTooShort, &plan, work.len());
    assert_eq!(text, ["work buffer: 4615 bytes, 2 nodes need 4616"]);
}

/// In a plan, 3 to 5 of a leaf name the leaf; every other refusal names the step.
#[test]
fn a_plan_names_the_node_and_its_cause() {
    for case in cases().into_iter().filter(|case| case.number >= 4 && case.number != 27) {
        let Ok(component) = gate_runtime::Component::from_number(case.component).ok_or(()) else {
            continue;
        };
        let mut plan = Plan::new(2);
        let right = usize::from(!component.is_unary());
        plan.step(component, 0, right);
        let mut work = plan.work(&[]);
        work[..case.left.len()].copy_from_slice(&case.left);
        let second = if component.is_unary() { one().encode() } else { case.right.clone() };
        work[SLOT..][..second.len()].copy_from_slice(&second);
        let stopped = propagate_properties(&plan.encode(), &mut work).unwrap_err();
        assert_eq!(stopped.refusal.code(), case.number, "{}", case.cause);
        let faulty = usize::from(case.cause.starts_with("right"));
        let node = if case.number <= 5 { faulty } else { 2 };
        assert_eq!(stopped.node, Some(node), "{}", case.cause);
        let walk = gate_runtime::Walk { outcome: Err(stopped), sheets: Vec::new(), work };
        let text = causes::of_walk(&plan, &walk, stopped, &[]).join("; ");
        let wanted = case.cause.trim_start_matches("left, ").trim_start_matches("right, ").trim_start_matches("operand, ");
        assert!(text.contains(wanted) && text != NO_CAUSE, "{text} does not hold {wanted}");
    }
}
