//! Sheets and calls that the tests make.

use gate_runtime::causes::{self, Call};
use gate_runtime::form::plan::SLOT;
use gate_runtime::{propagate_property, show, Component, DataType, Ends, Group, Key, Nature, Refusal, Sheet};

/// Components that map the categories of one operand.
pub const ALONE: [Component; 2] = [Component::Abs, Component::Negative];

/// Releasable, 1 row, so that 6 to 10 and 13 stay silent.
pub fn plain(data_type: DataType, nature: Nature) -> Sheet {
    Sheet::new(data_type, nature).with_rows(1).released()
}

pub fn whole(entries: &[[i64; 2]]) -> Sheet {
    plain(DataType::Int, Nature::whole_range(entries))
}

pub fn float(entries: &[[f64; 2]]) -> Sheet {
    plain(DataType::Float, Nature::float_range(entries))
}

pub fn whole_ends(lower: Option<i64>, upper: Option<i64>) -> Sheet {
    plain(DataType::Int, Nature::WholeRange(vec![Ends { lower, upper }]))
}

pub fn listed(lists: &[&[i64]]) -> Sheet {
    let lists = lists.iter().map(|list| list.to_vec()).collect();
    plain(DataType::Int, Nature::WholeCategories(lists))
}

/// 1, -1, 2, -2 and so on: twice as many values as magnitudes.
pub fn both_signs(magnitudes: i64) -> Vec<i64> {
    (1..=magnitudes).flat_map(|n| [n, -n]).collect()
}

pub fn texts<T: AsRef<[u8]>>(lists: &[&[T]]) -> Sheet {
    plain(DataType::Str, Nature::text_categories(lists))
}

pub fn floats_listed() -> Sheet {
    plain(DataType::Float, Nature::FloatCategories(vec![vec![0.5]]))
}

/// All texts of a nature, in value order.
pub fn joined(nature: &Nature) -> Vec<u8> {
    match nature {
        Nature::TextCategories(lists) => lists.iter().flatten().flatten().copied().collect(),
        _ => Vec::new(),
    }
}

/// The same sheet, changed.
pub fn but(mut sheet: Sheet, change: impl Fn(&mut Sheet)) -> Sheet {
    change(&mut sheet);
    sheet
}

pub fn private(sheet: Sheet) -> Sheet {
    but(sheet, |s| s.releasable = false)
}

/// The bytes of the derived sheet.
pub fn call(component: Component, left: &Sheet, right: &Sheet) -> Result<Vec<u8>, Refusal> {
    let mut out = [0xA5; SLOT];
    let length = propagate_property(component.number(), 3, &left.encode(), &right.encode(), &mut out)?;
    Ok(out[..length].to_vec())
}

/// The length of the derived sheet and its nature.
pub fn derived(component: Component, left: &Sheet, right: &Sheet) -> Result<(usize, String), Refusal> {
    let bytes = call(component, left, right)?;
    let sheet = Sheet::decode(&bytes).expect("a derived sheet can be read");
    assert_eq!(sheet.encode(), bytes);
    Ok((bytes.len(), show::nature(&sheet.nature)))
}

/// The derived nature.
pub fn shown(component: Component, left: &Sheet, right: &Sheet) -> Result<String, Refusal> {
    derived(component, left, right).map(|(_, nature)| nature)
}

/// What is shown as the cause of a refusal, whether or not the call is refused with it.
pub fn cause(refusal: Refusal, component: Component, left: &Sheet, right: &Sheet) -> String {
    let (left, right) = (left.encode(), right.encode());
    let call = Call { component: component.number(), left: &left, right: &right, out_len: SLOT, names: ["", ""] };
    causes::of_single(refusal, &call).join("; ")
}

/// Numbers from a seed (xorshift), so that every run makes the same ones.
pub struct Draws(u64);

impl Draws {
    pub fn new(seed: u64) -> Draws {
        Draws(seed)
    }

    pub fn next(&mut self) -> u64 {
        self.0 ^= self.0 << 13;
        self.0 ^= self.0 >> 7;
        self.0 ^= self.0 << 17;
        self.0
    }

    pub fn below(&mut self, limit: usize) -> usize {
        (self.next() >> 16) as usize % limit
    }

    pub fn one_in(&mut self, count: usize) -> bool {
        self.below(count) == 0
    }

    pub fn pick<T: Copy>(&mut self, items: &[T]) -> T {
        items[self.below(items.len())]
    }

    fn optional<T>(&mut self, value: T) -> Option<T> {
        (!self.one_in(6)).then_some(value)
    }
}

const WHOLES: [i64; 14] = [0, 1, 2, 3, -1, -2, 7, 100, -100, 1 << 62, -(1 << 62), i64::MAX, i64::MIN, -3];
const FLOATS: [f64; 10] = [0.0, -0.0, 0.5, 1.0, 1.5, 2.0, -3.25, 1.7e308, -1.7e308, 0.25];

fn whole_entry(draws: &mut Draws) -> Ends<i64> {
    let (a, b) = (draws.pick(&WHOLES), draws.pick(&WHOLES));
    let (lower, upper) = if draws.one_in(40) { (a, b) } else { (a.min(b), a.max(b)) };
    Ends { lower: draws.optional(lower), upper: draws.optional(upper) }
}

fn float_entry(draws: &mut Draws) -> Ends<f64> {
    let (a, b) = (draws.pick(&FLOATS), draws.pick(&FLOATS));
    Ends { lower: draws.optional(a.min(b)), upper: draws.optional(a.max(b)) }
}

/// Lists of up to `most` members each, or one long list now and then.
fn some_lists<T>(draws: &mut Draws, lists: usize, mut member: impl FnMut(&mut Draws) -> T) -> Vec<Vec<T>> {
    let most = if lists == 1 && draws.one_in(8) { 120 } else { 5 };
    (0..lists).map(|_| (0..draws.below(most + 1)).map(|_| member(draws)).collect()).collect()
}

/// A text: empty, of few letters so that joins collapse, of any bytes, or long now and then.
fn text(draws: &mut Draws) -> Vec<u8> {
    let length = if draws.one_in(12) { 200 + draws.below(500) } else { draws.below(5) };
    let any = draws.one_in(4);
    (0..length).map(|_| if any { draws.next() as u8 } else { draws.pick(b"ab") }).collect()
}

/// Text lists within a sheet's 1,024 bytes: what would exceed them is empty.
fn text_lists(draws: &mut Draws, lists: usize) -> Vec<Vec<Vec<u8>>> {
    let mut room = 1024;
    some_lists(draws, lists, |draws| {
        let text = text(draws);
        let text = if text.len() <= room { text } else { Vec::new() };
        room -= text.len();
        text
    })
}

fn nature(draws: &mut Draws, lists: usize) -> Nature {
    let times = |draws: &mut Draws, value: fn(&mut Draws) -> Ends<f64>| (0..lists).map(|_| value(draws)).collect();
    match draws.below(13) {
        0 => Nature::Absent,
        1..=4 => Nature::WholeRange((0..lists).map(|_| whole_entry(draws)).collect()),
        5..=6 => Nature::FloatRange(times(draws, float_entry)),
        7..=8 => Nature::WholeCategories(some_lists(draws, lists, |d| match d.below(3) {
            0 => d.pick(&WHOLES),
            _ => d.below(1000) as i64 - 500,
        })),
        9..=10 => Nature::TextCategories(text_lists(draws, lists)),
        11 => Nature::BoolCategories(some_lists(draws, lists, |d| d.one_in(2))),
        _ => Nature::FloatCategories(some_lists(draws, lists, |d| match d.below(9) {
            0 => f64::NAN,
            1 => f64::INFINITY,
            _ => d.pick(&FLOATS),
        })),
    }
}

fn groups(draws: &mut Draws) -> Vec<Group> {
    let count = if draws.one_in(8) { draws.below(4) + 1 } else { 0 };
    let key = |draws: &mut Draws| match draws.below(3) {
        0 => Key::Int(draws.pick(&WHOLES)),
        1 => Key::Bool(draws.one_in(2)),
        _ => Key::Str(draws.below(5) as i64),
    };
    (0..count).map(|_| Group { partition: draws.next() as u32, key: key(draws) }).collect()
}

/// A sheet that passes 3 and 4, with every field stated now and then.
pub fn sheet(draws: &mut Draws) -> Sheet {
    let columns = draws.pick(&[1, 1, 1, 2, 3]);
    let lists = if draws.one_in(8) { draws.below(5) } else { draws.pick(&[1, columns]) };
    let nature = nature(draws, lists);
    let data_type = draws.pick(&[DataType::Int, DataType::Int, DataType::Int, DataType::Float, DataType::Float, DataType::Str]);
    let mut sheet = Sheet::new(data_type, nature);
    sheet.columns = if draws.one_in(20) { None } else { Some(columns as i64) };
    sheet.rows = if draws.one_in(5) { None } else { Some(draws.pick(&[1, 1, 1, 1, 1, 5, 5, i64::MAX])) };
    sheet.dataset = if draws.one_in(3) { None } else { Some(draws.pick(&[1, 1, 2])) };
    sheet.releasable = !draws.one_in(3);
    sheet.nullity = draws.one_in(2);
    sheet.not_empty = draws.one_in(2);
    sheet.ordered = draws.one_in(2);
    sheet.c_stability = draws.pick(&[1, 1, 1, 1, 2]);
    sheet.aggregator = if draws.one_in(12) { std::num::NonZeroU32::new(3) } else { None };
    sheet.sample = if draws.one_in(8) { Some(draws.pick(&[1.0, 0.5, f64::NAN])) } else { None };
    sheet.dimensionality = if draws.one_in(2) { Some(2) } else { None };
    sheet.node = draws.next() as i64;
    sheet.groups = groups(draws);
    sheet
}

pub fn component(draws: &mut Draws) -> Component {
    draws.pick(&Component::ALL)
}
