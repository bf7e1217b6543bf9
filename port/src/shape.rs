//! The checks 6 to 16 in their orders, and the derived fields.

use crate::form::*;
use crate::sheet::{Refusal, Sheet};

/// The fields of a derived sheet, all but its nature.
pub struct Fields<'a> {
    pub data_type: u8,
    pub nullity: bool,
    pub releasable: bool,
    pub not_empty: bool,
    pub ordered: bool,
    pub c_stability: u32,
    pub aggregator: u32,
    pub rows: Option<i64>,
    pub columns: i64,
    pub dataset: Option<i64>,
    pub dimensionality: Option<i64>,
    pub sample: Option<u64>,
    pub node: i64,
    pub groups: &'a [u8],
}

impl<'a> Fields<'a> {
    fn copied(left: &Sheet<'a>, columns: i64) -> Fields<'a> {
        Fields {
            data_type: left.data_type,
            nullity: left.nullity,
            releasable: left.releasable,
            not_empty: left.not_empty,
            ordered: left.ordered,
            c_stability: left.c_stability,
            aggregator: left.aggregator,
            rows: left.rows,
            columns,
            dataset: left.dataset,
            dimensionality: left.dimensionality,
            sample: left.sample,
            node: left.node,
            groups: left.groups,
        }
    }

    /// What 2 to 5 and Pool have alike; the rest is left's.
    fn joined(node: u32, left: &Sheet<'a>, right: &Sheet<'a>, columns: i64) -> Fields<'a> {
        Fields {
            nullity: left.nullity || right.nullity,
            releasable: left.releasable && right.releasable,
            c_stability: left.c_stability.max(right.c_stability),
            aggregator: 0,
            dimensionality: left.dimensionality.max(right.dimensionality),
            node: i64::from(node),
            groups: groups(left, right),
            ..Fields::copied(left, columns)
        }
    }
}

/// Abs and Negative: 6 and 11.
pub fn unary<'a>(left: &Sheet<'a>) -> Result<Fields<'a>, Refusal> {
    if !left.releasable && left.aggregator != 0 {
        return Err(6);
    }
    Ok(Fields::copied(left, left.columns.ok_or(11u32)?))
}

/// Add, Subtract, Multiply, Divide: 6 to 14 in list order.
pub fn arithmetic<'a>(
    component: u32,
    node: u32,
    left: &Sheet<'a>,
    right: &Sheet<'a>,
) -> Result<Fields<'a>, Refusal> {
    marks(left)?;
    marks(right)?;
    if !left.releasable && !right.releasable {
        same_origin(left, right)?;
    }
    let columns = columns(left.columns.ok_or(11u32)?, right.columns.ok_or(11u32)?)?;
    let rows = rows(left, right)?;
    if left.data_type != right.data_type {
        return Err(14);
    }
    let joined = Fields::joined(node, left, right, columns);
    let divisor = component == DIVIDE && divisor_sets_nullity(right);
    Ok(Fields {
        nullity: joined.nullity || divisor,
        not_empty: left.not_empty && right.not_empty,
        ordered: true,
        rows,
        ..joined
    })
}

/// Pool: 6, 7, 8, 11, 12 by any difference, 14. The rows follow the nature.
pub fn pooled<'a>(node: u32, left: &Sheet<'a>, right: &Sheet<'a>) -> Result<Fields<'a>, Refusal> {
    marks(left)?;
    marks(right)?;
    if groups_clash(left, right) {
        return Err(8);
    }
    let columns = left.columns.ok_or(11u32)?;
    if right.columns.ok_or(11u32)? != columns {
        return Err(12);
    }
    if left.data_type != right.data_type {
        return Err(14);
    }
    Ok(Fields {
        not_empty: left.not_empty || right.not_empty,
        ordered: false,
        rows: None,
        dataset: None,
        sample: None,
        ..Fields::joined(node, left, right, columns)
    })
}

/// The rows of both operands together: 24 outside 64 signed bits.
pub fn rows_sum(left: &Sheet, right: &Sheet) -> Result<Option<i64>, Refusal> {
    match left.rows.zip(right.rows) {
        Some((l, r)) => l.checked_add(r).map(Some).ok_or(24),
        None => Ok(None),
    }
}

/// Modulo, Log, Power: 6, 7, 14, 15, 16, 11; their 8 comes after the nature.
pub fn bounded<'a>(
    component: u32,
    left: &Sheet<'a>,
    right: &Sheet<'a>,
) -> Result<Fields<'a>, Refusal> {
    marks(left)?;
    marks(right)?;
    match component {
        LOG => log_operands(left, right)?,
        _ => integer_or_float_operands(component, left, right)?,
    }
    Ok(Fields {
        not_empty: left.not_empty && right.not_empty,
        dimensionality: left.dimensionality.max(right.dimensionality),
        groups: groups(left, right),
        ..Fields::copied(left, left.columns.ok_or(11u32)?)
    })
}

/// 6 and 7 of one operand. A NaN is not equal to 1.
fn marks(sheet: &Sheet) -> Result<(), Refusal> {
    if sheet.releasable {
        return Ok(());
    }
    if sheet.aggregator != 0 {
        return Err(6);
    }
    match sheet.sample {
        Some(bits) if f64::from_bits(bits) != 1.0 => Err(7),
        _ => Ok(()),
    }
}

/// Whether 8 is due. Past check 4 equal groups are equal bytes.
pub fn groups_clash(left: &Sheet, right: &Sheet) -> bool {
    !left.releasable && !right.releasable && left.groups != right.groups
}

fn groups<'a>(left: &Sheet<'a>, right: &Sheet<'a>) -> &'a [u8] {
    if left.releasable {
        right.groups
    } else {
        left.groups
    }
}

/// 8, 9 and 10 of two operands neither of which is releasable.
fn same_origin(left: &Sheet, right: &Sheet) -> Result<(), Refusal> {
    if left.groups != right.groups {
        return Err(8);
    }
    if left.dataset != right.dataset {
        return Err(9);
    }
    if left.c_stability != right.c_stability {
        return Err(10);
    }
    Ok(())
}

fn columns(left: i64, right: i64) -> Result<i64, Refusal> {
    if left != right && left != 1 && right != 1 {
        return Err(12);
    }
    Ok(left.max(right))
}

fn rows(left: &Sheet, right: &Sheet) -> Result<Option<i64>, Refusal> {
    let spreads = |sheet: &Sheet| sheet.releasable && sheet.rows == Some(1);
    let greater = left.rows.zip(right.rows).map(|(l, r)| l.max(r));
    if spreads(left) || spreads(right) || (left.rows.is_some() && left.rows == right.rows) {
        return Ok(greater);
    }
    if left.dataset == right.dataset {
        return Ok(None);
    }
    Err(13)
}

fn divisor_sets_nullity(right: &Sheet) -> bool {
    match right.nature {
        ABSENT => true,
        FLOAT_RANGE => (0..right.lists).any(|entry| {
            let lower = right.lower(entry).map(f64::from_bits);
            let upper = right.upper(entry).map(f64::from_bits);
            match (lower, upper) {
                (Some(lower), Some(upper)) => lower < 0.0 && 0.0 < upper,
                (Some(lower), None) => lower > 0.0,
                (None, Some(upper)) => upper < 0.0,
                (None, None) => true,
            }
        }),
        FLOAT_LISTS => right.values.chunks_exact(WORD).any(|value| {
            let value = f64::from_bits(word64(value, 0));
            value.is_nan() || value == 0.0
        }),
        _ => false,
    }
}

/// 15 and 16 over a list of ends: all are there, then all keep the condition.
fn every_end(
    sheet: &Sheet,
    end: fn(&Sheet, usize) -> Option<u64>,
    holds: impl Fn(f64) -> bool,
) -> Result<bool, Refusal> {
    if !sheet.has_range() {
        return Err(15);
    }
    let mut all = true;
    for entry in 0..sheet.lists {
        let bits = end(sheet, entry).ok_or(15u32)?;
        // A whole end keeps its sign, and its place beside 1, as a float.
        let value = match sheet.nature {
            WHOLE_RANGE => bits as i64 as f64,
            _ => f64::from_bits(bits),
        };
        all &= holds(value);
    }
    Ok(all)
}

fn lower(sheet: &Sheet, entry: usize) -> Option<u64> {
    sheet.lower(entry)
}

fn upper(sheet: &Sheet, entry: usize) -> Option<u64> {
    sheet.upper(entry)
}

/// 14 to 16 of Modulo and Power.
fn integer_or_float_operands(component: u32, left: &Sheet, right: &Sheet) -> Result<(), Refusal> {
    let integer = match (left.data_type, right.data_type) {
        (INT, INT) => true,
        (FLOAT, FLOAT) => false,
        _ => return Err(14),
    };
    if component == POWER && !integer {
        return Ok(());
    }
    if integer && right.nature != WHOLE_RANGE {
        return Err(15);
    }
    let holds = match component {
        MODULO => every_end(right, lower, |end| end > 0.0)?,
        _ => every_end(right, lower, |end| end >= 0.0)?,
    };
    holds.then_some(()).ok_or(16)
}

/// 14 to 16 of Log: the base first, then the data.
fn log_operands(data: &Sheet, base: &Sheet) -> Result<(), Refusal> {
    if data.data_type != FLOAT {
        return Err(14);
    }
    every_end(base, lower, |_| true)?;
    every_end(base, upper, |_| true)?;
    let inside = |end: f64| 0.0 < end && end < 1.0;
    let fits = |entry: usize| {
        let value = |bits: Option<u64>| match base.nature {
            WHOLE_RANGE => bits.map_or(f64::NAN, |b| b as i64 as f64),
            _ => bits.map_or(f64::NAN, f64::from_bits),
        };
        let (lower, upper) = (value(base.lower(entry)), value(base.upper(entry)));
        inside(lower) && inside(upper) || lower > 1.0
    };
    if !(0..base.lists).all(fits) {
        return Err(16);
    }
    // Decided: whole data under a whole base has no exact result.
    if data.nature == WHOLE_RANGE && base.nature == WHOLE_RANGE {
        return Err(15);
    }
    let above = every_end(data, lower, |end| end > 0.0)?;
    above.then_some(()).ok_or(16)
}
