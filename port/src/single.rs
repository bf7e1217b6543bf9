//! The single call.

use crate::categories;
use crate::ends::{self, Ends, Number};
use crate::form::*;
use crate::shape::{self, Fields};
use crate::sheet::{Refusal, Sheet};
use crate::write::{self, Entries, Nature};

/// The length written, or the refusal with nothing written.
pub fn derive(
    component: u32,
    node: u32,
    left: &[u8],
    right: &[u8],
    out: &mut [u8],
) -> Result<usize, Refusal> {
    match component {
        ABS | NEGATIVE => unary(component, left, out),
        ADD..=POWER => binary(component, node, left, right, out),
        POOL => pool(node, left, right, out),
        _ => Err(2),
    }
}

fn unary(component: u32, left: &[u8], out: &mut [u8]) -> Result<usize, Refusal> {
    let left = Sheet::read(left)?;
    let fields = shape::unary(&left)?;
    let columns = fields.columns as usize;
    if left.has_lists() {
        let store = categories::unary(component, &left, columns)?;
        return write::sheet(&fields, &Nature::Lists(&store), out);
    }
    if !left.has_range() {
        return write::sheet(&fields, &Nature::Absent, out);
    }
    fits_columns(&left, columns)?;
    let entries = if left.nature == WHOLE_RANGE {
        range(WHOLE_RANGE, columns, |column| {
            ends::unary(component, entry::<i64>(&left, column))
        })?
    } else {
        range(FLOAT_RANGE, columns, |column| {
            ends::unary(component, entry::<f64>(&left, column))
        })?
    };
    write::sheet(&fields, &Nature::Range(&entries), out)
}

fn binary(
    component: u32,
    node: u32,
    left: &[u8],
    right: &[u8],
    out: &mut [u8],
) -> Result<usize, Refusal> {
    let left = Sheet::read(left)?;
    let right = Sheet::read(right)?;
    let bounded = component >= MODULO;
    let fields = if bounded {
        shape::bounded(component, &left, &right)?
    } else {
        shape::arithmetic(component, node, &left, &right)?
    };
    // For 6 to 8 the groups are compared when everything else has passed.
    let clash = bounded && shape::groups_clash(&left, &right);
    let finish = |nature: &Nature, out: &mut [u8]| {
        if clash {
            return Err(8);
        }
        write::sheet(&fields, nature, out)
    };
    if left.has_lists() && right.has_lists() {
        let columns = fields.columns as usize;
        categories::have_rule(component, &left, &right, columns)?;
        if left.nature == TEXT_LISTS {
            let store = categories::joined(&left, &right, columns)?;
            return finish(&Nature::Texts(&store), out);
        }
        let store = categories::combined(component, &left, &right, columns)?;
        return finish(&Nature::Lists(&store), out);
    }
    if !left.has_range() || !right.has_range() {
        return finish(&Nature::Absent, out);
    }
    let entries = ranges(component, &left, &right, &fields)?;
    finish(&Nature::Range(&entries), out)
}

/// Pool: the rows' 24 comes behind 17 to 21 and 29, and before 26, under every nature.
fn pool(node: u32, left: &[u8], right: &[u8], out: &mut [u8]) -> Result<usize, Refusal> {
    let left = Sheet::read(left)?;
    let right = Sheet::read(right)?;
    let mut fields = shape::pooled(node, &left, &right)?;
    if left.has_lists() && right.has_lists() {
        return pool_lists(fields, &left, &right, out);
    }
    if !left.has_range() || !right.has_range() {
        fields.rows = shape::rows_sum(&left, &right)?;
        return write::sheet(&fields, &Nature::Absent, out);
    }
    let entries = ranges(POOL, &left, &right, &fields)?;
    fields.rows = shape::rows_sum(&left, &right)?;
    write::sheet(&fields, &Nature::Range(&entries), out)
}

fn pool_lists(
    mut fields: Fields,
    left: &Sheet,
    right: &Sheet,
    out: &mut [u8],
) -> Result<usize, Refusal> {
    let columns = fields.columns as usize;
    if left.nature == TEXT_LISTS {
        let store = categories::pooled(left, right, columns)?;
        fields.rows = shape::rows_sum(left, right)?;
        return write::sheet(&fields, &Nature::Texts(&store.finish()?), out);
    }
    let store = categories::pooled(left, right, columns)?;
    fields.rows = shape::rows_sum(left, right)?;
    write::sheet(&fields, &Nature::Lists(&store.finish()?), out)
}

/// 17, 18, then 23 and 24 column by column.
fn ranges(
    component: u32,
    left: &Sheet,
    right: &Sheet,
    fields: &Fields,
) -> Result<Entries, Refusal> {
    if left.nature != right.nature {
        return Err(17);
    }
    let columns = fields.columns as usize;
    fits_columns(left, columns)?;
    fits_columns(right, columns)?;
    if left.nature == WHOLE_RANGE {
        return range(WHOLE_RANGE, columns, |column| {
            let right = entry::<i64>(right, column);
            match component {
                // Float remainders of whole ranges have no rule: both ends absent.
                MODULO if fields.data_type == INT => Ok((Some(0), right.1.map(|end| end - 1))),
                MODULO | LOG | POWER => Ok((None, None)),
                _ => ends::binary(component, entry(left, column), right),
            }
        });
    }
    range(FLOAT_RANGE, columns, |column| {
        let right = entry::<f64>(right, column);
        match component {
            MODULO => Ok((Some(0.0), right.1)),
            LOG | POWER => Ok((None, None)),
            _ => ends::binary(component, entry(left, column), right),
        }
    })
}

/// 18: one entry, or one per output column.
fn fits_columns(sheet: &Sheet, columns: usize) -> Result<(), Refusal> {
    sheet.spreads(columns).then_some(()).ok_or(18)
}

/// A column's entry: its own, or the only one.
fn entry<T: Number>(sheet: &Sheet, column: usize) -> Ends<T> {
    let place = if sheet.lists == 1 { 0 } else { column };
    (
        sheet.lower(place).map(T::from_bits),
        sheet.upper(place).map(T::from_bits),
    )
}

fn range<T: Number>(
    nature: u8,
    columns: usize,
    ends: impl Fn(usize) -> Result<Ends<T>, Refusal>,
) -> Result<Entries, Refusal> {
    let mut entries = Entries {
        nature,
        count: columns,
        lowers: [None; MOST_LISTS],
        uppers: [None; MOST_LISTS],
    };
    for column in 0..columns {
        let (lower, upper) = ends(column)?;
        entries.lowers[column] = lower.map(T::to_bits);
        entries.uppers[column] = upper.map(T::to_bits);
    }
    Ok(entries)
}
