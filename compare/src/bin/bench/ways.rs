//! The ways to answer a single call, and the time that each takes.

use crate::classes::Class;
use crate::clock::{on_cpu, spent};
use comparison::proved;
use in_memory::Prepared;
use oracle_list::form::{is_unary, Call};
use oracle_list::sheet::{Sheet, LONGEST};
use std::hint::black_box;

#[derive(Clone, Copy)]
pub enum Way {
    Proved,
    Port,
    /// The original on its own records.
    Memory,
    /// The original with decoding and encoding.
    Original,
}

/// In the order of the table's columns, with the names that the command takes.
pub const WAYS: [(&str, Way); 4] = [
    ("proved", Way::Proved),
    ("port", Way::Port),
    ("memory", Way::Memory),
    ("original", Way::Original),
];

/// A single call over bytes.
pub type Answer = fn(u32, u32, &[u8], &[u8], &mut [u8]) -> (u32, u32);

/// Seconds for all calls of a class, gone through `turns` times.
pub fn measure(way: Way, class: &Class) -> f64 {
    let mut out = [0u8; LONGEST];
    match way {
        Way::Proved => timed(class, |call| {
            proved::propagate_property(call.component, call.node, &call.left, &call.right, &mut out)
        }),
        Way::Port => timed(class, |call| {
            plain_port::propagate_property(
                call.component,
                call.node,
                &call.left,
                &call.right,
                &mut out,
            )
        }),
        Way::Memory => in_memory(class),
        Way::Original => timed(class, |call| with_bytes(call, &mut out)),
    }
}

/// The same of a way to answer that is no column of the table.
#[cfg(before)]
pub fn measure_by(by: Answer, class: &Class) -> f64 {
    let mut out = [0u8; LONGEST];
    timed(class, |call| answer(by, call, &mut out))
}

fn timed<R>(class: &Class, mut answer: impl FnMut(&Call) -> R) -> f64 {
    spent(class.turns, || {
        for call in &class.calls {
            black_box(answer(black_box(call)));
        }
    })
}

fn prepare(call: &Call) -> Option<Prepared> {
    let left = Sheet::decode(&call.left).ok()?;
    let right = match is_unary(call.component) {
        true => None,
        false => Some(Sheet::decode(&call.right).ok()?),
    };
    let prepared = Prepared::new(call.component, call.node, &left, right.as_ref());
    Some(prepared)
}

/// Turns prepared at once, to bound the memory.
const SHARE: usize = 10_000;

/// The original consumes its operands: they are made before the clock starts.
fn in_memory(class: &Class) -> f64 {
    let mut sum = 0.0;
    let mut left = class.turns;
    while left > 0 {
        let turns = left.min(SHARE);
        left -= turns;
        let ready: Vec<Prepared> = (0..turns)
            .flat_map(|_| &class.calls)
            .filter_map(prepare)
            .collect();
        let start = on_cpu();
        for prepared in ready {
            black_box(prepared.run());
        }
        sum += on_cpu() - start;
    }
    sum
}

fn with_bytes(call: &Call, out: &mut [u8]) -> usize {
    let Some(prepared) = prepare(call) else {
        return 0;
    };
    let Some(sheet) = prepared.run().sheet() else {
        return 0;
    };
    let bytes = sheet.encode();
    out[..bytes.len()].copy_from_slice(&bytes);
    bytes.len()
}

/// What is timed gives the same bytes in every way.
pub fn agree(class: &Class) {
    for call in &class.calls {
        let mut outs = [[0u8; LONGEST]; 3];
        let [first, second, third] = &mut outs;
        let proved = answer(proved::propagate_property, call, first);
        let port = answer(plain_port::propagate_property, call, second);
        let original = with_bytes(call, third);
        let same = proved == port
            && proved.1 as usize == original
            && outs[0] == outs[1]
            && outs[0] == outs[2];
        assert!(same, "answers differ on {call:?}");
    }
}

pub fn answer(answer: Answer, call: &Call, out: &mut [u8]) -> (u32, u32) {
    answer(call.component, call.node, &call.left, &call.right, out)
}
