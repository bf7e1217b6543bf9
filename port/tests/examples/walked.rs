//! Plans laid out by hand, and every slot of the work buffer afterwards.

use crate::answering::propagate_properties;
use crate::made::{plan, SLOT};

pub const FILLER: u8 = 0xee;

/// The reply of a plan, and its slots afterwards.
pub fn walked(leaves: &[Vec<u8>], steps: &[(u32, u32, u32)]) -> ((u32, u32), Vec<Vec<u8>>) {
    let mut work: Vec<u8> = leaves.iter().flat_map(|leaf| slot(leaf)).collect();
    work.resize(SLOT * (leaves.len() + steps.len()), FILLER);
    let reply = propagate_properties(&plan(leaves.len() as u16, steps), &mut work);
    (reply, work.chunks(SLOT).map(<[u8]>::to_vec).collect())
}

/// A slot that holds a sheet, and filler behind it.
pub fn slot(sheet: &[u8]) -> Vec<u8> {
    let mut slot = sheet.to_vec();
    slot.resize(SLOT, FILLER);
    slot
}
