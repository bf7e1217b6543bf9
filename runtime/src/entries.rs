//! The three proved calls as C sees them: the only unsafe code of this package.
//!
//! Why the calls are sound: each pointer comes with the length of the slice that it is taken from, the callee keeps none of them, and a `&mut` slice overlaps no other by Rust's rules.
//! The callee has no state, so that any number of threads may call at once.

#![allow(unsafe_code)]

unsafe extern "C" {
    fn propagate_property(
        component: u32,
        node: u32,
        left: *const u8,
        left_len: usize,
        right: *const u8,
        right_len: usize,
        out: *mut u8,
        out_len: usize,
    ) -> u64;

    fn propagate_properties(plan: *const u8, plan_len: usize, work: *mut u8, work_len: usize) -> u64;

    fn reveal_node(
        plan: *const u8,
        plan_len: usize,
        owners: *const u8,
        owners_len: usize,
        reader: u64,
        wanted: u32,
        work: *mut u8,
        work_len: usize,
        out: *mut u8,
        out_len: usize,
    ) -> u64;
}

/// The single call: its reply as it comes.
pub(crate) fn single_call(component: u32, node: u32, left: &[u8], right: &[u8], out: &mut [u8]) -> u64 {
    // SAFETY: see the module.
    unsafe { propagate_property(component, node, left.as_ptr(), left.len(), right.as_ptr(), right.len(), out.as_mut_ptr(), out.len()) }
}

/// The plan call: its reply as it comes.
pub(crate) fn plan_call(plan: &[u8], work: &mut [u8]) -> u64 {
    // SAFETY: see the module.
    unsafe { propagate_properties(plan.as_ptr(), plan.len(), work.as_mut_ptr(), work.len()) }
}

/// The call that shows one node: its reply as it comes. What it leaves in `work` is not for the reader.
pub(crate) fn reveal_call(plan: &[u8], owners: &[u8], reader: u64, wanted: u32, work: &mut [u8], out: &mut [u8]) -> u64 {
    let (plan_len, owners_len, work_len, out_len) = (plan.len(), owners.len(), work.len(), out.len());
    let (work, out) = (work.as_mut_ptr(), out.as_mut_ptr());
    // SAFETY: see the module.
    unsafe { reveal_node(plan.as_ptr(), plan_len, owners.as_ptr(), owners_len, reader, wanted, work, work_len, out, out_len) }
}
