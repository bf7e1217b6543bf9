//! The proved library behind safe functions, and for `bench against` an earlier
//! one: the only unsafe code here.

/// The two calls of a library that exports them under these names.
macro_rules! library {
    ($single:literal, $plan:literal) => {
        mod foreign {
            extern "C" {
                #[link_name = $single]
                pub fn propagate_property(
                    component: u32,
                    node: u32,
                    left: *const u8,
                    left_len: usize,
                    right: *const u8,
                    right_len: usize,
                    out: *mut u8,
                    out_len: usize,
                ) -> u64;

                #[link_name = $plan]
                pub fn propagate_properties(
                    plan: *const u8,
                    plan_len: usize,
                    work: *mut u8,
                    work_len: usize,
                ) -> u64;
            }
        }

        /// The code and the length written.
        pub fn propagate_property(
            component: u32,
            node: u32,
            left: &[u8],
            right: &[u8],
            out: &mut [u8],
        ) -> (u32, u32) {
            // Safety: each pair of pointer and length is a live slice, and
            // `out` is borrowed apart from the operands.
            let reply = unsafe {
                foreign::propagate_property(
                    component,
                    node,
                    left.as_ptr(),
                    left.len(),
                    right.as_ptr(),
                    right.len(),
                    out.as_mut_ptr(),
                    out.len(),
                )
            };
            halves(reply)
        }

        /// The code, and the node count or the node.
        pub fn propagate_properties(plan: &[u8], work: &mut [u8]) -> (u32, u32) {
            // Safety: both pairs are live slices, and `work` is borrowed apart.
            let reply = unsafe {
                foreign::propagate_properties(
                    plan.as_ptr(),
                    plan.len(),
                    work.as_mut_ptr(),
                    work.len(),
                )
            };
            halves(reply)
        }
    };
}

library!("propagate_property", "propagate_properties");

extern "C" {
    #[link_name = "reveal_node"]
    fn foreign_reveal_node(
        plan: *const u8,
        plan_len: usize,
        owners: *const u8,
        owners_len: usize,
        reader: u64,
        wanted: u32,
        work: *mut u8,
        work_len: usize,
        out: *mut u8,
        out_len: usize,
    ) -> u64;
}

/// The code, and the length of the sheet shown or the node. No earlier library that
/// is timed needs it.
pub fn reveal_node(
    plan: &[u8],
    owners: &[u8],
    reader: u64,
    wanted: u32,
    work: &mut [u8],
    out: &mut [u8],
) -> (u32, u32) {
    // Safety: each pair of pointer and length is a live slice, and `work` and `out`
    // are borrowed apart from each other and from the rest.
    let reply = unsafe {
        foreign_reveal_node(
            plan.as_ptr(),
            plan.len(),
            owners.as_ptr(),
            owners.len(),
            reader,
            wanted,
            work.as_mut_ptr(),
            work.len(),
            out.as_mut_ptr(),
            out.len(),
        )
    };
    halves(reply)
}

/// The library that `GATE_LIB_BEFORE` named.
#[cfg(before)]
pub mod before {
    use super::halves;
    library!("before_propagate_property", "before_propagate_properties");
}

fn halves(reply: u64) -> (u32, u32) {
    (reply as u32, (reply >> 32) as u32)
}

/// Stack below this function that is looked at.
const REACH: usize = 128 * 1024;
/// Left alone below the frame of the function that paints.
const MARGIN: usize = 512;
const PAINT: u64 = 0x5ac3_5ac3_5ac3_5ac3;

/// How far below its caller `call` has written on the stack, in bytes: the
/// unused stack is painted, and then searched from its far end.
#[inline(never)]
pub fn stack_depth(call: &mut dyn FnMut()) -> usize {
    let here = 0u64;
    let top = (std::ptr::addr_of!(here) as usize - MARGIN) & !7;
    let words = REACH / 8;
    let word = |index: usize| (top - 8 * index) as *mut u64;
    for index in 0..words {
        // Safety: inside this thread's stack (the caller sees to a stack far
        // larger than REACH) and below every live frame.
        unsafe { word(index).write_volatile(PAINT) };
    }
    call();
    // Safety: as above; only plain words are read.
    let touched = |index: &usize| unsafe { word(*index).read_volatile() } != PAINT;
    match (0..words).rev().find(touched) {
        Some(index) => MARGIN + 8 * index,
        None => 0,
    }
}
