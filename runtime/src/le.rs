//! Little-endian numbers of any width up to 8 bytes.

/// The number in `width` bytes at `at`; bytes behind the end count as zero.
pub(crate) fn number_at(bytes: &[u8], at: usize, width: usize) -> u64 {
    let mut number = 0;
    for k in (0..width).rev() {
        let byte = bytes.get(at + k).copied().unwrap_or(0);
        number = number << 8 | u64::from(byte);
    }
    number
}

/// Appends the low `width` bytes of a number.
pub(crate) fn append(bytes: &mut Vec<u8>, number: u64, width: usize) {
    bytes.extend_from_slice(&number.to_le_bytes()[..width]);
}

/// The greatest number that `width` bytes hold, or the number itself: a size that is cut is over every limit.
pub(crate) fn capped(number: usize, width: usize) -> u64 {
    let greatest = u64::MAX >> (64 - 8 * width);
    (number as u64).min(greatest)
}
