//! Negative and Abs of float ranges (document 02, S-3): an end has the 64 bits of its source, bit 63 kept or flipped.

use crate::made::*;

const SIGN: u64 = 1 << 63;

/// What a call makes of a float range: these bits, and all else as it was.
fn gives(component: u32, source: Bits, wanted: Bits) {
    let found = call(component, &float_range(1, &[source]), &[]);
    let wanted = Ok(float_range(1, &[wanted]));
    assert_eq!(found, wanted, "{component} of {source:x?}");
}

fn both(lower: u64, upper: u64) -> Bits {
    (Some(lower), Some(upper))
}

fn floats(lower: f64, upper: f64) -> Bits {
    both(lower.to_bits(), upper.to_bits())
}

#[test]
fn negative_flips_bit_63_and_exchanges_the_ends() {
    gives(NEGATIVE, floats(0.0, 5.0), floats(-5.0, -0.0));
    gives(
        NEGATIVE,
        floats(0.0, 5.0),
        both(0xc014_0000_0000_0000, 0x8000_0000_0000_0000),
    );
    gives(NEGATIVE, (Some(SIGN), None), (None, Some(0)));
    gives(NEGATIVE, (None, Some(0)), (Some(SIGN), None));
    gives(NEGATIVE, (None, None), (None, None));
    gives(NEGATIVE, both(1, 1), both(SIGN | 1, SIGN | 1));
    gives(
        NEGATIVE,
        floats(f64::MIN_POSITIVE, f64::MAX),
        floats(f64::MIN, -f64::MIN_POSITIVE),
    );
}

#[test]
fn abs_copies_an_end_or_negates_the_other() {
    gives(ABS, floats(-0.6, 0.2), floats(-0.2, 0.6));
    gives(
        ABS,
        floats(-0.6, 0.2),
        both(0xbfc9_9999_9999_999a, 0x3fe3_3333_3333_3333),
    );
    gives(ABS, floats(1.5, 2.0), floats(1.5, 2.0));
    gives(ABS, floats(-2.0, -1.5), floats(1.5, 2.0));
    gives(ABS, floats(-3.0, 3.0), floats(-3.0, 3.0));
    gives(ABS, (None, Some(0)), (None, None));
    gives(ABS, (Some(0), None), (None, None));
}

/// Zero is not above 0, whatever its sign: lower is -upper, and not a lower without its sign.
#[test]
fn abs_of_zeros() {
    gives(ABS, floats(0.0, 5.0), floats(-5.0, 5.0));
    gives(ABS, floats(-0.0, 5.0), floats(-5.0, 5.0));
    gives(ABS, floats(-0.0, 0.0), floats(-0.0, 0.0));
    gives(ABS, floats(0.0, 0.0), floats(-0.0, -0.0));
    gives(ABS, floats(-0.0, -0.0), floats(0.0, 0.0));
}

#[test]
fn a_sum_that_overflows_has_its_sign() {
    gives(ABS, floats(1.7e308, 1.7e308), floats(1.7e308, 1.7e308));
    gives(ABS, floats(-1.7e308, -1.7e308), floats(1.7e308, 1.7e308));
    gives(ABS, floats(f64::MIN, f64::MAX), floats(f64::MIN, f64::MAX));
}

/// Every end of a range is a number: 5 comes before any rule.
#[test]
fn no_other_end_is_read() {
    for end in [f64::INFINITY, f64::NEG_INFINITY, f64::NAN, -f64::NAN] {
        for component in [ABS, NEGATIVE] {
            let sheet = float_range(1, &[(Some(end.to_bits()), None)]);
            assert_eq!(call(component, &sheet, &[]), Err(5));
        }
    }
}

/// A finite number's place among all of them, by its bits. Both zeros have one place.
fn place(bits: u64) -> i64 {
    let magnitude = (bits & !SIGN) as i64;
    if bits & SIGN == 0 {
        magnitude
    } else {
        -magnitude
    }
}

/// Bits at both sides of each border: zero, subnormal, normal, whole, greatest.
fn borders() -> Vec<u64> {
    let magnitudes = [
        0x0000_0000_0000_0000,
        0x0000_0000_0000_0001,
        0x0000_0000_0000_0002,
        0x000f_ffff_ffff_ffff,
        0x0010_0000_0000_0000,
        0x0010_0000_0000_0001,
        0x3fef_ffff_ffff_ffff,
        0x3ff0_0000_0000_0000,
        0x3ff0_0000_0000_0001,
        0x4340_0000_0000_0000,
        0x7fdf_ffff_ffff_ffff,
        0x7fe0_0000_0000_0000,
        0x7fef_ffff_ffff_fffe,
        0x7fef_ffff_ffff_ffff,
    ];
    magnitudes.iter().flat_map(|m| [*m, m | SIGN]).collect()
}

/// The rule on the bits alone, with no float operation: lower + upper is above 0 where upper lies above -lower, since no sum of two floats that is not 0
/// rounds to 0.
#[test]
fn every_pair_of_borders_by_its_bits() {
    let mut pairs = 0;
    for lower in borders() {
        for upper in borders() {
            if place(lower) > place(upper) {
                continue;
            }
            pairs += 1;
            let (flipped_lower, flipped_upper) = (lower ^ SIGN, upper ^ SIGN);
            gives(
                NEGATIVE,
                both(lower, upper),
                both(flipped_upper, flipped_lower),
            );
            let new_lower = if place(lower) > 0 {
                lower
            } else {
                flipped_upper
            };
            let new_upper = if place(upper) > place(flipped_lower) {
                upper
            } else {
                flipped_lower
            };
            gives(ABS, both(lower, upper), both(new_lower, new_upper));
        }
    }
    assert_eq!(pairs, 407);
}

/// One entry goes with every column, and each column has its own ends.
#[test]
fn columns_are_taken_one_by_one() {
    let one = float_range(3, &[floats(0.0, 1.0)]);
    let negated = float_range(3, &[floats(-1.0, -0.0); 3]);
    assert_eq!(call(NEGATIVE, &one, &[]), Ok(negated));
    let two = float_range(2, &[floats(-2.0, -1.5), floats(0.0, 0.0)]);
    let absolute = float_range(2, &[floats(1.5, 2.0), floats(-0.0, -0.0)]);
    assert_eq!(call(ABS, &two, &[]), Ok(absolute));
}

/// Negated twice, a sheet is as it was, to the bit.
#[test]
fn twice_negated_is_as_it_was() {
    for (lower, upper) in [(0, 0), (SIGN, SIGN), (1, 1), (SIGN | 1, f64::MAX.to_bits())] {
        let leaf = float_range(1, &[both(lower, upper)]);
        let once = call(NEGATIVE, &leaf, &[]).unwrap();
        assert_ne!(once, leaf);
        assert_eq!(call(NEGATIVE, &once, &[]), Ok(leaf));
    }
}
