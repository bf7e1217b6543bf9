//! Range ends: one rule for whole numbers and floats.

use crate::form::*;
use crate::sheet::Refusal;

/// An entry of a range.
pub type Ends<T> = (Option<T>, Option<T>);

/// What a range's ends are made of.
pub trait Number: Copy + PartialOrd {
    const ZERO: Self;
    fn from_bits(bits: u64) -> Self;
    fn to_bits(self) -> u64;
    fn add(self, other: Self) -> Result<Self, Refusal>;
    fn sub(self, other: Self) -> Result<Self, Refusal>;
    fn mul(self, other: Self) -> Result<Self, Refusal>;
    fn div(self, other: Self) -> Result<Self, Refusal>;
    fn neg(self) -> Result<Self, Refusal>;
}

/// Whole numbers are refused with 24 outside 64 signed bits.
impl Number for i64 {
    const ZERO: i64 = 0;
    fn from_bits(bits: u64) -> i64 {
        bits as i64
    }
    fn to_bits(self) -> u64 {
        self as u64
    }
    fn add(self, other: i64) -> Result<i64, Refusal> {
        self.checked_add(other).ok_or(24)
    }
    fn sub(self, other: i64) -> Result<i64, Refusal> {
        self.checked_sub(other).ok_or(24)
    }
    fn mul(self, other: i64) -> Result<i64, Refusal> {
        self.checked_mul(other).ok_or(24)
    }
    fn div(self, other: i64) -> Result<i64, Refusal> {
        self.checked_div(other).ok_or(24)
    }
    fn neg(self) -> Result<i64, Refusal> {
        self.checked_neg().ok_or(24)
    }
}

/// Floats are rounded once and never refused.
impl Number for f64 {
    const ZERO: f64 = 0.0;
    fn from_bits(bits: u64) -> f64 {
        f64::from_bits(bits)
    }
    fn to_bits(self) -> u64 {
        f64::to_bits(self)
    }
    fn add(self, other: f64) -> Result<f64, Refusal> {
        Ok(self + other)
    }
    fn sub(self, other: f64) -> Result<f64, Refusal> {
        Ok(self - other)
    }
    fn mul(self, other: f64) -> Result<f64, Refusal> {
        Ok(self * other)
    }
    fn div(self, other: f64) -> Result<f64, Refusal> {
        Ok(self / other)
    }
    fn neg(self) -> Result<f64, Refusal> {
        Ok(-self)
    }
}

/// Ends of Abs and Negative.
pub fn unary<T: Number>(component: u32, (lower, upper): Ends<T>) -> Result<Ends<T>, Refusal> {
    if component == NEGATIVE {
        let negated = |end: Option<T>| end.map(T::neg).transpose();
        return Ok((negated(upper)?, negated(lower)?));
    }
    let (Some(lower), Some(upper)) = (lower, upper) else {
        return Ok((None, None));
    };
    let sum = lower.add(upper)?;
    let new_lower = if lower > T::ZERO { lower } else { upper.neg()? };
    let new_upper = if sum > T::ZERO { upper } else { lower.neg()? };
    Ok((Some(new_lower), Some(new_upper)))
}

/// Ends of Add, Subtract, Multiply, Divide and Pool.
pub fn binary<T: Number>(
    component: u32,
    left: Ends<T>,
    right: Ends<T>,
) -> Result<Ends<T>, Refusal> {
    match component {
        ADD => end_by_end(left, right, T::add),
        SUBTRACT => subtract(left, right),
        MULTIPLY => multiply(left, right),
        POOL => pool(left, right),
        _ => divide(left, right),
    }
}

/// First with first and second with second, the first pair before the other;
/// absent where one of a pair is.
fn end_by_end<T: Number>(
    left: Ends<T>,
    right: Ends<T>,
    operation: fn(T, T) -> Result<T, Refusal>,
) -> Result<Ends<T>, Refusal> {
    let end = |l: Option<T>, r: Option<T>| match (l, r) {
        (Some(l), Some(r)) => operation(l, r).map(Some),
        _ => Ok(None),
    };
    Ok((end(left.0, right.0)?, end(left.1, right.1)?))
}

/// The farthest ends of right are taken off: its upper from left's lower, its
/// lower from left's upper (document 02, S-4). Right is not negated on the way,
/// since -2^63 has no negation in 64 bits.
fn subtract<T: Number>(left: Ends<T>, (lower, upper): Ends<T>) -> Result<Ends<T>, Refusal> {
    end_by_end(left, (upper, lower), T::sub)
}

fn multiply<T: Number>(left: Ends<T>, right: Ends<T>) -> Result<Ends<T>, Refusal> {
    let ((Some(a), Some(c)), (Some(d), Some(f))) = (left, right) else {
        return Ok((None, None));
    };
    Ok(extremes([a.mul(d)?, a.mul(f)?, c.mul(d)?, c.mul(f)?]))
}

fn divide<T: Number>(left: Ends<T>, right: Ends<T>) -> Result<Ends<T>, Refusal> {
    let (Some(a), Some(c)) = left else {
        return Ok((None, None));
    };
    let (d, f) = match right {
        (None, Some(f)) if f < T::ZERO => return Ok((None, None)),
        (Some(d), None) if d > T::ZERO => return Ok((None, None)),
        (Some(d), Some(f)) => (d, f),
        _ => return Err(23),
    };
    if d > T::ZERO || f < T::ZERO {
        return Ok(extremes([a.div(f)?, a.div(d)?, c.div(f)?, c.div(d)?]));
    }
    match (d == T::ZERO, f == T::ZERO) {
        (true, false) => Ok((None, Some(greater(a.div(f)?, c.div(f)?)))),
        (false, true) => Ok((Some(lesser(a.div(d)?, c.div(d)?)), None)),
        _ => Ok((None, None)),
    }
}

/// The lesser lower and the greater upper, left's bits on a tie: `greater` gives
/// its second argument there, which tells the zeros apart.
fn pool<T: Number>(left: Ends<T>, right: Ends<T>) -> Result<Ends<T>, Refusal> {
    let lower = left.0.zip(right.0).map(|(l, r)| lesser(l, r));
    let upper = left.1.zip(right.1).map(|(l, r)| greater(r, l));
    Ok((lower, upper))
}

/// Among equals the least is the first and the greatest the last.
fn extremes<T: Number>([p, q, r, s]: [T; 4]) -> Ends<T> {
    let least = lesser(lesser(lesser(p, q), r), s);
    let greatest = greater(greater(greater(p, q), r), s);
    (Some(least), Some(greatest))
}

fn lesser<T: Number>(first: T, second: T) -> T {
    if second < first {
        second
    } else {
        first
    }
}

fn greater<T: Number>(first: T, second: T) -> T {
    if second >= first {
        second
    } else {
        first
    }
}
