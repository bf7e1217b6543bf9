//! Whole numbers of any size: i128 where it suffices, limbs beyond.

use std::cmp::Ordering;

/// Normal form: a number that fits in i128 is `Small`.
#[derive(Clone, Debug, PartialEq, Eq)]
pub enum Exact {
    Small(i128),
    Large(Large),
}

/// Sign and magnitude, least limb first, without leading zeros.
#[derive(Clone, Debug, PartialEq, Eq)]
pub struct Large {
    negative: bool,
    limbs: Vec<u32>,
}

impl Large {
    fn of(value: i128) -> Large {
        let mut rest = value.unsigned_abs();
        let mut limbs = Vec::new();
        while rest > 0 {
            limbs.push(rest as u32);
            rest >>= 32;
        }
        Large {
            negative: value < 0,
            limbs,
        }
    }

    fn normal(negative: bool, mut limbs: Vec<u32>) -> Exact {
        while limbs.last() == Some(&0) {
            limbs.pop();
        }
        if limbs.len() <= 4 {
            let size = limbs
                .iter()
                .rev()
                .fold(0u128, |sum, limb| sum << 32 | u128::from(*limb));
            if let Ok(size) = i128::try_from(size) {
                return Exact::Small(if negative { -size } else { size });
            }
            if negative && size == 1 << 127 {
                return Exact::Small(i128::MIN);
            }
        }
        Exact::Large(Large { negative, limbs })
    }
}

fn order(a: &[u32], b: &[u32]) -> Ordering {
    a.len()
        .cmp(&b.len())
        .then_with(|| a.iter().rev().cmp(b.iter().rev()))
}

fn sum(a: &[u32], b: &[u32]) -> Vec<u32> {
    let mut carry = 0u64;
    let mut limbs = Vec::with_capacity(a.len().max(b.len()) + 1);
    for at in 0..a.len().max(b.len()) {
        let limb = |limbs: &[u32]| u64::from(limbs.get(at).copied().unwrap_or(0));
        carry += limb(a) + limb(b);
        limbs.push(carry as u32);
        carry >>= 32;
    }
    limbs.push(carry as u32);
    limbs
}

/// a - b, for a not below b.
fn difference(a: &[u32], b: &[u32]) -> Vec<u32> {
    let mut borrow = 0i64;
    let mut limbs = Vec::with_capacity(a.len());
    for (at, limb) in a.iter().enumerate() {
        let mut digit = i64::from(*limb) - i64::from(b.get(at).copied().unwrap_or(0)) - borrow;
        borrow = i64::from(digit < 0);
        digit += borrow << 32;
        limbs.push(digit as u32);
    }
    limbs
}

fn product(a: &[u32], b: &[u32]) -> Vec<u32> {
    let mut limbs = vec![0u32; a.len() + b.len()];
    for (i, x) in a.iter().enumerate() {
        let mut carry = 0u64;
        for (j, y) in b.iter().enumerate() {
            carry += u64::from(*x) * u64::from(*y) + u64::from(limbs[i + j]);
            limbs[i + j] = carry as u32;
            carry >>= 32;
        }
        limbs[i + b.len()] = carry as u32;
    }
    limbs
}

/// Quotient and remainder of magnitudes, bit by bit: slow and plain.
fn long_division(a: &[u32], b: &[u32]) -> (Vec<u32>, Vec<u32>) {
    let mut quotient = vec![0u32; a.len()];
    let mut rest: Vec<u32> = Vec::new();
    for at in (0..32 * a.len()).rev() {
        let mut carry = a[at / 32] >> (at % 32) & 1;
        for limb in &mut rest {
            let next = *limb >> 31;
            *limb = *limb << 1 | carry;
            carry = next;
        }
        if carry > 0 {
            rest.push(carry);
        }
        if order(&rest, b) != Ordering::Less {
            rest = difference(&rest, b);
            while rest.last() == Some(&0) {
                rest.pop();
            }
            quotient[at / 32] |= 1 << (at % 32);
        }
    }
    (quotient, rest)
}

impl Exact {
    fn large(&self) -> Large {
        match self {
            Exact::Small(value) => Large::of(*value),
            Exact::Large(large) => large.clone(),
        }
    }

    pub fn is_negative(&self) -> bool {
        match self {
            Exact::Small(value) => *value < 0,
            Exact::Large(large) => large.negative,
        }
    }

    pub fn is_zero(&self) -> bool {
        *self == Exact::Small(0)
    }

    /// An upper bound on the bits of the magnitude.
    pub fn bits(&self) -> u64 {
        match self {
            Exact::Small(value) => u64::from(128 - value.unsigned_abs().leading_zeros()),
            Exact::Large(large) => 32 * large.limbs.len() as u64,
        }
    }

    pub fn negated(&self) -> Exact {
        let large = self.large();
        Large::normal(!large.negative, large.limbs)
    }

    pub fn magnitude(&self) -> Exact {
        Large::normal(false, self.large().limbs)
    }

    pub fn plus(&self, other: &Exact) -> Exact {
        if let (Exact::Small(a), Exact::Small(b)) = (self, other) {
            if let Some(value) = a.checked_add(*b) {
                return Exact::Small(value);
            }
        }
        let (a, b) = (self.large(), other.large());
        if a.negative == b.negative {
            return Large::normal(a.negative, sum(&a.limbs, &b.limbs));
        }
        match order(&a.limbs, &b.limbs) {
            Ordering::Less => Large::normal(b.negative, difference(&b.limbs, &a.limbs)),
            _ => Large::normal(a.negative, difference(&a.limbs, &b.limbs)),
        }
    }

    pub fn minus(&self, other: &Exact) -> Exact {
        self.plus(&other.negated())
    }

    pub fn times(&self, other: &Exact) -> Exact {
        if let (Exact::Small(a), Exact::Small(b)) = (self, other) {
            if let Some(value) = a.checked_mul(*b) {
                return Exact::Small(value);
            }
        }
        let (a, b) = (self.large(), other.large());
        Large::normal(a.negative != b.negative, product(&a.limbs, &b.limbs))
    }

    /// Truncated toward zero; nothing under a zero divisor.
    pub fn quotient(&self, other: &Exact) -> Option<Exact> {
        if other.is_zero() {
            return None;
        }
        if let (Exact::Small(a), Exact::Small(b)) = (self, other) {
            if let Some(value) = a.checked_div(*b) {
                return Some(Exact::Small(value));
            }
        }
        let (a, b) = (self.large(), other.large());
        let (quotient, _) = long_division(&a.limbs, &b.limbs);
        Some(Large::normal(a.negative != b.negative, quotient))
    }

    /// Never negative, below the divisor's magnitude.
    pub fn remainder(&self, other: &Exact) -> Option<Exact> {
        let quotient = self.quotient(other)?;
        let rest = self.minus(&quotient.times(other));
        Some(if rest.is_negative() {
            rest.plus(&other.magnitude())
        } else {
            rest
        })
    }

    /// The power by squaring; `Err` where it would be longer than `most` bits.
    pub fn power(&self, exponent: &Exact, most: u64) -> Result<Option<Exact>, TooLong> {
        if exponent.is_negative() {
            return Ok(None);
        }
        let even = exponent.remainder(&Exact::Small(2)) == Some(Exact::Small(0));
        match self {
            _ if exponent.is_zero() => return Ok(Some(Exact::Small(1))),
            Exact::Small(0 | 1) => return Ok(Some(self.clone())),
            Exact::Small(-1) => return Ok(Some(Exact::Small(if even { 1 } else { -1 }))),
            _ => (),
        }
        let Exact::Small(mut rest) = *exponent else {
            return Err(TooLong);
        };
        if u128::from(self.bits()).saturating_mul(rest.unsigned_abs()) > u128::from(most) {
            return Err(TooLong);
        }
        let (mut result, mut square) = (Exact::Small(1), self.clone());
        while rest > 0 {
            if rest & 1 == 1 {
                result = result.times(&square);
            }
            rest >>= 1;
            if rest > 0 {
                square = square.times(&square);
            }
        }
        Ok(Some(result))
    }
}

/// A number too long to be written out here.
#[derive(Debug, PartialEq, Eq)]
pub struct TooLong;

impl PartialOrd for Exact {
    fn partial_cmp(&self, other: &Exact) -> Option<Ordering> {
        Some(self.cmp(other))
    }
}

impl Ord for Exact {
    fn cmp(&self, other: &Exact) -> Ordering {
        if let (Exact::Small(a), Exact::Small(b)) = (self, other) {
            return a.cmp(b);
        }
        match self.minus(other) {
            rest if rest.is_zero() => Ordering::Equal,
            rest if rest.is_negative() => Ordering::Less,
            _ => Ordering::Greater,
        }
    }
}

#[cfg(test)]
mod tests {
    use super::{Exact, Large};
    use oracle_list::random::Random;

    fn any(random: &mut Random) -> i128 {
        let value = (random.word() as i128) << 64 | random.word() as i128;
        let value = value >> (1 + random.below(126));
        random.pick(&[value, value, value, 0, 1, -1, i64::MIN as i128])
    }

    /// The limbs by themselves give what i128 gives.
    #[test]
    fn limbs_agree_with_i128() {
        let mut random = Random::new(5);
        let long = |value| Exact::Large(Large::of(value));
        for _ in 0..20_000 {
            let (a, b) = (any(&mut random), any(&mut random));
            let (x, y) = (long(a), long(b));
            assert_eq!(x.plus(&y), Exact::Small(a + b));
            assert_eq!(x.minus(&y), Exact::Small(a - b));
            if let Some(value) = a.checked_mul(b) {
                assert_eq!(x.times(&y), Exact::Small(value));
            }
            if b != 0 {
                assert_eq!(x.quotient(&y), Some(Exact::Small(a / b)));
                assert_eq!(x.remainder(&y), Some(Exact::Small(a.rem_euclid(b))));
            }
            assert_eq!(x.cmp(&y), a.cmp(&b));
        }
    }

    /// Beyond i128: (a * b + c) / b and its rest come back.
    #[test]
    fn division_undoes_multiplication() {
        let mut random = Random::new(6);
        for _ in 0..2_000 {
            let wide = |random: &mut Random| {
                Exact::Small(any(random)).times(&Exact::Small(any(random) | 1 << 100))
            };
            let (a, b) = (wide(&mut random), wide(&mut random));
            if b.is_zero() {
                continue;
            }
            let rest = Exact::Small(any(&mut random)).remainder(&b).unwrap();
            let sum = a.times(&b).plus(&rest);
            assert_eq!(sum.remainder(&b), Some(rest.clone()));
            assert_eq!(sum.minus(&rest).quotient(&b), Some(a));
        }
    }

    #[test]
    fn powers() {
        let small = Exact::Small;
        assert_eq!(small(0).power(&small(0), 100), Ok(Some(small(1))));
        assert_eq!(
            small(-2).power(&small(63), 200),
            Ok(Some(small(i64::MIN as i128)))
        );
        assert_eq!(small(-1).power(&small(i128::MAX), 100), Ok(Some(small(-1))));
        assert_eq!(small(2).power(&small(-1), 100), Ok(None));
        assert!(small(3).power(&small(1000), 100).is_err());
        let tall = small(7).power(&small(100), 1000).unwrap().unwrap();
        assert_eq!(
            (0..100).try_fold(tall, |value, _| value.quotient(&small(7))),
            Some(small(1))
        );
    }
}
