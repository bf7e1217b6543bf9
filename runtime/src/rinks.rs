//! Sets of rinks: those that own a leaf, and those that a reader brings.

use crate::form::plan::RINKS;
use std::fmt;

/// A set of rinks, each 0 to 63.
///
/// ```
/// use gate_runtime::Rinks;
/// let owners = Rinks::of(&[17, 3]).unwrap();
/// assert_eq!(owners.to_string(), "{3, 17}");
/// assert_eq!((owners.bits(), owners.count()), (1 << 3 | 1 << 17, 2));
/// assert_eq!(owners.outside(Rinks::of(&[3]).unwrap()).to_string(), "{17}");
/// assert_eq!(Rinks::of(&[64]), None);
/// ```
#[derive(Clone, Copy, Debug, Default, PartialEq, Eq, Hash)]
pub struct Rinks(u64);

impl Rinks {
    /// No rink.
    pub const NONE: Rinks = Rinks(0);

    /// The set whose bit b says whether rink b is in it.
    pub fn from_bits(bits: u64) -> Rinks {
        Rinks(bits)
    }

    /// Bit b says whether rink b is in the set.
    pub fn bits(self) -> u64 {
        self.0
    }

    /// The set of these rinks; none if there is no such rink.
    pub fn of(rinks: &[u32]) -> Option<Rinks> {
        rinks.iter().try_fold(Rinks::NONE, |set, rink| set.with(*rink))
    }

    /// The set with one rink more; none if there is no such rink.
    pub fn with(self, rink: u32) -> Option<Rinks> {
        (rink < RINKS).then(|| Rinks(self.0 | 1 << rink))
    }

    /// Whether a rink is in the set.
    pub fn contains(self, rink: u32) -> bool {
        self.iter().any(|own| own == rink)
    }

    /// Rinks of either set.
    pub fn union(self, other: Rinks) -> Rinks {
        Rinks(self.0 | other.0)
    }

    /// Rinks of this set that are not in the other.
    pub fn outside(self, other: Rinks) -> Rinks {
        Rinks(self.0 & !other.0)
    }

    /// How many there are.
    pub fn count(self) -> usize {
        self.0.count_ones() as usize
    }

    /// Whether there is none.
    pub fn is_empty(self) -> bool {
        self == Rinks::NONE
    }

    /// The rinks in ascending order.
    pub fn iter(self) -> impl Iterator<Item = u32> {
        (0..RINKS).filter(move |rink| self.0 >> rink & 1 == 1)
    }

    /// The sets as the call takes them: 8 bytes each, little-endian.
    pub fn encode(sets: &[Rinks]) -> Vec<u8> {
        sets.iter().flat_map(|set| set.0.to_le_bytes()).collect()
    }
}

/// As a plan's text writes it: `{3, 17}`.
impl fmt::Display for Rinks {
    fn fmt(&self, f: &mut fmt::Formatter<'_>) -> fmt::Result {
        let words: Vec<String> = self.iter().map(|rink| rink.to_string()).collect();
        write!(f, "{{{}}}", words.join(", "))
    }
}

#[cfg(test)]
mod tests {
    use super::*;

    #[test]
    fn bits_are_rinks() {
        assert_eq!(Rinks::from_bits(1 << 63 | 1), Rinks::of(&[0, 63]).unwrap());
        assert_eq!(Rinks::from_bits(u64::MAX).iter().collect::<Vec<u32>>(), (0..64).collect::<Vec<u32>>());
        assert_eq!(Rinks::encode(&[Rinks::of(&[8]).unwrap(), Rinks::NONE]), [0, 1, 0, 0, 0, 0, 0, 0, 0, 0, 0, 0, 0, 0, 0, 0]);
        assert_eq!((Rinks::NONE.to_string(), Rinks::NONE.is_empty()), ("{}".to_string(), true));
    }

    #[test]
    fn what_lies_outside_has_a_direction() {
        let (few, more) = (Rinks::of(&[3]).unwrap(), Rinks::of(&[3, 17]).unwrap());
        assert_eq!((few.outside(more), more.outside(few)), (Rinks::NONE, Rinks::of(&[17]).unwrap()));
        assert_eq!(few.union(Rinks::of(&[17]).unwrap()), more);
        assert!(more.contains(17) && !few.contains(17) && !few.contains(64 + 3));
    }
}
