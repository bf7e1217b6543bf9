//! Whole numbers, floats, ends and lists, plain and extreme.

use crate::random::Random;
use crate::sheet::Ends;

#[derive(Clone, Copy, PartialEq)]
pub enum Scale {
    Small,
    Any,
}

/// Where the numbers of a range may lie.
#[derive(Clone, Copy)]
enum Zone {
    Anywhere,
    Above,
    Below,
    /// What Log takes as a base: inside (0,1), or above 1.
    Base,
}

/// What the ends and lists of one operand are like.
#[derive(Clone, Copy)]
pub struct Taste {
    scale: Scale,
    /// How many ends in a hundred are absent.
    gaps: usize,
    zone: Zone,
}

impl Taste {
    pub fn new(random: &mut Random) -> Taste {
        Taste {
            scale: random.pick(&[Scale::Small, Scale::Small, Scale::Small, Scale::Any]),
            gaps: random.pick(&[0, 0, 0, 15, 50]),
            zone: Zone::Anywhere,
        }
    }

    /// Above zero, all lowers present.
    pub fn above_zero(self) -> Taste {
        Taste {
            zone: Zone::Above,
            ..self
        }
    }

    pub fn base(self) -> Taste {
        Taste {
            zone: Zone::Base,
            ..self
        }
    }

    pub fn away_from_zero(self, random: &mut Random) -> Taste {
        Taste {
            zone: random.pick(&[Zone::Above, Zone::Below]),
            ..self
        }
    }

    /// Extreme numbers, all ends present.
    pub fn extreme() -> Taste {
        Taste {
            scale: Scale::Any,
            gaps: 0,
            zone: Zone::Anywhere,
        }
    }

    pub fn whole_ends(self, random: &mut Random) -> Ends<i64> {
        let mut ends = [whole(random, self.scale), whole(random, self.scale)];
        for end in &mut ends {
            *end = match self.zone {
                Zone::Anywhere => *end,
                Zone::Above => end.saturating_abs().max(1),
                Zone::Below => (-end.saturating_abs()).min(-1),
                Zone::Base => end.saturating_abs().max(2),
            };
        }
        if let Zone::Anywhere = self.zone {
            touch_zero(random, &mut ends, &[0], i64::saturating_neg);
        }
        ends.sort_unstable();
        self.with_gaps(random, ends)
    }

    pub fn float_ends(self, random: &mut Random) -> Ends<u64> {
        let mut ends = [float(random, self.scale), float(random, self.scale)];
        let fraction = random.percent(40);
        for end in &mut ends {
            let size = if *end == 0.0 { 1.5 } else { end.abs() };
            *end = match self.zone {
                Zone::Anywhere => *end,
                Zone::Above => size,
                Zone::Below => -size,
                Zone::Base if fraction => 1.0 / (size + 1.1),
                Zone::Base => (size + 1.25).min(f64::MAX),
            };
        }
        if let Zone::Anywhere = self.zone {
            touch_zero(random, &mut ends, &[0.0, -0.0], |end| -end);
        }
        if ends[0] > ends[1] {
            ends.swap(0, 1);
        }
        self.with_gaps(random, ends.map(f64::to_bits))
    }

    /// Where a condition on lowers is to hold, they are all present.
    fn with_gaps<T: Copy>(self, random: &mut Random, ends: [T; 2]) -> Ends<T> {
        let lower = matches!(self.zone, Zone::Anywhere | Zone::Below) && random.percent(self.gaps);
        let upper = !matches!(self.zone, Zone::Base) && random.percent(self.gaps);
        ((!lower).then_some(ends[0]), (!upper).then_some(ends[1]))
    }

    /// In one list of five a value's negative stands last, which Abs makes one of
    /// the two.
    pub fn whole_list(self, random: &mut Random) -> Vec<i64> {
        let length = random.pick(&[0, 1, 1, 2, 2, 3, 3, 4, 6]);
        let value = |random: &mut Random| match (self.zone, whole(random, self.scale)) {
            (Zone::Anywhere, value) => value,
            (_, value) => value.saturating_abs().max(1),
        };
        let mut list: Vec<i64> = (0..length).map(|_| value(random)).collect();
        if length > 0 && matches!(self.zone, Zone::Anywhere) && random.percent(20) {
            let twin = random.pick(&list);
            list.push(twin.saturating_neg());
        }
        list
    }
}

/// Now and then puts an end on zero, or the two on both sides of it.
fn touch_zero<T: Copy>(
    random: &mut Random,
    ends: &mut [T; 2],
    zeros: &[T],
    negate: impl Fn(T) -> T,
) {
    match random.below(12) {
        0 => ends[0] = random.pick(zeros),
        1 => ends[1] = random.pick(zeros),
        2 => ends[1] = negate(ends[0]),
        3 if random.percent(60) => *ends = [random.pick(zeros), random.pick(zeros)],
        _ => (),
    }
}

pub fn whole(random: &mut Random, scale: Scale) -> i64 {
    if scale == Scale::Small {
        return random.between(-12, 12);
    }
    let near = random.between(-3, 3);
    match random.below(10) {
        0..=2 => random.between(-12, 12),
        3 => random.between(-1000, 1000),
        4 => i64::MAX - near.abs(),
        5 => i64::MIN + near.abs(),
        6 => random.pick(&[1i64 << 62, -(1i64 << 62)]) + near,
        7 => random.pick(&[1i64 << 32, 1 << 31, -(1i64 << 31), 3037000500]) + near,
        _ => random.word() as i64 >> random.below(64),
    }
}

const PLAIN: &[f64] = &[
    0.0, -0.0, 0.5, -0.5, 1.0, -1.0, 2.0, 3.0, -0.6, 0.2, 0.1, 0.3, 7.0, -7.0, 10.0,
];

const STRANGE: &[f64] = &[
    5e-324,
    -5e-324,
    1e-310,
    -1e-310,
    f64::MIN_POSITIVE,
    1e308,
    -1e308,
    1.7e308,
    -1.7e308,
    f64::MAX,
    f64::MIN,
    1e154,
    -1e154,
    1e-160,
    9007199254740993.0,
    f64::EPSILON,
];

/// A finite float.
pub fn float(random: &mut Random, scale: Scale) -> f64 {
    if scale == Scale::Small || random.percent(20) {
        return match random.below(3) {
            0 => random.between(-80, 80) as f64 / 8.0,
            1 => random.between(-999, 999) as f64 / 100.0,
            _ => random.pick(PLAIN),
        };
    }
    if random.percent(50) {
        return random.pick(STRANGE);
    }
    let float = f64::from_bits(random.word());
    if float.is_finite() {
        float
    } else {
        0.75
    }
}

/// The bits of any float at all: what samples and float categories may be.
pub fn odd_float(random: &mut Random) -> u64 {
    match random.below(8) {
        0 => 0x7ff8_0000_0000_0000,
        1 => 0x7ff0_0000_0000_0000 | (random.word() >> 13 | 1),
        2 => 0xfff8_0000_0000_0001,
        3 => random.pick(&[f64::INFINITY, f64::NEG_INFINITY]).to_bits(),
        4 => random.pick(&[0.0f64, -0.0, 1.0, 0.5]).to_bits(),
        5 => random.word(),
        _ => float(random, Scale::Any).to_bits(),
    }
}

pub fn float_list(random: &mut Random) -> Vec<u64> {
    let length = random.below(4);
    let plain = random.percent(60);
    (0..length)
        .map(|_| match plain {
            true => float(random, Scale::Small).to_bits(),
            false => odd_float(random),
        })
        .collect()
}

pub fn bool_list(random: &mut Random) -> Vec<bool> {
    let length = random.below(4);
    (0..length).map(|_| random.percent(50)).collect()
}
