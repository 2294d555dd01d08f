//! Draws: a small generator of random bits (splitmix64), and numbers in many styles.

/// EPSILON times 1,000,000, the limit that inversion holds a pivot against.
pub const LIMIT: f64 = f64::from_bits(0x3DEE_8480_0000_0000);

/// Numbers at the ends of what an f64 holds.
pub const SPECIAL: [u64; 30] = [
    0x7FF8_0000_0000_0000, // NaN
    0xFFF8_0000_0000_0001, // NaN, negative
    0x7FF0_0000_0000_0001, // NaN, signalling
    0xFFF7_FFFF_FFFF_FFFF, // NaN, negative and signalling
    0x7FFF_FFFF_FFFF_FFFF, // NaN, every bit
    0x7FF0_0000_0000_0000, // infinity
    0xFFF0_0000_0000_0000, // -infinity
    0x0000_0000_0000_0000, // 0
    0x8000_0000_0000_0000, // -0
    0x0000_0000_0000_0001, // least subnormal
    0x8000_0000_0000_0001,
    0x0000_0000_0000_0003,
    0x000F_FFFF_FFFF_FFFF, // greatest subnormal
    0x800F_FFFF_FFFF_FFFF,
    0x0010_0000_0000_0000, // least normal
    0x8010_0000_0000_0000,
    0x0010_0000_0000_0001,
    0x7FEF_FFFF_FFFF_FFFF, // greatest finite
    0xFFEF_FFFF_FFFF_FFFF,
    0x7FE0_0000_0000_0000, // 2^1023
    0x5FE0_0000_0000_0000, // 2^511: its square is 2^1022
    0x5FF0_0000_0000_0000, // 2^512: its square overflows
    0x1E60_0000_0000_0000, // 2^-537: its square is the least subnormal
    0x3FF0_0000_0000_0000, // 1
    0xBFF0_0000_0000_0000, // -1
    0x3CB0_0000_0000_0000, // EPSILON
    0x3DEE_8480_0000_0000, // the pivot's limit
    0x3DEE_847F_FFFF_FFFF, // just below it
    0x3DEE_8480_0000_0001, // just above it
    0x4340_0000_0000_0000, // 2^53
];

/// What kind of numbers a call holds.
#[derive(Clone, Copy)]
pub enum Style {
    /// Between -10 and 10.
    Ordinary,
    /// Whole numbers from -4 to 4.
    Whole,
    /// A few units in the last place from 1 or -1.
    NearOne,
    /// A power of two of any exponent, either sign.
    Power,
    /// Any 64 bits.
    Bits,
    /// From `SPECIAL`.
    Special,
    /// Ordinary ones, with a special one here and there.
    Sprinkled,
    /// Ordinary ones times a power of two, the same for the whole call.
    Scaled(i32),
    /// Each number in a style of its own.
    Mixed,
}

pub struct Draw {
    state: u64,
}

impl Draw {
    pub fn new(seed: u64, k: u64) -> Self {
        let mut draw = Draw { state: seed };
        draw.state = draw.next() ^ k;
        draw.state = draw.next();
        draw
    }

    pub fn next(&mut self) -> u64 {
        self.state = self.state.wrapping_add(0x9E37_79B9_7F4A_7C15);
        let mut z = self.state;
        z = (z ^ z >> 30).wrapping_mul(0xBF58_476D_1CE4_E5B9);
        z = (z ^ z >> 27).wrapping_mul(0x94D0_49BB_1331_11EB);
        z ^ z >> 31
    }

    /// 0 to limit - 1.
    pub fn below(&mut self, limit: usize) -> usize {
        (((self.next() >> 32) * limit as u64) >> 32) as usize
    }

    pub fn between(&mut self, low: i64, high: i64) -> i64 {
        low + self.below((high - low + 1) as usize) as i64
    }

    /// True once in `times`.
    pub fn once_in(&mut self, times: usize) -> bool {
        self.below(times) == 0
    }

    pub fn pick<'a, T>(&mut self, list: &'a [T]) -> &'a T {
        &list[self.below(list.len())]
    }

    pub fn weighted<'a, T>(&mut self, list: &'a [(T, u64)]) -> &'a T {
        let total: u64 = list.iter().map(|(_, weight)| weight).sum();
        let mut left = self.below(total as usize) as u64;
        for (choice, weight) in list {
            if left < *weight {
                return choice;
            }
            left -= weight;
        }
        &list[0].0
    }

    /// A size, 1 to 4.
    pub fn size(&mut self) -> usize {
        1 + self.below(4)
    }

    pub fn style(&mut self) -> Style {
        use Style::*;
        let scale = self.between(-1060, 1010) as i32;
        *self.weighted(&[
            (Ordinary, 28),
            (Whole, 15),
            (NearOne, 8),
            (Power, 9),
            (Bits, 7),
            (Special, 7),
            (Sprinkled, 11),
            (Scaled(scale), 5),
            (Mixed, 10),
        ])
    }

    /// At least 0 and below 1.
    pub fn unit(&mut self) -> f64 {
        (self.next() >> 11) as f64 * power(-53)
    }

    pub fn special(&mut self) -> f64 {
        f64::from_bits(*self.pick(&SPECIAL))
    }

    pub fn number(&mut self, style: Style) -> f64 {
        use Style::*;
        match style {
            Ordinary => self.unit() * 20.0 - 10.0,
            Whole => self.between(-4, 4) as f64,
            NearOne => {
                let bits = 0x3FF0_0000_0000_0000 + self.between(-6, 6);
                let sign = (self.next() & 1) << 63;
                f64::from_bits(bits as u64 | sign)
            }
            Power => {
                let x = power(self.between(-1074, 1023) as i32);
                if self.once_in(2) {
                    -x
                } else {
                    x
                }
            }
            Bits => f64::from_bits(self.next()),
            Special => self.special(),
            Sprinkled if self.once_in(8) => self.special(),
            Sprinkled => self.number(Ordinary),
            Scaled(scale) => times_power(self.number(Ordinary), scale),
            Mixed => {
                let mixed = [Ordinary, Whole, NearOne, Power, Bits, Special];
                let style = *self.pick(&mixed);
                self.number(style)
            }
        }
    }

    pub fn numbers(&mut self, style: Style, count: usize) -> Vec<f64> {
        (0..count).map(|_| self.number(style)).collect()
    }

    /// The pivot's limit, or a neighbour of it, either sign.
    pub fn near_limit(&mut self) -> f64 {
        let bits = LIMIT.to_bits() as i64 + *self.pick(&[0, 0, -1, -1, 1, 1, -2, 2]);
        let x = f64::from_bits(bits as u64);
        if self.once_in(2) {
            -x
        } else {
            x
        }
    }
}

/// 2 to the given exponent, -1074 to 1023.
pub fn power(exponent: i32) -> f64 {
    match exponent {
        -1022..=1023 => f64::from_bits(((exponent + 1023) as u64) << 52),
        _ => f64::from_bits(1 << (exponent + 1074)),
    }
}

/// x times 2 to the given exponent.
pub fn times_power(x: f64, exponent: i32) -> f64 {
    x * power(exponent / 2) * power(exponent - exponent / 2)
}
