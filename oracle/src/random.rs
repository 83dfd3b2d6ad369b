//! A small generator of random numbers: splitmix64, so a seed gives the same file everywhere.
//! Only exact or correctly rounded operations are used (no sine, no power), for the same reason.

pub struct Random(u64);

impl Random {
    pub fn new(seed: u64) -> Self {
        Self(seed)
    }

    pub fn bits(&mut self) -> u64 {
        self.0 = self.0.wrapping_add(0x9E37_79B9_7F4A_7C15);
        let mut mixed = self.0;
        mixed = (mixed ^ (mixed >> 30)).wrapping_mul(0xBF58_476D_1CE4_E5B9);
        mixed = (mixed ^ (mixed >> 27)).wrapping_mul(0x94D0_49BB_1331_11EB);
        mixed ^ (mixed >> 31)
    }

    /// A whole number below `bound`.
    pub fn below(&mut self, bound: usize) -> usize {
        ((u128::from(self.bits()) * bound as u128) >> 64) as usize
    }

    /// True about `percent` times in a hundred.
    pub fn chance(&mut self, percent: usize) -> bool {
        self.below(100) < percent
    }

    pub fn pick<T: Copy>(&mut self, choices: &[T]) -> T {
        choices[self.below(choices.len())]
    }

    /// From 0 to below 1, in steps of 2^-24.
    pub fn unit(&mut self) -> f32 {
        (self.bits() >> 40) as f32 / (1 << 24) as f32
    }

    pub fn between(&mut self, low: f32, high: f32) -> f32 {
        low + (high - low) * self.unit()
    }

    pub fn any_float(&mut self) -> f32 {
        f32::from_bits(self.bits() as u32)
    }

    /// A random number from 1 to below 2 times a power of two with an exponent in the range.
    pub fn scaled(&mut self, low_exponent: i32, high_exponent: i32) -> f32 {
        let span = (high_exponent - low_exponent + 1) as usize;
        let exponent = low_exponent + self.below(span) as i32;
        (f64::from(1.0 + self.unit()) * power_of_two(exponent)) as f32
    }

    pub fn signed(&mut self, magnitude: f32) -> f32 {
        if self.chance(50) {
            -magnitude
        } else {
            magnitude
        }
    }
}

/// Exact for every exponent of a normal f64.
fn power_of_two(exponent: i32) -> f64 {
    f64::from_bits(((exponent + 1023) as u64) << 52)
}
