//! Families of numbers and points.

use crate::random::Random;
use glamx::{Pose3, Rot3, Vec3};

#[derive(Copy, Clone, Debug, PartialEq)]
pub enum Family {
    /// From -4 to 4.
    Ordinary,
    /// Halves from -2 to 2, some at right angles: ties everywhere.
    Grid,
    /// Each number with a scale of its own, 2^-60 to 2^60.
    Mixed,
    /// Zeros of both signs, subnormals, limits, infinities and NaNs, alone or among ordinary numbers.
    Limits,
    /// Any bits.
    Bits,
    /// Ordinary, scaled to where tolerances tell or to the format's end.
    Tiny,
    /// Ordinary, scaled to where squares overflow or to the format's end.
    Huge,
    /// Equal, collinear and coplanar points, some a little off.
    Degenerate,
    /// Simplices of the grid, far off along the normal of a face: the weights cancel there.
    Far,
}

impl Family {
    pub fn name(self) -> &'static str {
        match self {
            Family::Ordinary => "ordinary",
            Family::Grid => "grid",
            Family::Mixed => "mixed",
            Family::Limits => "limits",
            Family::Bits => "bits",
            Family::Tiny => "tiny",
            Family::Huge => "huge",
            Family::Degenerate => "degenerate",
            Family::Far => "far",
        }
    }
}

pub const FAMILIES: [Family; 9] = [
    Family::Ordinary,
    Family::Grid,
    Family::Mixed,
    Family::Limits,
    Family::Bits,
    Family::Tiny,
    Family::Huge,
    Family::Degenerate,
    Family::Far,
];

const SPECIAL: [u32; 20] = [
    0x0000_0000, // zeros
    0x8000_0000,
    0x0000_0001, // subnormals
    0x8000_0001,
    0x007F_FFFF,
    0x0080_0000, // smallest normal
    0x8080_0000,
    0x1FFF_FFFF, // squares at the lower end
    0x2000_0000,
    0x3F7F_FFFF, // about one
    0x3F80_0000,
    0xBF80_0000,
    0x5F7F_FFFF, // squares at the upper end
    0x5F80_0000,
    0x7F7F_FFFF, // limits
    0xFF7F_FFFF,
    0x7F80_0000, // infinities
    0xFF80_0000,
    0x7FC0_0000, // NaNs of both signs
    0xFFC0_0000,
];

/// Numbers of one family. A scale is drawn once, so that the numbers of one call go together.
pub struct Numbers<'a> {
    pub random: &'a mut Random,
    pub family: Family,
    scale: i32,
    special_percent: usize,
}

impl<'a> Numbers<'a> {
    pub fn new(random: &'a mut Random, family: Family) -> Self {
        let near = random.chance(50);
        let scale = match (family, near) {
            (Family::Tiny, true) => exponent(random, -26, -6),
            (Family::Tiny, false) => exponent(random, -149, -27),
            (Family::Huge, true) => exponent(random, 28, 64),
            (Family::Huge, false) => exponent(random, 65, 126),
            _ => 0,
        };
        Self {
            random,
            family,
            scale,
            special_percent: if near { 100 } else { 30 },
        }
    }

    pub fn number(&mut self) -> f32 {
        let random = &mut *self.random;
        match self.family {
            Family::Ordinary | Family::Tiny | Family::Huge => scaled(ordinary(random), self.scale),
            Family::Grid | Family::Degenerate | Family::Far => random.below(9) as f32 / 2.0 - 2.0,
            Family::Mixed => {
                let exponent = exponent(random, -60, 60);
                scaled(ordinary(random), exponent)
            }
            Family::Limits if random.chance(self.special_percent) => {
                f32::from_bits(random.pick(&SPECIAL))
            }
            Family::Limits => ordinary(random),
            Family::Bits => f32::from_bits(random.bits() as u32),
        }
    }

    pub fn vector(&mut self) -> Vec3 {
        Vec3::new(self.number(), self.number(), self.number())
    }

    /// Four points.
    pub fn points(&mut self) -> [Vec3; 4] {
        let points = [self.vector(), self.vector(), self.vector(), self.vector()];
        match self.family {
            Family::Degenerate => self.degenerate(points),
            Family::Far => self.far(points),
            Family::Grid if self.random.chance(20) => self.corner(points),
            _ => points,
        }
    }

    /// On a point, a line or a plane, or just off it.
    fn degenerate(&mut self, mut p: [Vec3; 4]) -> [Vec3; 4] {
        match self.random.below(5) {
            0 => p[1] = p[0],
            1 => p[2] = self.on_line(p[0], p[1]),
            2 => p[3] = self.on_line(p[0], p[1]) + (p[2] - p[0]) * 0.5,
            3 => {
                p[2] = self.on_line(p[0], p[1]);
                p[3] = self.on_line(p[0], p[1]);
            }
            _ => p[3] = p[self.random.below(3)],
        }
        if self.random.chance(50) {
            let moved = self.random.below(4);
            p[moved] += self.little();
        }
        p
    }

    /// The first three at right angles along two axes, one apart.
    fn corner(&mut self, mut p: [Vec3; 4]) -> [Vec3; 4] {
        const AXES: [Vec3; 3] = [Vec3::X, Vec3::Y, Vec3::Z];
        let first = self.random.below(3);
        p[1] = p[0] + AXES[first];
        p[2] = p[0] + AXES[(first + 1) % 3];
        p
    }

    /// A step whose squared length, or whose length, is `eps_tol`: 5 * 2^-22.
    pub fn at_tolerance(&mut self) -> Vec3 {
        let (squared, plain) = (scaled(1.0, -11), scaled(5.0, -22));
        let [x, y, z] = self
            .random
            .pick(&[[0.0, squared, 2.0 * squared], [0.0, 0.0, plain]]);
        self.random
            .pick(&[Vec3::new(x, y, z), Vec3::new(y, z, x), Vec3::new(z, x, y)])
    }

    /// Moved along the normal of a face.
    fn far(&mut self, p: [Vec3; 4]) -> [Vec3; 4] {
        let face = self
            .random
            .pick(&[[0, 1, 2], [0, 1, 3], [0, 2, 3], [1, 2, 3]]);
        let [a, b, c] = face.map(|i: usize| p[i]);
        let exponent = exponent(self.random, 0, 30);
        let along = (b - a).cross(c - a) * scaled(1.0, exponent);
        p.map(|corner| corner + along)
    }

    /// A point of the line through two, in steps of a third.
    fn on_line(&mut self, a: Vec3, b: Vec3) -> Vec3 {
        let along = self.random.below(10) as f32 / 3.0 - 1.0;
        a + (b - a) * along
    }

    /// About as long as the tolerances.
    fn little(&mut self) -> Vec3 {
        let exponent = exponent(self.random, -24, -6);
        let mut part = || scaled(ordinary(self.random), exponent);
        Vec3::new(part(), part(), part())
    }

    pub fn pose(&mut self) -> Pose3 {
        let rotation = Rot3::from_xyzw(self.number(), self.number(), self.number(), self.number());
        Pose3::from_parts(self.vector(), rotation)
    }
}

/// From -4 to below 4.
fn ordinary(random: &mut Random) -> f32 {
    random.between(-4.0, 4.0)
}

/// From `low` to `high`, both included.
fn exponent(random: &mut Random, low: i32, high: i32) -> i32 {
    low + random.below((high - low + 1) as usize) as i32
}

/// `x * 2^exponent`, rounded once.
fn scaled(x: f32, exponent: i32) -> f32 {
    let power = f64::from_bits(((exponent + 1023) as u64) << 52);
    (f64::from(x) * power) as f32
}
