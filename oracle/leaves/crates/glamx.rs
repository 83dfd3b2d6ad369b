//! Our own stand-in for the vector library that the published text imports.
//!
//! Every operation is the scalar form: one rounding each, in the order written, nothing fused.
//! Types that the published text only names (matrices, 2D forms) are empty here.

use core::ops::{Add, AddAssign, Div, Index, IndexMut, Mul, Neg, Sub};

/// Three numbers.
#[derive(Copy, Clone, Debug, Default, PartialEq)]
#[repr(C)]
pub struct Vec3 {
    pub x: f32,
    pub y: f32,
    pub z: f32,
}

impl Vec3 {
    pub const ZERO: Self = Self::new(0.0, 0.0, 0.0);
    pub const X: Self = Self::new(1.0, 0.0, 0.0);
    pub const Y: Self = Self::new(0.0, 1.0, 0.0);
    pub const Z: Self = Self::new(0.0, 0.0, 1.0);

    #[inline]
    pub const fn new(x: f32, y: f32, z: f32) -> Self {
        Self { x, y, z }
    }

    #[inline]
    pub fn dot(self, rhs: Self) -> f32 {
        (self.x * rhs.x + self.y * rhs.y) + self.z * rhs.z
    }

    #[inline]
    pub fn cross(self, rhs: Self) -> Self {
        Self::new(
            self.y * rhs.z - rhs.y * self.z,
            self.z * rhs.x - rhs.z * self.x,
            self.x * rhs.y - rhs.x * self.y,
        )
    }

    #[inline]
    pub fn length_squared(self) -> f32 {
        self.dot(self)
    }

    #[inline]
    pub fn length(self) -> f32 {
        self.length_squared().sqrt()
    }

    #[inline]
    pub fn length_recip(self) -> f32 {
        1.0 / self.length()
    }

    /// No test: a zero vector gives NaN.
    #[inline]
    pub fn normalize(self) -> Self {
        self * self.length_recip()
    }

    #[inline]
    pub fn try_normalize(self) -> Option<Self> {
        let recip = self.length_recip();
        (recip.is_finite() && recip > 0.0).then(|| self * recip)
    }

    #[inline]
    pub fn normalize_or(self, fallback: Self) -> Self {
        self.try_normalize().unwrap_or(fallback)
    }

    #[inline]
    pub fn normalize_or_zero(self) -> Self {
        self.normalize_or(Self::ZERO)
    }

    #[inline]
    pub fn normalize_and_length(self) -> (Self, f32) {
        let length = self.length();
        let recip = 1.0 / length;
        if recip.is_finite() && recip > 0.0 {
            (self * recip, length)
        } else {
            (Self::X, 0.0)
        }
    }

    #[inline]
    pub fn abs(self) -> Self {
        Self::new(self.x.abs(), self.y.abs(), self.z.abs())
    }

    /// Named by `Capsule::center`, which no case reaches.
    pub fn midpoint(self, _: Self) -> Self {
        unimplemented!("left out of the build")
    }

    pub fn as_ivec3(self) -> IVec3 {
        IVec3 {
            x: self.x as i32,
            y: self.y as i32,
            z: self.z as i32,
        }
    }
}

impl Neg for Vec3 {
    type Output = Self;
    #[inline]
    fn neg(self) -> Self {
        Self::new(-self.x, -self.y, -self.z)
    }
}

impl Add for Vec3 {
    type Output = Self;
    #[inline]
    fn add(self, rhs: Self) -> Self {
        Self::new(self.x + rhs.x, self.y + rhs.y, self.z + rhs.z)
    }
}

impl AddAssign for Vec3 {
    #[inline]
    fn add_assign(&mut self, rhs: Self) {
        *self = *self + rhs;
    }
}

impl Sub for Vec3 {
    type Output = Self;
    #[inline]
    fn sub(self, rhs: Self) -> Self {
        Self::new(self.x - rhs.x, self.y - rhs.y, self.z - rhs.z)
    }
}

impl Mul<f32> for Vec3 {
    type Output = Self;
    #[inline]
    fn mul(self, rhs: f32) -> Self {
        Self::new(self.x * rhs, self.y * rhs, self.z * rhs)
    }
}

impl Mul for Vec3 {
    type Output = Self;
    #[inline]
    fn mul(self, rhs: Self) -> Self {
        Self::new(self.x * rhs.x, self.y * rhs.y, self.z * rhs.z)
    }
}

impl Div<f32> for Vec3 {
    type Output = Self;
    #[inline]
    fn div(self, rhs: f32) -> Self {
        Self::new(self.x / rhs, self.y / rhs, self.z / rhs)
    }
}

impl Index<usize> for Vec3 {
    type Output = f32;
    #[inline]
    fn index(&self, index: usize) -> &f32 {
        match index {
            0 => &self.x,
            1 => &self.y,
            2 => &self.z,
            _ => panic!("index out of bounds"),
        }
    }
}

impl IndexMut<usize> for Vec3 {
    #[inline]
    fn index_mut(&mut self, index: usize) -> &mut f32 {
        match index {
            0 => &mut self.x,
            1 => &mut self.y,
            2 => &mut self.z,
            _ => panic!("index out of bounds"),
        }
    }
}

/// A rotation quaternion. Nothing makes it of unit length.
#[derive(Copy, Clone, Debug, PartialEq)]
#[repr(C)]
pub struct Rot3 {
    pub x: f32,
    pub y: f32,
    pub z: f32,
    pub w: f32,
}

impl Rot3 {
    pub const IDENTITY: Self = Self::from_xyzw(0.0, 0.0, 0.0, 1.0);

    #[inline]
    pub const fn from_xyzw(x: f32, y: f32, z: f32, w: f32) -> Self {
        Self { x, y, z, w }
    }

    #[inline]
    pub fn inverse(self) -> Self {
        Self::from_xyzw(-self.x, -self.y, -self.z, self.w)
    }

    /// Named by `Capsule::rotation_wrt_y`, which no case reaches.
    pub fn from_rotation_arc(_: Vec3, _: Vec3) -> Self {
        unimplemented!("left out of the build")
    }
}

impl Mul<Vec3> for Rot3 {
    type Output = Vec3;
    #[inline]
    fn mul(self, v: Vec3) -> Vec3 {
        let b = Vec3::new(self.x, self.y, self.z);
        let along_v = v * (self.w * self.w - b.dot(b));
        let along_b = b * (v.dot(b) * 2.0);
        (along_v + along_b) + b.cross(v) * (self.w * 2.0)
    }
}

/// A rotation, then a translation.
#[derive(Copy, Clone, Debug, PartialEq)]
#[repr(C)]
pub struct Pose3 {
    pub rotation: Rot3,
    pub translation: Vec3,
}

impl Pose3 {
    pub const IDENTITY: Self = Self {
        rotation: Rot3::IDENTITY,
        translation: Vec3::ZERO,
    };

    #[inline]
    pub const fn from_parts(translation: Vec3, rotation: Rot3) -> Self {
        Self {
            rotation,
            translation,
        }
    }

    /// Named by both `project_origin`, which no case reaches.
    pub fn inverse(&self) -> Self {
        unimplemented!("left out of the build")
    }
}

impl Mul<Vec3> for Pose3 {
    type Output = Vec3;
    #[inline]
    fn mul(self, point: Vec3) -> Vec3 {
        self.rotation * point + self.translation
    }
}

impl Mul<Vec3> for &Pose3 {
    type Output = Vec3;
    #[inline]
    fn mul(self, point: Vec3) -> Vec3 {
        *self * point
    }
}

/// Three whole numbers, for the conversions of math/mod.rs.
#[derive(Copy, Clone)]
pub struct IVec3 {
    pub x: i32,
    pub y: i32,
    pub z: i32,
}

impl IVec3 {
    pub fn as_vec3(self) -> Vec3 {
        Vec3::new(self.x as f32, self.y as f32, self.z as f32)
    }
}

/// Names that math/mod.rs re-exports and nothing here uses.
pub trait MatExt {}
pub struct Mat2;
pub struct Mat3;
pub struct Vec2;
pub struct Vec3A;
pub struct Vec4;
pub struct Pose2;
pub struct Rot2;
pub struct SymmetricEigen2;
pub struct SymmetricEigen3;
