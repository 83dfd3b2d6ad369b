//! The ray of the cast in gjk.rs.

use crate::math::{Real, Vector};

#[derive(Copy, Clone, Debug)]
pub struct Ray {
    pub origin: Vector,
    pub dir: Vector,
}

impl Ray {
    pub fn new(origin: Vector, dir: Vector) -> Self {
        Self { origin, dir }
    }
}

/// The time at which the ray meets the plane, none if parallel or behind.
pub fn ray_toi_with_halfspace(center: Vector, normal: Vector, ray: &Ray) -> Option<Real> {
    let dpos = center - ray.origin;
    let denom = normal.dot(ray.dir);
    if relative_eq!(denom, 0.0) {
        return None;
    }
    let t = normal.dot(dpos) / denom;
    (t >= 0.0).then_some(t)
}
