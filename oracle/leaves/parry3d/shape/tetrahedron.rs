//! A tetrahedron by its corners.

use crate::math::{Real, Vector};

#[derive(Copy, Clone, Debug)]
pub struct Tetrahedron {
    pub a: Vector,
    pub b: Vector,
    pub c: Vector,
    pub d: Vector,
}

impl Tetrahedron {
    #[inline]
    pub fn new(a: Vector, b: Vector, c: Vector, d: Vector) -> Self {
        Self { a, b, c, d }
    }
}

#[derive(Copy, Clone, Debug)]
pub enum TetrahedronPointLocation {
    OnVertex(u32),
    OnEdge(u32, [Real; 2]),
    OnFace(u32, [Real; 3]),
    OnSolid,
}
